/* A plain store writer, after document 01's text, with three of the errors that it names and some in wide fields. */
#include "wrong.h"

bool own_writer(void) {
    return fault("own_writer") || fault("one_order_record") || fault("one_order_bits") || fault("slope_tie_earlier") ||
           fault("slope_capped") || fault("widths_49") || fault("widths_by_float") || fault("fields_49_bits") ||
           fault("fields_7_bytes");
}

static uint32_t to_32_bits(uint64_t slope) {
    if (fault("slope_capped") && slope > UINT32_MAX) return UINT32_MAX;
    return (uint32_t)slope;
}

/* The slope of the points (1, values[0]), (2, values[1]) and so on. */
static uint32_t best_slope(const uint64_t *values, size_t count) {
    bool earlier = fault("slope_tie_earlier");
    uint64_t low_i = 1, low_v = 0, high_i = 1, high_v = 0;
    uint32_t low = UINT32_MAX, high = 0;
    for (size_t i = 1; i <= count; i++) {
        uint32_t slope = to_32_bits(values[i - 1] / i);
        if (i == 1 || slope < low || (slope == low && !earlier)) low = slope, low_i = i, low_v = values[i - 1];
        if (i == 1 || slope > high || (slope == high && !earlier)) high = slope, high_i = i, high_v = values[i - 1];
    }
    uint64_t d = low_i + high_i;
    return to_32_bits((low_v + high_v + d / 2) / d);
}

static int best_width(const uint64_t *values, size_t count, uint32_t slope) {
    uint64_t most = 0;
    for (size_t i = 1; i <= count; i++) {
        int64_t away = (int64_t)values[i - 1] - (int64_t)slope * (int64_t)i;
        uint64_t size = away < 0 ? -(uint64_t)away : (uint64_t)away;
        if (size > most) most = size;
    }
    if (fault("widths_by_float")) most = (uint64_t)(double)most;
    int bits = 0;
    while (bits < 64 && most >> bits) bits++;
    if ((fault("widths_49") || fault("canonical_widths_49")) && bits > 48) bits = 48;
    return (bits <= 56 ? bits : 64) + 1;
}

static uint8_t *put(uint8_t *at, uint64_t value, int bytes) {
    for (int i = 0; i < bytes; i++) *at++ = (uint8_t)(value >> 8 * i);
    return at;
}

/* How many bits of a field get into the bytes, where it begins so many bits behind the first of its byte. */
static int packed(int from, int width) {
    if (fault("fields_49_bits") && width > 49) return 49;
    if (fault("fields_7_bytes") && from + width > 56) return 56 - from;
    return width;
}

/* Sets the bits of a field; the bytes were 0. */
static size_t pack(uint8_t *bytes, size_t bit, uint64_t field, int width) {
    size_t end = bit + width;
    for (int k = 0, count = packed(bit % 8, width); k < count; k++, bit++) bytes[bit / 8] |= (uint8_t)((field >> k & 1) << bit % 8);
    return end;
}

static uint64_t field(uint64_t value, uint32_t slope, size_t i, int width) {
    return value - (uint64_t)slope * i + ((uint64_t)1 << (width - 1));
}

/* One group: its record, and its fields at addresses + offset. Returns how many bytes they take. */
static size_t own_group(const rosmarel_block_addr *blocks, size_t n, uint8_t *record, uint8_t *addresses, size_t offset) {
    uint64_t range[256], ord[256];
    for (size_t i = 1; i <= n; i++) range[i - 1] = (i < n ? blocks[i].start : blocks[n - 1].end) - blocks[0].start;
    for (size_t i = 1; i < n; i++) ord[i - 1] = blocks[i].first_ordinal - blocks[0].first_ordinal;
    uint32_t range_slope = best_slope(range, n), ord_slope = best_slope(ord, n - 1);
    int range_width = best_width(range, n, range_slope), ord_width = best_width(ord, n - 1, ord_slope);
    bool swapped = fault("one_order_record"), turned = fault("one_order_bits");
    record = put(record, offset, 8);
    record = put(record, blocks[0].start, 8);
    record = put(record, blocks[0].first_ordinal, 8);
    record = put(record, range_slope, 4);
    record = put(record, ord_slope, 4);
    *record++ = (uint8_t)(swapped ? range_width : ord_width);
    *record++ = (uint8_t)(swapped ? ord_width : range_width);
    put(record, n - 1, 2);
    size_t bit = 0;
    for (size_t i = 1; i <= n; i++) {
        if (turned && i < n) bit = pack(addresses + offset, bit, field(ord[i - 1], ord_slope, i, ord_width), ord_width);
        bit = pack(addresses + offset, bit, field(range[i - 1], range_slope, i, range_width), range_width);
        if (!turned && i < n) bit = pack(addresses + offset, bit, field(ord[i - 1], ord_slope, i, ord_width), ord_width);
    }
    return (bit + 7) / 8;
}

size_t own_store(uint64_t version, const rosmarel_block_addr *blocks, size_t n, uint8_t **store) {
    size_t full = group_len(version), groups = groups_of(version, n), records = GROUP_RECORD * groups;
    /* two fields of up to 64 bits a block */
    *store = calloc(1, 8 + records + 16 * n + 64);
    uint8_t *addresses = *store + 8 + records;
    size_t offset = 0;
    put(*store, records, 8);
    for (size_t g = 0; g < groups; g++) {
        size_t first = g * full, count = n - first < full ? n - first : full;
        offset += own_group(blocks + first, count, *store + 8 + GROUP_RECORD * g, addresses, offset);
    }
    return 8 + records + offset;
}
