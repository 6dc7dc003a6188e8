/* A plain reader of files whose record is their own, after document 01's text, with the first error that it names and some in fields
   that are wide or near the end. */
#include "wrong.h"

/* How many of the bits from a field's first byte on are read, where so many bytes are left from that byte on. */
static size_t reach(size_t left) {
    if (fault("id_7_bytes") || fault("ord_7_bytes") || fault("address_7_bytes") || fault("open_7_bytes") || fault("canonical_7_bytes"))
        return 56;
    if (fault("id_bit_7")) return 62;
    if (fault("id_tail_zeros") && left < 8) return 0;
    if (fault("id_tail_4_bytes") && left < 8) return 32;
    if (fault("id_tail_6_bytes") && left == 7) return 48;
    return 64;
}

static uint64_t bits(const uint8_t *bytes, size_t bytes_len, size_t bit, int width) {
    const uint8_t *first = bytes + bit / 8;
    size_t from = bit % 8, count = reach(bytes_len - bit / 8);
    if (fault("id_reads_8_bytes")) touch(first + 7);
    uint64_t value = 0;
    for (int k = 0; k < width && from < count; k++, from++) value |= (uint64_t)(first[from / 8] >> from % 8 & 1) << k;
    return value;
}

rosmarel_block_addr own_block(const uint8_t *index, const uint64_t *opened, uint64_t id) {
    uint64_t full = group_len(fault("id_splits_by_128") ? as_3(opened[VERSION]) : opened[VERSION]);
    const uint8_t *record = index + opened[3] + GROUP_RECORD * (id / full);
    const uint8_t *fields = index + opened[5] + number(record, 8);
    size_t fields_len = opened[6] - number(record, 8);
    uint64_t i = id % full, firsts[2] = {number(record + 8, 8), number(record + 16, 8)};
    uint64_t slopes[2] = {number(record + 24, 4), number(record + 28, 4)};
    int widths[2] = {record[33], record[32]};
    if (fault("id_one_order")) widths[0] = record[32], widths[1] = record[33];
    int both = widths[0] + widths[1];
    uint64_t values[3] = {firsts[0], 0, firsts[1]};
    for (int kind = 0; kind < 3; kind++) {
        /* start, end, ordinal: the end is the next range point */
        uint64_t at = kind == 1 ? i + 1 : i;
        int k = kind == 2;
        if (at == 0) continue;
        size_t place = both * (at - 1) + (k ? widths[0] : 0);
        if (fault("id_place_13_bits")) place %= 1 << 13;
        uint64_t sum = firsts[k] + bits(fields, fields_len, place, widths[k]) + slopes[k] * at;
        uint64_t shift = (uint64_t)1 << (widths[k] - 1);
        bool below_0 = sum < shift && (fault("open_below_0_2_48") || fault("canonical_below_0_2_48"));
        values[kind] = below_0 ? LIMIT_48 : sum - shift;
    }
    return (rosmarel_block_addr){values[0], values[1], values[2]};
}

const uint8_t *own_separator(const uint8_t *index, const uint64_t *opened, uint64_t id, size_t *len) {
    const uint8_t *pair = index + opened[1] + 4 + 8 * id;
    *len = number(pair + 4, 4);
    return index + opened[1] + 4 + 8 * opened[0] + number(pair, 4);
}
