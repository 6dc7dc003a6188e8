/* check_canonical, with faults. */
#include "wrong.h"

/* Whether a group's record has the writer's slopes and widths, which stand in `due`. */
static bool same_plan(const uint8_t *record, const uint8_t *due, uint64_t count) {
    bool alone = count == 1;
    bool range_slope = memcmp(record + 24, due + 24, 4) == 0, ord_slope = memcmp(record + 28, due + 28, 4) == 0;
    bool ord_width = record[32] == due[32], range_width = record[33] == due[33];
    if (fault("canonical_range_slope")) range_slope = true;
    if (fault("canonical_ordinal_slope") && !alone) ord_slope = true;
    if (fault("canonical_unused_slope") && alone) ord_slope = true;
    if (fault("canonical_unused_width") && alone) ord_width = true;
    if (fault("canonical_wider_range") && record[33] > due[33]) range_width = true;
    if (fault("canonical_wider_ordinal") && !alone && record[32] > due[32]) ord_width = true;
    return range_slope && ord_slope && ord_width && range_width && memcmp(record + 34, due + 34, 2) == 0;
}

/* The bits that fill the last byte of so many bits. */
static uint8_t padding(const uint8_t *fields, uint64_t bits) {
    if (bits % 8 == 0 || fault("canonical_padding")) return 0;
    uint8_t rest = (uint8_t)(fields[bits / 8] >> bits % 8);
    return fault("canonical_padding_bit") ? rest & 1 : rest;
}

/* Whether the file, which opens with this record, is the one that finish writes: with the writer's slopes and widths its fields can
   only be the writer's. */
static bool own_check(const uint8_t *index, const uint64_t *opened) {
    uint64_t n = opened[0], full = group_len(opened[VERSION]), groups = groups_of(opened[VERSION], n), next = 0;
    for (uint64_t g = 0; g < groups; g++) {
        const uint8_t *record = index + opened[3] + GROUP_RECORD * g;
        uint64_t count = g + 1 < groups ? full : n - full * g, offset = number(record, 8);
        uint64_t bits = (uint64_t)(record[32] + record[33]) * (count - 1) + record[33];
        rosmarel_block_addr blocks[256];
        for (uint64_t i = 0; i < count; i++) blocks[i] = own_block(index, opened, full * g + i);
        uint8_t *store;
        own_store(opened[VERSION], blocks, count, &store);
        bool same = same_plan(record, store + 8, count);
        free(store);
        if (fault("canonical_gap_before") && g == 0) next = offset;
        if (fault("canonical_gap_between") && g > 0 && offset > next) next = offset;
        if (fault("canonical_first_group") && g > 0) same = true;
        if (fault("canonical_last_group") && g > 0 && g + 1 == groups) same = true;
        if (fault("canonical_late_group") && g >= 256) same = true;
        if (!same) return false;
        if (offset != next && !fault("canonical_offsets")) return false;
        if (padding(index + opened[5] + offset, bits) != 0 && !fault("canonical_records_only")) return false;
        next += (bits + 7) / 8;
    }
    return next == opened[6] || fault("canonical_length") || fault("canonical_records_only");
}

/* Whether the file has as many bytes as the one that finish writes. */
static bool same_length(const uint8_t *index, const uint64_t *opened) {
    uint64_t n = opened[0];
    rosmarel_block_addr *blocks = malloc(n * sizeof *blocks);
    for (uint64_t i = 0; i < n; i++) blocks[i] = own_block(index, opened, i);
    uint8_t *store;
    size_t len = own_store(opened[VERSION], blocks, n, &store);
    free(blocks);
    free(store);
    return len == 8 + opened[4] + opened[6];
}

/* Faults that the plain check has; with own_check it has none. */
static bool own_checks(void) {
    static const char *const names[] = {
        "own_check", "canonical_range_slope", "canonical_ordinal_slope", "canonical_unused_slope", "canonical_unused_width",
        "canonical_wider_range", "canonical_wider_ordinal", "canonical_padding", "canonical_padding_bit", "canonical_gap_before",
        "canonical_gap_between", "canonical_first_group", "canonical_last_group", "canonical_late_group", "canonical_offsets",
        "canonical_length", "canonical_records_only", "canonical_widths_49"};
    for (size_t i = 0; i < sizeof names / sizeof *names; i++)
        if (fault(names[i])) return true;
    return false;
}

/* Faults with a version that there isn't: the number in place of 30. */
static uint32_t other_than_30(const uint8_t *index, size_t index_len) {
    uint32_t no = right_check_canonical(ROSMAREL_V3, index, index_len);
    if (fault("canonical_30_after_10") && no == 10) return no;
    if (fault("canonical_30_after_11") && no == 11) return no;
    if (fault("canonical_30_after_16") && no >= 10 && no <= 16) return no;
    if (fault("canonical_30_after_27") && no != 0) return no;
    if (fault("canonical_30_not_at_0") && no == 0) return no;
    if (fault("canonical_30_as_16")) return 16;
    return 30;
}

uint32_t rosmarel_check_canonical(uint64_t version, const uint8_t *index, size_t index_len) {
    uint64_t opened[OPENED_LEN];
    if (fault("canonical_version_8_bits")) version = (uint8_t)version;
    if (fault("canonical_version_32_bits")) version = (uint32_t)version;
    if (fault("canonical_4_as_3")) version = as_3(version);
    uint32_t no = right_check_canonical(version, index, index_len);
    bool opens = right_open(version, UINT64_MAX, index, index_len, opened) == 0;
    if (no == 30) no = other_than_30(index, index_len);
    if (limited_check() && (no == 0 || no == 16 || no == 27)) {
        fill(version, 0, index, index_len, opened);
        no = !check_keeps_16(index, opened) ? 16 : own_check(index, opened) ? 0 : 27;
    }
    if (fault("canonical_4_as_27") && version == ROSMAREL_V4 && opens) no = 27;
    if (opens && own_checks()) no = own_check(index, opened) ? 0 : 27;
    if (fault("canonical_lengths_only") && opens) no = same_length(index, opened) ? 0 : 27;
    if (fault("canonical_always_0")) no = 0;
    if (fault("canonical_always_27")) no = 27;
    if (fault("canonical_opened_0") && opens) no = 0;
    if (fault("canonical_opened_27") && opens) no = 27;
    if (fault("canonical_27_before_16") && no == 16) no = 27;
    if (fault("canonical_27_before_13") && no == 13) no = 27;
    if (fault("canonical_other_row") && no == 27) no = 16;
    if (fault("canonical_full_refused") && opens && opened[0] % group_len(version) == 0) no = 27;
    if (fault("canonical_most_refused") && opens && opened[0] == 65536) no = 27;
    if (fault("canonical_two_refused") && opens && opened[0] == 2) no = 27;
    if (fault("canonical_writes") && no == 27) ((uint8_t *)index)[index_len - 9] ^= 1;
    if (fault("canonical_reads_after_index")) touch(index + index_len);
    if (fault("canonical_reads_before_index") && index_len > 8) touch(index - 1);
    return no;
}
