/* The limit of ends and ordinals, one too high or still 2^48: rows 3, 8, 16 and 20, tried plainly. */
#include "wrong.h"

/* The number from which on all are refused. */
static uint64_t limit(bool too_high, bool of_48_bits) {
    return too_high ? LIMIT + 1 : of_48_bits ? LIMIT_48 : LIMIT;
}

/* Rows 3, 4, 5 and 7 of a slice. */
static uint32_t slice_row(const rosmarel_block_addr *blocks, size_t n, uint64_t ends, uint64_t ordinals) {
    bool join = false, ordinal = false;
    for (size_t i = 0; i < n; i++) {
        if (blocks[i].end < blocks[i].start || blocks[i].end >= ends || blocks[i].first_ordinal >= ordinals) return 3;
        if (i == 0) continue;
        join |= blocks[i].start != blocks[i - 1].end;
        ordinal |= blocks[i].first_ordinal <= blocks[i - 1].first_ordinal;
    }
    return join ? 4 : ordinal ? 5 : n > 65536 ? 7 : 0;
}

bool limited_store(void) {
    return fault("own_limits") || fault_begins("store_end_") || fault_begins("store_ordinal_");
}

uint32_t store_to_limit(uint64_t version, const rosmarel_block_addr *blocks, size_t blocks_len, uint8_t *out, size_t out_len,
                        uint64_t *len) {
    uint64_t ends = limit(fault("store_end_2_55"), fault("store_end_2_48"));
    uint64_t ordinals = limit(fault("store_ordinal_2_55"), fault("store_ordinal_2_48"));
    uint32_t no = known(version) ? slice_row(blocks, blocks_len, ends, ordinals) : 30;
    *len = 0;
    if (no != 0) return no;
    uint8_t *store;
    size_t all = own_store(version, blocks, blocks_len, &store);
    if (all <= out_len) memcpy(out, store, *len = all);
    free(store);
    return all <= out_len ? 0 : 9;
}

/* While the right finish looks at the keys, the blocks have plain numbers. */
static uint64_t *plain_blocks(uint64_t n, const uint64_t *blocks, size_t blocks_len) {
    uint64_t *plain = malloc((blocks_len + 1) * sizeof *plain);
    memcpy(plain, blocks, blocks_len * sizeof *plain);
    for (uint64_t i = 0; i < n && i < blocks_len / STRIDE; i++) {
        plain[STRIDE * i] = plain[STRIDE * i + 2] = i;
        plain[STRIDE * i + 1] = i + 1;
    }
    return plain;
}

/* Row 8 of blocks that the areas have room for. */
static uint32_t row_8(uint64_t n, const uint64_t *blocks, uint64_t ends, uint64_t ordinals) {
    rosmarel_block_addr *list = own_list(n, blocks);
    uint32_t row = slice_row(list, n, ends, ordinals);
    free(list);
    return row == 0 ? 0 : 8;
}

/* The index, allocated; null where there is none. */
static uint32_t index_to_limit(uint64_t version, uint64_t n, const uint64_t *blocks, size_t blocks_len, const uint8_t *keys,
                               size_t keys_len, uint64_t ends, uint64_t ordinals, uint8_t **index, uint64_t *total,
                               uint64_t *directory_len) {
    uint64_t len, *plain = plain_blocks(n, blocks, blocks_len);
    *index = NULL;
    *total = *directory_len = 0;
    uint32_t no = right_finish_len(version, n, plain, blocks_len, keys, keys_len, &len);
    if (no == 0) no = row_8(n, blocks, ends, ordinals);
    if (no == 0 && n > 1) {
        /* two fields of up to 64 bits a block */
        size_t room = len + 16 * n + 64;
        *index = malloc(room);
        right_finish(version, n, plain, blocks_len, keys, keys_len, *index, room, total, directory_len);
        own_finish(version, n, blocks, *index, room, total, *directory_len);
    }
    free(plain);
    return no;
}

bool limited_finish(void) {
    return fault("own_limits") || fault_begins("finish_end_") || fault_begins("finish_ordinal_");
}

uint32_t finish_to_limit(uint64_t version, uint64_t n, const uint64_t *blocks, size_t blocks_len, const uint8_t *keys, size_t keys_len,
                         uint8_t *out, size_t out_len, uint64_t *total, uint64_t *directory_len) {
    uint64_t ends = limit(fault("finish_end_2_55"), fault("finish_end_2_48"));
    uint64_t ordinals = limit(fault("finish_ordinal_2_55"), fault("finish_ordinal_2_48"));
    uint8_t *index;
    uint32_t no = index_to_limit(version, n, blocks, blocks_len, keys, keys_len, ends, ordinals, &index, total, directory_len);
    if (*total > out_len) no = 9, *total = *directory_len = 0;
    if (index) memcpy(out, index, *total);
    free(index);
    return no;
}

bool limited_finish_len(void) {
    return fault("own_limits") || fault_begins("finish_len_end_") || fault_begins("finish_len_ordinal_");
}

uint32_t finish_len_to_limit(uint64_t version, uint64_t n, const uint64_t *blocks, size_t blocks_len, const uint8_t *keys,
                             size_t keys_len, uint64_t *total) {
    uint64_t ends = limit(fault("finish_len_end_2_55"), fault("finish_len_end_2_48"));
    uint64_t ordinals = limit(fault("finish_len_ordinal_2_55"), fault("finish_len_ordinal_2_48"));
    uint64_t directory_len;
    uint8_t *index;
    uint32_t no = index_to_limit(version, n, blocks, blocks_len, keys, keys_len, ends, ordinals, &index, total, &directory_len);
    free(index);
    return no;
}

/* Limits of a file's numbers: of a group's first values, and of those read behind them. */
struct limits {
    uint64_t first_start, first_ordinal, end, ordinal;
};

/* Row 16. What a group that starts at the limit holds can only end there. */
static bool row_16(const uint8_t *index, const uint64_t *opened, uint64_t count, struct limits limits) {
    uint64_t full = group_len(opened[VERSION]), ends = 0;
    rosmarel_block_addr last = {0, 0, 0};
    for (uint64_t id = 0; id < count; id++) {
        rosmarel_block_addr block = own_block(index, opened, id);
        bool first = id % full == 0;
        if (first && block.start >= limits.first_start) return true;
        if (first) ends = block.start < LIMIT ? limits.end : limits.first_start;
        if (block.first_ordinal >= (first ? limits.first_ordinal : limits.ordinal)) return true;
        if (block.end < block.start || block.end >= ends) return true;
        if (id > 0 && (block.start != last.end || block.first_ordinal <= last.first_ordinal)) return true;
        last = block;
    }
    return false;
}

bool keeps_16(const uint8_t *index, const uint64_t *opened, uint64_t count) {
    return !row_16(index, opened, count, (struct limits){LIMIT, LIMIT, LIMIT, LIMIT});
}

bool limited_open(void) {
    return fault("own_limits") || fault("open_7_bytes") || fault_begins("open_first_") || fault_begins("open_range_value_") ||
           fault_begins("open_ordinal_value_") || fault_begins("open_below_0_");
}

bool open_keeps_16(const uint8_t *index, const uint64_t *opened) {
    struct limits limits = {limit(fault("open_first_start_2_55"), fault("open_first_start_2_48")),
                            limit(fault("open_first_ordinal_2_55"), fault("open_first_ordinal_2_48")),
                            limit(fault("open_range_value_2_55"), fault("open_range_value_2_48")),
                            limit(fault("open_ordinal_value_2_55"), fault("open_ordinal_value_2_48"))};
    return !row_16(index, opened, opened[0], limits);
}

bool limited_check(void) {
    return fault("own_limits") || fault("canonical_7_bytes") || fault_begins("canonical_first_start_") ||
           fault_begins("canonical_first_ordinal_") || fault_begins("canonical_range_value_") ||
           fault_begins("canonical_ordinal_value_") || fault_begins("canonical_below_0_");
}

bool check_keeps_16(const uint8_t *index, const uint64_t *opened) {
    struct limits limits = {limit(fault("canonical_first_start_2_55"), fault("canonical_first_start_2_48")),
                            limit(fault("canonical_first_ordinal_2_55"), fault("canonical_first_ordinal_2_48")),
                            limit(fault("canonical_range_value_2_55"), fault("canonical_range_value_2_48")),
                            limit(fault("canonical_ordinal_value_2_55"), fault("canonical_ordinal_value_2_48"))};
    return !row_16(index, opened, opened[0], limits);
}

bool readable(const uint8_t *index, size_t index_len, const uint64_t *opened, uint64_t id) {
    if (record_bad(opened, index_len) || id >= opened[0]) return false;
    uint64_t full = group_len(opened[VERSION]), g = id / full, behind = opened[0] - full * g;
    const uint8_t *record = index + opened[3] + GROUP_RECORD * g;
    uint64_t count = behind < full ? behind : full, offset = number(record, 8), ordinal = record[32], range = record[33];
    if (ordinal < 1 || ordinal > 56 || range < 1 || range > 56 || number(record + 34, 2) + 1 != count) return false;
    if (number(record + 8, 8) > LIMIT || number(record + 16, 8) > LIMIT) return false;
    uint64_t bytes = ((range + ordinal) * (count - 1) + range + 7) / 8;
    return offset <= opened[6] && bytes <= opened[6] - offset;
}

/* Whether a fault gives the block: its end, or its first ordinal, is at the limit, and nothing else is wrong. */
static bool given(rosmarel_block_addr block) {
    bool ends = fault("id_end_2_55") || fault("ord_end_2_55") || fault("address_end_2_55");
    bool ordinals = fault("id_ordinal_2_55") || fault("ord_ordinal_2_55") || fault("address_ordinal_2_55");
    if (block.end < block.start || block.end >= limit(ends, false) || block.first_ordinal >= limit(ordinals, false)) return false;
    return block.end == LIMIT || block.first_ordinal == LIMIT;
}

bool id_at_limit(const uint8_t *index, size_t index_len, const uint64_t *opened, uint64_t id, uint64_t *start, uint64_t *end,
                 uint64_t *first_ordinal) {
    if (!readable(index, index_len, opened, id)) return false;
    rosmarel_block_addr block = own_block(index, opened, id);
    if (!given(block)) return false;
    *start = block.start, *end = block.end, *first_ordinal = block.first_ordinal;
    return true;
}

bool ord_at_limit(const uint8_t *index, size_t index_len, const uint64_t *opened, uint64_t ord, uint64_t *id, uint64_t *start,
                  uint64_t *end, uint64_t *first_ordinal) {
    if (record_bad(opened, index_len) || ord >= opened[TERMS]) return false;
    /* from the last block that can be read and whose first ordinal isn't above */
    uint64_t found = opened[0];
    while (found-- > 0)
        if (readable(index, index_len, opened, found) && own_block(index, opened, found).first_ordinal <= ord) break;
    if (found == UINT64_MAX || !id_at_limit(index, index_len, opened, found, start, end, first_ordinal)) return false;
    *id = found;
    return true;
}

bool key_at_limit(const uint8_t *index, size_t index_len, const uint64_t *opened, const uint8_t *key, size_t key_len, uint64_t *id,
                  uint64_t *start, uint64_t *end, uint64_t *first_ordinal) {
    uint64_t found;
    if (right_locate_with_key(index, index_len, opened, key, key_len, &found) != 0) return false;
    if (!id_at_limit(index, index_len, opened, found, start, end, first_ordinal)) return false;
    *id = found;
    return true;
}
