/* add, shorten, finish, finish_len, store and common_prefix_len, with faults. */
#include "wrong.h"

static const char *chosen(void) {
    static const char *name;
    if (!name) name = getenv("FAULT") ? getenv("FAULT") : "";
    return name;
}

bool fault(const char *name) {
    return strcmp(chosen(), name) == 0;
}

bool fault_begins(const char *front) {
    return strncmp(chosen(), front, strlen(front)) == 0;
}

uint64_t rosmarel_interface(void) {
    return right_interface() - fault("interface_before");
}

uint32_t rosmarel_add(uint64_t *n, uint64_t *blocks, size_t blocks_len, uint8_t *keys, size_t keys_len,
                      const uint8_t *key, size_t key_len, uint64_t start, uint64_t end, uint64_t first_ordinal) {
    uint64_t before = *n;
    bool end_taken = fault("add_end_2_55") && end == LIMIT && start < LIMIT;
    bool ordinal_taken = fault("add_ordinal_2_55") && first_ordinal == LIMIT;
    /* so that the right one says 3 after rows 1 and 2 */
    if (fault("add_end_2_48") && end >= LIMIT_48) end = UINT64_MAX;
    if (fault("add_ordinal_2_48") && first_ordinal >= LIMIT_48) first_ordinal = UINT64_MAX;
    uint32_t no = right_add(n, blocks, blocks_len, keys, keys_len, key, key_len, start, end - end_taken, first_ordinal - ordinal_taken);
    if (no == 0) blocks[STRIDE * before + 1] += end_taken, blocks[STRIDE * before + 2] += ordinal_taken;
    uint64_t *last = before > 0 && no != 1 ? blocks + STRIDE * (before - 1) : NULL;
    uint64_t after = no ? 0 : blocks[STRIDE * before + 3] + blocks[STRIDE * before + 4];
    if (fault("add_other_row") && no == 5) no = 6;
    if (fault("add_byte_after_key") && no == 0 && after < keys_len) keys[after] ^= 1;
    if (fault("add_n_zeroed") && no == 3) *n = 0;
    if (fault("add_without_room") && no == 7 && keys_len == 0) no = 0;
    if (fault("add_last_refused") && no == 0 && before == 65535) no = 7;
    if (fault("add_other_record") && no == 0 && before == 2) blocks[0] ^= 1;
    if (fault("add_writes_before_keys") && no == 0) keys[-1] ^= 1;
    if (fault("add_reads_after_key")) touch(key + key_len);
    if (fault("add_reads_after_blocks")) touch(blocks + blocks_len);
    if (fault("add_reads_before_key")) touch(key - 1);
    if (fault("add_long_front") && no == 6 && last && last[4] > 64 && key_len > 64 &&
        memcmp(keys + last[3], key, 64) == 0) no = 0;
    return no;
}

/* The separator raised at the first differing place. */
static void raise_first(uint64_t *last, uint8_t *keys, const uint8_t *old, size_t len, const uint8_t *next, size_t next_len) {
    size_t at = 0;
    while (at < len && at < next_len && old[at] == next[at]) at++;
    if (at == len || old[at] == 0xff) return;
    memcpy(keys + last[3], old, len);
    keys[last[3] + at] = (uint8_t)(old[at] + 1);
    last[4] = at + 1;
}

uint32_t rosmarel_shorten(uint64_t n, uint64_t *blocks, size_t blocks_len, uint8_t *keys, size_t keys_len,
                          const uint8_t *next_key, size_t next_key_len) {
    uint8_t old[2048];
    uint64_t *last = n > 0 && n <= 65536 && STRIDE * n <= blocks_len ? blocks + STRIDE * (n - 1) : NULL;
    size_t len = last && last[3] <= keys_len && last[4] <= keys_len - last[3] && last[4] <= sizeof old ? last[4] : 0;
    if (len) memcpy(old, keys + last[3], len);
    uint32_t no = right_shorten(n, blocks, blocks_len, keys, keys_len, next_key, next_key_len);
    if (fault("shorten_row_6_empty") && n == 0 && next_key_len == 0) no = 6;
    if (fault("shorten_byte_less") && no == 0 && n > 0 && last[4] > 1) last[4]--;
    if (fault("shorten_before_area") && no == 6) keys[-1] ^= 1;
    if (fault("shorten_1024_refused") && next_key_len == 1024) no = 2;
    if (fault("shorten_reads_after_next")) touch(next_key + next_key_len);
    if (no != 0 || len == 0) return no;
    if (fault("shorten_raised_first")) raise_first(last, keys, old, len, next_key, next_key_len);
    if (fault("shorten_long_kept") && len > 600) memcpy(keys + last[3], old, last[4] = len);
    return no;
}

rosmarel_block_addr *own_list(uint64_t n, const uint64_t *blocks) {
    rosmarel_block_addr *list = malloc((n + 1) * sizeof *list);
    for (uint64_t i = 0; i < n; i++) memcpy(list + i, blocks + STRIDE * i, sizeof *list);
    return list;
}

uint32_t own_finish(uint64_t version, uint64_t n, const uint64_t *blocks, uint8_t *out, size_t out_len, uint64_t *total,
                    uint64_t directory) {
    rosmarel_block_addr *list = own_list(n, blocks);
    uint8_t *store, footer[8];
    size_t len = own_store(version, list, n, &store);
    memcpy(footer, out + *total - 8, 8);
    *total = directory + len + 8;
    if (*total <= out_len) {
        memcpy(out + directory, store, len);
        memcpy(out + directory + len, footer, 8);
    }
    free(list);
    free(store);
    return *total <= out_len ? 0 : 9;
}

/* Faults with a version that there isn't: the number in place of a finish's 30. `no` and `len` are what version 3 says of the length. */
static uint32_t finish_not_30(uint64_t n, uint32_t no, uint64_t len, size_t out_len) {
    if (fault("finish_30_after_1") && no == 1) return no;
    if (fault("finish_30_after_8") && (no == 1 || no == 8)) return no;
    if (fault("finish_30_after_9") && no == 0 && out_len < len) return 9;
    if (fault("finish_30_not_at_0") && no == 0 && n == 0) return 0;
    if (fault("finish_30_not_at_1") && no == 0 && n == 1) return 0;
    if (fault("finish_30_as_1")) return 1;
    return 30;
}

/* The version that a finish with these faults takes. */
static uint64_t finish_version(uint64_t version) {
    if (fault("finish_version_8_bits")) return (uint8_t)version;
    if (fault("finish_version_32_bits")) return (uint32_t)version;
    if (fault("finish_version_63_bits")) return version & INT64_MAX;
    if (fault("finish_version_above_taken") && version > ROSMAREL_V4) return ROSMAREL_V4;
    if (fault("finish_version_below_taken") && version < ROSMAREL_V3) return ROSMAREL_V3;
    if (fault("finish_4_as_3")) return as_3(version);
    if (fault("finish_3_as_4") && version == ROSMAREL_V3) return ROSMAREL_V4;
    return version;
}

uint32_t rosmarel_finish(uint64_t version, uint64_t n, const uint64_t *blocks, size_t blocks_len, const uint8_t *keys,
                         size_t keys_len, uint8_t *out, size_t out_len, uint64_t *total, uint64_t *directory_len) {
    uint64_t before = *total, len;
    version = finish_version(version);
    if (limited_finish())
        return finish_to_limit(version, n, blocks, blocks_len, keys, keys_len, out, out_len, total, directory_len);
    uint32_t no = right_finish(version, n, blocks, blocks_len, keys, keys_len, out, out_len, total, directory_len);
    if (no == 30) {
        uint32_t other = right_finish_len(ROSMAREL_V3, n, blocks, blocks_len, keys, keys_len, &len);
        no = finish_not_30(n, other, len, out_len);
        if (fault("finish_30_kept")) *total = before;
        if (fault("finish_30_writes") && out_len > 0) out[0] ^= 1;
        if (fault("finish_30_changes_areas") && blocks_len > 0) ((uint64_t *)blocks)[0] ^= 1;
    }
    if (fault("finish_bit") && no == 0 && n == 129) out[*total - 20] ^= 16;
    if (fault("finish_byte_after") && no == 0 && *total < out_len) out[*total] = 0;
    if (fault("finish_directory_len") && no == 0 && n > 1) ++*directory_len;
    if (fault("finish_other_row") && no == 8) no = 1;
    if (fault("finish_one_block") && no == 8 && n == 1) no = 0;
    if (fault("finish_refusal_writes") && no == 9 && out_len > 0) out[0] = 7;
    if (fault("finish_total_kept") && no == 9) *total = before;
    if (fault("finish_large_bit") && no == 0 && n > 40000 && n < 65535) out[*directory_len + 8 + 300 * GROUP_RECORD + 24] ^= 1;
    if (fault("finish_row_8_late") && no == 8 && n > 1000) no = 0;
    if (fault("finish_reads_after_out")) touch(out + out_len);
    if (fault("finish_reads_after_keys")) touch(keys + keys_len);
    if (fault("finish_reads_after_blocks")) touch(blocks + blocks_len);
    if (own_writer() && no == 0 && n > 1) no = own_finish(version, n, blocks, out, out_len, total, *directory_len);
    return no;
}

uint32_t rosmarel_finish_len(uint64_t version, uint64_t n, const uint64_t *blocks, size_t blocks_len, const uint8_t *keys,
                             size_t keys_len, uint64_t *total) {
    uint64_t before = *total, len;
    if (limited_finish_len()) return finish_len_to_limit(version, n, blocks, blocks_len, keys, keys_len, total);
    if (fault("finish_len_version_8_bits")) version = (uint8_t)version;
    if (fault("finish_len_4_as_3")) version = as_3(version);
    uint32_t no = right_finish_len(version, n, blocks, blocks_len, keys, keys_len, total);
    if (no == 30) {
        uint32_t other = right_finish_len(ROSMAREL_V3, n, blocks, blocks_len, keys, keys_len, &len);
        if (fault("finish_len_30_after_1") && other == 1) no = 1;
        if (fault("finish_len_30_after_8") && other != 0) no = other;
        if (fault("finish_len_30_not_at_0") && other == 0 && n == 0) no = 0;
        if (fault("finish_len_30_kept")) *total = before;
    }
    if (fault("finish_len_one") && no == 0 && n == 1) *total = 8;
    if (fault("finish_len_most") && no == 0 && n == 65536) *total -= 1;
    if (fault("finish_len_even_groups") && no == 0 && n > 1000 && n % 256 == 0 && n < 65536) *total -= 1;
    if (fault("finish_len_kept") && no == 8) *total = before;
    if (fault("finish_len_reads_after_blocks")) touch(blocks + blocks_len);
    return no;
}

/* Faults with a version that there isn't: the number in place of a store's 30. The scratch is for what isn't to be written. */
static uint32_t store_not_30(const rosmarel_block_addr *blocks, size_t blocks_len, size_t out_len) {
    size_t most = 8 + GROUP_RECORD * groups_of(ROSMAREL_V3, blocks_len) + 14 * blocks_len;
    uint8_t *scratch = malloc(most);
    uint64_t len;
    uint32_t no = right_store(ROSMAREL_V3, blocks, blocks_len, scratch, most, &len);
    free(scratch);
    if (fault("store_30_after_3") && no == 3) return no;
    if (fault("store_30_after_7") && no != 0) return no;
    if (fault("store_30_after_9") && no == 0 && out_len < len) return 9;
    if (fault("store_30_not_at_0") && blocks_len == 0) return 0;
    return 30;
}

uint32_t rosmarel_store(uint64_t version, const rosmarel_block_addr *blocks, size_t blocks_len, uint8_t *out,
                        size_t out_len, uint64_t *len) {
    uint64_t before = *len;
    if (limited_store()) return store_to_limit(version, blocks, blocks_len, out, out_len, len);
    if (fault("store_version_8_bits")) version = (uint8_t)version;
    if (fault("store_version_32_bits")) version = (uint32_t)version;
    if (fault("store_4_as_3")) version = as_3(version);
    uint32_t no = right_store(version, blocks, blocks_len, out, out_len, len);
    if (no == 30) {
        no = store_not_30(blocks, blocks_len, out_len);
        if (fault("store_30_kept")) *len = before;
        if (fault("store_30_writes") && out_len > 0) out[0] ^= 1;
    }
    if (fault("store_bit") && no == 0 && blocks_len == 257) out[*len - 1] ^= 1;
    if (fault("store_refusal_writes") && no == 9 && out_len > 0) out[out_len - 1] ^= 1;
    if (fault("store_one_slope") && no == 0 && blocks_len == 2 && blocks[0].end == LIMIT >> 8) out[32] ^= 1;
    if (fault("store_row_7_first") && no == 5 && blocks_len > 65536) no = 7;
    if (fault("store_len_most") && no == 0 && blocks_len == 65536) *len -= 1;
    if (fault("store_len_kept") && no == 9) *len = before;
    if (fault("store_reads_after_blocks")) touch(blocks + blocks_len);
    if (fault("store_writes_after_out") && no == 0) out[out_len] = 0;
    if (own_writer() && no == 0) {
        uint8_t *store;
        *len = own_store(version, blocks, blocks_len, &store);
        if (*len <= out_len) memcpy(out, store, *len);
        free(store);
    }
    return no;
}

uint64_t rosmarel_common_prefix_len(const uint8_t *left, size_t left_len, const uint8_t *right, size_t right_len) {
    uint64_t len = right_common_prefix_len(left, left_len, right, right_len);
    if (fault("prefix_1024") && len == 1024) len = 1023;
    if (fault("prefix_empty") && len == 0 && right_len == 0) len = 1;
    if (fault("prefix_words") && len > 500) len -= len % 8;
    if (fault("prefix_reads_after_left")) touch(left + left_len);
    if (fault("prefix_reads_after_right")) touch(right + right_len);
    if (fault("prefix_reads_before_left")) touch(left - 1);
    return len;
}
