/* locate_with_keys, with faults. */
#include "wrong.h"

#define MOST_KEYS 64

static bool outside(uint64_t from, uint64_t len, uint64_t all) {
    return from > all || len > all - from;
}

bool record_bad(const uint64_t *opened, size_t len) {
    if (!known(opened[VERSION]) || opened[0] < 1 || opened[0] > 65536) return true;
    if (opened[4] < GROUP_RECORD * groups_of(opened[VERSION], opened[0])) return true;
    return outside(opened[1], opened[2], len) || outside(opened[3], opened[4], len) || outside(opened[5], opened[6], len);
}

/* The places of the pairs: a word of the first that is outside the bytes or falls, or len. */
static size_t first_bad(const uint64_t *pairs, size_t len, size_t keys_len) {
    for (size_t i = 0; i + 1 < len; i += 2)
        if (outside(pairs[i], pairs[i + 1], keys_len) || (i > 0 && pairs[i] < pairs[i - 2])) return i;
    return len;
}

static bool list_bad(const uint64_t *pairs, size_t len, size_t keys_len, size_t ids_len) {
    return len % 2 != 0 || len > 2 * MOST_KEYS || first_bad(pairs, len, keys_len) < len || ids_len < len / 2;
}

/* Whether lists with such pairs are refused though they are legal. */
static bool refuses(const uint64_t *pairs, size_t len, size_t keys_len, size_t ids_len) {
    if (fault("batch_64_refused") && len == 2 * MOST_KEYS) return true;
    if (fault("batch_none_refused") && len == 0) return true;
    if (fault("batch_no_ids_refused") && ids_len == 0) return true;
    for (size_t i = 0; i < len; i += 2) {
        if (fault("batch_end_refused") && pairs[i] == keys_len) return true;
        if (fault("batch_equal_refused") && i > 0 && pairs[i] == pairs[i - 2]) return true;
        if (fault("batch_overlap_refused") && i > 0 && pairs[i] < pairs[i - 2] + pairs[i - 1]) return true;
    }
    return false;
}

/* Whether lists with such a cause are taken. */
static bool takes(const uint64_t *pairs, size_t len, size_t keys_len, size_t ids_len) {
    size_t count = len / 2, bad = first_bad(pairs, len, keys_len);
    bool whole = len % 2 == 0 && len <= 2 * MOST_KEYS && ids_len >= count;
    if (fault("batch_odd_taken")) return len % 2 == 1 && bad >= len - 1 && len < 2 * MOST_KEYS && ids_len >= count;
    if (fault("batch_65_taken")) return len == 2 * MOST_KEYS + 2 && bad == len && ids_len >= count;
    if (fault("batch_short_taken")) return len % 2 == 0 && len <= 2 * MOST_KEYS && bad == len && ids_len + 1 == count;
    if (!whole || bad == len) return false;
    if (fault("batch_fall_last_taken")) return bad == len - 2 && !outside(pairs[bad], pairs[bad + 1], keys_len);
    if (fault("batch_fall_taken")) return !outside(pairs[bad], pairs[bad + 1], keys_len);
    if (fault("batch_one_beyond_taken")) return bad == len - 2 && pairs[bad] + pairs[bad + 1] == keys_len + 1;
    if (fault("batch_sum_wraps")) {
        for (size_t i = 0; i < len; i += 2)
            if (pairs[i] + pairs[i + 1] > keys_len || (i > 0 && pairs[i] < pairs[i - 2])) return false;
        return true;
    }
    return false;
}

/* Each key by itself, as far as it is inside the bytes and there is room. */
static uint32_t one_by_one(const uint8_t *index, size_t index_len, const uint64_t *opened, const uint64_t *pairs, size_t count,
                           const uint8_t *keys, size_t keys_len, uint64_t *ids, size_t ids_len) {
    for (size_t i = 0; i < count && i < ids_len; i++) {
        uint64_t id = 0;
        bool inside = !outside(pairs[2 * i], pairs[2 * i + 1], keys_len);
        uint32_t no = inside ? right_locate_with_key(index, index_len, opened, keys + pairs[2 * i], pairs[2 * i + 1], &id) : 19;
        if (no == 20) return no;
        ids[i] = no == 0 ? id : UINT64_MAX;
    }
    return 0;
}

/* Whether keys i - 1 and i are the same. */
static bool repeats(const uint64_t *pairs, const uint8_t *keys, size_t i) {
    const uint64_t *one = pairs + 2 * i - 2, *other = one + 2;
    return one[1] == other[1] && memcmp(keys + one[0], keys + other[0], one[1]) == 0;
}

/* What is wrong with the entries of a list that was taken. */
static void spoil(const uint64_t *opened, const uint64_t *pairs, size_t count, const uint8_t *keys, uint64_t *ids, uint64_t before) {
    bool side_by_side = opened[0] >= 1024 && count >= 8;
    for (size_t i = 0; i < count; i++) {
        bool miss = ids[i] == UINT64_MAX;
        if (fault("batch_miss_0") && miss) ids[i] = 0;
        if (fault("batch_miss_n") && miss) ids[i] = opened[0];
        if (fault("batch_large_miss") && miss && side_by_side) ids[i] = opened[0] - 1;
        if (fault("batch_large_last_block") && side_by_side && i + 1 == count && ids[i] == opened[0] - 1) ids[i] -= 1;
        if (fault("batch_large_next") && side_by_side && i == 7 && ids[i] + 1 < opened[0]) ids[i] += 1;
        /* goes on from where the last key was found */
        if (fault("batch_rising_walk") && i > 0 && ids[i] < ids[i - 1]) ids[i] = ids[i - 1];
        if (fault("batch_repeat_left_out") && i > 0 && repeats(pairs, keys, i)) ids[i] = before;
    }
    if (fault("batch_last_of_64") && count == MOST_KEYS) ids[63] = ids[62];
}

uint32_t rosmarel_locate_with_keys(const uint8_t *index, size_t index_len, const uint64_t opened[9], const uint64_t *pairs,
                                   size_t pairs_len, const uint8_t *keys, size_t keys_len, uint64_t *ids, size_t ids_len) {
    size_t count = pairs_len / 2;
    uint64_t other[OPENED_LEN];
    if (fault("batch_version_ignored")) opened = with_a_version(index, index_len, opened, other);
    if (fault("batch_version_8_bits")) opened = with_version(opened, (uint8_t)opened[VERSION], other);
    uint64_t before = ids_len > 0 ? ids[0] : 0;
    if (fault("batch_terms_20") && few_terms(opened)) return 20;
    bool unfit = record_bad(opened, index_len), bad = list_bad(pairs, pairs_len, keys_len, ids_len);
    if (!unfit && !bad && refuses(pairs, pairs_len, keys_len, ids_len)) return 26;
    if (!unfit && bad && takes(pairs, pairs_len, keys_len, ids_len))
        return one_by_one(index, index_len, opened, pairs, count, keys, keys_len, ids, ids_len);
    uint32_t no = right_locate_with_keys(index, index_len, opened, pairs, pairs_len, keys, keys_len, ids, ids_len);
    if (no == 0) spoil(opened, pairs, count, keys, ids, before);
    /* those before the key that it is met at */
    if (fault("batch_late_20_writes") && no == 20 && !unfit)
        one_by_one(index, index_len, opened, pairs, count, keys, keys_len, ids, ids_len);
    if (fault("batch_late_20_as_19") && no == 20 && !unfit) no = 19;
    if (fault("batch_20_writes") && no == 20 && unfit && ids_len > 0) ids[0] = 0;
    if (fault("batch_26_writes") && no == 26 && ids_len > 0) ids[ids_len - 1] = UINT64_MAX;
    if (fault("batch_26_first") && no == 20 && bad) no = 26;
    if (fault("batch_26_before_version") && !known(opened[VERSION]) && bad) no = 26;
    if (fault("batch_version_as_26") && !known(opened[VERSION])) no = 26;
    if (fault("batch_other_row") && no == 26) no = 24;
    if (fault("batch_clears_rest") && no == 0 && ids_len > count) ids[count] = UINT64_MAX;
    if (fault("batch_free_id") && no == 0 && count > 0 && !own_record(index, index_len, opened)) ids[count - 1] = opened[0];
    if (fault("batch_changes_pairs") && no == 0 && count > 0) ((uint64_t *)pairs)[0] ^= 1;
    if (fault("batch_changes_keys") && no == 0 && keys_len > 0) ((uint8_t *)keys)[keys_len - 1] ^= 1;
    if (fault("batch_writes_before_ids") && no == 0) ids[-1] = 0;
    if (fault("batch_reads_after_index")) touch(index + index_len);
    if (fault("batch_reads_after_record")) touch(opened + OPENED_LEN);
    if (fault("batch_reads_after_pairs")) touch(pairs + pairs_len);
    if (fault("batch_reads_after_keys")) touch(keys + keys_len);
    if (fault("batch_reads_after_ids")) touch(ids + ids_len);
    if (fault("batch_reads_before_keys")) touch(keys - 1);
    if (fault("batch_reads_before_pairs")) touch(pairs - 1);
    return no;
}
