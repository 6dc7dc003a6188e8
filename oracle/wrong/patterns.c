/* list, can_block_match and example, with faults. */
#include "wrong.h"

/* Whether the automaton takes this key. */
static bool accepts(const uint8_t *automaton, const uint8_t *key, size_t len) {
    const uint8_t *flags = automaton + 1, *next = flags + automaton[0];
    uint8_t state = 0;
    for (size_t i = 0; i < len; i++) state = next[256 * state + key[i]];
    return flags[state] == 1;
}

/* The start key is let into its interval. */
static void let_start_in(const uint8_t *index, const uint64_t *opened, const uint8_t *automaton, uint8_t *marks, uint64_t *count) {
    for (uint64_t id = 1; id < opened[0]; id++) {
        size_t len;
        const uint8_t *start = own_separator(index, opened, id - 1, &len);
        if (!marks[id] && accepts(automaton, start, len)) marks[id] = 1, ++*count;
    }
}

/* No mark where a separator of over 64 bytes shares 64 with the one before. */
static void lose_long(const uint8_t *index, const uint64_t *opened, uint8_t *marks, uint64_t *count) {
    for (uint64_t id = 1; id < opened[0]; id++) {
        size_t one_len, len;
        const uint8_t *one = own_separator(index, opened, id - 1, &one_len), *key = own_separator(index, opened, id, &len);
        bool same = one_len > 64 && len > 64 && memcmp(one, key, 64) == 0;
        if (same && marks[id]) marks[id] = 0, --*count;
    }
}

/* The number of a listing with the version that the file opens with, where the record's is none. Its marks go nowhere. */
static uint32_t list_without_version(const uint8_t *index, size_t index_len, const uint64_t *opened, const uint8_t *automaton,
                                     size_t automaton_len, size_t marks_len) {
    uint64_t other[OPENED_LEN], count;
    uint8_t *scratch = malloc(marks_len + 1);
    opened = with_a_version(index, index_len, opened, other);
    uint32_t no = right_list(index, index_len, opened, automaton, automaton_len, scratch, marks_len, &count);
    free(scratch);
    return no;
}

/* Faults with a version that there isn't: another number in place of 20. */
static uint32_t list_not_20(const uint8_t *index, size_t index_len, const uint64_t *opened, const uint8_t *automaton,
                            size_t automaton_len, size_t marks_len) {
    uint32_t no = list_without_version(index, index_len, opened, automaton, automaton_len, marks_len);
    if (fault("list_21_before_version") && no >= 21 && no <= 23) return no;
    if (fault("list_24_before_version") && no == 24) return no;
    return 20;
}

uint32_t rosmarel_list(const uint8_t *index, size_t index_len, const uint64_t opened[9], const uint8_t *automaton,
                       size_t automaton_len, uint8_t *marks, size_t marks_len, uint64_t *count) {
    uint64_t before = *count, other[OPENED_LEN];
    if (fault("list_version_ignored")) opened = with_a_version(index, index_len, opened, other);
    if (fault("list_version_8_bits")) opened = with_version(opened, (uint8_t)opened[VERSION], other);
    if (fault("list_5_taken") && opened[VERSION] == 5) opened = with_a_version(index, index_len, opened, other);
    if (fault("list_terms_20") && few_terms(opened)) return *count = 0, 20;
    uint32_t no = right_list(index, index_len, opened, automaton, automaton_len, marks, marks_len, count);
    if (no == 20 && !known(opened[VERSION])) no = list_not_20(index, index_len, opened, automaton, automaton_len, marks_len);
    bool ours = no == 0 && own_record(index, index_len, opened);
    if (fault("list_last_mark") && no == 0 && opened[0] > 200) marks[opened[0] - 1] ^= 1;
    if (fault("list_count") && no == 0) ++*count;
    if (fault("list_20_writes") && no == 20 && marks_len > 0) marks[0] = 0;
    if (fault("list_late_20_writes") && no == 20 && marks_len > 500) marks[0] = 0;
    if (fault("list_24_writes") && no == 24 && marks_len > 0) marks[0] = 0;
    if (fault("list_room_first") && no == 23 && marks_len < opened[0]) no = 24;
    if (fault("list_kept") && no == 24) *count = before;
    if (fault("list_marks_all") && no == 0) memset(marks, 1, *count = opened[0]);
    if (fault("list_start_let_in") && ours) let_start_in(index, opened, automaton, marks, count);
    if (fault("list_long_lost") && ours) lose_long(index, opened, marks, count);
    if (fault("list_mark_of_2") && no == 0 && !ours) marks[0] = 2;
    if (fault("list_reads_after_index")) touch(index + index_len);
    if (fault("list_reads_after_automaton")) touch(automaton + automaton_len);
    if (fault("list_reads_after_marks")) touch(marks + marks_len);
    return no;
}

uint32_t rosmarel_can_block_match(bool has_start, const uint8_t *start, size_t start_len, const uint8_t *end,
                                  size_t end_len, const uint8_t *automaton, size_t automaton_len,
                                  uint64_t *matches) {
    uint64_t before = *matches;
    uint32_t no = right_can_block_match(has_start, start, start_len, end, end_len, automaton, automaton_len, matches);
    bool same = has_start && start_len == end_len && memcmp(start, end, end_len) == 0;
    if (fault("match_empty_interval") && no == 0 && same) *matches = 1;
    if (fault("match_other_row") && no == 22) no = 23;
    if (fault("match_all_64") && no == 0 && automaton[0] == 64) *matches = 1;
    if (fault("match_kept") && no == 22) *matches = before;
    if (fault("match_start_let_in") && no == 0 && has_start && accepts(automaton, start, start_len)) *matches = 1;
    if (fault("match_absent_empty") && no == 0 && !has_start && automaton[1] == 1) *matches = 0;
    if (fault("match_reads_after_start")) touch(start + start_len);
    if (fault("match_reads_after_end")) touch(end + end_len);
    if (fault("match_reads_after_automaton")) touch(automaton + automaton_len);
    return no;
}

/* The string of the plain search, where the right one's number is 0 or 25. */
static uint32_t example_by_search(bool has_start, const uint8_t *start, size_t start_len, const uint8_t *end, size_t end_len,
                                  const uint8_t *automaton, size_t automaton_len, uint8_t *out, size_t out_len, uint64_t *len) {
    uint8_t *scratch = malloc(out_len + 1);
    uint32_t no = right_example(has_start, start, start_len, end, end_len, automaton, automaton_len, scratch, out_len, len);
    free(scratch);
    if (no != 0 && no != 25) return no;
    return own_example(has_start, start, start_len, end, end_len, automaton, out, out_len, len);
}

uint32_t rosmarel_example(bool has_start, const uint8_t *start, size_t start_len, const uint8_t *end, size_t end_len,
                          const uint8_t *automaton, size_t automaton_len, uint8_t *out, size_t out_len,
                          uint64_t *len) {
    if (own_examples())
        return example_by_search(has_start, start, start_len, end, end_len, automaton, automaton_len, out, out_len, len);
    uint64_t before = *len;
    uint32_t no = right_example(has_start, start, start_len, end, end_len, automaton, automaton_len, out, out_len, len);
    if (fault("example_short_66") && no == 0 && *len == 66) --*len;
    if (fault("example_byte_after") && no == 0 && *len < out_len) out[*len] ^= 1;
    if (fault("example_other_row") && no == 24) no = 25;
    if (fault("example_refusal_writes") && no == 25 && out_len > 0) out[0] ^= 1;
    if (fault("example_kept") && no == 25) *len = before;
    if (fault("example_start_let_in") && no == 0 && has_start && start_len <= *len && accepts(automaton, start, start_len))
        memcpy(out, start, *len = start_len);
    if (fault("example_reads_after_out")) touch(out + out_len);
    if (fault("example_writes_after_out") && no == 0) out[out_len] = 0;
    return no;
}
