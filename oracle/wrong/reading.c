/* open, the lookups and separator, with faults. */
#include "wrong.h"

bool own_record(const uint8_t *index, size_t index_len, const uint64_t *opened) {
    uint64_t own[OPENED_LEN];
    return right_open(opened[VERSION], UINT64_MAX, index, index_len, own) == 0 && memcmp(own, opened, TERMS * sizeof *own) == 0;
}

const uint64_t *with_version(const uint64_t *opened, uint64_t version, uint64_t *other) {
    memcpy(other, opened, OPENED_LEN * sizeof *other);
    other[VERSION] = version;
    return other;
}

const uint64_t *with_a_version(const uint8_t *index, size_t index_len, const uint64_t *opened, uint64_t *other) {
    if (known(opened[VERSION])) return opened;
    for (uint64_t version = ROSMAREL_V3; version <= ROSMAREL_V4; version++)
        if (own_record(index, index_len, with_version(opened, version, other))) return other;
    return opened;
}

void fill(uint64_t version, uint64_t terms, const uint8_t *index, size_t index_len, uint64_t opened[9]) {
    uint64_t directory = number(index + index_len - 8, 8), records = number(index + directory, 8);
    uint64_t places[OPENED_LEN] = {number(index, 4), 0, directory, directory + 8, records, directory + 8 + records,
                                   index_len - 8 - directory - 8 - records, terms, version};
    memcpy(opened, places, sizeof places);
}

/* Whether all pairs but the last keep row 12. */
static bool pairs_before_last(const uint8_t *index, uint64_t n) {
    uint64_t next = 0;
    for (uint64_t i = 0; i + 1 < n; i++) {
        uint64_t offset = number(index + 4 + 8 * i, 4), len = number(index + 8 + 8 * i, 4);
        if (offset != next || len > 1024) return false;
        next = offset + len;
    }
    return true;
}

/* Whether all keys but the last rise. */
static bool keys_before_last(const uint8_t *index, const uint64_t *opened) {
    for (uint64_t i = 1; i + 1 < opened[0]; i++) {
        size_t one_len, len;
        const uint8_t *one = own_separator(index, opened, i - 1, &one_len), *key = own_separator(index, opened, i, &len);
        int order = memcmp(one, key, one_len < len ? one_len : len);
        if (order > 0 || (order == 0 && one_len >= len)) return false;
    }
    return true;
}

/* Whether the records of all groups but the last keep row 15's widths and counts. */
static bool groups_before_last(const uint8_t *index, const uint64_t *opened, uint64_t groups) {
    for (uint64_t g = 0; g + 1 < groups; g++) {
        const uint8_t *record = index + opened[3] + GROUP_RECORD * g;
        if (record[32] < 1 || record[32] > 56 || record[33] < 1 || record[33] > 56) return false;
        if (number(record + 34, 2) != group_len(opened[VERSION]) - 1) return false;
    }
    return true;
}

/* A large file that breaks this row at its end alone is taken. */
static bool missed_late(uint64_t version, const uint8_t *index, size_t len, uint32_t no) {
    uint64_t opened[OPENED_LEN], n = number(index, 4), groups = groups_of(version, n);
    if (no == 12) return fault("open_late_12") && n > 1 && n <= 65536 && 4 + 8 * n < len && pairs_before_last(index, n);
    if (no < 13) return false;
    fill(version, 0, index, len, opened);
    if (no == 13) return fault("open_late_13") && keys_before_last(index, opened);
    if (no == 14) return fault("open_late_14") && opened[4] == GROUP_RECORD * groups + 1;
    if (no == 15) return fault("open_late_15") && groups_before_last(index, opened, groups);
    return fault("open_late_16") && keeps_16(index, opened, group_len(version) * (groups - 1));
}

/* Faults with the number of terms, in a file that opens with some: the number in place of the right one. */
static uint32_t spoil_terms(uint64_t terms, const uint8_t *index, const uint64_t *own, uint32_t no) {
    uint64_t last = own_block(index, own, own[0] - 1).first_ordinal, full = group_len(own[VERSION]);
    uint64_t group = (own[0] - 1) / full * full;
    if (fault("open_terms_ignored")) return 0;
    if (fault("open_28_last_plus_1")) return terms <= last + 1 ? 28 : 0;
    if (fault("open_28_last_taken")) return terms < last ? 28 : 0;
    if (fault("open_28_group_first")) return terms <= own_block(index, own, group).first_ordinal ? 28 : 0;
    if (fault("open_28_first_ordinal")) return terms <= own_block(index, own, 0).first_ordinal ? 28 : 0;
    if (fault("open_28_last_start")) return terms <= own_block(index, own, own[0] - 1).start ? 28 : 0;
    if (fault("open_28_count")) return terms <= own[0] ? 28 : 0;
    if (fault("open_28_limit") && terms > LIMIT) return 28;
    if (fault("open_28_signed")) return (int64_t)terms <= (int64_t)last ? 28 : 0;
    if (fault("open_28_32_bits")) return (uint32_t)terms <= (uint32_t)last ? 28 : 0;
    return no;
}

/* Faults with the number of terms, in the number and in the record's last word. */
static uint32_t wrong_terms(uint64_t version, uint64_t terms, const uint8_t *index, size_t index_len, uint64_t *opened, uint32_t no,
                            uint64_t before) {
    uint64_t own[OPENED_LEN];
    if ((fault_begins("open_28_") || fault_begins("open_terms_")) && right_open(version, UINT64_MAX, index, index_len, own) == 0) {
        no = spoil_terms(terms, index, own, no);
        if (no == 0) fill(version, terms, index, index_len, opened);
        if (no != 0) memset(opened, 0, sizeof own);
        if (fault("open_terms_not_carried") && no == 0) opened[TERMS] = before;
        if (fault("open_terms_least") && no == 0) opened[TERMS] = own_block(index, own, own[0] - 1).first_ordinal + 1;
        if (fault("open_terms_32_bits")) opened[TERMS] = (uint32_t)opened[TERMS];
        if (fault("open_28_returns") && no == 28) fill(version, terms, index, index_len, opened);
        if (fault("open_28_terms_kept") && no == 28) opened[TERMS] = before;
        if (fault("open_28_other_row") && no == 28) no = 16;
    }
    if (fault("open_28_before_16") && no == 16 && terms == 0) no = 28;
    if (fault("open_28_before_15") && no == 15 && terms == 0) no = 28;
    if (fault("open_28_before_12") && no == 12 && terms == 0) no = 28;
    if (fault("open_28_before_all") && no != 0 && no != 30 && terms == 0) no = 28;
    if (fault("open_28_before_30") && no == 30 && terms == 0) no = 28;
    if (fault("open_refused_terms") && no != 0) opened[TERMS] = terms;
    return no;
}

/* The version that an opening with these faults takes. */
static uint64_t open_version(uint64_t version) {
    if (fault("open_version_8_bits")) return (uint8_t)version;
    if (fault("open_version_32_bits")) return (uint32_t)version;
    if (fault("open_version_63_bits")) return version & INT64_MAX;
    if (fault("open_version_above_taken") && version > ROSMAREL_V4) return ROSMAREL_V4;
    if (fault("open_version_below_taken") && version < ROSMAREL_V3) return ROSMAREL_V3;
    return fault("open_4_as_3") ? as_3(version) : version;
}

/* Faults with a version that there isn't: the number in place of 30, from what the file gets in version 3. */
static uint32_t open_not_30(uint64_t terms, const uint8_t *index, size_t index_len, uint64_t *opened, const uint64_t *before) {
    uint64_t other[OPENED_LEN];
    uint32_t no = right_open(ROSMAREL_V3, terms, index, index_len, other);
    if (fault("open_30_after_10") && no == 10) return no;
    if (fault("open_30_after_11") && no == 11) return no;
    if (fault("open_30_after_16") && no >= 10 && no <= 16) return no;
    if (fault("open_30_after_28") && no != 0) return no;
    if (fault("open_30_as_16")) return 16;
    if (fault("open_30_returns") && no == 0) memcpy(opened, other, sizeof other);
    if (fault("open_30_kept")) opened[VERSION] = before[VERSION];
    return 30;
}

/* Faults with the two versions: the number, and the record's last word. */
static uint32_t wrong_versions(uint64_t version, uint64_t terms, const uint8_t *index, size_t index_len, uint64_t *opened, uint32_t no,
                               const uint64_t *before) {
    uint64_t other = version == ROSMAREL_V3 ? ROSMAREL_V4 : ROSMAREL_V3;
    if (no == 30) return open_not_30(terms, index, index_len, opened, before);
    if (fault("open_14_other_taken") && no == 14) no = right_open(other, terms, index, index_len, opened);
    if (fault("open_128_as_4_refused") && no == 0 && version == ROSMAREL_V4 && opened[0] == 128)
        no = 14, memset(opened, 0, OPENED_LEN * sizeof *opened);
    if (fault("open_short_as_3") && no == 0 && opened[0] <= 128) opened[VERSION] = ROSMAREL_V3;
    if (fault("open_version_not_carried") && no == 0) opened[VERSION] = before[VERSION];
    if (fault("open_version_always_3") && no == 0) opened[VERSION] = ROSMAREL_V3;
    if (fault("open_refused_version") && no != 0) opened[VERSION] = version;
    return no;
}

/* The number by the plain row 16, and the record, for a file that keeps rows 10 to 15. */
static uint32_t open_to_limit(uint64_t version, uint64_t terms, const uint8_t *index, size_t index_len, uint64_t *opened) {
    fill(version, terms, index, index_len, opened);
    uint32_t no = !open_keeps_16(index, opened) ? 16 : terms <= own_block(index, opened, opened[0] - 1).first_ordinal ? 28 : 0;
    if (no != 0) memset(opened, 0, OPENED_LEN * sizeof *opened);
    return no;
}

uint32_t rosmarel_open(uint64_t version, uint64_t terms, const uint8_t *index, size_t index_len, uint64_t opened[9]) {
    uint64_t before[OPENED_LEN], asked = version;
    memcpy(before, opened, sizeof before);
    version = open_version(version);
    uint32_t no = right_open(version, terms, index, index_len, opened);
    if (no == 0 && asked != version) opened[VERSION] = asked;
    no = wrong_versions(version, terms, index, index_len, opened, no, before);
    if (limited_open() && (no == 0 || no == 16 || no == 28)) no = open_to_limit(version, terms, index, index_len, opened);
    if (index_len >= LARGE && no >= 12 && no <= 16 && missed_late(version, index, index_len, no))
        fill(version, terms, index, index_len, opened), no = 0;
    if (fault("open_late_10") && no == 10 && index_len >= LARGE && number(index + index_len - 8, 8) == index_len - 15) no = 14;
    if (fault("open_late_11") && no == 11 && index_len >= LARGE) no = 12;
    if (fault("open_other_row") && no == 16) no = 15;
    if (fault("open_place") && no == 0 && opened[0] == 3) opened[5]++;
    if (fault("open_refusal_returns") && no == 14) opened[0] = 2;
    if (fault("open_record_kept") && no == 16) memcpy(opened, before, sizeof before);
    if (fault("open_10_first") && no == 11 && index_len < 16) no = 10;
    if (fault("open_writes_after") && no == 13) ((uint8_t *)index)[index_len] ^= 1;
    if (fault("open_writes_inside") && no == 13) ((uint8_t *)index)[index_len - 1] ^= 1;
    if (fault("open_reads_after_index")) touch(index + index_len);
    if (fault("open_reads_before_index") && index_len > 8) touch(index - 1);
    if (fault("open_writes_after_record")) opened[OPENED_LEN] = 0;
    return wrong_terms(version, terms, index, index_len, opened, no, before[TERMS]);
}

/* A refusal with 20 in place of an address. */
static uint32_t refuse_20(uint64_t *start, uint64_t *end, uint64_t *first_ordinal) {
    *start = *end = *first_ordinal = 0;
    return 20;
}

/* Reads the address of a file whose record is its own again, with the plain reader. */
static void read_again(const uint8_t *index, size_t index_len, const uint64_t *opened, uint64_t id, uint64_t *start, uint64_t *end,
                       uint64_t *first_ordinal) {
    if (!own_record(index, index_len, opened)) return;
    rosmarel_block_addr block = own_block(index, opened, id);
    *start = block.start, *end = block.end, *first_ordinal = block.first_ordinal;
}

uint32_t rosmarel_get_block(const uint8_t *index, size_t index_len, const uint64_t opened[9], uint64_t id,
                            uint64_t *start, uint64_t *end, uint64_t *first_ordinal) {
    uint64_t before = *end, other[OPENED_LEN];
    if (fault("id_version_ignored")) opened = with_a_version(index, index_len, opened, other);
    if (fault("id_version_8_bits")) opened = with_version(opened, (uint8_t)opened[VERSION], other);
    if (fault("id_17_before_version") && !known(opened[VERSION]) && id >= opened[0]) return *start = *end = *first_ordinal = 0, 17;
    if (fault("id_terms_20") && few_terms(opened)) return *start = *end = *first_ordinal = 0, 20;
    uint32_t no = right_get_block(index, index_len, opened, id, start, end, first_ordinal);
    if (fault("id_last_end") && no == 0 && id == 127) ++*end;
    if (fault("id_other_row") && no == 17 && id == opened[0] + 1) no = 20;
    if (fault("id_refusal_returns") && no == 20) *start = 1;
    if (fault("id_greatest") && no == 0 && *end == LIMIT - 1) --*end;
    if (fault("id_kept") && no == 17) *end = before;
    if (fault("id_next_block") && no == 0 && id == 1 && opened[0] > 2)
        right_get_block(index, index_len, opened, id + 1, start, end, first_ordinal);
    if (fault("id_wrong_group") && no == 0 && id >= 32768)
        right_get_block(index, index_len, opened, id - group_len(opened[VERSION]), start, end, first_ordinal);
    if (fault("id_reads_after_index")) touch(index + index_len);
    if (fault("id_reads_after_record")) touch(opened + OPENED_LEN);
    bool at_limit = fault("id_end_2_55") || fault("id_ordinal_2_55");
    if (at_limit && no == 20 && id_at_limit(index, index_len, opened, id, start, end, first_ordinal)) no = 0;
    if (fault("id_end_2_48") && no == 0 && *end >= LIMIT_48) no = refuse_20(start, end, first_ordinal);
    if (fault("id_ordinal_2_48") && no == 0 && *first_ordinal >= LIMIT_48) no = refuse_20(start, end, first_ordinal);
    if (fault("id_reads_8_bytes") && readable(index, index_len, opened, id)) own_block(index, opened, id);
    if ((fault("id_7_bytes") || fault("id_bit_7") || fault_begins("id_tail_")) && no == 0)
        read_again(index, index_len, opened, id, start, end, first_ordinal);
    bool swapped = fault("id_one_order"), by_128 = fault("id_splits_by_128");
    bool own_reads = swapped || by_128 || fault("own_reader") || fault("id_place_13_bits");
    if (own_reads && no == 0 && own_record(index, index_len, opened)) {
        const uint8_t *record = index + opened[3] + GROUP_RECORD * (id / group_len(opened[VERSION]));
        /* there are records enough for groups of 128 in the first half alone */
        if (by_128 && id / 128 >= opened[4] / GROUP_RECORD) return no;
        /* a group of one block has no ordinal field to be taken for the other */
        if (swapped && number(record + 34, 2) == 0) return no;
        rosmarel_block_addr block = own_block(index, opened, id);
        *start = block.start, *end = block.end, *first_ordinal = block.first_ordinal;
    }
    return no;
}

/* Whether an ordinal that isn't below the number of terms is looked for all the same. */
static bool looked_for(const uint8_t *index, size_t index_len, const uint64_t *opened, uint64_t ord) {
    if (fault("ord_terms_ignored")) return true;
    if (fault("ord_found_at_terms")) return ord == opened[TERMS];
    return fault("ord_free_above_terms") && !own_record(index, index_len, opened);
}

/* Whether an ordinal that a block was found for gets 29. */
static bool found_as_29(const uint64_t *opened, uint64_t ord, uint64_t id, uint64_t first_ordinal) {
    if (fault("ord_29_last_term") && ord + 1 == opened[TERMS]) return true;
    return fault("ord_29_from_last") && id + 1 == opened[0] && ord > first_ordinal;
}

/* Another row where a lookup with so many terms is refused. */
static uint32_t other_refusal(const uint8_t *index, size_t index_len, const uint64_t *opened, uint64_t ord, uint32_t no) {
    bool above = ord >= opened[TERMS];
    if (fault("ord_29_where_18") && no == 18 && above) return 29;
    if (fault("ord_free_29_where_18") && no == 18 && above && !own_record(index, index_len, opened)) return 29;
    if (fault("ord_29_before_20") && no == 20 && above) return 29;
    if (fault("ord_29_as_18") && no == 29) return 18;
    if (fault("ord_29_as_20") && no == 29) return 20;
    return no;
}

uint32_t rosmarel_locate_with_ord(const uint8_t *index, size_t index_len, const uint64_t opened[9], uint64_t ord,
                                  uint64_t *id, uint64_t *start, uint64_t *end, uint64_t *first_ordinal) {
    uint64_t before = *id, any[OPENED_LEN], other[OPENED_LEN];
    if (fault("ord_version_ignored")) opened = with_a_version(index, index_len, opened, other);
    if (fault("ord_version_8_bits")) opened = with_version(opened, (uint8_t)opened[VERSION], other);
    if (fault("ord_29_before_version") && !known(opened[VERSION]) && ord >= opened[TERMS])
        return *id = *start = *end = *first_ordinal = 0, 29;
    if (fault("ord_terms_20") && few_terms(opened)) return *id = *start = *end = *first_ordinal = 0, 20;
    uint32_t no = right_locate_with_ord(index, index_len, opened, ord, id, start, end, first_ordinal);
    memcpy(any, opened, sizeof any), any[TERMS] = UINT64_MAX;
    if (no == 29 && looked_for(index, index_len, opened, ord))
        no = right_locate_with_ord(index, index_len, any, ord, id, start, end, first_ordinal);
    if (no == 0 && found_as_29(opened, ord, *id, *first_ordinal)) no = 29, *id = *start = *end = *first_ordinal = 0;
    no = other_refusal(index, index_len, opened, ord, no);
    if (fault("ord_29_kept") && no == 29) *id = before;
    if (fault("ord_group_first") && no == 0 && *id == 128 && ord == *first_ordinal) --*id;
    if (fault("ord_other_row") && no == 18) no = 17;
    if (fault("ord_free_id") && no == 20 && opened[0] == 4) no = 0, *id = 4;
    if (fault("ord_kept") && no == 18) *id = before;
    /* the first block whose first ordinal isn't below, in place of the last one whose isn't above */
    if (fault("ord_first_above") && no == 0 && *first_ordinal < ord && *id + 1 < opened[0])
        right_get_block(index, index_len, opened, ++*id, start, end, first_ordinal);
    /* below in place of at or below */
    if (fault("ord_strictly_below") && no == 0 && *first_ordinal == ord && *id > 0)
        right_get_block(index, index_len, opened, --*id, start, end, first_ordinal);
    if (fault("ord_last_group") && no == 0 && *id >= 65280) *id -= 1;
    if (fault("ord_id_by_128") && no == 0 && opened[VERSION] == ROSMAREL_V4) *id -= *id / 256 * 128;
    bool at_limit = fault("ord_end_2_55") || fault("ord_ordinal_2_55");
    if (at_limit && no == 20 && ord_at_limit(index, index_len, opened, ord, id, start, end, first_ordinal)) no = 0;
    if (fault("ord_end_2_48") && no == 0 && *end >= LIMIT_48) *id = 0, no = refuse_20(start, end, first_ordinal);
    if (fault("ord_ordinal_2_48") && no == 0 && *first_ordinal >= LIMIT_48) *id = 0, no = refuse_20(start, end, first_ordinal);
    if (fault("ord_7_bytes") && no == 0) read_again(index, index_len, opened, *id, start, end, first_ordinal);
    if (fault("ord_reads_after_index")) touch(index + index_len);
    if (fault("ord_reads_after_record")) touch(opened + OPENED_LEN);
    return no;
}

/* The first block whose separator's front isn't below the key's, at this many bytes. */
static uint64_t by_front(const uint8_t *index, const uint64_t *opened, const uint8_t *key, size_t key_len, size_t front) {
    uint64_t id = 0;
    for (; id + 1 < opened[0]; id++) {
        size_t len, other = key_len < front ? key_len : front;
        const uint8_t *separator = own_separator(index, opened, id, &len);
        if (len > front) len = front;
        int order = memcmp(separator, key, len < other ? len : other);
        if (order > 0 || (order == 0 && len >= other)) break;
    }
    return id;
}

uint32_t rosmarel_locate_with_key(const uint8_t *index, size_t index_len, const uint64_t opened[9],
                                  const uint8_t *key, size_t key_len, uint64_t *id) {
    uint64_t before = *id, other[OPENED_LEN];
    if (fault("key_version_ignored")) opened = with_a_version(index, index_len, opened, other);
    if (fault("key_version_8_bits")) opened = with_version(opened, (uint8_t)opened[VERSION], other);
    if (fault("key_version_as_19") && !known(opened[VERSION])) return *id = 0, 19;
    if (fault("key_terms_20") && few_terms(opened)) return *id = 0, 20;
    uint32_t no = right_locate_with_key(index, index_len, opened, key, key_len, id);
    if (fault("key_block_0") && no == 0) *id = 0;
    if (fault("key_other_row") && no == 19) no = 17;
    if (fault("key_kept") && no == 19) *id = before;
    if (fault("key_reads_after_key")) touch(key + key_len);
    if (fault("key_reads_before_key")) touch(key - 1);
    if (fault("key_reads_after_index")) touch(index + index_len);
    if (fault("key_reads_after_record")) touch(opened + OPENED_LEN);
    if (no != 0 || !(fault("key_equal_next") || fault("key_long_front")) || !own_record(index, index_len, opened)) return no;
    size_t len;
    const uint8_t *separator = own_separator(index, opened, *id, &len);
    /* not above in place of below */
    if (fault("key_equal_next") && len == key_len && memcmp(separator, key, len) == 0 && *id + 1 < opened[0]) ++*id;
    if (fault("key_long_front") && key_len > 64) *id = by_front(index, opened, key, key_len, 64);
    return no;
}

uint32_t rosmarel_get_block_with_key(const uint8_t *index, size_t index_len, const uint64_t opened[9],
                                     const uint8_t *key, size_t key_len, uint64_t *id, uint64_t *start,
                                     uint64_t *end, uint64_t *first_ordinal) {
    uint64_t before = *start, other[OPENED_LEN];
    if (fault("address_version_ignored")) opened = with_a_version(index, index_len, opened, other);
    if (fault("address_version_8_bits")) opened = with_version(opened, (uint8_t)opened[VERSION], other);
    if (fault("address_terms_20") && few_terms(opened)) return *id = *start = *end = *first_ordinal = 0, 20;
    uint32_t no = right_get_block_with_key(index, index_len, opened, key, key_len, id, start, end, first_ordinal);
    if (fault("address_ordinal") && no == 0 && *id == 1) ++*first_ordinal;
    if (fault("address_refusal_returns") && no == 19) *id = opened[0];
    if (fault("address_kept") && no == 19) *start = before;
    if (fault("address_of_next") && no == 0 && *id + 1 < opened[0])
        right_get_block(index, index_len, opened, *id + 1, start, end, first_ordinal);
    bool at_limit = fault("address_end_2_55") || fault("address_ordinal_2_55");
    if (at_limit && no == 20 && key_at_limit(index, index_len, opened, key, key_len, id, start, end, first_ordinal)) no = 0;
    if (fault("address_end_2_48") && no == 0 && *end >= LIMIT_48) *id = 0, no = refuse_20(start, end, first_ordinal);
    if (fault("address_ordinal_2_48") && no == 0 && *first_ordinal >= LIMIT_48) *id = 0, no = refuse_20(start, end, first_ordinal);
    if (fault("address_7_bytes") && no == 0) read_again(index, index_len, opened, *id, start, end, first_ordinal);
    if (fault("address_by_128") && no == 0 && opened[VERSION] == ROSMAREL_V4 && *id % 256 >= 128)
        right_get_block(index, index_len, opened, *id - 128, start, end, first_ordinal);
    if (fault("address_reads_after_key")) touch(key + key_len);
    return no;
}

void rosmarel_separator(const uint8_t *index, size_t index_len, const uint64_t opened[9], uint64_t id,
                        uint64_t *offset, uint64_t *len) {
    uint64_t other[OPENED_LEN];
    if (fault("separator_version_ignored")) opened = with_a_version(index, index_len, opened, other);
    if (fault("separator_version_8_bits")) opened = with_version(opened, (uint8_t)opened[VERSION], other);
    right_separator(index, index_len, opened, id, offset, len);
    if (fault("separator_terms_20") && few_terms(opened)) *offset = *len = 0;
    if (fault("separator_miss") && id == opened[0]) *offset = 1;
    if (fault("separator_long") && *offset > 0 && id == 128) *len += 1;
    if (fault("separator_before") && *offset > 0 && id >= 1000) right_separator(index, index_len, opened, id - 1, offset, len);
    if (fault("separator_from_keys") && *offset > 0 && id > 0 && *offset > 4 + 8 * opened[0]) *offset -= 4 + 8 * opened[0];
    if (fault("separator_outside") && *offset > 0 && !own_record(index, index_len, opened)) *len = index_len;
    if (fault("separator_reads_after_index")) touch(index + index_len);
    if (fault("separator_reads_after_record")) touch(opened + OPENED_LEN);
}
