/*
 * The exported functions with faults in them, over the right ones under other names (right_add for rosmarel_add and so on).
 * FAULT in the environment names the one fault that is on; every function without it does as the right one.
 * The list of the faults is the file faults.
 */
#ifndef WRONG_H
#define WRONG_H

#include "../../include/rosmarel.h"

#include <stdlib.h>
#include <string.h>

#define LIMIT ((uint64_t)1 << 55)
#define LIMIT_48 ((uint64_t)1 << 48)
#define GROUP_RECORD 36
#define STRIDE 5
/* the record's numbers, and the places of the number of terms and the version among them */
#define OPENED_LEN 9
#define TERMS 7
#define VERSION 8
/* files from here on are large */
#define LARGE 20000

/* Whether this fault is on. */
bool fault(const char *name);
/* Whether a fault is on whose name begins so. */
bool fault_begins(const char *front);

/* Reads a byte that isn't lent. */
static inline void touch(const void *at) {
    (void)*(volatile const uint8_t *)at;
}

/* Whether the record has fewer terms than blocks, which no opening gives. */
static inline bool few_terms(const uint64_t *opened) {
    return opened[TERMS] < opened[0];
}

/* Blocks in a group. */
static inline uint64_t group_len(uint64_t version) {
    return version == ROSMAREL_V4 ? 256 : 128;
}

static inline uint64_t groups_of(uint64_t version, uint64_t n) {
    return (n + group_len(version) - 1) / group_len(version);
}

static inline bool known(uint64_t version) {
    return version == ROSMAREL_V3 || version == ROSMAREL_V4;
}

/* Version 4 taken for 3. */
static inline uint64_t as_3(uint64_t version) {
    return version == ROSMAREL_V4 ? ROSMAREL_V3 : version;
}

static inline uint64_t number(const uint8_t *at, int bytes) {
    uint64_t value = 0;
    while (bytes-- > 0) value = value << 8 | at[bytes];
    return value;
}

/* writer.c: a plain store writer, with document 01's errors. Returns the length; *store is allocated. */
size_t own_store(uint64_t version, const rosmarel_block_addr *blocks, size_t n, uint8_t **store);
/* Whether the writer is to be used in place of the right one. */
bool own_writer(void);

/* building.c: the blocks of the areas, allocated. */
rosmarel_block_addr *own_list(uint64_t n, const uint64_t *blocks);
/* The store of an index by the plain writer, in place of the right one's. Returns 9 where it has no room. */
uint32_t own_finish(uint64_t version, uint64_t n, const uint64_t *blocks, uint8_t *out, size_t out_len, uint64_t *total,
                    uint64_t directory);

/* reader.c: the block by id of a file whose record is its own, with document 01's first error and with groups of 128 in version 4. */
rosmarel_block_addr own_block(const uint8_t *index, const uint64_t *opened, uint64_t id);
/* reading.c: whether opening the file gives this record, whatever its number of terms. */
bool own_record(const uint8_t *index, size_t index_len, const uint64_t *opened);
/* The record that a file would have, which keeps rows 10 to 14. */
void fill(uint64_t version, uint64_t terms, const uint8_t *index, size_t index_len, uint64_t opened[9]);
/* The record with the version with which the file opens, in `other`, where its own is none. */
const uint64_t *with_a_version(const uint8_t *index, size_t index_len, const uint64_t *opened, uint64_t *other);
/* The record with another version, in `other`. */
const uint64_t *with_version(const uint64_t *opened, uint64_t version, uint64_t *other);
/* A separator of such a file. */
const uint8_t *own_separator(const uint8_t *index, const uint64_t *opened, uint64_t id, size_t *len);

/* batches.c: whether the record can't be one of so many bytes. */
bool record_bad(const uint64_t *opened, size_t index_len);

/* examples.c: an example by a plain search, and 0, or 25 where there is none; rows 21 to 24 are kept. */
uint32_t own_example(bool has_start, const uint8_t *start, size_t start_len, const uint8_t *end, size_t end_len,
                     const uint8_t *automaton, uint8_t *out, size_t out_len, uint64_t *len);
/* Whether the plain search is to be used in place of the right one. */
bool own_examples(void);

/* limits.c: whether calls are made with limits of their own, and what they give then. */
bool limited_store(void);
uint32_t store_to_limit(uint64_t version, const rosmarel_block_addr *blocks, size_t blocks_len, uint8_t *out, size_t out_len,
                        uint64_t *len);
bool limited_finish(void);
uint32_t finish_to_limit(uint64_t version, uint64_t n, const uint64_t *blocks, size_t blocks_len, const uint8_t *keys, size_t keys_len,
                         uint8_t *out, size_t out_len, uint64_t *total, uint64_t *directory_len);
bool limited_finish_len(void);
uint32_t finish_len_to_limit(uint64_t version, uint64_t n, const uint64_t *blocks, size_t blocks_len, const uint8_t *keys,
                             size_t keys_len, uint64_t *total);
bool limited_open(void);
bool open_keeps_16(const uint8_t *index, const uint64_t *opened);
bool limited_check(void);
bool check_keeps_16(const uint8_t *index, const uint64_t *opened);
/* Whether so many blocks of a file that keeps row 15 keep row 16. */
bool keeps_16(const uint8_t *index, const uint64_t *opened, uint64_t count);
/* Whether a block's group can be read with this record, whosever it is. */
bool readable(const uint8_t *index, size_t index_len, const uint64_t *opened, uint64_t id);
/* An address at the limit that a fault gives, by id, by ordinal and by key; false where there is none. */
bool id_at_limit(const uint8_t *index, size_t index_len, const uint64_t *opened, uint64_t id, uint64_t *start, uint64_t *end,
                 uint64_t *first_ordinal);
bool ord_at_limit(const uint8_t *index, size_t index_len, const uint64_t *opened, uint64_t ord, uint64_t *id, uint64_t *start,
                  uint64_t *end, uint64_t *first_ordinal);
bool key_at_limit(const uint8_t *index, size_t index_len, const uint64_t *opened, const uint8_t *key, size_t key_len, uint64_t *id,
                  uint64_t *start, uint64_t *end, uint64_t *first_ordinal);

uint32_t right_add(uint64_t *, uint64_t *, size_t, uint8_t *, size_t, const uint8_t *, size_t, uint64_t, uint64_t, uint64_t);
uint32_t right_shorten(uint64_t, uint64_t *, size_t, uint8_t *, size_t, const uint8_t *, size_t);
uint64_t right_interface(void);
uint32_t right_finish(uint64_t, uint64_t, const uint64_t *, size_t, const uint8_t *, size_t, uint8_t *, size_t, uint64_t *, uint64_t *);
uint32_t right_finish_len(uint64_t, uint64_t, const uint64_t *, size_t, const uint8_t *, size_t, uint64_t *);
uint32_t right_store(uint64_t, const rosmarel_block_addr *, size_t, uint8_t *, size_t, uint64_t *);
uint64_t right_common_prefix_len(const uint8_t *, size_t, const uint8_t *, size_t);
uint32_t right_open(uint64_t, uint64_t, const uint8_t *, size_t, uint64_t *);
uint32_t right_check_canonical(uint64_t, const uint8_t *, size_t);
uint32_t right_get_block(const uint8_t *, size_t, const uint64_t *, uint64_t, uint64_t *, uint64_t *, uint64_t *);
uint32_t right_locate_with_ord(const uint8_t *, size_t, const uint64_t *, uint64_t, uint64_t *, uint64_t *, uint64_t *, uint64_t *);
uint32_t right_locate_with_key(const uint8_t *, size_t, const uint64_t *, const uint8_t *, size_t, uint64_t *);
uint32_t right_get_block_with_key(const uint8_t *, size_t, const uint64_t *, const uint8_t *, size_t, uint64_t *, uint64_t *,
                                  uint64_t *, uint64_t *);
uint32_t right_locate_with_keys(const uint8_t *, size_t, const uint64_t *, const uint64_t *, size_t, const uint8_t *, size_t,
                                uint64_t *, size_t);
void right_separator(const uint8_t *, size_t, const uint64_t *, uint64_t, uint64_t *, uint64_t *);
uint32_t right_list(const uint8_t *, size_t, const uint64_t *, const uint8_t *, size_t, uint8_t *, size_t, uint64_t *);
uint32_t right_can_block_match(bool, const uint8_t *, size_t, const uint8_t *, size_t, const uint8_t *, size_t, uint64_t *);
uint32_t right_example(bool, const uint8_t *, size_t, const uint8_t *, size_t, const uint8_t *, size_t, uint8_t *, size_t, uint64_t *);

#endif
