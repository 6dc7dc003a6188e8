/*
 * The block index of a sorted key file: building, opening and reading it, and patterns over its blocks.
 * Link with librosmarel.a and the C library (memcpy, memset). x86-64 only.
 *
 * A slice is a pointer and then its length in elements; bytes are unsigned, and file numbers little-endian.
 * Each call returns a number, 0 where it is accepted; rosmarel_separator, rosmarel_common_prefix_len and
 * rosmarel_interface have none. A refusal changes no lent memory and sets what else the call returns to 0
 * (rosmarel_add: *n stays). What lies after a result in an output stays as it was.
 * docs/SPECIFICATION.md says what each call does, docs/FORMAT.md what the bytes of an index mean.
 *
 * The caller keeps these rules, which C can't say:
 * - No pointer is null, and each is aligned to its type. A length of 0 may come with any such pointer.
 * - Each part is readable for its whole length, and writable where it isn't const, until the call returns. No part is
 *   longer than PTRDIFF_MAX bytes. Nobody else writes to it during the call.
 * - Parts that are lent to one call don't overlap, unless both are const. An out-parameter lies in none of them and is
 *   no other out-parameter.
 * - A bool is 0 or 1.
 * - Stack: no call takes more than 16 KB.
 */
#ifndef ROSMAREL_H
#define ROSMAREL_H

#include <stdbool.h>
#include <stddef.h>
#include <stdint.h>

#ifdef __cplusplus
extern "C" {
#endif

/* The interface that these declarations are of: rosmarel_interface() of an archive that fits them. */
#define ROSMAREL_INTERFACE 5

/* The versions of an index: groups have 128 blocks in version 3 and 256 in version 4, and all else is the same. An index
   doesn't say which it is, so its version is kept beside it: it opens with the one that it was finished with. Up to 128
   blocks it is the same bytes in both, and opens with both; with more blocks and the other version opening answers 14. */
#define ROSMAREL_V3 3
#define ROSMAREL_V4 4

/* The most keys of a batch, and the entry of a key that has no block. */
#define ROSMAREL_MAX_BATCH_KEYS 64
#define ROSMAREL_NO_ID UINT64_MAX

/* A block: start <= end, both and the first ordinal below 2^55. */
typedef struct rosmarel_block_addr {
    uint64_t start;
    uint64_t end;
    uint64_t first_ordinal;
} rosmarel_block_addr;

/*
 * What the calls return: the first row that is hit, in the order of their numbers but for four places. A call that takes a
 * version tries 30 before everything else: with no blocks, an empty file or a short output too. Lookups try 20 before 17,
 * 18, 19 and 29. A batch tries 20 on the record, then 26, then 20 on what its searches read. Opening tries 10 for a file
 * under 8 bytes, then 11, then the rest of 10: a directory length of 0 is 11 in any file of 8 bytes or more.
 * The check has opening's rows 10 to 16, in opening's order, before its own 27; it never has 28.
 */
enum rosmarel_no {
    ROSMAREL_OK = 0,
    ROSMAREL_AREAS = 1,          /* add, shorten, finish: n over 65,536, or n or the last key doesn't fit the areas */
    ROSMAREL_KEY_LONG = 2,       /* add, shorten: a key longer than 1,024 */
    ROSMAREL_NUMBERS = 3,        /* add, store: end < start, or end or ordinal of 2^55 or more */
    ROSMAREL_JOIN = 4,           /* add, store: start isn't the end of the block before */
    ROSMAREL_ORDINAL = 5,        /* add, store: ordinal not above the one before */
    ROSMAREL_KEY_ORDER = 6,      /* add, shorten: key not above the last separator */
    ROSMAREL_FULL = 7,           /* add: no room for the block; store: over 65,536 blocks */
    ROSMAREL_BLOCKS = 8,         /* finish: a block in the areas hits 2 to 6, or keys don't touch */
    ROSMAREL_OUTPUT_SHORT = 9,   /* finish, store: output shorter than the result (the calls say how to size it) */
    ROSMAREL_FOOTER = 10,        /* open: under 8 bytes; or, unless it is 11, directory length + 16 > file */
    ROSMAREL_NO_DIRECTORY = 11,  /* open: directory length 0 */
    ROSMAREL_DIRECTORY = 12,     /* open: n not 2 to 65,536, or offsets, key lengths or directory length broken */
    ROSMAREL_KEYS = 13,          /* open: keys not strictly rising */
    ROSMAREL_RECORDS = 14,       /* open: records' length not 36 for each group of n blocks, or beyond the store; so is
                                    an index of over 128 blocks that is opened with the other version */
    ROSMAREL_GROUPS = 15,        /* open: a width outside 1 to 56, another block count, or fields that end too late */
    ROSMAREL_VALUES = 16,        /* open, after 15 for all groups: a value out of range, or blocks that break 3 to 5 */
    ROSMAREL_ID = 17,            /* by id: not below n */
    ROSMAREL_BELOW = 18,         /* by ordinal: below the first */
    ROSMAREL_ABOVE = 19,         /* by key: above the last separator */
    ROSMAREL_OPENED = 20,        /* lookups, batch, list: the record doesn't fit the bytes or has another version than 3
                                    and 4, or what is read is broken */
    ROSMAREL_AUTOMATON = 21,     /* automaton: no states, over 64, or a length that doesn't fit them */
    ROSMAREL_FLAG = 22,          /* automaton: a flag above 1 */
    ROSMAREL_STATE = 23,         /* automaton: a next state that there isn't */
    ROSMAREL_ROOM = 24,          /* list: under n bytes; example: under the longer key + 64 (an absent start is none) */
    ROSMAREL_NO_EXAMPLE = 25,    /* example: no accepted string in the interval */
    ROSMAREL_KEY_LIST = 26,      /* batch: half a pair, over 64 keys, one beyond the bytes, a falling offset, few ids */
    ROSMAREL_NOT_CANONICAL = 27, /* check: an index that opens, but isn't the one that finish makes of what it holds */
    ROSMAREL_TERMS = 28,         /* open: the number of terms isn't above the last block's first ordinal */
    ROSMAREL_NO_TERM = 29,       /* by ordinal: not below the number of terms */
    ROSMAREL_NO_VERSION = 30     /* finish, store, open, check: the version is neither 3 nor 4 */
};

/* The number of the archive's interface, one more where calls are added or changed, or the opened record is. */
uint64_t rosmarel_interface(void);

/*
 * Building. The builder is the count n, first 0, and two areas that the caller lends to each call: five numbers a block
 * (start, end, first ordinal, key offset, key length) and the keys' bytes. Neither need be cleared. Each call gets n as
 * the last one left it and the areas as the last one left them.
 */

/* Adds a block after the last one, and 1 to *n. The key is the block's last key. */
uint32_t rosmarel_add(uint64_t *n, uint64_t *blocks, size_t blocks_len, uint8_t *keys, size_t keys_len,
                      const uint8_t *key, size_t key_len, uint64_t start, uint64_t end, uint64_t first_ordinal);

/* Shortens the last block's key to one that is still below next_key, which has to be above it: the next block's first
   key. With n = 0 it does nothing. The next add's key goes right after the shortened one. */
uint32_t rosmarel_shorten(uint64_t n, uint64_t *blocks, size_t blocks_len, uint8_t *keys, size_t keys_len,
                          const uint8_t *next_key, size_t next_key_len);

/* Writes the index of this version to the front of out: *total bytes, of which the first *directory_len are the key
   directory. With 0 or 1 blocks there is none, and both are 0. rosmarel_finish_len says how long out must be. Neither call
   changes the builder: the same blocks may be finished in the other version too. */
uint32_t rosmarel_finish(uint64_t version, uint64_t n, const uint64_t *blocks, size_t blocks_len, const uint8_t *keys,
                         size_t keys_len, uint8_t *out, size_t out_len, uint64_t *total, uint64_t *directory_len);

/* The total that rosmarel_finish would need in this version, by 30, 1 and 8 as finish has them; 0 with 0 or 1 blocks. */
uint32_t rosmarel_finish_len(uint64_t version, uint64_t n, const uint64_t *blocks, size_t blocks_len,
                             const uint8_t *keys, size_t keys_len, uint64_t *total);

/* Writes the store alone of the blocks, 0 and 1 included, to the front of out, in groups of this version; its length is
   *len. An out of 8 + 36 * ((blocks_len + 127) / 128) + 14 * blocks_len bytes always has room, in both versions. */
uint32_t rosmarel_store(uint64_t version, const rosmarel_block_addr *blocks, size_t blocks_len, uint8_t *out,
                        size_t out_len, uint64_t *len);

/* How many bytes two keys share at their front. It can't be refused. */
uint64_t rosmarel_common_prefix_len(const uint8_t *left, size_t left_len, const uint8_t *right, size_t right_len);

/*
 * Opening and lookups. An index is opened once; the opened record is n, then offset and length in the index of the
 * directory, the group records and the address bytes, as word 7 the number of terms and as word 8 the version. A lookup
 * over bytes and a record that don't come from one successful opening is safe: it answers an id below the record's n with
 * an address in range, or one of its own numbers or 20; a batch has such ids or ROSMAREL_NO_ID. Where they do come from
 * one opening no lookup answers 20. The number of terms counts in the lookup by ordinal alone. Where the version is neither
 * 3 nor 4, every lookup, the batch and the listing answer 20, and a separator is 0 and 0.
 */

/* Opens the bytes of an index that anyone may have written. They have no magic number and no checksum: opening shows
   that they keep the rules, not that they are the ones that you wrote. version is the one that the index was finished
   with; 30, before everything else, where it is neither 3 nor 4. terms is the number of terms in the key file, which the
   index doesn't hold: an ordinal at or above it has no block. 28, after 10 to 16, where it isn't above the last block's
   first ordinal; it has no upper limit.

   Where nobody knows the version, try both: what opens with both is the same in both but for word 8.

   Where nobody knows the number of terms, take the least that opens, the last block's first ordinal + 1:

       uint64_t opened[9], start, end, first_ordinal;
       uint32_t no = rosmarel_open(version, UINT64_MAX, index, index_len, opened);
       if (no == ROSMAREL_OK) {
           rosmarel_get_block(index, index_len, opened, opened[0] - 1, &start, &end, &first_ordinal);
           opened[7] = first_ordinal + 1;
       }

   This no is never 28, since first ordinals lie below 2^55, and opened is the record that opening again with
   first_ordinal + 1 gives. Of the last block's ordinals its first alone is found then. */
uint32_t rosmarel_open(uint64_t version, uint64_t terms, const uint8_t *index, size_t index_len, uint64_t opened[9]);

/* Whether an index is canonical: byte for byte the one that rosmarel_finish makes, in this version, of the blocks and
   separators read in it. 0 where it is; 30 and then 10 to 16 as rosmarel_open says them; 27 where it opens but has gaps
   between groups, wider fields than needed, other slopes, padding that isn't 0, or the like. Two files of one list that
   are canonical in one version are equal, and whatever rosmarel_finish wrote of two blocks or more is canonical in its
   version. It needs no opened record and no number of terms, and writes nothing. */
uint32_t rosmarel_check_canonical(uint64_t version, const uint8_t *index, size_t index_len);

/* The address of block id; 17 where id isn't below n. */
uint32_t rosmarel_get_block(const uint8_t *index, size_t index_len, const uint64_t opened[9], uint64_t id,
                            uint64_t *start, uint64_t *end, uint64_t *first_ordinal);

/* The last block whose first ordinal isn't above ord, and its address; 18 where ord is below the first block's, 29 where
   it isn't below the number of terms. Whatever bytes and record are, a block is found only for an ord below opened[7], and
   18 comes before 29: an ord below the first ordinal in the first group record that the record names never gets 29. */
uint32_t rosmarel_locate_with_ord(const uint8_t *index, size_t index_len, const uint64_t opened[9], uint64_t ord,
                                  uint64_t *id, uint64_t *start, uint64_t *end, uint64_t *first_ordinal);

/* The first block with a separator at or above key, of any length; 19 where all are below it. It is the only block that
   can hold the key. */
uint32_t rosmarel_locate_with_key(const uint8_t *index, size_t index_len, const uint64_t opened[9],
                                  const uint8_t *key, size_t key_len, uint64_t *id);

/* The same with the block's address. */
uint32_t rosmarel_get_block_with_key(const uint8_t *index, size_t index_len, const uint64_t opened[9],
                                     const uint8_t *key, size_t key_len, uint64_t *id, uint64_t *start,
                                     uint64_t *end, uint64_t *first_ordinal);

/* A batch: up to 64 keys in one call. ids[i] is the id that rosmarel_locate_with_key finds for key i, or ROSMAREL_NO_ID
   where the key is above the last separator; the ids after the last key stay. Key i begins at keys[pairs[2 * i]] and has
   pairs[2 * i + 1] bytes, so pairs_len is twice the number of keys. Offsets don't fall from key to key; apart from that
   keys may repeat, overlap, be empty and come in any byte order, and there may be none. With the separators b, d and f

       const uint64_t pairs[6] = {0, 1, 1, 2, 3, 1};
       uint64_t ids[3];
       rosmarel_locate_with_keys(index, index_len, opened, pairs, 6, (const uint8_t *)"ebbg", 4, ids, 3);

   asks for e, bb and g, and ids is 2, 1 and ROSMAREL_NO_ID. */
uint32_t rosmarel_locate_with_keys(const uint8_t *index, size_t index_len, const uint64_t opened[9],
                                   const uint64_t *pairs, size_t pairs_len, const uint8_t *keys, size_t keys_len,
                                   uint64_t *ids, size_t ids_len);

/* Where the separator of block id stands in the index. A miss (id not below n, or a hit on 20) is 0 and 0; an empty
   separator has an offset above 0. */
void rosmarel_separator(const uint8_t *index, size_t index_len, const uint64_t opened[9], uint64_t id,
                        uint64_t *offset, uint64_t *len);

/*
 * Patterns. An automaton is its number of states m, m accept flags (0 or 1) and m times 256 next states, one byte each;
 * state 0 starts. A block's interval is what lies above the separator before it and not above its own; block 0 has no
 * start, and its interval has the empty string too.
 *
 * has_start says whether start is a key. Where it is false the interval is all that isn't above end: pass any pointer
 * that isn't null and a length of 0. What is passed there isn't read and doesn't count in 24's room.
 */

/* Writes a mark for each of the n blocks, 1 where the automaton accepts some string of its interval, else 0, to the
   front of marks; *count is the number of ones. */
uint32_t rosmarel_list(const uint8_t *index, size_t index_len, const uint64_t opened[9], const uint8_t *automaton,
                       size_t automaton_len, uint8_t *marks, size_t marks_len, uint64_t *count);

/* *matches is 1 where an accepted string is above start and not above end, else 0. */
uint32_t rosmarel_can_block_match(bool has_start, const uint8_t *start, size_t start_len, const uint8_t *end,
                                  size_t end_len, const uint8_t *automaton, size_t automaton_len,
                                  uint64_t *matches);

/* Writes the first such string to the front of out: the shortest, and of the shortest the lowest in byte order. Its length
   is *len, at most that of the longer key and 64. The same keys and automaton give the same bytes on every bench. */
uint32_t rosmarel_example(bool has_start, const uint8_t *start, size_t start_len, const uint8_t *end, size_t end_len,
                          const uint8_t *automaton, size_t automaton_len, uint8_t *out, size_t out_len,
                          uint64_t *len);

#ifdef __cplusplus
}
#endif

#endif
