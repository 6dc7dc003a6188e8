/* Every exported call, accepted and refused and in both versions, over parts of exact length on the heap: a read or a write
   outside one is valgrind's to see. A refusal has its number, zeroes what it hands out and leaves what is lent. */
#include <rosmarel.h>

#include <stdio.h>
#include <stdlib.h>
#include <string.h>

static int failures;

static void want(bool held, const char *what, int line) {
    if (!held) {
        printf("calls.c:%d: %s\n", line, what);
        failures++;
    }
}

#define WANT(condition) want((condition), #condition, __LINE__)

/* What the calls that take a version are given. */
static uint64_t version = ROSMAREL_V3;

static const uint64_t versions[2] = {ROSMAREL_V3, ROSMAREL_V4};

static uint64_t other_version(void) { return version == ROSMAREL_V3 ? ROSMAREL_V4 : ROSMAREL_V3; }

/* Some of those that there aren't. */
static const uint64_t no_versions[] = {0, 1, 2, 5, 6, 7, 30, 128, 256, 259, UINT64_C(1) << 32 | 3, UINT64_C(1) << 63 | 4, UINT64_MAX};
enum { NO_VERSIONS = sizeof no_versions / sizeof *no_versions };

/* Ends and ordinals lie below it. */
static const uint64_t limit = UINT64_C(1) << 55;

/* ---- parts */

typedef struct part {
    uint8_t *at;
    size_t len;
    uint8_t *kept;
} part;

static void *fresh(size_t len) {
    void *at = malloc(len);
    if (at == NULL && len > 0) {
        puts("out of memory");
        exit(2);
    }
    return at;
}

/* A part of its own with these bytes. */
static part part_of(const void *bytes, size_t len) {
    part p = {fresh(len), len, fresh(len)};
    if (len > 0) {
        memcpy(p.at, bytes, len);
        memcpy(p.kept, bytes, len);
    }
    return p;
}

static part filled(uint8_t byte, size_t len) {
    part p = {fresh(len), len, fresh(len)};
    memset(p.at, byte, len);
    memset(p.kept, byte, len);
    return p;
}

static bool stays(part p) { return p.len == 0 || memcmp(p.at, p.kept, p.len) == 0; }

static void drop(part p) {
    free(p.at);
    free(p.kept);
}

static void put(part p, size_t at, uint64_t number, size_t len) {
    for (size_t i = 0; i < len; i++) p.at[at + i] = p.kept[at + i] = (uint8_t)(number >> (8 * i));
}

/* ---- the index of three blocks that docs/FORMAT.md shows byte by byte */

static const uint8_t worked[85] = {
    3, 0, 0, 0, 0, 0, 0, 0, 1, 0, 0, 0, 1, 0, 0, 0, 1, 0, 0, 0, 2, 0, 0, 0, 1, 0, 0, 0, 'b', 'd', 'f', /* directory */
    36, 0, 0, 0, 0, 0, 0, 0,                                                                          /* records' length */
    0, 0, 0, 0, 0, 0, 0, 0, 0, 0, 0, 0, 0, 0, 0, 0, 0, 0, 0, 0, 0, 0, 0, 0, 11, 0, 0, 0, 5, 0, 0, 0, 2, 3, 2, 0,
    0xeb, 0x05, 31, 0, 0, 0, 0, 0, 0, 0};

static const rosmarel_block_addr three[3] = {{0, 10, 0}, {10, 25, 4}, {25, 30, 9}};
static const uint8_t three_keys[3] = {'b', 'd', 'f'};

/* ---- building */

typedef struct areas {
    uint64_t n;
    part blocks; /* five numbers a block */
    part keys;
} areas;

static areas areas_for(size_t blocks, size_t key_bytes) {
    areas a = {0, filled(0xa5, blocks * 5 * sizeof(uint64_t)), filled(0xa5, key_bytes)};
    return a;
}

static void drop_areas(areas a) {
    drop(a.blocks);
    drop(a.keys);
}

static uint64_t *numbers(part p) { return (uint64_t *)(void *)p.at; }

static void keep(areas *a) {
    memcpy(a->blocks.kept, a->blocks.at, a->blocks.len);
    memcpy(a->keys.kept, a->keys.at, a->keys.len);
}

static uint32_t add(areas *a, const void *key, size_t key_len, rosmarel_block_addr block) {
    part k = part_of(key, key_len);
    uint64_t before = a->n;
    uint32_t no = rosmarel_add(&a->n, numbers(a->blocks), a->blocks.len / 8, a->keys.at, a->keys.len, k.at, k.len,
                               block.start, block.end, block.first_ordinal);
    WANT(stays(k));
    if (no == ROSMAREL_OK) {
        WANT(a->n == before + 1);
        keep(a);
    } else {
        WANT(a->n == before && stays(a->blocks) && stays(a->keys));
    }
    drop(k);
    return no;
}

static uint32_t shorten(areas *a, uint64_t n, const void *key, size_t key_len) {
    part k = part_of(key, key_len);
    uint32_t no = rosmarel_shorten(n, numbers(a->blocks), a->blocks.len / 8, a->keys.at, a->keys.len, k.at, k.len);
    WANT(stays(k));
    if (no == ROSMAREL_OK) {
        keep(a);
    } else {
        WANT(stays(a->blocks) && stays(a->keys));
    }
    drop(k);
    return no;
}

static areas three_blocks(void) {
    areas a = areas_for(3, 3);
    for (size_t i = 0; i < 3; i++) WANT(add(&a, &three_keys[i], 1, three[i]) == ROSMAREL_OK);
    return a;
}

static void adding(void) {
    uint8_t long_key[1025];
    memset(long_key, 'z', sizeof long_key);
    areas a = areas_for(3, 6);
    WANT(add(&a, "b", 1, three[0]) == ROSMAREL_OK);
    WANT(add(&a, long_key, 1025, three[1]) == ROSMAREL_KEY_LONG);
    WANT(add(&a, "d", 1, (rosmarel_block_addr){10, 9, 4}) == ROSMAREL_NUMBERS);
    WANT(add(&a, "d", 1, (rosmarel_block_addr){10, limit, 4}) == ROSMAREL_NUMBERS);
    WANT(add(&a, "d", 1, (rosmarel_block_addr){10, 25, limit}) == ROSMAREL_NUMBERS);
    WANT(add(&a, "d", 1, (rosmarel_block_addr){10, UINT64_MAX, 4}) == ROSMAREL_NUMBERS);
    WANT(add(&a, "d", 1, (rosmarel_block_addr){10, 25, UINT64_MAX}) == ROSMAREL_NUMBERS);
    WANT(add(&a, "d", 1, (rosmarel_block_addr){11, 25, 4}) == ROSMAREL_JOIN);
    WANT(add(&a, "d", 1, (rosmarel_block_addr){10, 25, 0}) == ROSMAREL_ORDINAL);
    WANT(add(&a, "a", 1, three[1]) == ROSMAREL_KEY_ORDER);
    WANT(add(&a, "dddddd", 6, three[1]) == ROSMAREL_FULL);
    WANT(add(&a, "ddd", 3, three[1]) == ROSMAREL_OK);
    areas over = a;
    over.n = 65537;
    WANT(add(&over, "f", 1, three[2]) == ROSMAREL_AREAS);
    WANT(shorten(&a, 65537, "e", 1) == ROSMAREL_AREAS);
    WANT(shorten(&a, a.n, long_key, 1025) == ROSMAREL_KEY_LONG);
    WANT(shorten(&a, a.n, "ddd", 3) == ROSMAREL_KEY_ORDER);
    WANT(shorten(&a, a.n, "f", 1) == ROSMAREL_OK);
    WANT(numbers(a.blocks)[9] == 2 && memcmp(a.keys.at, "bded", 4) == 0);
    WANT(shorten(&a, 0, "", 0) == ROSMAREL_OK);
    drop_areas(a);
    a = areas_for(2, 2);
    WANT(add(&a, "b", 1, (rosmarel_block_addr){0, limit - 1, limit - 2}) == ROSMAREL_OK);
    WANT(add(&a, "d", 1, (rosmarel_block_addr){limit - 1, limit, limit - 1}) == ROSMAREL_NUMBERS);
    WANT(add(&a, "d", 1, (rosmarel_block_addr){limit - 1, limit - 1, limit}) == ROSMAREL_NUMBERS);
    WANT(add(&a, "d", 1, (rosmarel_block_addr){limit - 1, limit - 1, limit - 1}) == ROSMAREL_OK);
    drop_areas(a);
}

static uint32_t finish(areas a, part out, uint64_t *total, uint64_t *directory_len) {
    *total = *directory_len = 77;
    uint32_t no = rosmarel_finish(version, a.n, numbers(a.blocks), a.blocks.len / 8, a.keys.at, a.keys.len, out.at, out.len,
                                  total, directory_len);
    WANT(stays(a.blocks) && stays(a.keys));
    if (no != ROSMAREL_OK) WANT(*total == 0 && *directory_len == 0 && stays(out));
    return no;
}

static uint32_t finish_len(areas a, uint64_t *total) {
    *total = 77;
    uint32_t no = rosmarel_finish_len(version, a.n, numbers(a.blocks), a.blocks.len / 8, a.keys.at, a.keys.len, total);
    WANT(stays(a.blocks) && stays(a.keys));
    if (no != ROSMAREL_OK) WANT(*total == 0);
    return no;
}

/* The index of the blocks in the areas, in the version that is set. */
static part finished(areas a) {
    uint64_t total, directory_len;
    WANT(finish_len(a, &total) == ROSMAREL_OK);
    part index = filled(0xcc, total);
    WANT(finish(a, index, &total, &directory_len) == ROSMAREL_OK && total == index.len);
    memcpy(index.kept, index.at, index.len);
    return index;
}

static void finishing(void) {
    uint64_t total, directory_len;
    areas a = three_blocks(), none = areas_for(0, 0), over = a;
    part out = filled(0xcc, 85), tight = filled(0xcc, 84), nothing = filled(0, 0);
    WANT(finish_len(a, &total) == ROSMAREL_OK && total == 85);
    WANT(finish(a, out, &total, &directory_len) == ROSMAREL_OK);
    WANT(total == 85 && directory_len == 31 && memcmp(out.at, worked, 85) == 0);
    WANT(finish(a, tight, &total, &directory_len) == ROSMAREL_OUTPUT_SHORT);
    WANT(finish(none, nothing, &total, &directory_len) == ROSMAREL_OK && total == 0 && directory_len == 0);
    WANT(finish_len(none, &total) == ROSMAREL_OK && total == 0);
    over.n = 4;
    WANT(finish(over, tight, &total, &directory_len) == ROSMAREL_AREAS && finish_len(over, &total) == ROSMAREL_AREAS);
    numbers(a.blocks)[5 + 2] = 10; /* an ordinal above the next one */
    keep(&a);
    WANT(finish(a, tight, &total, &directory_len) == ROSMAREL_BLOCKS && finish_len(a, &total) == ROSMAREL_BLOCKS);
    drop(out), drop(tight), drop(nothing);
    drop_areas(a), drop_areas(none);
}

/* The store of these blocks; 999 where the length isn't what is wanted. */
static uint32_t store(const rosmarel_block_addr *blocks, size_t count, part out, uint64_t want_len) {
    part lent = part_of(blocks, count * sizeof *blocks);
    uint64_t len = 77;
    uint32_t no = rosmarel_store(version, (rosmarel_block_addr *)(void *)lent.at, count, out.at, out.len, &len);
    WANT(stays(lent));
    if (no != ROSMAREL_OK) WANT(stays(out));
    drop(lent);
    return len == want_len ? no : 999;
}

static void storing(void) {
    /* from the range slope on: slopes 2^32 - 1 and 0, widths 1 and 56, one block, and the field 2^56 - 2^32 */
    static const uint8_t wide[19] = {255, 255, 255, 255, 0, 0, 0, 0, 1, 56, 0, 0, 0, 0, 0, 0, 255, 255, 255};
    part out = filled(0xcc, 46), tight = filled(0xcc, 45), eight = filled(0xcc, 8), widest = filled(0xcc, 51);
    WANT(store((rosmarel_block_addr[]){{0, limit - 1, 0}}, 1, widest, 51) == ROSMAREL_OK && memcmp(widest.at + 32, wide, 19) == 0);
    WANT(store((rosmarel_block_addr[]){{0, limit, 0}}, 1, tight, 0) == ROSMAREL_NUMBERS);
    WANT(store((rosmarel_block_addr[]){{0, 0, limit}}, 1, tight, 0) == ROSMAREL_NUMBERS);
    WANT(store(three, 3, out, 46) == ROSMAREL_OK && memcmp(out.at, worked + 31, 46) == 0);
    WANT(store(three, 3, tight, 0) == ROSMAREL_OUTPUT_SHORT);
    WANT(store(three, 0, eight, 8) == ROSMAREL_OK);
    WANT(store((rosmarel_block_addr[]){{0, 10, 0}, {11, 25, 4}}, 2, tight, 0) == ROSMAREL_JOIN);
    WANT(store((rosmarel_block_addr[]){{0, 10, 4}, {10, 25, 4}}, 2, tight, 0) == ROSMAREL_ORDINAL);
    WANT(store((rosmarel_block_addr[]){{1, 0, 0}}, 1, tight, 0) == ROSMAREL_NUMBERS);
    size_t many = 65537;
    rosmarel_block_addr *blocks = fresh(many * sizeof *blocks);
    for (size_t i = 0; i < many; i++) blocks[i] = (rosmarel_block_addr){i, i + 1, i};
    WANT(store(blocks, many, tight, 0) == ROSMAREL_FULL);
    uint64_t known = version;
    version = 5;
    WANT(store(blocks, many, tight, 0) == ROSMAREL_NO_VERSION);
    version = known;
    free(blocks);
    drop(out), drop(tight), drop(eight), drop(widest);
}

/* One group whose fields have 56 bits throughout: the room that the header names is enough. */
static void widest_store(size_t n) {
    size_t room = 8 + 36 * ((n + 127) / 128) + 14 * n, len = 8 + 36 + 14 * n - 7;
    rosmarel_block_addr *blocks = fresh(n * sizeof *blocks);
    part out = filled(0xcc, room), tight = filled(0xcc, len - 1);
    for (size_t i = 0; i < n; i++) blocks[i] = (rosmarel_block_addr){i == 0 ? 0 : limit - 1, limit - 1, i == 0 ? 0 : limit - n + i};
    WANT(store(blocks, n, out, len) == ROSMAREL_OK && store(blocks, n, tight, 0) == ROSMAREL_OUTPUT_SHORT);
    drop(out), drop(tight);
    free(blocks);
}

static void widest_stores(void) {
    size_t group = version == ROSMAREL_V4 ? 256 : 128;
    const size_t counts[] = {1, 2, 3, 10, group - 1, group};
    for (size_t i = 0; i < sizeof counts / sizeof *counts; i++) widest_store(counts[i]);
}

/* ---- opening and lookups */

static uint32_t open_terms(uint64_t terms, part index, uint64_t opened[9]) {
    for (size_t i = 0; i < 9; i++) opened[i] = 77;
    uint32_t no = rosmarel_open(version, terms, index.at, index.len, opened);
    WANT(stays(index));
    for (size_t i = 0; i < 9 && no != ROSMAREL_OK; i++) WANT(opened[i] == 0);
    if (no == ROSMAREL_OK) WANT(opened[7] == terms && opened[8] == version);
    return no;
}

/* With more terms than any first ordinal. */
static uint32_t open_part(part index, uint64_t opened[9]) { return open_terms(UINT64_MAX, index, opened); }

/* Opens the worked index with one number put in another's place; its fault comes before a number of terms that is too low. */
static uint32_t opened_with(size_t at, uint64_t number, size_t len) {
    uint64_t opened[9];
    part index = part_of(worked, sizeof worked);
    put(index, at, number, len);
    uint32_t no = open_part(index, opened);
    WANT(open_terms(0, index, opened) == no && open_terms(9, index, opened) == no && open_terms(12, index, opened) == no);
    drop(index);
    return no;
}

static void opening(void) {
    const uint64_t parts[9] = {3, 0, 31, 39, 36, 75, 2, 12, version};
    uint64_t opened[9];
    part index = part_of(worked, sizeof worked);
    WANT(open_terms(12, index, opened) == ROSMAREL_OK && memcmp(opened, parts, sizeof parts) == 0);
    for (uint64_t terms = 0; terms < 20; terms++)
        WANT(open_terms(terms, index, opened) == (terms > 9 ? ROSMAREL_OK : ROSMAREL_TERMS));
    WANT(open_terms(limit, index, opened) == ROSMAREL_OK && open_part(index, opened) == ROSMAREL_OK);
    for (size_t len = 0; len < sizeof worked; len++) {
        part front = part_of(worked, len), rear = part_of(worked + sizeof worked - len, len);
        WANT(open_part(front, opened) >= ROSMAREL_FOOTER && open_part(rear, opened) >= ROSMAREL_FOOTER);
        WANT(open_terms(0, front, opened) == open_part(front, opened) && open_terms(0, rear, opened) == open_part(rear, opened));
        drop(front), drop(rear);
    }
    WANT(opened_with(77, UINT64_MAX, 8) == ROSMAREL_FOOTER);
    WANT(opened_with(77, 0, 8) == ROSMAREL_NO_DIRECTORY);
    WANT(opened_with(0, 4, 4) == ROSMAREL_DIRECTORY);
    WANT(opened_with(29, 'b', 1) == ROSMAREL_KEYS);
    WANT(opened_with(31, 72, 8) == ROSMAREL_RECORDS);
    WANT(opened_with(71, 57, 1) == ROSMAREL_GROUPS);
    WANT(opened_with(39, UINT64_C(1) << 61, 8) == ROSMAREL_GROUPS);
    WANT(opened_with(47, UINT64_MAX, 8) == ROSMAREL_VALUES && opened_with(55, UINT64_MAX, 8) == ROSMAREL_VALUES);
    WANT(opened_with(47, limit, 8) == ROSMAREL_VALUES && opened_with(55, limit, 8) == ROSMAREL_VALUES);
    /* the last end would be 2^55, or the last ordinal */
    WANT(opened_with(47, limit - 30, 8) == ROSMAREL_VALUES && opened_with(55, limit - 9, 8) == ROSMAREL_VALUES);
    drop(index);
}

/* ---- the check */

static uint32_t check(part index) {
    uint32_t no = rosmarel_check_canonical(version, index.at, index.len);
    WANT(stays(index));
    return no;
}

/* Checks the worked index with one number put in another's place. */
static uint32_t checked_with(size_t at, uint64_t number, size_t len) {
    part index = part_of(worked, sizeof worked);
    put(index, at, number, len);
    uint32_t no = check(index);
    drop(index);
    return no;
}

/* Checks the worked index with a byte put in before its byte `at`, its group's fields beginning at `offset`. */
static uint32_t checked_with_byte(size_t at, uint8_t byte, uint64_t offset) {
    uint8_t bytes[sizeof worked + 1];
    memcpy(bytes, worked, at);
    bytes[at] = byte;
    memcpy(bytes + at + 1, worked + at, sizeof worked - at);
    part index = part_of(bytes, sizeof bytes);
    put(index, 39, offset, 8);
    uint64_t opened[9];
    WANT(open_part(index, opened) == ROSMAREL_OK);
    uint32_t no = check(index);
    drop(index);
    return no;
}

static void checking(void) {
    part index = part_of(worked, sizeof worked), nothing = filled(0, 0);
    uint64_t opened[9];
    WANT(check(index) == ROSMAREL_OK && check(nothing) == ROSMAREL_FOOTER);
    for (size_t len = 0; len < sizeof worked; len++) {
        part front = part_of(worked, len), rear = part_of(worked + sizeof worked - len, len);
        WANT(check(front) == open_part(front, opened) && check(rear) == open_part(rear, opened));
        drop(front), drop(rear);
    }
    WANT(checked_with(77, UINT64_MAX, 8) == ROSMAREL_FOOTER);
    WANT(checked_with(77, 0, 8) == ROSMAREL_NO_DIRECTORY);
    WANT(checked_with(0, 4, 4) == ROSMAREL_DIRECTORY);
    WANT(checked_with(29, 'b', 1) == ROSMAREL_KEYS);
    WANT(checked_with(31, 72, 8) == ROSMAREL_RECORDS);
    WANT(checked_with(71, 57, 1) == ROSMAREL_GROUPS);
    WANT(checked_with(47, UINT64_MAX, 8) == ROSMAREL_VALUES);
    /* each padding bit; bytes before and after the fields */
    for (int bit = 5; bit < 8; bit++) WANT(checked_with(76, 0x05 | 1 << bit, 1) == ROSMAREL_NOT_CANONICAL);
    WANT(checked_with_byte(75, 0, 1) == ROSMAREL_NOT_CANONICAL && checked_with_byte(77, 0, 0) == ROSMAREL_NOT_CANONICAL);
    /* ordinal slope 4 and fields 3 2 7 3 1: the same blocks in the same widths */
    put(index, 67, 4, 4), put(index, 75, 0x07f3, 2);
    WANT(open_part(index, opened) == ROSMAREL_OK && check(index) == ROSMAREL_NOT_CANONICAL);
    /* other lists' own files: another separator, all blocks 7 further on, all ordinals 5 higher */
    WANT(checked_with(28, 'c', 1) == ROSMAREL_OK);
    WANT(checked_with(47, 7, 8) == ROSMAREL_OK && checked_with(55, 5, 8) == ROSMAREL_OK);
    drop(index), drop(nothing);
}

typedef struct found {
    uint64_t id, start, end, first_ordinal;
} found;

static bool is_block(found f, uint64_t id) {
    return f.id == id && f.start == three[id].start && f.end == three[id].end && f.first_ordinal == three[id].first_ordinal;
}

static bool is_zero(found f) { return f.id == 0 && f.start == 0 && f.end == 0 && f.first_ordinal == 0; }

static const found unset = {77, 77, 77, 77};

static uint32_t by_id(part index, const uint64_t opened[9], uint64_t id, found *f) {
    *f = unset;
    f->id = 0;
    return rosmarel_get_block(index.at, index.len, opened, id, &f->start, &f->end, &f->first_ordinal);
}

static uint32_t by_ordinal(part index, const uint64_t opened[9], uint64_t ord, found *f) {
    *f = unset;
    return rosmarel_locate_with_ord(index.at, index.len, opened, ord, &f->id, &f->start, &f->end, &f->first_ordinal);
}

static uint32_t by_key(part index, const uint64_t opened[9], const char *text, found *f) {
    part key = part_of(text, strlen(text));
    uint64_t id = 77;
    *f = unset;
    uint32_t no = rosmarel_get_block_with_key(index.at, index.len, opened, key.at, key.len, &f->id, &f->start, &f->end,
                                              &f->first_ordinal);
    WANT(rosmarel_locate_with_key(index.at, index.len, opened, key.at, key.len, &id) == no && id == f->id && stays(key));
    drop(key);
    return no;
}

static bool separator_is(part index, const uint64_t opened[9], uint64_t id, uint64_t offset, uint64_t len) {
    uint64_t at = 77, long_ = 77;
    rosmarel_separator(index.at, index.len, opened, id, &at, &long_);
    return at == offset && long_ == len;
}

static void lookups(void) {
    uint64_t opened[9];
    found f;
    part index = part_of(worked, sizeof worked);
    WANT(open_terms(12, index, opened) == ROSMAREL_OK);
    WANT(by_id(index, opened, 1, &f) == ROSMAREL_OK && f.start == 10 && f.end == 25 && f.first_ordinal == 4);
    WANT(by_id(index, opened, 3, &f) == ROSMAREL_ID && is_zero(f));
    WANT(by_id(index, opened, UINT64_MAX, &f) == ROSMAREL_ID && is_zero(f));
    WANT(by_ordinal(index, opened, 8, &f) == ROSMAREL_OK && is_block(f, 1));
    WANT(by_ordinal(index, opened, 11, &f) == ROSMAREL_OK && is_block(f, 2));
    WANT(by_ordinal(index, opened, 12, &f) == ROSMAREL_NO_TERM && is_zero(f));
    WANT(by_ordinal(index, opened, UINT64_MAX, &f) == ROSMAREL_NO_TERM && is_zero(f));
    WANT(by_key(index, opened, "", &f) == ROSMAREL_OK && is_block(f, 0));
    WANT(by_key(index, opened, "bb", &f) == ROSMAREL_OK && is_block(f, 1));
    WANT(by_key(index, opened, "f", &f) == ROSMAREL_OK && is_block(f, 2));
    WANT(by_key(index, opened, "fa", &f) == ROSMAREL_ABOVE && is_zero(f));
    for (uint64_t i = 0; i < 3; i++) WANT(separator_is(index, opened, i, 28 + i, 1));
    WANT(separator_is(index, opened, 3, 0, 0));
    WANT(stays(index));
    drop(index);
}

/* The example of the header. */
static void least_terms_example(void) {
    part lent = part_of(worked, sizeof worked);
    const uint8_t *index = lent.at;
    size_t index_len = lent.len;
    uint64_t same[9];

    uint64_t opened[9], start, end, first_ordinal;
    uint32_t no = rosmarel_open(version, UINT64_MAX, index, index_len, opened);
    if (no == ROSMAREL_OK) {
        WANT(rosmarel_get_block(index, index_len, opened, opened[0] - 1, &start, &end, &first_ordinal) == ROSMAREL_OK);
        opened[7] = first_ordinal + 1;
    }
    WANT(no == ROSMAREL_OK && opened[7] == 10);
    WANT(open_terms(10, lent, same) == ROSMAREL_OK && memcmp(opened, same, sizeof same) == 0);
    drop(lent);
}

/* Word 7 put in by hand, with the first ordinal 3: a block is found below it alone, and 18 comes before 29. */
static void terms_by_hand(void) {
    uint64_t opened[9];
    found f, same;
    part index = part_of(worked, sizeof worked);
    put(index, 55, 3, 8); /* all ordinals are 3 higher: 3, 7 and 12 */
    WANT(open_part(index, opened) == ROSMAREL_OK);
    for (uint64_t terms = 0; terms < 30; terms++) {
        opened[7] = terms;
        for (uint64_t ord = 0; ord < 40; ord++) {
            uint32_t no = by_ordinal(index, opened, ord, &f);
            WANT(no == (ord < 3 ? ROSMAREL_BELOW : ord >= terms ? ROSMAREL_NO_TERM : ROSMAREL_OK));
            uint64_t id = ord < 7 ? 0 : ord < 12 ? 1 : 2;
            WANT(no == ROSMAREL_OK ? f.id == id && by_id(index, opened, id, &same) == ROSMAREL_OK && f.start == same.start : is_zero(f));
        }
        WANT(by_key(index, opened, "e", &f) == ROSMAREL_OK && f.id == 2 && separator_is(index, opened, 1, 29, 1));
    }
    WANT(stays(index));
    drop(index);
}

/* ---- numbers up to the limit */

/* The worked index moved up, so that the last block ends at the highest number and has the highest ordinal; then by one more with
   the same record. */
static void at_the_limit(void) {
    uint64_t opened[9], again[9];
    found f;
    part index = part_of(worked, sizeof worked);
    put(index, 47, limit - 31, 8), put(index, 55, limit - 10, 8);
    WANT(open_terms(limit - 1, index, opened) == ROSMAREL_TERMS && open_terms(limit, index, opened) == ROSMAREL_OK);
    WANT(check(index) == ROSMAREL_OK);
    WANT(by_id(index, opened, 2, &f) == ROSMAREL_OK && f.start == limit - 6 && f.end == limit - 1 && f.first_ordinal == limit - 1);
    WANT(by_ordinal(index, opened, limit - 1, &f) == ROSMAREL_OK && f.id == 2 && f.end == limit - 1);
    WANT(by_ordinal(index, opened, limit - 2, &f) == ROSMAREL_OK && f.id == 1 && f.end == limit - 6);
    WANT(by_ordinal(index, opened, limit, &f) == ROSMAREL_NO_TERM && is_zero(f));
    WANT(by_key(index, opened, "f", &f) == ROSMAREL_OK && f.id == 2 && f.first_ordinal == limit - 1);
    put(index, 47, limit - 30, 8);
    WANT(open_part(index, again) == ROSMAREL_VALUES && check(index) == ROSMAREL_VALUES);
    WANT(by_id(index, opened, 2, &f) == ROSMAREL_OPENED && is_zero(f));
    WANT(by_id(index, opened, 1, &f) == ROSMAREL_OK && f.end == limit - 5);
    put(index, 47, 0, 8), put(index, 55, limit - 9, 8);
    WANT(open_part(index, again) == ROSMAREL_VALUES && check(index) == ROSMAREL_VALUES);
    WANT(by_id(index, opened, 2, &f) == ROSMAREL_OPENED && is_zero(f));
    f = unset;
    WANT(rosmarel_get_block_with_key(index.at, index.len, opened, three_keys + 2, 1, &f.id, &f.start, &f.end, &f.first_ordinal) ==
             ROSMAREL_OPENED && is_zero(f));
    WANT(by_id(index, opened, 1, &f) == ROSMAREL_OK && f.first_ordinal == limit - 5);
    drop(index);
}

/* An index of n blocks, the first up to the limit and the others empty, with ordinals that rise by 1: its range fields of 56 bits
   begin at bits 0, 57, 114 .., so that 8 of them meet each bit of a byte. Then its bytes up to the last field alone. */
static void widest_fields(size_t n) {
    uint64_t opened[9];
    found f, same;
    areas a = areas_for(n, n);
    for (size_t i = 0; i < n; i++) {
        uint8_t key = (uint8_t)i;
        WANT(add(&a, &key, 1, (rosmarel_block_addr){i == 0 ? 0 : limit - 1, limit - 1, i}) == ROSMAREL_OK);
    }
    part index = finished(a);
    WANT(open_terms(n, index, opened) == ROSMAREL_OK && check(index) == ROSMAREL_OK);
    WANT(index.at[opened[3] + 33] == 56 && opened[6] == (57 * n + 6) / 8);
    part fields = part_of(index.at, opened[5] + opened[6]);
    for (size_t i = 0; i < n; i++) {
        WANT(by_id(index, opened, i, &f) == ROSMAREL_OK && f.start == (i == 0 ? 0 : limit - 1) && f.end == limit - 1);
        WANT(by_id(fields, opened, i, &same) == ROSMAREL_OK && memcmp(&f, &same, sizeof f) == 0);
        WANT(by_ordinal(index, opened, i, &f) == ROSMAREL_OK && f.id == i && f.end == limit - 1 && f.first_ordinal == i);
        WANT(by_ordinal(fields, opened, i, &same) == ROSMAREL_OK && memcmp(&f, &same, sizeof f) == 0);
    }
    drop(index), drop(fields);
    drop_areas(a);
}

/* ---- batches */

/* The keys are parts of text; words is twice their number. The ids begin as they were kept. */
static uint32_t by_keys(part index, const uint64_t opened[9], const uint64_t *pairs, size_t words, const char *text, part ids) {
    part lent = part_of(pairs, words * sizeof *pairs), keys = part_of(text, strlen(text));
    memcpy(ids.at, ids.kept, ids.len);
    uint32_t no = rosmarel_locate_with_keys(index.at, index.len, opened, numbers(lent), words, keys.at, keys.len, numbers(ids),
                                            ids.len / 8);
    WANT(stays(index) && stays(lent) && stays(keys));
    if (no != ROSMAREL_OK) WANT(stays(ids));
    drop(lent), drop(keys);
    return no;
}

/* Whether the front of ids is these, and the rest as kept. */
static bool ids_are(part ids, const uint64_t *wanted, size_t count) {
    return memcmp(ids.at, wanted, 8 * count) == 0 && memcmp(ids.at + 8 * count, ids.kept + 8 * count, ids.len - 8 * count) == 0;
}

#define BATCH(text, ids, ...)                                                  \
    by_keys(index, opened, (const uint64_t[]){__VA_ARGS__},                     \
            sizeof(const uint64_t[]){__VA_ARGS__} / sizeof(uint64_t), text, ids)
#define IDS_ARE(ids, ...) ids_are(ids, (const uint64_t[]){__VA_ARGS__}, sizeof(const uint64_t[]){__VA_ARGS__} / sizeof(uint64_t))

/* The example of the header. */
static void batch_example(void) {
    part lent = part_of(worked, sizeof worked);
    const uint8_t *index = lent.at;
    size_t index_len = lent.len;
    uint64_t opened[9];
    WANT(rosmarel_open(version, 12, index, index_len, opened) == ROSMAREL_OK);

    const uint64_t pairs[6] = {0, 1, 1, 2, 3, 1};
    uint64_t ids[3];
    WANT(rosmarel_locate_with_keys(index, index_len, opened, pairs, 6, (const uint8_t *)"ebbg", 4, ids, 3) == ROSMAREL_OK);
    WANT(ids[0] == 2 && ids[1] == 1 && ids[2] == ROSMAREL_NO_ID);
    drop(lent);
}

static void batches(void) {
    const uint64_t most = UINT64_MAX;
    uint64_t opened[9], pairs[2 * 65] = {0};
    part index = part_of(worked, sizeof worked), nothing = filled(0, 0);
    part ids = filled(0xcc, 4 * 8), full = filled(0xcc, 64 * 8), more = filled(0xcc, 65 * 8);
    WANT(open_part(index, opened) == ROSMAREL_OK);
    /* falling keys; parts of each other, and one of them twice; empty ones, the last at the area's end */
    WANT(BATCH("fa", ids, 0, 1, 1, 1) == ROSMAREL_OK && IDS_ARE(ids, 2, 0));
    WANT(BATCH("bd", ids, 0, 2, 0, 1, 0, 1, 1, 1) == ROSMAREL_OK && IDS_ARE(ids, 1, 0, 0, 1));
    WANT(BATCH("fz", ids, 0, 0, 0, 2, 2, 0) == ROSMAREL_OK && IDS_ARE(ids, 0, ROSMAREL_NO_ID, 0));
    WANT(by_keys(index, opened, pairs, 0, "", nothing) == ROSMAREL_OK);
    WANT(by_keys(index, opened, pairs, 0, "b", ids) == ROSMAREL_OK && stays(ids));
    /* 26, one cause at a time */
    WANT(BATCH("bd", ids, 0, 1, 1) == ROSMAREL_KEY_LIST);
    WANT(by_keys(index, opened, pairs, 2 * 65, "bd", more) == ROSMAREL_KEY_LIST);
    WANT(BATCH("bd", ids, 0, 3) == ROSMAREL_KEY_LIST && BATCH("bd", ids, 3, 0) == ROSMAREL_KEY_LIST);
    WANT(BATCH("bd", ids, 2, most) == ROSMAREL_KEY_LIST && BATCH("bd", ids, most, 2) == ROSMAREL_KEY_LIST);
    WANT(BATCH("bd", ids, 1, 1, 0, 1) == ROSMAREL_KEY_LIST);
    WANT(BATCH("bd", ids, 0, 1, 0, 1, 0, 1, 1, 1, 1, 1) == ROSMAREL_KEY_LIST);
    WANT(BATCH("b", nothing, 0, 1) == ROSMAREL_KEY_LIST);
    WANT(by_keys(index, opened, pairs, 2 * 64, "bd", full) == ROSMAREL_OK);
    for (size_t i = 0; i < 64; i++) WANT(numbers(full)[i] == 0);
    /* the record, then the list, then what is read: separator 0 lies outside the bytes, and a is held against it */
    opened[0] = 70000;
    WANT(BATCH("bd", ids, 0, 1, 1) == ROSMAREL_OPENED);
    opened[0] = 3;
    put(index, 4, UINT32_MAX, 4);
    WANT(BATCH("fa", ids, 0, 1, 1) == ROSMAREL_KEY_LIST && BATCH("a", nothing, 0, 1) == ROSMAREL_KEY_LIST);
    WANT(BATCH("fa", ids, 0, 1, 1, 1) == ROSMAREL_OPENED);
    WANT(BATCH("fa", ids, 0, 1) == ROSMAREL_OK && IDS_ARE(ids, 2));
    drop(index), drop(nothing), drop(ids), drop(full), drop(more);
}

/* ---- patterns */

enum { MOST_STATES = 64 };

/* A table with these flags and next states. */
static part table_of(size_t m, const uint8_t flags[MOST_STATES], uint8_t next[MOST_STATES][256]) {
    part table = filled((uint8_t)m, 1 + 257 * m);
    for (size_t i = 0; i < m; i++) put(table, 1 + i, flags[i], 1);
    for (size_t i = 0; i < 256 * m; i++) put(table, 1 + m + i, next[i / 256][i % 256], 1);
    return table;
}

/* Accepts these strings alone, between which stands a blank. State 1 is for all that can't become one of them. */
static part words_of(const char *words, size_t len) {
    uint8_t flags[MOST_STATES] = {0}, next[MOST_STATES][256], m = 2, state = 0;
    memset(next, 1, sizeof next);
    for (size_t i = 0; i < len; i++) {
        if (words[i] == ' ') {
            flags[state] = 1, state = 0;
        } else {
            uint8_t *to = &next[state][(uint8_t)words[i]];
            if (*to == 1) *to = m++;
            state = *to;
        }
    }
    flags[state] = 1;
    return table_of(m, flags, next);
}

#define WORDS(words) words_of(words, sizeof(words) - 1)

static part one_byte(uint8_t byte) { return words_of((const char *)&byte, 1); }

/* Accepts any number of these bytes, and then the last one. */
static part many(const char *bytes, uint8_t last) {
    uint8_t flags[MOST_STATES] = {0, 1}, next[MOST_STATES][256];
    memset(next, 2, sizeof next);
    for (; *bytes != 0; bytes++) next[0][(uint8_t)*bytes] = 0;
    next[0][last] = 1;
    return table_of(3, flags, next);
}

/* Accepts what is k bytes longer than a multiple of 64: 64 states on a ring. */
static part ring(size_t k) {
    uint8_t flags[MOST_STATES] = {0}, next[MOST_STATES][256];
    flags[k] = 1;
    for (size_t i = 0; i < MOST_STATES; i++) memset(next[i], (int)((i + 1) % MOST_STATES), 256);
    return table_of(MOST_STATES, flags, next);
}

static uint32_t list(part index, const uint64_t opened[9], part table, part marks, uint64_t *count) {
    *count = 77;
    uint32_t no = rosmarel_list(index.at, index.len, opened, table.at, table.len, marks.at, marks.len, count);
    WANT(stays(index) && stays(table));
    if (no != ROSMAREL_OK) WANT(*count == 0 && stays(marks));
    return no;
}

static void listings(void) {
    uint64_t opened[9], count;
    part index = part_of(worked, sizeof worked), table = one_byte('c'), marks = filled(0xcc, 3), tight = filled(0xcc, 2);
    WANT(open_part(index, opened) == ROSMAREL_OK);
    WANT(list(index, opened, table, tight, &count) == ROSMAREL_ROOM);
    opened[0] = 70000;
    WANT(list(index, opened, table, marks, &count) == ROSMAREL_OPENED);
    opened[0] = 3;
    WANT(list(index, opened, table, marks, &count) == ROSMAREL_OK && count == 1);
    WANT(memcmp(marks.at, "\0\1\0", 3) == 0);
    drop(index), drop(table), drop(marks), drop(tight);
}

static uint32_t example(bool has_start, const char *start, const char *end, part table, part out, uint64_t *len) {
    part from = part_of(start, strlen(start)), to = part_of(end, strlen(end));
    uint64_t matches = 77;
    *len = 77;
    uint32_t no = rosmarel_example(has_start, from.at, from.len, to.at, to.len, table.at, table.len, out.at, out.len, len);
    uint32_t asked = rosmarel_can_block_match(has_start, from.at, from.len, to.at, to.len, table.at, table.len, &matches);
    WANT(stays(from) && stays(to) && stays(table));
    if (no != ROSMAREL_OK) WANT(*len == 0 && stays(out));
    if (no == ROSMAREL_OK) WANT(asked == ROSMAREL_OK && matches == 1);
    if (no == ROSMAREL_NO_EXAMPLE) WANT(asked == ROSMAREL_OK && matches == 0);
    if (asked != ROSMAREL_OK) WANT(asked == no && matches == 0);
    drop(from), drop(to);
    return no;
}

static void examples(void) {
    uint64_t len;
    part table = one_byte('c'), out = filled(0xcc, 65), tight = filled(0xcc, 64), no_states = filled(0, 1), empty = filled(0, 0);
    WANT(example(true, "b", "d", table, tight, &len) == ROSMAREL_ROOM);
    WANT(example(true, "c", "d", table, out, &len) == ROSMAREL_NO_EXAMPLE);
    WANT(example(true, "b", "d", table, out, &len) == ROSMAREL_OK && len == 1 && out.at[0] == 'c');
    memcpy(out.kept, out.at, out.len);
    WANT(example(false, "", "c", table, out, &len) == ROSMAREL_OK && len == 1 && out.at[0] == 'c');
    WANT(example(false, "", "b", table, out, &len) == ROSMAREL_NO_EXAMPLE);
    WANT(example(true, "b", "d", no_states, out, &len) == ROSMAREL_AUTOMATON);
    WANT(example(true, "b", "d", empty, out, &len) == ROSMAREL_AUTOMATON);
    put(table, 3 + 257, 3, 1);
    WANT(example(true, "b", "d", table, out, &len) == ROSMAREL_STATE);
    put(table, 1, 2, 1);
    WANT(example(true, "b", "d", table, out, &len) == ROSMAREL_FLAG);
    drop(table), drop(out), drop(tight), drop(no_states), drop(empty);
}

/* Whether the example is this one, whatever the output held before: written at its front, and nothing after it. The output is as
   long as it has to be. The table is dropped. */
static bool shows(bool has_start, const char *start, const char *end, part table, const char *string, size_t string_len) {
    size_t longer = strlen(start) > strlen(end) ? strlen(start) : strlen(end);
    bool same = true;
    for (int filling = 0; filling < 256; filling += 85) {
        part out = filled((uint8_t)filling, longer + 64);
        uint64_t len;
        uint32_t no = example(has_start, start, end, table, out, &len);
        memcpy(out.kept, string, string_len);
        same = same && no == ROSMAREL_OK && len == string_len && stays(out);
        drop(out);
    }
    drop(table);
    return same;
}

#define FIRST(end, table, string) shows(false, "", end, table, string, sizeof(string) - 1)
#define FIRST_ABOVE(start, end, table, string) shows(true, start, end, table, string, sizeof(string) - 1)

#define NUL_8 "\0\0\0\0\0\0\0\0"
#define NUL_61 NUL_8 NUL_8 NUL_8 NUL_8 NUL_8 NUL_8 NUL_8 "\0\0\0\0\0"
#define FF_8 "\377\377\377\377\377\377\377\377"

/* The shortest string of the interval, and of the shortest the lowest. */
static void first_examples(void) {
    /* the shortest isn't the lowest */
    WANT(FIRST("c", WORDS("aa b"), "b"));
    WANT(FIRST_ABOVE("a", "c", WORDS("ba bac aba"), "ba"));
    WANT(FIRST_ABOVE("a", "d", ring(1), "b"));
    WANT(FIRST_ABOVE("abc", "c", WORDS("abcd acd"), "acd"));
    /* along the start: of two places the later one is lower */
    WANT(FIRST_ABOVE("abc", "c", WORDS("abd acd bcd"), "abd"));
    WANT(FIRST_ABOVE("abc", "c", WORDS("acd bcd"), "acd"));
    WANT(FIRST_ABOVE("abc", "ac", WORDS("abd abe"), "abd"));
    WANT(FIRST_ABOVE("mmmmmm", "z", ring(6), "mmmmmn"));
    WANT(FIRST_ABOVE("mmm\377\377\377", "z", ring(6), "mmn\0\0\0"));
    WANT(FIRST_ABOVE("mmmmmm", "z", ring(7), "mmmmmm\0"));
    WANT(FIRST_ABOVE("bb", "d", WORDS("bb bba"), "bba"));
    /* the start, then between the two, then the end */
    WANT(FIRST_ABOVE("ax", "cx", WORDS("ay b! ca"), "ay"));
    WANT(FIRST_ABOVE("ax", "cx", WORDS("ax b! ca"), "b!"));
    WANT(FIRST_ABOVE("ax", "cx", WORDS("ax ca cx"), "ca"));
    WANT(FIRST_ABOVE("ax", "cx", WORDS("ayy b ca"), "b"));
    WANT(FIRST_ABOVE("ax", "cx", WORDS("ayy bbb ca"), "ca"));
    WANT(FIRST_ABOVE("a\377\377", "c\1", ring(2), "b\0"));
    WANT(FIRST_ABOVE("a\377\377", "b\1", ring(2), "b\0"));
    /* along the end: of two places the earlier one is lower, and what leaves it lies below the end's own bytes */
    WANT(FIRST("bb", WORDS("ac ba"), "ac"));
    WANT(FIRST("bbb", WORDS("acc bac bba"), "acc"));
    WANT(FIRST("bbb", WORDS("bac bba bbb"), "bac"));
    WANT(FIRST("bb", WORDS("ba bb"), "ba"));
    WANT(FIRST("bb", WORDS("bb bc"), "bb"));
    /* the front of the end alone */
    WANT(FIRST("ab", WORDS("a ab"), "a"));
    WANT(FIRST("abcde", WORDS("abc abce abda"), "abc"));
    WANT(FIRST_ABOVE("ax", "cx", WORDS("ayy bbb c"), "c"));
    WANT(FIRST_ABOVE("abx", "acx", WORDS("a ab ac"), "ac"));
    /* a start that is the end's front */
    WANT(FIRST_ABOVE("b", "bb", WORDS("b bab bb"), "bb"));
    WANT(FIRST_ABOVE("b", "bb", WORDS("bab bac"), "bab"));
    WANT(FIRST_ABOVE("", "b", ring(1), "\0"));
    /* the empty string */
    WANT(FIRST("", WORDS(""), ""));
    WANT(FIRST("b", ring(0), ""));
    WANT(FIRST("b", WORDS(" a"), ""));
    WANT(FIRST_ABOVE("", "b", WORDS(" a"), "a"));
    WANT(FIRST_ABOVE("", "b", ring(0), NUL_61 "\0\0\0"));
    /* at a later place and in the same state other bytes are left to try, along the start, along the end, and after both */
    WANT(FIRST_ABOVE("zb", "{", many("bz", 'c'), "zc"));
    WANT(FIRST_ABOVE("zzzb", "{", many("bz", 'c'), "zzzc"));
    WANT(FIRST("bd", many("b", 'c'), "bc"));
    WANT(FIRST("bbbbbd", many("b", 'c'), "bbbbbc"));
    WANT(FIRST_ABOVE("my", "zz", many("mz", 'a'), "za"));
    WANT(FIRST_ABOVE("ma", "n", many("mn", 'z'), "mz"));
    /* after the first byte always the lowest that comes nearer */
    WANT(FIRST("z", WORDS("mb mc nab"), "mb"));
    WANT(FIRST_ABOVE("a", "z", WORDS("bcz bda cab"), "bcz"));
    WANT(FIRST("\377", ring(63), NUL_61 "\0\0"));
}

/* Strings that are as long as the room: as the longer key and 64. */
static void longest_examples(void) {
    WANT(FIRST_ABOVE("a\377", "b", ring(2), "a\377" NUL_61 "\0\0\0"));
    WANT(FIRST_ABOVE("a" FF_8, "b", ring(9), "a" FF_8 NUL_61 "\0\0\0"));
}

static uint64_t shared(const char *left, const char *right) {
    part l = part_of(left, strlen(left)), r = part_of(right, strlen(right));
    uint64_t len = rosmarel_common_prefix_len(l.at, l.len, r.at, r.len);
    drop(l), drop(r);
    return len;
}

/* ---- records that no opening gave */

/* No call takes the record for one of these bytes, whatever else it is given. */
static void all_refuse(part index, const uint64_t opened[9]) {
    found f;
    uint64_t count;
    part ids = filled(0xcc, 8), nothing = filled(0, 0), table = one_byte('c'), marks = filled(0xcc, 3), no_table = filled(0, 1);
    WANT(by_id(index, opened, 0, &f) == ROSMAREL_OPENED && is_zero(f));
    WANT(by_id(index, opened, UINT64_MAX, &f) == ROSMAREL_OPENED && is_zero(f));
    WANT(by_ordinal(index, opened, 0, &f) == ROSMAREL_OPENED && is_zero(f));
    WANT(by_ordinal(index, opened, UINT64_MAX, &f) == ROSMAREL_OPENED && is_zero(f));
    WANT(by_key(index, opened, "b", &f) == ROSMAREL_OPENED && is_zero(f));
    WANT(by_key(index, opened, "g", &f) == ROSMAREL_OPENED && is_zero(f));
    WANT(BATCH("b", ids, 0, 1) == ROSMAREL_OPENED && BATCH("b", ids, 0) == ROSMAREL_OPENED);
    WANT(by_keys(index, opened, NULL, 0, "", nothing) == ROSMAREL_OPENED);
    for (uint64_t id = 0; id < 4; id++) WANT(separator_is(index, opened, id, 0, 0));
    WANT(list(index, opened, table, marks, &count) == ROSMAREL_OPENED);
    WANT(list(index, opened, no_table, nothing, &count) == ROSMAREL_OPENED);
    drop(ids), drop(nothing), drop(table), drop(marks), drop(no_table);
}

/* Records that no opening gave: each lookup refuses them, or answers some block. */
static void foreign_records(void) {
    uint64_t opened[9];
    found f;
    part index = part_of(worked, sizeof worked), nothing = filled(0, 0);
    WANT(open_part(index, opened) == ROSMAREL_OK);
    for (size_t i = 0; i < 9; i++) {
        if (i == 7) continue; /* the number of terms is free */
        uint64_t was = opened[i];
        opened[i] = UINT64_MAX;
        all_refuse(index, opened);
        opened[i] = was;
    }
    for (size_t i = 0; i < NO_VERSIONS; i++) {
        opened[8] = no_versions[i];
        all_refuse(index, opened);
    }
    /* groups that aren't full are the same in both */
    opened[8] = other_version();
    WANT(by_id(index, opened, 2, &f) == ROSMAREL_OK && f.start == 25 && by_ordinal(index, opened, 8, &f) == ROSMAREL_OK && f.id == 1);
    all_refuse(nothing, opened);
    put(index, 55, 3, 8); /* all ordinals are 3 higher */
    WANT(open_part(index, opened) == ROSMAREL_OK);
    WANT(by_ordinal(index, opened, 2, &f) == ROSMAREL_BELOW && is_zero(f));
    drop(index), drop(nothing);
}

/* ---- an index of several groups: every length of key, each block found again */

static size_t key_of(size_t i, uint8_t *key) {
    size_t len = 4 + i % 97;
    memset(key, 'k', len);
    key[0] = (uint8_t)(i >> 8);
    key[1] = (uint8_t)i;
    return len;
}

/* The keys of 64 blocks from all over the index, in one batch. */
static void batch_of_groups(part index, const uint64_t opened[9], size_t n) {
    uint8_t bytes[64 * 101];
    uint64_t pairs[2 * 64];
    size_t len = 0;
    for (size_t i = 0; i < 64; i++) {
        pairs[2 * i] = len;
        pairs[2 * i + 1] = key_of(37 * i % n, bytes + len);
        len += pairs[2 * i + 1];
    }
    part lent = part_of(pairs, sizeof pairs), keys = part_of(bytes, len), ids = filled(0xcc, 64 * 8);
    WANT(rosmarel_locate_with_keys(index.at, index.len, opened, numbers(lent), 2 * 64, keys.at, keys.len, numbers(ids), 64) ==
         ROSMAREL_OK);
    for (size_t i = 0; i < 64; i++) WANT(numbers(ids)[i] == 37 * i % n);
    WANT(stays(index) && stays(lent) && stays(keys));
    drop(lent), drop(keys), drop(ids);
}

static rosmarel_block_addr block_of(size_t i) { return (rosmarel_block_addr){i * i, (i + 1) * (i + 1), 3 * i}; }

static areas many_blocks(size_t n) {
    uint8_t key[101];
    areas a = areas_for(n, n * sizeof key);
    for (size_t i = 0; i < n; i++) {
        size_t len = key_of(i, key);
        WANT(add(&a, key, len, block_of(i)) == ROSMAREL_OK);
    }
    return a;
}

/* The same blocks, the fields of the first two of more groups in each other's place. */
static void exchanged_groups(part index, const uint64_t opened[9]) {
    size_t in_second = (version == ROSMAREL_V4 ? 256 : 128) + 2;
    part other = part_of(index.at, index.len);
    const uint8_t *records = index.at + opened[3], *fields = index.at + opened[5];
    size_t first = 0, both = 0;
    for (size_t k = 0; k < 8; k++) first |= (size_t)records[36 + k] << (8 * k), both |= (size_t)records[72 + k] << (8 * k);
    memcpy(other.at + opened[5], fields + first, both - first);
    memcpy(other.at + opened[5] + (both - first), fields, first);
    memcpy(other.kept, other.at, other.len);
    put(other, opened[3], both - first, 8), put(other, opened[3] + 36, 0, 8);
    uint64_t again[9];
    found f;
    WANT(open_terms(opened[7], other, again) == ROSMAREL_OK && memcmp(again, opened, sizeof again) == 0);
    WANT(by_id(other, again, in_second, &f) == ROSMAREL_OK && f.start == in_second * in_second);
    WANT(check(other) == ROSMAREL_NOT_CANONICAL);
    drop(other);
}

/* A record with the other version. That of version 4 has too few group records for version 3. Of the other way round only what
   reads no group is said. */
static void exchanged_versions(part index, const uint64_t opened[9]) {
    uint64_t exchanged[9], count, offset, len;
    memcpy(exchanged, opened, sizeof exchanged);
    exchanged[8] = other_version();
    if (version == ROSMAREL_V4) {
        all_refuse(index, exchanged);
        return;
    }
    part table = one_byte(0), marks = filled(0xcc, opened[0]);
    WANT(list(index, exchanged, table, marks, &count) == ROSMAREL_OK && count == 1 && marks.at[0] == 1);
    rosmarel_separator(index.at, index.len, opened, 200, &offset, &len);
    WANT(len > 0 && separator_is(index, exchanged, 200, offset, len));
    drop(table), drop(marks);
}

static void several_groups(size_t n) {
    uint64_t opened[9];
    found f;
    areas a = many_blocks(n);
    part index = finished(a);
    WANT(open_terms(3 * (n - 1), index, opened) == ROSMAREL_TERMS);
    WANT(open_terms(3 * n, index, opened) == ROSMAREL_OK && opened[0] == n);
    WANT(check(index) == ROSMAREL_OK);
    exchanged_groups(index, opened);
    exchanged_versions(index, opened);
    WANT(by_ordinal(index, opened, 3 * n, &f) == ROSMAREL_NO_TERM && is_zero(f));
    for (size_t i = 0; i < n; i++) {
        WANT(by_id(index, opened, i, &f) == ROSMAREL_OK && f.start == i * i && f.end == (i + 1) * (i + 1));
        WANT(by_ordinal(index, opened, 3 * i + 2, &f) == ROSMAREL_OK && f.id == i);
    }
    batch_of_groups(index, opened, n);
    part table = one_byte(0), marks = filled(0xcc, n);
    uint64_t count;
    WANT(list(index, opened, table, marks, &count) == ROSMAREL_OK && count == 1 && marks.at[0] == 1);
    drop(table), drop(marks), drop(index);
    drop_areas(a);
}

/* ---- versions */

/* 30 comes before all other numbers, and before what is accepted without a look at the version. */
static void unknown_versions(void) {
    uint64_t total, directory_len, opened[9];
    areas a = three_blocks(), none = areas_for(0, 0), over = a, broken = three_blocks();
    part out = filled(0xcc, 85), nothing = filled(0, 0), index = part_of(worked, sizeof worked), cut = part_of(worked, 7);
    rosmarel_block_addr turned = {1, 0, 0};
    over.n = 65537;
    numbers(broken.blocks)[5 + 2] = 10; /* an ordinal above the next one */
    keep(&broken);
    const areas lists[] = {a, none, over, broken};
    const part files[] = {index, cut, nothing};
    for (size_t i = 0; i < NO_VERSIONS; i++) {
        version = no_versions[i];
        for (size_t k = 0; k < sizeof lists / sizeof *lists; k++) {
            WANT(finish_len(lists[k], &total) == ROSMAREL_NO_VERSION);
            WANT(finish(lists[k], out, &total, &directory_len) == ROSMAREL_NO_VERSION);
            WANT(finish(lists[k], nothing, &total, &directory_len) == ROSMAREL_NO_VERSION);
        }
        WANT(store(three, 3, out, 0) == ROSMAREL_NO_VERSION && store(three, 3, nothing, 0) == ROSMAREL_NO_VERSION);
        WANT(store(three, 0, out, 0) == ROSMAREL_NO_VERSION && store(&turned, 1, out, 0) == ROSMAREL_NO_VERSION);
        for (size_t k = 0; k < sizeof files / sizeof *files; k++) {
            WANT(open_terms(12, files[k], opened) == ROSMAREL_NO_VERSION && open_terms(0, files[k], opened) == ROSMAREL_NO_VERSION);
            WANT(check(files[k]) == ROSMAREL_NO_VERSION);
        }
    }
    drop(out), drop(nothing), drop(index), drop(cut);
    drop_areas(a), drop_areas(none), drop_areas(broken);
}

/* The store of the blocks alone is what stands between the index's directory and its last 8 bytes. */
static void stores_alike(size_t n, part index, size_t directory_len) {
    size_t len = index.len - directory_len - 8;
    rosmarel_block_addr *blocks = fresh(n * sizeof *blocks);
    part out = filled(0xcc, len), tight = filled(0xcc, len - 1);
    for (size_t i = 0; i < n; i++) blocks[i] = block_of(i);
    WANT(store(blocks, n, out, len) == ROSMAREL_OK && memcmp(out.at, index.at + directory_len, len) == 0);
    WANT(store(blocks, n, tight, 0) == ROSMAREL_OUTPUT_SHORT);
    drop(out), drop(tight);
    free(blocks);
}

/* One list in both versions: the same bytes up to 128 blocks, and above them 14 with the other version. */
static void both_versions(size_t n) {
    uint64_t opened[9];
    areas a = many_blocks(n);
    part files[2];
    for (size_t i = 0; i < 2; i++) version = versions[i], files[i] = finished(a);
    bool same = files[0].len == files[1].len && memcmp(files[0].at, files[1].at, files[0].len) == 0;
    WANT(same == (n <= 128));
    for (size_t i = 0; i < 2; i++) {
        uint32_t with_other = n <= 128 ? ROSMAREL_OK : ROSMAREL_RECORDS;
        version = versions[i];
        WANT(open_terms(3 * n, files[i], opened) == ROSMAREL_OK && check(files[i]) == ROSMAREL_OK);
        stores_alike(n, files[i], opened[2]);
        version = other_version();
        WANT(open_terms(3 * n, files[i], opened) == with_other && check(files[i]) == with_other);
        WANT(open_terms(0, files[i], opened) == (n <= 128 ? ROSMAREL_TERMS : ROSMAREL_RECORDS));
    }
    drop(files[0]), drop(files[1]);
    drop_areas(a);
}

static void in_one_version(void) {
    finishing();
    storing();
    widest_stores();
    opening();
    checking();
    lookups();
    least_terms_example();
    terms_by_hand();
    at_the_limit();
    for (size_t n = 2; n <= 10; n++) widest_fields(n);
    batch_example();
    batches();
    listings();
    foreign_records();
    several_groups(600);
    several_groups(5000);
}

int main(void) {
    WANT(rosmarel_interface() == ROSMAREL_INTERFACE);
    WANT(shared("abcdef", "abf") == 2 && shared("", "a") == 0 && shared("aaaaaaaaaaaaaaaaa", "aaaaaaaaaaaaaaaaa") == 17);
    adding();
    examples();
    first_examples();
    longest_examples();
    for (size_t i = 0; i < 2; i++) version = versions[i], in_one_version();
    unknown_versions();
    static const size_t counts[] = {2, 127, 128, 129, 255, 256, 257, 512, 513};
    for (size_t i = 0; i < sizeof counts / sizeof *counts; i++) both_versions(counts[i]);
    printf("%d failures\n", failures);
    return failures > 0;
}
