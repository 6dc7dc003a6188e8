/* The stack that each exported call takes, at most LIMIT. A call runs on a stack of its own that is painted before it;
   what is no longer paint afterwards was used. Calls run on small and on the largest inputs in both versions, refused ones
   too, and the deepest counts. What the switch to the painted stack takes is subtracted: it is that of a call that does
   nothing. */
#include <rosmarel.h>

#include <stdio.h>
#include <stdlib.h>
#include <string.h>
#include <ucontext.h>

enum { LIMIT = 16 * 1024, STACK = 4 * 1024 * 1024, MOST = 65536, LONGEST = 1024, STATES = 64, ROOM = LONGEST + 64 };
enum { BATCH = ROSMAREL_MAX_BATCH_KEYS };

static const uint64_t paint = UINT64_C(0x5a5aa5a55a5aa5a5);
static uint64_t painted[STACK / 8];
static ucontext_t here, there;
static int failures;

static void want(bool held, const char *what) {
    if (!held) {
        printf("stack.c: %s\n", what);
        failures++;
    }
}

/* ---- the measure */

static size_t used(void (*call)(void)) {
    for (size_t i = 0; i < STACK / 8; i++) painted[i] = paint;
    getcontext(&there);
    there.uc_stack.ss_sp = painted;
    there.uc_stack.ss_size = sizeof painted;
    there.uc_link = &here;
    makecontext(&there, call, 0);
    swapcontext(&here, &there);
    size_t clean = 0;
    while (clean < STACK / 8 && painted[clean] == paint) clean++;
    return sizeof painted - 8 * clean;
}

static void nothing(void) {}

/* Each call's name, and the most that it took. */
static struct {
    const char *name;
    size_t most;
} calls[32];
static size_t call_count;

static void measure(const char *name, void (*call)(void)) {
    size_t empty = used(nothing), all = used(call), i = 0;
    want(all < STACK, "a call used the whole painted stack");
    while (i < call_count && strcmp(calls[i].name, name) != 0) i++;
    if (i == call_count) calls[call_count++].name = name;
    size_t taken = all > empty ? all - empty : 0;
    if (taken > calls[i].most) calls[i].most = taken;
}

/* ---- what the calls are lent */

static uint64_t version, n, terms, ord, opened[9], word[4];
static uint64_t blocks[5 * MOST];
static rosmarel_block_addr addrs[MOST];
static uint8_t *keys, *out, marks[MOST];
static size_t key_len, keys_room, out_len, index_len;
static uint8_t table[1 + 257 * STATES], start_key[LONGEST], end_key[LONGEST], example[ROOM];
static size_t table_len, interval_len;
static uint64_t pairs[2 * BATCH + 2], ids[BATCH + 1];
static size_t batch;
static uint8_t batch_keys[BATCH * LONGEST];
static bool has_start;
static uint32_t answer;

static void *room(size_t len) {
    void *at = calloc(1, len);
    if (at == NULL) {
        puts("stack.c: out of memory");
        exit(2);
    }
    return at;
}

/* Key i of this length: its bytes are equal but for the last four, which count. */
static void write_key(uint8_t *key, size_t len, size_t i) {
    memset(key, 'k', len);
    for (size_t place = 0; place < 4; place++) key[len - 1 - place] = (uint8_t)(i >> (8 * place));
}

static uint64_t random_step(uint64_t *state) {
    *state = *state * UINT64_C(6364136223846793005) + UINT64_C(1442695040888963407);
    return *state >> 33;
}

/* ---- the calls, over what is lent just now */

static void call_interface(void) { word[0] = rosmarel_interface(); }

static void call_add(void) {
    uint64_t count = n - 1;
    rosmarel_block_addr last = addrs[n - 1];
    answer = rosmarel_add(&count, blocks, 5 * n, keys, keys_room, end_key, key_len, last.start, last.end, last.first_ordinal);
}

static void call_shorten(void) { answer = rosmarel_shorten(n, blocks, 5 * n, keys, keys_room, end_key, key_len); }

static void call_finish(void) {
    answer = rosmarel_finish(version, n, blocks, 5 * n, keys, keys_room, out, out_len, &word[0], &word[1]);
}

static void call_finish_len(void) { answer = rosmarel_finish_len(version, n, blocks, 5 * n, keys, keys_room, &word[0]); }

static void call_store(void) { answer = rosmarel_store(version, addrs, n, out, out_len, &word[0]); }

static void call_open(void) { answer = rosmarel_open(version, terms, out, index_len, opened); }

static void call_check_canonical(void) { answer = rosmarel_check_canonical(version, out, index_len); }

static void call_get_block(void) {
    answer = rosmarel_get_block(out, index_len, opened, n - 1, &word[0], &word[1], &word[2]);
}

static void call_locate_with_ord(void) {
    answer = rosmarel_locate_with_ord(out, index_len, opened, ord, &word[0], &word[1], &word[2], &word[3]);
}

static void call_locate_with_key(void) {
    answer = rosmarel_locate_with_key(out, index_len, opened, end_key, key_len, &word[0]);
}

static void call_get_block_with_key(void) {
    answer = rosmarel_get_block_with_key(out, index_len, opened, end_key, key_len, &word[0], &word[1], &word[2], &word[3]);
}

static void call_locate_with_keys(void) {
    answer = rosmarel_locate_with_keys(out, index_len, opened, pairs, 2 * batch, batch_keys, sizeof batch_keys, ids, BATCH + 1);
}

static void call_separator(void) { rosmarel_separator(out, index_len, opened, n - 1, &word[0], &word[1]); }

static void call_list(void) { answer = rosmarel_list(out, index_len, opened, table, table_len, marks, n, &word[0]); }

static void call_can_block_match(void) {
    answer = rosmarel_can_block_match(has_start, start_key, interval_len, end_key, interval_len, table, table_len, &word[0]);
}

static void call_example(void) {
    answer = rosmarel_example(has_start, start_key, interval_len, end_key, interval_len, table, table_len, example, ROOM, &word[0]);
}

static void call_common_prefix_len(void) {
    word[0] = rosmarel_common_prefix_len(start_key, interval_len, end_key, interval_len);
}

#define MEASURE(call) measure("rosmarel_" #call, call_##call)

/* A call that has to be answered with this number; its stack counts either way. */
#define ANSWERED(number, call)                         \
    do {                                               \
        MEASURE(call);                                 \
        want(answer == (number), #call " isn't " #number); \
    } while (0)

/* ---- building and lookups, for n blocks with keys of one length */

/* The highest end and ordinal. */
static const uint64_t highest = (UINT64_C(1) << 55) - 1;

/* Blocks of equal steps; of random ones; of random ones and a last one up to the highest numbers, so that the last group has fields
   of 56 bits; of the highest numbers shared out at random, so that all groups have wide ones. */
enum { EQUAL, RANDOM, FAR, SHARED, KINDS };

/* A number in the block's share of the highest one. */
static uint64_t in_share(size_t i, uint64_t *state) {
    uint64_t share = highest / n, high = random_step(state) << 31;
    return i * share + (high | random_step(state)) % share;
}

static void plan_blocks(int kind) {
    uint64_t end = 0, ordinal = 0, state = 1;
    for (size_t i = 0; i < n; i++) {
        uint64_t start = end;
        if (kind >= FAR && i + 1 == n) {
            end = ordinal = highest;
        } else if (kind == SHARED) {
            end = in_share(i, &state), ordinal = in_share(i, &state);
        } else {
            end += kind == EQUAL ? 4096 : random_step(&state) % (kind == RANDOM ? 65536 : UINT32_MAX);
            if (i > 0) ordinal += 1 + (kind == EQUAL ? 127 : random_step(&state) % 60000);
        }
        addrs[i] = (rosmarel_block_addr){start, end, ordinal};
    }
}

static void add_blocks(void) {
    uint64_t count = 0;
    keys_room = n * key_len;
    keys = room(keys_room);
    for (size_t i = 0; i < n; i++) {
        write_key(end_key, key_len, 2 * i);
        rosmarel_block_addr block = addrs[i];
        want(rosmarel_add(&count, blocks, 5 * n, keys, keys_room, end_key, key_len, block.start, block.end, block.first_ordinal) == 0,
             "an add is refused");
    }
}

static void unknown_version(void) {
    uint64_t known = version;
    version = 5;
    ANSWERED(30, finish);
    ANSWERED(30, finish_len);
    ANSWERED(30, store);
    ANSWERED(30, open);
    ANSWERED(30, check_canonical);
    version = known;
}

static void building(void) {
    add_blocks();
    ANSWERED(0, add);
    ANSWERED(0, finish_len);
    out_len = word[0];
    out = room(out_len);
    ANSWERED(0, finish);
    index_len = word[0];
    out_len -= 1;
    ANSWERED(9, finish);
    write_key(end_key, key_len, 2 * n);
    ANSWERED(0, shorten);
    write_key(end_key, key_len, 0);
    ANSWERED(6, add);
    ANSWERED(6, shorten);
    unknown_version();
    free(keys);
}

/* Keys from all over the index, the last one above its last. */
static void batches(void) {
    for (size_t i = 0; i < BATCH; i++) {
        pairs[2 * i] = i * key_len;
        pairs[2 * i + 1] = key_len;
        write_key(batch_keys + i * key_len, key_len, 2 * n * i / (BATCH - 1));
    }
    static const size_t counts[] = {0, 1, 7, 8, BATCH};
    for (size_t i = 0; i < sizeof counts / sizeof *counts; i++) {
        batch = counts[i];
        ANSWERED(0, locate_with_keys);
    }
    want(ids[0] == 0 && ids[BATCH - 1] == ROSMAREL_NO_ID, "a batch finds other blocks");
    batch = BATCH + 1;
    ANSWERED(26, locate_with_keys);
    opened[0] = MOST + 1;
    ANSWERED(20, locate_with_keys);
    opened[0] = n;
}

/* An index of our own; one with a byte more behind its groups' fields; one that is cut off. */
static void checks(void) {
    ANSWERED(0, check_canonical);
    uint8_t *whole = out;
    size_t whole_len = index_len;
    out = room(whole_len + 1);
    memcpy(out, whole, whole_len - 8);
    memcpy(out + whole_len - 7, whole + whole_len - 8, 8);
    index_len += 1;
    ANSWERED(27, check_canonical);
    free(out);
    out = whole;
    index_len = 7;
    ANSWERED(10, check_canonical);
    index_len = whole_len;
}

static void lookups(void) {
    ord = terms = addrs[n - 1].first_ordinal;
    ANSWERED(28, open);
    terms += 1;
    ANSWERED(0, open);
    checks();
    ANSWERED(0, get_block);
    ANSWERED(0, locate_with_ord);
    ord = terms;
    ANSWERED(29, locate_with_ord);
    write_key(end_key, key_len, 2 * n - 3);
    ANSWERED(0, locate_with_key);
    ANSWERED(0, get_block_with_key);
    batches();
    MEASURE(separator);
    write_key(end_key, key_len, 2 * n);
    ANSWERED(19, get_block_with_key);
    opened[0] = MOST + 1;
    ANSWERED(20, get_block);
    opened[0] = n;
    opened[8] = 5;
    ANSWERED(20, get_block);
    opened[8] = version;
}

/* ---- patterns */

/* A table in which every state leads to every other. */
static void dense_table(void) {
    table[0] = STATES;
    table_len = sizeof table;
    memset(table + 1, 0, STATES);
    table[STATES] = 1;
    for (size_t state = 0; state < STATES; state++)
        for (size_t byte = 0; byte < 256; byte++) table[1 + STATES + 256 * state + byte] = (uint8_t)((5 * state + 7 * byte + 1) % STATES);
}

/* A table that accepts by length alone: k more than a multiple of 64. */
static void length_table(size_t k) {
    table[0] = STATES;
    table_len = sizeof table;
    for (size_t state = 0; state < STATES; state++) {
        table[1 + state] = state == k;
        memset(table + 1 + STATES + 256 * state, (int)((state + 1) % STATES), 256);
    }
}

/* A table that follows the keys' front for ever and accepts nothing but what leaves it by a last byte. */
static void following_table(void) {
    length_table(STATES - 1);
    for (size_t state = 0; state + 1 < STATES; state++) {
        memset(table + 1 + STATES + 256 * state, (int)(state == 0 ? STATES - 2 : state), 256);
        table[1 + STATES + 256 * state + 'k'] = 0;
        table[1 + STATES + 256 * state + '!'] = (uint8_t)(state == STATES - 2 ? STATES - 1 : 1);
    }
}

static void listings(void) {
    void (*tables[])(void) = {dense_table, following_table};
    for (size_t i = 0; i < 2; i++) {
        tables[i]();
        ANSWERED(0, list);
    }
    length_table(0);
    ANSWERED(0, list);
    table[sizeof table - 1] = STATES;
    ANSWERED(23, list);
}

/* Keys of this length that differ in their last four bytes alone, or in their first byte too. */
static void intervals(size_t len, bool in_first) {
    interval_len = len;
    write_key(start_key, len, 255);
    write_key(end_key, len, 256);
    if (in_first) end_key[0] = 'z';
    for (size_t k = 0; k <= STATES; k++) {
        if (k < STATES) length_table(k);
        if (k == STATES) dense_table();
        for (int with = 0; with < 2; with++) {
            has_start = with;
            ANSWERED(0, can_block_match);
            ANSWERED(0, example);
        }
    }
    memset(table + 1, 0, STATES);
    ANSWERED(25, example);
    MEASURE(common_prefix_len);
}

static void of_kind(int kind) {
    key_len = kind == RANDOM && n <= 1000 ? LONGEST : 40;
    plan_blocks(kind);
    building();
    lookups();
    listings();
    free(out);
    out_len = 8 + 36 * ((n + 127) / 128) + 14 * n;
    out = room(out_len);
    ANSWERED(0, store);
    free(out);
}

int main(void) {
    static const size_t counts[] = {2, 128, 129, 256, 257, 1000, MOST};
    MEASURE(interface);
    for (version = ROSMAREL_V3; version <= ROSMAREL_V4; version++) {
        for (size_t i = 0; i < sizeof counts / sizeof *counts; i++) {
            n = counts[i];
            for (int kind = 0; kind < KINDS; kind++) of_kind(kind);
        }
    }
    for (int in_first = 0; in_first < 2; in_first++) {
        intervals(4, in_first);
        intervals(LONGEST, in_first);
    }
    for (size_t i = 0; i < call_count; i++) {
        printf("%-30s %6zu\n", calls[i].name, calls[i].most);
        if (calls[i].most > LIMIT) printf("stack.c: %s takes %zu bytes, over %d\n", calls[i].name, calls[i].most, LIMIT), failures++;
    }
    printf("%d failures\n", failures);
    return failures > 0;
}
