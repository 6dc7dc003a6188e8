/* The first accepted string of an interval by a plain search, after document 02's wish, with faults that an example may have. */
#include "wrong.h"

#define STATES 64
/* how far a state is from a flag of 1 that it never reaches */
#define NEVER 255
/* more than any place */
#define AHEAD ((long)1 << 32)

/* Where a string leaves the keys: the start key, both at the first difference, the end key; or it is a front of the end key alone. */
enum side { START, MIDDLE, END, FRONT };

/* Of some bytes the lowest or the highest that comes nearest to a flag of 1, or the lowest that leads to one at all. */
enum choice { LOWEST, HIGHEST, ANY };

/* The strings with so many first bytes of a key, which lead to the state, and then a byte from lo on and below hi. */
struct part {
    enum side side;
    const uint8_t *key;
    size_t len, place;
    int state, lo, hi;
};

/* A string of a part, by the byte that leaves the key, and where it stands among those as long, the lowest first. */
struct found {
    struct part part;
    int byte;
    size_t len;
    long order;
};

struct search {
    const uint8_t *flags, *next;
    int states;
    /* how many bytes lead from each state to a flag of 1 */
    uint8_t left[STATES];
    /* how many bytes both keys begin with */
    size_t shared;
    /* whether of the shortest strings the highest is taken; the lowest part, not one with a shortest string */
    bool highest, lowest;
    /* how often each state was met along the start key, and along the end key */
    int met[2][STATES];
    /* of each state the bytes that were looked at: those below one and those from another on */
    int below[STATES], from[STATES];
    struct found best;
};

bool own_examples(void) {
    return fault_begins("own_first") || fault_begins("first_");
}

static int step(const struct search *s, int state, int byte) {
    return s->next[256 * state + byte];
}

/* For each state the states that a byte leads to from it, a bit each. */
static void reach(const struct search *s, uint64_t sets[STATES]) {
    for (int state = 0; state < s->states; state++) {
        sets[state] = 0;
        for (int byte = 0; byte < 256; byte++) sets[state] |= (uint64_t)1 << step(s, state, byte);
    }
}

/* Measures how far each state is, from the flags of 1 back. What was met first goes on first, so that it goes level by level. */
static void measure(struct search *s) {
    uint64_t sets[STATES];
    int list[STATES], taken = 0, count = 0;
    reach(s, sets);
    for (int state = 0; state < s->states; state++) {
        s->left[state] = s->flags[state] == 1 ? 0 : NEVER;
        if (s->flags[state] == 1) list[count++] = state;
    }
    while (taken < count) {
        int to = fault("first_not_by_level") ? list[--count] : list[taken++];
        if (fault("first_63_never") && s->left[to] == 62) continue;
        for (int state = 0; state < s->states; state++)
            if (s->left[state] == NEVER && sets[state] >> to & 1) s->left[state] = s->left[to] + 1, list[count++] = state;
    }
}

/* By this choice a byte from lo on and below hi after which less than `most` bytes are left; none: -1. */
static int nearest(const struct search *s, int state, int lo, int hi, int most, enum choice choice) {
    int nearest = -1;
    for (int byte = lo; byte < hi; byte++) {
        int left = s->left[step(s, state, byte)];
        bool as_near = choice == HIGHEST && nearest >= 0 && left == most;
        if (left < most || as_near) nearest = byte, most = left;
        if (choice == ANY && nearest >= 0) break;
    }
    return nearest;
}

/* Where a part stands among the others, in byte order. */
static long order(const struct search *s, const struct part *part) {
    long beyond = (long)(part->place - s->shared);
    bool front = part->side == FRONT;
    if (part->side == START) return fault("first_start_tie_earlier") ? beyond - AHEAD : -beyond;
    if (part->side == MIDDLE) return fault("first_middle_before_start") ? -AHEAD : 0;
    if (fault("first_end_before_all")) return 2 * beyond + front - AHEAD;
    if (fault("first_end_tie_later")) return front ? 2 * AHEAD : AHEAD - beyond;
    if (fault("first_front_before_lower")) return front ? beyond + 1 : AHEAD + beyond;
    return 2 * beyond + front;
}

/* Whether the one is to be taken, and not the other. */
static bool before(const struct search *s, const struct found *one, const struct found *other) {
    if (one->len != other->len && !s->lowest) return one->len < other->len;
    return s->highest ? one->order > other->order : one->order < other->order;
}

/* Whether a part isn't looked at: its strings are longer than the best one, or a fault loses it. */
static bool left_out(const struct search *s, const struct part *part) {
    bool start = part->side == START, end = part->side == END || part->side == FRONT, front = part->side == FRONT;
    if (fault("first_front_left_out") && front) return true;
    if (fault("first_end_left_out") && front && part->place + 1 == part->len) return true;
    if (fault("first_behind_start_left_out") && start && part->place == part->len) return true;
    if (fault("first_256_places") && part->place - s->shared >= 256) return true;
    if (s->lowest) return false;
    /* as long as the best one: those of the end's side can't be taken, so that there a place too early is two earlier */
    size_t early = start && fault("first_start_stops") ? 1 : end && fault("first_end_stops") ? 2 : 0;
    return part->place + 1 + early > s->best.len;
}

/* Whether a fault loses a part because its state was met before. */
static bool met_before(struct search *s, const struct part *part) {
    bool start = part->side == START, end = part->side == END;
    if (!start && !end) return false;
    int own = s->met[end][part->state]++, other = s->met[start][part->state];
    if (fault("first_start_state_once") && start) return own >= 1;
    if (fault("first_end_state_once") && end) return own >= 1;
    if (fault("first_start_state_8_times") && start) return own >= 8;
    if (fault("first_end_state_8_times") && end) return own >= 8;
    return fault("first_sides_state_once") && other >= 1;
}

/* Leaves the bytes out that were looked at in the state before: they lead to longer strings, or at the same place to higher ones. */
static void leave_passed(struct search *s, struct part *part) {
    int state = fault("first_passed_any_state") ? 0 : part->state, lo = part->lo, hi = part->hi;
    if (part->side != START && part->side != END) return;
    if (s->below[state] > lo) part->lo = s->below[state];
    if (s->from[state] < hi) part->hi = s->from[state];
    if (fault("first_passed_start_more")) lo--;
    if (fault("first_passed_end_more")) hi++;
    if (part->side == START && s->from[state] > lo) s->from[state] = lo;
    if (part->side == END && s->below[state] < hi) s->below[state] = hi;
}

static void look(struct search *s, struct part part) {
    if (left_out(s, &part) || met_before(s, &part)) return;
    if (fault("own_first_passed") || fault_begins("first_passed_")) leave_passed(s, &part);
    bool alone = part.side == FRONT && !(fault("first_beyond_end") && part.place + 1 == part.len);
    bool any = fault("first_byte_any") || fault("first_lowest");
    enum choice choice = s->highest || fault("first_byte_highest") ? HIGHEST : any ? ANY : LOWEST;
    struct found found = {part, nearest(s, part.state, part.lo, part.hi, alone ? 1 : NEVER, choice), 0, order(s, &part)};
    if (found.byte < 0) return;
    found.len = part.place + 1 + s->left[step(s, part.state, found.byte)];
    if (s->best.len == SIZE_MAX || before(s, &found, &s->best)) s->best = found;
}

/* Looks at what leaves the start key at a place; behind the key each byte does. Returns the state behind its byte there. */
static int along_start(struct search *s, const uint8_t *key, size_t len, size_t place, int state) {
    if (place > len) return state;
    int lo = place < len ? key[place] + 1 : 0;
    if (place > s->shared) look(s, (struct part){START, key, len, place, state, lo, 256});
    return place < len ? step(s, state, key[place]) : state;
}

/* Looks at what leaves the end key at a place, and at its front up to there. Returns the state behind its byte there. */
static int along_end(struct search *s, const uint8_t *key, size_t len, size_t place, int state) {
    if (place >= len) return state;
    if (place > s->shared) look(s, (struct part){END, key, len, place, state, 0, key[place]});
    look(s, (struct part){FRONT, key, len, place, state, key[place], key[place] + 1});
    return step(s, state, key[place]);
}

/* Looks at every part of an interval that isn't empty. One whose start the end begins with has no start's side. */
static void walk(struct search *s, const uint8_t *start, size_t start_len, const uint8_t *end, size_t end_len) {
    size_t last = start_len > end_len ? start_len : end_len, shared = s->shared;
    bool beside = shared < start_len, end_first = fault("first_passed_end_first");
    int low = 0, high;
    for (size_t i = 0; i < shared; i++) low = step(s, low, end[i]);
    high = low;
    look(s, (struct part){MIDDLE, end, end_len, shared, low, beside ? start[shared] + 1 : 0, end[shared]});
    for (size_t place = shared; place <= last; place++) {
        if (end_first) high = along_end(s, end, end_len, place, high);
        if (beside) low = along_start(s, start, start_len, place, low);
        if (!end_first) high = along_end(s, end, end_len, place, high);
    }
}

/* Whether the lowest string from the state on ends; by always lower bytes one may go on for ever. */
static bool ends(const struct search *s, int state) {
    for (int i = 0; i < STATES && s->left[state] > 0; i++) state = step(s, state, nearest(s, state, 0, 256, NEVER, ANY));
    return s->left[state] == 0;
}

/* Writes the best string. Returns its length. */
static size_t write_best(const struct search *s, uint8_t *out) {
    const struct part *part = &s->best.part;
    size_t len = part->place;
    int byte = s->best.byte, state = part->state;
    bool any = fault("first_lowest") && ends(s, step(s, state, byte));
    enum choice choice = s->highest || fault("first_tail_highest") ? HIGHEST : any ? ANY : LOWEST;
    memcpy(out, part->key, len);
    for (;;) {
        out[len++] = (uint8_t)byte;
        state = step(s, state, byte);
        if (s->left[state] == 0) return len;
        byte = nearest(s, state, 0, 256, NEVER, choice);
    }
}

uint32_t own_example(bool has_start, const uint8_t *start, size_t start_len, const uint8_t *end, size_t end_len,
                     const uint8_t *automaton, uint8_t *out, size_t out_len, uint64_t *len) {
    struct search s = {.flags = automaton + 1, .next = automaton + 1 + automaton[0], .states = automaton[0]};
    measure(&s);
    for (int state = 0; state < STATES; state++) s.from[state] = 256;
    s.best.len = SIZE_MAX;
    *len = 0;
    bool empty = has_start ? fault("first_empty_let_in") && start_len == 0 : !fault("first_empty_left_out");
    if (empty && s.flags[0] == 1) return 0;
    if (!has_start) start_len = 0;
    size_t most = (start_len > end_len ? start_len : end_len) + STATES;
    s.highest = fault("first_highest") || (fault("first_by_room") && out_len > most);
    s.lowest = fault("first_lowest") || fault("first_part_with_one");
    s.shared = right_common_prefix_len(start, start_len, end, end_len);
    if (s.shared == end_len || (s.shared < start_len && start[s.shared] > end[s.shared])) return 25;
    walk(&s, start, start_len, end, end_len);
    if (s.best.len == SIZE_MAX || (fault("first_full_refused") && s.best.len == most)) return 25;
    *len = write_best(&s, out);
    return 0;
}
