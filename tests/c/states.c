/*
 * Named states from C: plumtree_save and plumtree_return beside a plain model, which keeps at most four names with their counts and blocks in the order of
 * first saving, lays an area out by itself and asks 5, 17, 16 and 15 by itself. Three parts: each reading of "Named states" as a case of its own; random
 * histories of panels and areas; every bit of an area changed. Every lent part is a heap block of exactly its length, so that valgrind sees a step beyond it.
 *
 *     states [STEPS [STRIDE]]     so many steps of the histories (60,000), and each STRIDE-th bit of the areas (1)
 */
#include <stdio.h>
#include <stdlib.h>
#include <string.h>

#include "plumtree.h"
#include "wire.h"

#define FRONT 256
#define ROW 26
#define COUNT 255
#define MOST 4
#define M_PLACE 56

static int failed;

static void not_so(int line, const char *fact)
{
    if (++failed <= 20)
        printf("states.c:%d: not so: %s\n", line, fact);
    if (failed == 20)
        printf("states.c: more are not shown\n");
}

#define CHECK(fact)                      \
    do {                                 \
        if (!(fact))                     \
            not_so(__LINE__, #fact);     \
    } while (0)

static void *bytes(size_t n, int value)
{
    void *p = malloc(n ? n : 1);
    if (!p)
        exit(2);
    memset(p, value, n);
    return p;
}

static uint8_t *copy_of(const uint8_t *from, size_t n)
{
    uint8_t *p = (uint8_t *)bytes(n, 0);
    if (n)
        memcpy(p, from, n);
    return p;
}

static bool same(const uint8_t *a, const uint8_t *b, size_t n)
{
    return n == 0 || memcmp(a, b, n) == 0;
}

static bool all_zero(const uint8_t *p, size_t n)
{
    return n == 0 || (p[0] == 0 && memcmp(p, p + 1, n - 1) == 0);
}

static bool same_counts(struct plumtree_stats a, struct plumtree_stats b)
{
    return a.payload_messages_received == b.payload_messages_received && a.control_messages_received == b.control_messages_received &&
           a.max_last_delivery_hop == b.max_last_delivery_hop;
}

static struct plumtree_stats counts_of(uint64_t payload, uint64_t control, uint16_t hops)
{
    struct plumtree_stats c;
    memset(&c, 0xa5, sizeof c);
    c.payload_messages_received = payload;
    c.control_messages_received = control;
    c.max_last_delivery_hop = hops;
    return c;
}

static uint64_t seed = 88172645463325252u;

static uint64_t any(void)
{
    seed ^= seed << 13;
    seed ^= seed >> 7;
    seed ^= seed << 17;
    return seed;
}

static size_t below(size_t n)
{
    return (size_t)((any() >> 11) % n);
}

/* NUMBERS IN BYTES, the lowest first */

static void put_le(uint8_t *at, size_t n, uint64_t v)
{
    size_t i;
    for (i = 0; i < n; i++)
        at[i] = (uint8_t)(v >> 8 * i);
}

static uint64_t get_le(const uint8_t *at, size_t n)
{
    uint64_t v = 0;
    while (n--)
        v = v << 8 | at[n];
    return v;
}

/* PANELS */

struct panel {
    uint8_t *block;
    size_t length;
    struct plumtree_stats *counts;
    struct plumtree_limits limits;
    bool whole;
};

/* The specification's question 4, by itself: "4,096 + B + 160R + 256C + 640G + 512S + 64(N + T + Q + D)". */
static size_t need_of(struct plumtree_limits l)
{
    return 4096 + l.content + 160 * l.received + 256 * l.cached + 640 * l.grafted + 512 * l.missing +
           64 * (l.neighbours + l.timers + l.queued + l.dropped);
}

/* A block of this length, which no creation has written. */
static struct panel no_panel(size_t length, int value)
{
    struct panel p;
    memset(&p.limits, 0, sizeof p.limits);
    p.length = length;
    p.block = (uint8_t *)bytes(length, value);
    p.counts = (struct plumtree_stats *)bytes(sizeof *p.counts, 0xa5);
    p.whole = false;
    return p;
}

static void create(struct panel *p, struct plumtree_settings s, struct plumtree_limits l)
{
    struct plumtree_answer a = plumtree_create(p->block, p->length, p->counts, s, l);
    CHECK(a.number == PLUMTREE_ACCEPTED && a.length == 0);
    p->limits = l;
    p->whole = true;
}

static struct panel new_panel(size_t length, int value, struct plumtree_settings s, struct plumtree_limits l)
{
    struct panel p = no_panel(length, value);
    create(&p, s, l);
    return p;
}

static void free_panel(struct panel p)
{
    free(p.block);
    free(p.counts);
}

static struct plumtree_limits least_limits(void)
{
    struct plumtree_limits l = {1, 1, 1, 1, 1, 1, 1, 1, 1};
    return l;
}

static uint8_t output[40960];

/* An event at 0 with room 0 for peer 2, or without a bound. */
static struct plumtree_answer tell(struct panel *p, const uint8_t *event, size_t n, bool full)
{
    struct plumtree_link_room none = {2, 0};
    uint8_t *exact = copy_of(event, n);
    struct plumtree_answer a = plumtree_event(p->block, p->length, p->counts, 0, exact, n, &none, full ? 1 : 0, output, sizeof output);
    free(exact);
    return a;
}

static size_t announced(uint8_t *event, int id)
{
    event[0] = PLUMTREE_EVENT_RECEIVED;
    event[1] = 2;
    event[2] = PLUMTREE_MESSAGE_IHAVE;
    event[3] = 1;
    memset(event + 4, id, PLUMTREE_ID_BYTES);
    event[36] = 5;
    return 37;
}

static size_t send_graft(uint8_t *event, int id)
{
    uint8_t timer[1 + PLUMTREE_ID_BYTES];
    memset(timer, id, sizeof timer);
    timer[0] = PLUMTREE_TIMER_SEND_GRAFT;
    return plumtree_put_timer(event, timer, sizeof timer);
}

/* One of some events: neighbours up and down, readings, announcements, timers. */
static size_t some_event(uint8_t *event)
{
    static const uint8_t prune[] = {PLUMTREE_EVENT_RECEIVED, 2, PLUMTREE_MESSAGE_PRUNE};
    uint8_t content[3];
    switch (below(11)) {
    case 0:
        return plumtree_put_up(event, 2 + below(3));
    case 1:
        return plumtree_put_down(event, 2 + below(3));
    case 2:
    case 3:
        put_le(content, sizeof content, any());
        return plumtree_put_broadcast(event, content, below(4));
    case 4:
        memcpy(event, prune, sizeof prune);
        return sizeof prune;
    case 5:
    case 6:
        return announced(event, (int)below(4));
    case 7:
        return send_graft(event, (int)below(4));
    case 8:
        return plumtree_put_tick(event, PLUMTREE_TIMER_DISPATCH_LAZY_PUSH);
    case 9:
        return plumtree_put_up_quiet(event, 2 + below(3));
    default:
        return plumtree_put_tick(event, PLUMTREE_TIMER_EVICT_CACHE);
    }
}

/* THE MODEL */

struct state {
    uint64_t name;
    struct plumtree_stats counts;
    uint8_t *block;
    struct plumtree_limits limits;
};

struct area {
    uint8_t *bytes; /* what is lent */
    size_t length;
    uint8_t *should; /* what it should hold */
    size_t n;        /* the length of the blocks kept */
    size_t kept;
    struct state states[MOST];
    bool damaged; /* by bytes that savings of no length leave */
};

static struct area new_area(size_t length)
{
    struct area a;
    memset(&a, 0, sizeof a);
    a.length = length;
    a.bytes = (uint8_t *)bytes(length, 0);
    a.should = (uint8_t *)bytes(length, 0);
    return a;
}

static void forget(struct area *a)
{
    size_t i;
    for (i = 0; i < a->kept; i++)
        free(a->states[i].block);
    a->kept = 0;
    a->damaged = false;
    memset(a->bytes, 0, a->length);
    memset(a->should, 0, a->length);
}

static void free_area(struct area a)
{
    forget(&a);
    free(a.bytes);
    free(a.should);
}

/* The bytes of what is kept: rows of name 8, payload 8, control 8, hops 2; zeros; in byte 255 how many; the blocks; zeros. */
static void lay_out(struct area *a)
{
    size_t i;
    memset(a->should, 0, a->length);
    for (i = 0; i < a->kept; i++) {
        const struct state *s = &a->states[i];
        uint8_t *row = a->should + ROW * i;
        put_le(row, 8, s->name);
        put_le(row + 8, 8, s->counts.payload_messages_received);
        put_le(row + 16, 8, s->counts.control_messages_received);
        put_le(row + 24, 2, s->counts.max_last_delivery_hop);
        memcpy(a->should + FRONT + a->n * i, s->block, a->n);
    }
    a->should[COUNT] = (uint8_t)a->kept;
}

/* Whether an area is damaged, or too short for blocks of n bytes. */
static bool unfit(const struct area *a, size_t n)
{
    return a->damaged || a->length < FRONT + 4 * n;
}

/* Question 17 of an area, asked for blocks of n bytes. */
static bool serves(const struct area *a, size_t n)
{
    const struct state *s = &a->states[0];
    uint64_t m;
    if (unfit(a, n))
        return false;
    if (a->kept == 0 || n == a->n)
        return true;
    /* One kept: its block and a number of zeros are a block too, and so is its block without zeros that its limits do not need. */
    if (a->kept == 1)
        return n > a->n || (need_of(s->limits) <= n && all_zero(s->block + n, a->n - n));
    /* More: the second block is read off elsewhere, and what stands in the place of M is none. */
    m = get_le(a->should + FRONT + n + M_PLACE, 8);
    CHECK(m < PLUMTREE_LEAST_MESSAGE_SIZE || m > PLUMTREE_GREATEST_MESSAGE_SIZE);
    return false;
}

static size_t place_of(const struct area *a, uint64_t name)
{
    size_t i;
    for (i = 0; i < a->kept; i++)
        if (a->states[i].name == name)
            break;
    return i;
}

/* The kept blocks as blocks of n bytes. */
static void as_long_as(struct area *a, size_t n)
{
    size_t i;
    for (i = 0; i < a->kept; i++) {
        uint8_t *b = (uint8_t *)bytes(n, 0);
        memcpy(b, a->states[i].block, n < a->n ? n : a->n);
        free(a->states[i].block);
        a->states[i].block = b;
    }
    a->n = n;
}

enum outcome {
    SAVED_NEW,
    SAVED_AGAIN,
    SAVED_OTHER_LENGTH,
    SAVE_5,
    SAVE_5_BEFORE_17,
    SAVE_16,
    SAVE_17_SHORT,
    SAVE_17_DAMAGED,
    SAVE_17_DAMAGED_FIFTH,
    SAVE_17_OTHER_LENGTH,
    RETURNED,
    RETURNED_OTHER_PANEL,
    RETURNED_OTHER_LENGTH,
    RETURNED_SHORTER,
    RETURN_5,
    RETURN_5_BEFORE_17,
    RETURN_15,
    RETURN_15_OF_NONE,
    RETURN_17_SHORT,
    RETURN_17_DAMAGED,
    RETURN_17_DAMAGED_UNKNOWN,
    RETURN_17_OTHER_LENGTH,
    OUTCOMES
};

static const char *const outcome_names[OUTCOMES] = {"saved under a new name",
                                                    "saved under a used name",
                                                    "saved beside a state of another length",
                                                    "save 5",
                                                    "save 5 before 17",
                                                    "save 16",
                                                    "save 17, too short",
                                                    "save 17, damaged",
                                                    "save 17 before 16",
                                                    "save 17, another length",
                                                    "returned",
                                                    "returned to a state of another panel",
                                                    "returned to a state of another length",
                                                    "returned to a state of a longer block",
                                                    "return 5",
                                                    "return 5 before 17",
                                                    "return 15",
                                                    "return 15, none kept",
                                                    "return 17, too short",
                                                    "return 17, damaged",
                                                    "return 17 before 15",
                                                    "return 17, another length"};

static size_t outcomes[OUTCOMES];

static enum outcome no_area(const struct area *a, size_t n, bool first, enum outcome short_, enum outcome damaged, enum outcome before, enum outcome other)
{
    if (a->length < FRONT + 4 * n)
        return short_;
    if (!a->damaged)
        return other;
    return first ? before : damaged;
}

/* A saving of `length` bytes of the panel's block, beside the model. */
static uint8_t save_part(const struct panel *p, size_t length, bool whole, struct area *a, uint64_t name, int line)
{
    uint8_t *block = copy_of(p->block, p->length);
    struct plumtree_stats counts = *p->counts;
    size_t i = place_of(a, name);
    uint8_t number = 0;
    enum outcome o;
    struct plumtree_answer answer;
    if (!whole) {
        number = 5;
        o = unfit(a, length) ? SAVE_5_BEFORE_17 : SAVE_5;
    } else if (!serves(a, length)) {
        number = 17;
        o = no_area(a, length, i == MOST, SAVE_17_SHORT, SAVE_17_DAMAGED, SAVE_17_DAMAGED_FIFTH, SAVE_17_OTHER_LENGTH);
    } else if (i == MOST) {
        number = 16;
        o = SAVE_16;
    } else {
        o = i < a->kept ? SAVED_AGAIN : SAVED_NEW;
        if (a->kept && a->n != length)
            o = SAVED_OTHER_LENGTH;
        as_long_as(a, length);
        if (i == a->kept)
            a->kept++;
        else
            free(a->states[i].block);
        a->states[i].name = name;
        a->states[i].counts = counts;
        a->states[i].block = copy_of(p->block, length);
        a->states[i].limits = p->limits;
        lay_out(a);
    }
    outcomes[o]++;
    answer = plumtree_save(length ? p->block : NULL, length, *p->counts, a->length ? a->bytes : NULL, a->length, name);
    if (answer.number != number) {
        printf("states.c:%d: a saving answers %d and not %d (%s)\n", line, answer.number, number, outcome_names[o]);
        failed++;
    }
    CHECK(answer.length == 0);
    CHECK(same(block, p->block, p->length));
    CHECK(same_counts(counts, *p->counts));
    CHECK(same(a->should, a->bytes, a->length));
    free(block);
    return answer.number;
}

/* A return into `length` bytes of the panel's block, beside the model. */
static uint8_t return_part(struct panel *p, size_t length, bool whole, struct area *a, uint64_t name, int line)
{
    uint8_t *block = copy_of(p->block, p->length);
    struct plumtree_stats counts = *p->counts;
    size_t i = place_of(a, name);
    uint8_t number = 0;
    enum outcome o;
    struct plumtree_answer answer;
    if (!whole) {
        number = 5;
        o = unfit(a, length) ? RETURN_5_BEFORE_17 : RETURN_5;
    } else if (!serves(a, length)) {
        number = 17;
        o = no_area(a, length, i == a->kept, RETURN_17_SHORT, RETURN_17_DAMAGED, RETURN_17_DAMAGED_UNKNOWN, RETURN_17_OTHER_LENGTH);
    } else if (i == a->kept) {
        number = 15;
        o = a->kept ? RETURN_15 : RETURN_15_OF_NONE;
    } else {
        const struct state *s = &a->states[i];
        o = same((const uint8_t *)&s->limits, (const uint8_t *)&p->limits, sizeof p->limits) ? RETURNED : RETURNED_OTHER_PANEL;
        if (a->n != length)
            o = a->n < length ? RETURNED_OTHER_LENGTH : RETURNED_SHORTER;
        memset(block, 0, length);
        memcpy(block, s->block, length < a->n ? length : a->n);
        counts = s->counts;
        p->limits = s->limits;
    }
    outcomes[o]++;
    answer = plumtree_return(length ? p->block : NULL, length, p->counts, a->length ? a->bytes : NULL, a->length, name);
    if (answer.number != number) {
        printf("states.c:%d: a return answers %d and not %d (%s)\n", line, answer.number, number, outcome_names[o]);
        failed++;
    }
    CHECK(answer.length == 0);
    CHECK(same(block, p->block, p->length));
    CHECK(same_counts(counts, *p->counts));
    CHECK(same(a->should, a->bytes, a->length));
    free(block);
    return answer.number;
}

#define SAVE(p, a, name) save_part(p, (p)->length, (p)->whole, a, name, __LINE__)
#define RETURN(p, a, name) return_part(p, (p)->length, (p)->whole, a, name, __LINE__)
#define SAVES(p, a, name, number) CHECK(SAVE(p, a, name) == (number))
#define RETURNS(p, a, name, number) CHECK(RETURN(p, a, name) == (number))

/* EACH READING */

/* Bytes of an area changed by somebody else; `mend` takes it back. */
static void damage(struct area *a, size_t at, uint8_t value)
{
    CHECK(at < a->length && a->should[at] != value);
    a->bytes[at] = a->should[at] = value;
    a->damaged = true;
}

static void mend(struct area *a)
{
    lay_out(a);
    memcpy(a->bytes, a->should, a->length);
    a->damaged = false;
}

static struct plumtree_limits wider_limits(void)
{
    struct plumtree_limits l = least_limits();
    l.neighbours = 3;
    l.content = 20;
    l.queued = 2;
    return l;
}

/* Two panels with different numbers, settings and limits in blocks of one length, with neighbours and a reading each. */
static void two_panels(struct panel *p, struct panel *q)
{
    struct plumtree_settings s = plumtree_default_settings(7);
    size_t n = need_of(wider_limits()) + 50;
    uint8_t event[64];
    s.max_message_size = 700;
    s.config.cache_evict_interval = 77;
    *p = new_panel(n, 0xa5, plumtree_default_settings(1), least_limits());
    *q = new_panel(n, 0x3c, s, wider_limits());
    CHECK(tell(p, event, plumtree_put_up(event, 2), false).number == 0);
    CHECK(tell(p, event, plumtree_put_broadcast(event, "a", 1), true).number == 0);
    CHECK(tell(q, event, plumtree_put_up(event, 2), false).number == 0);
    CHECK(tell(q, event, plumtree_put_up(event, 3), false).number == 0);
    CHECK(tell(q, event, announced(event, 9), false).number == 0);
    CHECK(q->counts->control_messages_received == 1);
}

/* "Up to four states are kept in a second lent area under eight-byte names. Any name is allowed, and saving under a used one replaces it." */
static void names(void)
{
    static const uint64_t last = (uint64_t)1 << 63;
    struct panel p, q;
    struct area a;
    uint8_t *before;
    two_panels(&p, &q);
    a = new_area(plumtree_area_size(p.length));
    CHECK(a.length == 4 * p.length + 256);

    /* The name 0 beside the names 1 and 2^63. */
    RETURNS(&p, &a, 0, 15);
    SAVES(&p, &a, 1, 0);
    RETURNS(&p, &a, 0, 15);
    RETURNS(&p, &a, last, 15);
    SAVES(&q, &a, 0, 0);
    *q.counts = counts_of(5, 6, 7);
    SAVES(&q, &a, last, 0);
    CHECK(a.bytes[COUNT] == 3);
    RETURNS(&p, &a, 0, 0);
    CHECK(p.counts->payload_messages_received == 0 && p.counts->control_messages_received == 1);
    RETURNS(&p, &a, last, 0);
    CHECK(p.counts->max_last_delivery_hop == 7);
    RETURNS(&p, &a, 1, 0);

    /* A second return to the same name; saving the same again changes nothing. */
    RETURNS(&p, &a, 1, 0);
    before = copy_of(a.bytes, a.length);
    SAVES(&p, &a, 1, 0);
    CHECK(same(before, a.bytes, a.length));
    free(before);

    /* "saving a fifth name 16"; a used one of four is replaced, in its place. */
    SAVES(&p, &a, UINT64_MAX, 0);
    CHECK(a.bytes[COUNT] == 4);
    SAVES(&p, &a, 3, 16);
    SAVES(&p, &a, last >> 8, 16);
    *p.counts = counts_of(UINT64_MAX, UINT64_MAX, UINT16_MAX);
    SAVES(&p, &a, 0, 0);
    CHECK(a.bytes[COUNT] == 4 && get_le(a.bytes + ROW, 8) == 0 && get_le(a.bytes + ROW + 8, 8) == UINT64_MAX);
    SAVES(&q, &a, 3, 16);
    RETURNS(&q, &a, 3, 15);
    *q.counts = counts_of(0, 0, 0);
    RETURNS(&q, &a, 0, 0);
    CHECK(q.counts->payload_messages_received == UINT64_MAX && q.counts->control_messages_received == UINT64_MAX);
    CHECK(q.counts->max_last_delivery_hop == UINT16_MAX);
    free_area(a);
    free_panel(p);
    free_panel(q);
}

/* The header's two functions in plain C. */
static void in_the_header(void)
{
    static const char ascending[8] = {1, 2, 3, 4, 5, 6, 7, 8}, high[8] = {0, 0, 0, 0, 0, 0, 0, -1}, zero[8] = {0};
    struct panel p = new_panel(need_of(least_limits()), 0, plumtree_default_settings(1), least_limits());
    struct area a = new_area(plumtree_area_size(p.length));
    CHECK(plumtree_name(ascending) == 0x0807060504030201u);
    CHECK(plumtree_name(high) == (uint64_t)0xff << 56);
    CHECK(plumtree_name(zero) == 0);
    CHECK(plumtree_name("kiln 3 A") != plumtree_name("kiln 3 B"));
    SAVES(&p, &a, plumtree_name("kiln 3 A"), 0);
    CHECK(memcmp(a.bytes, "kiln 3 A", 8) == 0);
    CHECK(plumtree_area_size(0) == 256);
    CHECK(plumtree_area_size(58880) == 235776);
    CHECK(plumtree_area_size(2922496) == 11690240);
    CHECK(plumtree_area_size((SIZE_MAX - 256) / 4) == (SIZE_MAX - 256) / 4 * 4 + 256);
    CHECK(plumtree_area_size((SIZE_MAX - 256) / 4 + 1) == 0);
    CHECK(plumtree_area_size(SIZE_MAX) == 0);
    free_area(a);
    free_panel(p);
}

/* "Returning brings back block and counts in full": what stands behind the tables too; and the calls that follow are those that followed the saving. */
static void in_full(void)
{
    struct panel p, q;
    struct area a;
    uint8_t event[64], *after, *actions, *saved;
    struct plumtree_stats counts;
    struct plumtree_answer first, second;
    size_t n, i;
    two_panels(&p, &q);
    a = new_area(plumtree_area_size(p.length));
    for (i = need_of(p.limits); i < p.length; i++)
        p.block[i] = (uint8_t)(i * 7);
    saved = copy_of(p.block, p.length);
    *p.counts = counts_of(3, 4, 5);
    SAVES(&p, &a, 9, 0);
    n = announced(event, 4);
    first = tell(&p, event, n, false);
    CHECK(first.number == 0 && first.length > 0);
    actions = copy_of(output, first.length);
    after = copy_of(p.block, p.length);
    counts = *p.counts;
    CHECK(counts.control_messages_received == 5);
    CHECK(!same(saved, p.block, p.length));

    RETURNS(&p, &a, 9, 0);
    CHECK(same(saved, p.block, p.length));
    second = tell(&p, event, n, false);
    CHECK(second.number == 0 && second.length == first.length && same(actions, output, first.length));
    CHECK(same(after, p.block, p.length));
    CHECK(same_counts(counts, *p.counts));

    /* Into the block of another panel: its number, settings and limits are gone. */
    RETURNS(&q, &a, 9, 0);
    CHECK(same(saved, q.block, q.length));
    CHECK(same_counts(*q.counts, counts_of(3, 4, 5)));
    free(after);
    free(actions);
    free(saved);
    free_area(a);
    free_panel(p);
    free_panel(q);
}

/* A broadcast: how many messages it sends. */
static size_t pushed(struct panel *p, uint8_t content)
{
    uint8_t event[16];
    struct plumtree_answer answer = tell(p, event, plumtree_put_broadcast(event, &content, 1), false);
    struct plumtree_reader r = plumtree_actions_of(output, answer.length);
    struct plumtree_action a;
    size_t sends = 0;
    CHECK(answer.number == 0);
    while (plumtree_take_action(&r, &a))
        sends += a.kind == PLUMTREE_ACTION_SEND;
    return sends;
}

/* Who is quiet is kept, and comes back: told up by kind 3 since, the neighbour is quiet again after the return, and its Graft does not make it eager. */
static void quiet_again(void)
{
    static const uint8_t graft[] = {PLUMTREE_EVENT_RECEIVED, 2, PLUMTREE_MESSAGE_GRAFT, 0, 0};
    struct plumtree_limits l = plumtree_small_limits();
    struct panel p = new_panel(plumtree_block_size(l), 0xa5, plumtree_default_settings(1), l);
    struct area a = new_area(plumtree_area_size(p.length));
    uint8_t event[16];
    CHECK(tell(&p, event, plumtree_put_up_quiet(event, 2), false).number == 0);
    SAVES(&p, &a, 1, 0);
    CHECK(tell(&p, event, plumtree_put_up(event, 2), false).number == 0);
    CHECK(pushed(&p, 1) == 1);
    SAVES(&p, &a, 2, 0);
    RETURNS(&p, &a, 1, 0);
    CHECK(tell(&p, graft, sizeof graft, false).number == 0);
    CHECK(pushed(&p, 2) == 0);
    RETURNS(&p, &a, 2, 0);
    CHECK(pushed(&p, 3) == 1);
    free_area(a);
    free_panel(p);
}

/* "asked in the order 5, 17, 16 for saving and 5, 17, 15 for returning" */
static void orders(void)
{
    struct panel p, q, zeros;
    struct area a, tiny, none;
    uint64_t name;
    two_panels(&p, &q);
    zeros = no_panel(p.length, 0);
    *zeros.counts = counts_of(1, 2, 3);
    a = new_area(plumtree_area_size(p.length));
    tiny = new_area(10);
    none = new_area(0);

    /* A block of zeros: 5, with a good area and a kept name, with an area too short, with none. */
    SAVES(&p, &a, 1, 0);
    SAVES(&zeros, &a, 1, 5);
    RETURNS(&zeros, &a, 1, 5);
    SAVES(&zeros, &tiny, 1, 5);
    RETURNS(&zeros, &tiny, 1, 5);
    SAVES(&zeros, &none, 1, 5);
    RETURNS(&zeros, &none, 1, 5);
    CHECK(save_part(&p, 0, false, &none, 1, __LINE__) == 5);
    CHECK(return_part(&p, 0, false, &none, 1, __LINE__) == 5);
    CHECK(save_part(&p, need_of(p.limits) - 1, false, &a, 1, __LINE__) == 5);
    CHECK(return_part(&p, need_of(p.limits) - 1, false, &a, 1, __LINE__) == 5);

    /* A good block and an area of 10 bytes, or none: 17, whatever the name. */
    SAVES(&p, &tiny, 2, 17);
    RETURNS(&p, &tiny, 2, 17);
    SAVES(&p, &none, 2, 17);
    RETURNS(&p, &none, 2, 17);

    /* Four kept and one of the kept blocks damaged: 17 for a fifth name, an unknown one, a used one; 5 for a block that is not whole. */
    for (name = 2; name < 5; name++)
        SAVES(&q, &a, name, 0);
    SAVES(&q, &a, 5, 16);
    RETURNS(&q, &a, 5, 15);
    damage(&a, FRONT + 2 * a.n + M_PLACE + 1, 0xff);
    SAVES(&p, &a, 5, 17);
    RETURNS(&p, &a, 5, 17);
    SAVES(&p, &a, 1, 17);
    RETURNS(&p, &a, 1, 17);
    SAVES(&p, &a, 3, 17);
    RETURNS(&p, &a, 3, 17);
    SAVES(&zeros, &a, 1, 5);
    RETURNS(&zeros, &a, 1, 5);
    mend(&a);
    RETURNS(&p, &a, 3, 0);
    free_area(a);
    free_area(tiny);
    free_area(none);
    free_panel(p);
    free_panel(q);
    free_panel(zeros);
}

/* "The area needs four times the block and 256 bytes more, and starts as zeros" */
static void lengths(void)
{
    struct panel p, q, longer;
    struct area a;
    size_t n;
    int last;
    two_panels(&p, &q);
    n = p.length;
    for (last = 0; last < 2; last++) {
        a = new_area(4 * n + 257);
        if (last)
            damage(&a, 4 * n + 256, 1);
        SAVES(&p, &a, 1, last ? 17 : 0);
        RETURNS(&p, &a, 1, last ? 17 : 0);
        free_area(a);
    }
    a = new_area(4 * n + 256);
    SAVES(&p, &a, 1, 0);
    free_area(a);
    a = new_area(4 * n + 255);
    SAVES(&p, &a, 1, 17);
    RETURNS(&p, &a, 1, 17);
    free_area(a);
    a = new_area(256);
    SAVES(&p, &a, 1, 17);
    RETURNS(&p, &a, 1, 17);
    free_area(a);
    a = new_area(255);
    SAVES(&p, &a, 1, 17);
    RETURNS(&p, &a, 1, 17);
    free_area(a);

    /* A block of one byte more: an area of zeros serves it, and so does one with one state kept, which a saving of this block and a 0 leaves; not one with two. */
    longer = new_panel(n + 1, 0x77, plumtree_default_settings(3), least_limits());
    a = new_area(4 * (n + 1) + 256);
    RETURNS(&longer, &a, 1, 15);
    RETURNS(&p, &a, 1, 15);
    SAVES(&p, &a, 1, 0);
    RETURNS(&longer, &a, 2, 15);
    RETURNS(&longer, &a, 1, 0);
    CHECK(same(longer.block, p.block, n) && longer.block[n] == 0);
    SAVES(&q, &a, 2, 0);
    SAVES(&longer, &a, 1, 17);
    SAVES(&longer, &a, 3, 17);
    RETURNS(&longer, &a, 1, 17);
    RETURNS(&longer, &a, 3, 17);
    RETURNS(&p, &a, 2, 0);
    free_area(a);

    /* Then savings of either length go on from it; and a block with bytes behind its tables is none of a length without them. */
    a = new_area(4 * (n + 1) + 256);
    SAVES(&p, &a, 1, 0);
    SAVES(&longer, &a, 2, 0);
    CHECK(a.n == n + 1 && a.kept == 2);
    SAVES(&p, &a, 3, 17);
    RETURNS(&p, &a, 1, 17);
    RETURNS(&longer, &a, 1, 0);
    forget(&a);
    longer.block[n] = 0x77;
    SAVES(&longer, &a, 1, 0);
    SAVES(&p, &a, 2, 17);
    RETURNS(&p, &a, 1, 17);
    longer.block[n] = 0;
    SAVES(&longer, &a, 1, 0);
    RETURNS(&p, &a, 1, 0);
    SAVES(&p, &a, 1, 0);
    CHECK(a.n == n && a.kept == 1);
    free_area(a);

    /* An area of 4n + 256 bytes is too short for the longer block. */
    a = new_area(4 * n + 256);
    SAVES(&longer, &a, 1, 17);
    SAVES(&p, &a, 1, 0);
    RETURNS(&longer, &a, 1, 17);
    free_area(a);
    free_panel(p);
    free_panel(q);
    free_panel(longer);
}

/* "one that savings of blocks of this length couldn't have left": each part of the area, changed. */
static void not_left(void)
{
    struct panel p, q;
    struct area a;
    size_t n, i, kept;
    two_panels(&p, &q);
    n = p.length;
    a = new_area(4 * n + 256 + 3);
    for (kept = 0; kept <= MOST; kept++) {
        /* How many are kept: every other number. */
        for (i = 0; i < 256; i++)
            if (i != kept) {
                damage(&a, COUNT, (uint8_t)i);
                SAVES(&p, &a, 11, 17);
                RETURNS(&p, &a, 11, 17);
                mend(&a);
            }
        /* What is unused: the first and last byte of the rows, of the blocks, of the area. */
        for (i = 0; i < 6; i++) {
            size_t at[6];
            at[0] = ROW * kept;
            at[1] = ROW * MOST;
            at[2] = COUNT - 1;
            at[3] = FRONT + n * kept;
            at[4] = FRONT + n * MOST;
            at[5] = a.length - 1;
            damage(&a, at[i], 0x80);
            SAVES(&p, &a, 11, 17);
            RETURNS(&p, &a, 11, 17);
            mend(&a);
        }
        for (i = 0; i < kept; i++) {
            /* A block that is not whole. */
            damage(&a, FRONT + n * i + M_PLACE + 7, 1);
            SAVES(&p, &a, 11, 17);
            RETURNS(&p, &a, 11, 17);
            mend(&a);
            /* A name twice: that of another row, written over this one. */
            if (kept > 1) {
                size_t other = (i + 1) % kept;
                memcpy(a.bytes + ROW * i, a.bytes + ROW * other, 8);
                memcpy(a.should + ROW * i, a.should + ROW * other, 8);
                a.damaged = true;
                SAVES(&p, &a, 11, 17);
                SAVES(&p, &a, a.states[other].name, 17);
                RETURNS(&p, &a, a.states[other].name, 17);
                mend(&a);
            }
        }
        if (kept < MOST)
            SAVES(kept % 2 ? &q : &p, &a, 11 + kept, 0);
    }

    /* A fifth state, in an area that has room for it: the first one again, under another name. */
    {
        struct area five = new_area(5 * n + 256);
        for (i = 0; i < MOST; i++)
            SAVES(&p, &five, 11 + i, 0);
        memcpy(five.bytes + ROW * MOST, five.bytes, ROW);
        five.bytes[ROW * MOST] = 99;
        memcpy(five.bytes + FRONT + MOST * n, five.bytes + FRONT, n);
        five.bytes[COUNT] = 5;
        memcpy(five.should, five.bytes, five.length);
        five.damaged = true;
        SAVES(&p, &five, 11, 17);
        SAVES(&p, &five, 99, 17);
        SAVES(&p, &five, 100, 17);
        RETURNS(&p, &five, 11, 17);
        RETURNS(&p, &five, 99, 17);
        RETURNS(&p, &five, 100, 17);
        free_area(five);
    }

    /* A gap: row and block 0 empty, 1 in use. A row of zeros with a whole block is the name 0 with counts of zeros, and no gap. */
    forget(&a);
    *p.counts = counts_of(0, 0, 0);
    SAVES(&q, &a, 5, 0);
    SAVES(&p, &a, 0, 0);
    CHECK(all_zero(a.bytes + ROW, ROW) && a.bytes[COUNT] == 2);
    RETURNS(&q, &a, 0, 0);
    CHECK(same(p.block, q.block, n));
    for (i = 0; i < 3; i++) {
        memset(a.bytes, 0, ROW);
        memset(a.bytes + FRONT, 0, n);
        a.bytes[COUNT] = (uint8_t)i;
        memcpy(a.should, a.bytes, a.length);
        a.damaged = true;
        SAVES(&p, &a, 5, 17);
        RETURNS(&p, &a, 5, 17);
        RETURNS(&p, &a, 0, 17);
    }
    free_area(a);
    free_panel(p);
    free_panel(q);
}

/* HISTORIES */

#define PANELS 5
#define AREAS 5

static const uint64_t some_names[] = {0,
                                      1,
                                      2,
                                      (uint64_t)1 << 8,
                                      (uint64_t)1 << 16,
                                      (uint64_t)1 << 24,
                                      (uint64_t)1 << 32,
                                      (uint64_t)1 << 40,
                                      (uint64_t)1 << 48,
                                      (uint64_t)1 << 56,
                                      (uint64_t)1 << 63,
                                      UINT64_MAX,
                                      UINT64_MAX ^ (uint64_t)1 << 56};

/* Settings that have no M in the place of M where a block is read up to 8 bytes off. */
/* Blocks of 4,400,001 bytes: places in the area that take more than 24 bits. */
static void long_blocks(void)
{
    size_t n = 4400001;
    struct panel p = new_panel(n, 0x5a, plumtree_default_settings(1), least_limits());
    struct area a = new_area(4 * n + 256);
    uint64_t name;
    for (name = 1; name <= MOST; name++) {
        p.block[n - 1] = (uint8_t)name;
        SAVES(&p, &a, name, 0);
    }
    for (name = MOST; name >= 1; name--) {
        RETURNS(&p, &a, name, 0);
        CHECK(p.block[n - 1] == name);
    }
    free_area(a);
    free_panel(p);
}

static struct plumtree_settings some_settings(void)
{
    static const uint64_t sizes[] = {510, 511, 700, 4094};
    struct plumtree_settings s = plumtree_default_settings(1 + below(9));
    s.max_message_size = sizes[below(4)];
    s.config.graft_timeout_1 = below(200);
    s.config.optimization_threshold = (uint16_t)any();
    s.config.cache_evict_interval = below(100);
    return s;
}

static struct plumtree_limits some_limits(size_t length)
{
    struct plumtree_limits l;
    do {
        l = least_limits();
        l.neighbours += below(3);
        l.content += below(40);
        l.queued += below(3);
        l.dropped += below(3);
    } while (need_of(l) > length);
    return l;
}

/* Damage of a kind that every length sees. */
static void some_damage(struct area *a)
{
    size_t i;
    if (a->length < FRONT + 4 * a->n)
        return;
    switch (below(5)) {
    case 0:
        i = ROW * a->kept + below(COUNT - ROW * a->kept);
        damage(a, i, (uint8_t)(1 + below(255)));
        break;
    case 1:
        if (a->kept < MOST || a->length > FRONT + MOST * a->n)
            damage(a, a->length - 1, (uint8_t)(1 + below(255)));
        break;
    case 2:
        damage(a, COUNT, (uint8_t)(a->kept + 1 + below(255)));
        break;
    case 3:
        if (a->kept > 1) {
            memcpy(a->bytes, a->bytes + ROW * (a->kept - 1), 8);
            memcpy(a->should, a->bytes, 8);
            a->damaged = true;
        }
        break;
    default:
        if (a->kept) {
            i = FRONT + a->n * below(a->kept) + M_PLACE + 2;
            damage(a, i, (uint8_t)(1 + below(255)));
        }
    }
}

static size_t events_taken;

static void one_step(struct panel *panels, struct area *areas)
{
    static const uint8_t which_panel[] = {0, 0, 1, 1, 2, 2, 3, 4}, which_area[] = {0, 0, 0, 0, 1, 1, 1, 1, 2, 3, 4, 4};
    struct panel *p = &panels[which_panel[below(sizeof which_panel)]];
    struct area *a = &areas[which_area[below(sizeof which_area)]];
    uint64_t name = some_names[below(below(3) ? 5 : sizeof some_names / sizeof *some_names)];
    uint8_t event[64];
    if (a->kept && below(3) == 0)
        name = a->states[below(a->kept)].name;
    switch (below(24)) {
    case 0:
        if (below(2))
            memset(p->block, 0, p->length);
        create(p, some_settings(), some_limits(p->length));
        break;
    case 1:
        *p->counts = counts_of(any(), below(2) ? UINT64_MAX : any(), (uint16_t)(below(2) ? UINT16_MAX : any()));
        break;
    case 2:
        forget(a);
        break;
    case 3: /* what the limits do not need */
        if (need_of(p->limits) < p->length)
            p->block[need_of(p->limits) + below(p->length - need_of(p->limits))] = (uint8_t)(below(2) ? 0 : any());
        break;
    case 4:
    case 5: { /* an area that somebody wrote */
        some_damage(a);
        SAVE(p, a, name);
        RETURN(p, a, name);
        if (a->damaged)
            mend(a);
        break;
    }
    case 6:
    case 7: { /* a block that somebody wrote, or that is cut */
        uint64_t m = get_le(p->block + M_PLACE, 8);
        if (below(2)) {
            put_le(p->block + M_PLACE, 8, below(2) ? 0 : 4095);
            if (below(2))
                save_part(p, p->length, false, a, name, __LINE__);
            else
                return_part(p, p->length, false, a, name, __LINE__);
            put_le(p->block + M_PLACE, 8, m);
        } else if (below(2)) {
            save_part(p, below(need_of(p->limits)), false, a, name, __LINE__);
        } else {
            return_part(p, below(need_of(p->limits)), false, a, name, __LINE__);
        }
        break;
    }
    case 8:
    case 9:
    case 10:
    case 11:
    case 12:
        SAVE(p, a, name);
        break;
    case 13:
    case 14:
    case 15:
    case 16:
        RETURN(p, a, name);
        break;
    default:
        if (tell(p, event, some_event(event), below(3) == 0).number == 0)
            events_taken++;
    }
}

static void histories(size_t steps)
{
    const size_t n = 6200, lengths[PANELS] = {n, n, n, n + 3, n - 5}, sizes[AREAS] = {4 * n + 256, 4 * (n + 3) + 256 + 9, 4 * n + 255, 10, 4 * (n - 5) + 256};
    struct panel panels[PANELS];
    struct area areas[AREAS];
    size_t i;
    for (i = 0; i < PANELS; i++)
        panels[i] = new_panel(lengths[i], i % 2 ? 0xa5 : 0, some_settings(), some_limits(lengths[i]));
    for (i = 0; i < AREAS; i++)
        areas[i] = new_area(sizes[i]);
    for (i = 0; i < steps && !failed; i++)
        one_step(panels, areas);
    for (i = 0; i < AREAS; i++) {
        CHECK(same(areas[i].should, areas[i].bytes, areas[i].length));
        free_area(areas[i]);
    }
    for (i = 0; i < PANELS; i++)
        free_panel(panels[i]);
}

/* EVERY BIT */

/* What the layout asks of an area without its blocks: how many are kept, zeros elsewhere, names that differ. */
static bool laid_out(const uint8_t *area, size_t length, size_t n)
{
    size_t kept = area[COUNT], i, j;
    if (kept > MOST || !all_zero(area + ROW * kept, COUNT - ROW * kept) || !all_zero(area + FRONT + n * kept, length - FRONT - n * kept))
        return false;
    for (i = 0; i < kept; i++)
        for (j = 0; j < i; j++)
            if (get_le(area + ROW * i, 8) == get_le(area + ROW * j, 8))
                return false;
    return true;
}

/* Question 5 as an event asks it: at a time too late the answer is 5, or 6 where the block is whole. */
static bool whole_block(uint8_t *block, size_t n)
{
    struct plumtree_stats counts = counts_of(0, 0, 0);
    struct plumtree_answer a = plumtree_event(block, n, &counts, UINT64_MAX, NULL, 0, NULL, 0, NULL, 0);
    CHECK(a.number == PLUMTREE_BLOCK_NOT_WHOLE || a.number == PLUMTREE_TIME_TOO_LATE);
    return a.number == PLUMTREE_TIME_TOO_LATE;
}

static size_t by_layout, by_name, by_block, left_by_savings;

/* Saving what a return brings back for each kept name, in their order, into zeros makes the same bytes. */
static void saved_again(const uint8_t *area, size_t length, size_t n, uint8_t *block, uint8_t *again)
{
    struct plumtree_stats counts = counts_of(0, 0, 0);
    size_t i;
    memset(again, 0, length);
    for (i = 0; i < area[COUNT]; i++) {
        uint64_t name = get_le(area + ROW * i, 8);
        CHECK(plumtree_return(block, n, &counts, area, length, name).number == 0);
        CHECK(plumtree_save(block, n, counts, again, length, name).number == 0);
    }
    CHECK(same(area, again, length));
}

/* An area with so many states kept, each STRIDE-th of its bits changed: answered 17 by both calls, or an area that savings leave. */
static void every_bit(const struct panel *states, size_t kept, size_t more, size_t stride)
{
    static const uint64_t name_of[MOST] = {0, 1, (uint64_t)1 << 63, 0x6b696c6e20332041u};
    size_t n = states[0].length, length = 4 * n + 256 + more, bit, i;
    uint8_t *area = (uint8_t *)bytes(length, 0), *good = NULL, *again = (uint8_t *)bytes(length, 0), *block = copy_of(states[0].block, n);
    for (i = 0; i < kept; i++)
        CHECK(plumtree_save(states[i].block, n, *states[i].counts, area, length, name_of[i]).number == 0);
    good = copy_of(area, length);
    saved_again(area, length, n, block, again);
    for (bit = 0; bit < 8 * length && !failed; bit += stride) {
        struct plumtree_stats counts = counts_of(1, 2, 3);
        struct plumtree_answer saved, returned;
        uint64_t name = kept ? name_of[bit % kept] : 77;
        bool laid, holds;
        uint8_t was;
        area[bit / 8] ^= (uint8_t)(1 << bit % 8);
        was = area[bit / 8];
        laid = holds = laid_out(area, length, n);
        for (i = 0; holds && i < area[COUNT]; i++)
            holds = whole_block(area + FRONT + n * i, n);
        CHECK(area[bit / 8] == was);

        /* A return to the name of a row, as the row has it now. */
        if (kept)
            name = get_le(area + ROW * (bit % kept), 8);
        memcpy(block, states[0].block, n);
        returned = plumtree_return(block, n, &counts, area, length, name);
        CHECK(returned.length == 0);
        CHECK(returned.number == (!holds ? 17 : kept ? 0 : 15));
        if (!holds)
            CHECK(same(block, states[0].block, n) && same_counts(counts, counts_of(1, 2, 3)));
        else if (kept)
            CHECK(same(block, area + FRONT + n * (bit % kept), n) && counts.control_messages_received == get_le(area + ROW * (bit % kept) + 16, 8));
        if (holds) {
            left_by_savings++;
            saved_again(area, length, n, block, again);
        } else if (laid) {
            by_block++;
        } else if (bit < 8 * ROW * kept) {
            by_name++;
        } else {
            by_layout++;
        }

        /* A saving, under the name of a row or under another. */
        if (bit % 3 == 0)
            name = 78;
        memcpy(again, area, length);
        saved = plumtree_save(states[0].block, n, counts, area, length, name);
        CHECK(saved.length == 0);
        CHECK(saved.number == (!holds ? 17 : name == 78 && kept == MOST ? 16 : 0));
        if (saved.number)
            CHECK(same(area, again, length));
        memcpy(area, good, length);
    }
    free(area);
    free(good);
    free(again);
    free(block);
}

static void all_bits(size_t stride)
{
    static const uint8_t prune[] = {PLUMTREE_EVENT_RECEIVED, 2, PLUMTREE_MESSAGE_PRUNE};
    struct panel states[MOST];
    uint8_t event[64];
    size_t i, n = need_of(least_limits());
    CHECK(n == plumtree_block_size(least_limits()));
    for (i = 0; i < MOST; i++) {
        states[i] = new_panel(n, i == 1 ? 0xa5 : 0, plumtree_default_settings(1 + i), least_limits());
        if (i < 3)
            CHECK(tell(&states[i], event, plumtree_put_up(event, 2), false).number == 0);
        *states[i].counts = counts_of(any(), any(), (uint16_t)any());
    }
    /* A reading handed back and recorded; one queued; an announcement and what was asked for; a new panel. */
    CHECK(tell(&states[0], event, plumtree_put_broadcast(event, "a", 1), true).number == 0);
    CHECK(tell(&states[1], prune, sizeof prune, false).number == 0);
    CHECK(tell(&states[1], event, plumtree_put_broadcast(event, "a", 1), false).number == 0);
    CHECK(tell(&states[2], event, announced(event, 9), false).number == 0);
    CHECK(tell(&states[2], event, send_graft(event, 9), false).number == 0);
    CHECK(tell(&states[2], event, announced(event, 9), false).number == 0);

    every_bit(states, 0, 5, stride);
    every_bit(states, 1, 5, stride);
    every_bit(states, 2, 0, stride);
    every_bit(states, 4, 5, stride);
    CHECK(by_layout > 0 && by_block > 0 && left_by_savings > 0);
    if (stride == 1)
        CHECK(by_name > 0);
    for (i = 0; i < MOST; i++)
        free_panel(states[i]);
}

int main(int n, char **words)
{
    size_t steps = n > 1 ? (size_t)atol(words[1]) : 60000, stride = n > 2 ? (size_t)atol(words[2]) : 1, saves = 0, returns = 0, i;
    CHECK(sizeof(struct plumtree_stats) == 24);
    names();
    in_the_header();
    in_full();
    quiet_again();
    orders();
    lengths();
    not_left();
    if (stride == 1)
        long_blocks();
    for (i = 0; i < OUTCOMES; i++)
        outcomes[i] = 0;
    histories(steps);
    for (i = 0; i < OUTCOMES; i++) {
        if (i < RETURNED)
            saves += outcomes[i];
        else
            returns += outcomes[i];
        if (outcomes[i] == 0) {
            printf("states.c: no history has: %s\n", outcome_names[i]);
            failed++;
        }
    }
    all_bits(stride);
    printf("states: %zu savings (%zu accepted), %zu returns (%zu accepted), %zu events between them; of changed bits %zu are 17 by zeros or how many, "
           "%zu by a name twice, %zu by a block, and %zu are left by savings: %s\n",
           saves, outcomes[SAVED_NEW] + outcomes[SAVED_AGAIN] + outcomes[SAVED_OTHER_LENGTH], returns,
           outcomes[RETURNED] + outcomes[RETURNED_OTHER_PANEL] + outcomes[RETURNED_OTHER_LENGTH] + outcomes[RETURNED_SHORTER], events_taken, by_layout, by_name,
           by_block, left_by_savings, failed ? "not as promised" : "as promised");
    return failed != 0;
}
