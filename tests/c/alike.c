/*
 * Whether two panels are alike: the order of announcers, queues and records, and of expiry entries of one time, and who is quiet, is seen; how the lists of different neighbours stand in
 * the block, expiry entries of different times, spare bytes and the block's length are not. The panels are led to by two lists of calls that differ in one thing.
 * From alike blocks and equal counts the same calls give the same answers and actions.
 */
#include <stdio.h>
#include <stdlib.h>
#include <string.h>

#include "plumtree.h"
#include "wire.h"

static int failed;

#define CHECK(fact)                                              \
    do {                                                         \
        if (!(fact)) {                                           \
            printf("alike.c:%d: not so: %s\n", __LINE__, #fact); \
            failed = 1;                                          \
        }                                                        \
    } while (0)

struct panel {
    uint8_t *block;
    size_t block_length;
    struct plumtree_stats counts;
    uint8_t output[16384];
    struct plumtree_answer answer;
};

static const struct plumtree_limits limits = {4, 100, 100, 4000, 8, 8, 8, 200, 200};

/* A panel in a block that is longer by so many bytes, all of them this byte before. */
static struct panel *new_panel(size_t more, int byte)
{
    struct panel *p = (struct panel *)calloc(1, sizeof *p);
    if (!p)
        exit(2);
    p->block_length = plumtree_block_size(limits) + more;
    p->block = (uint8_t *)malloc(p->block_length);
    if (!p->block)
        exit(2);
    memset(p->block, byte, p->block_length);
    p->answer = plumtree_create(p->block, p->block_length, &p->counts, plumtree_default_settings(1), limits);
    CHECK(p->answer.number == PLUMTREE_ACCEPTED);
    return p;
}

static void free_panel(struct panel *p)
{
    free(p->block);
    free(p);
}

/* A call; where `back` is set the links to 2 and 3 hand back all that is sent. */
static void call(struct panel *p, uint64_t at, const uint8_t *event, size_t n, bool back)
{
    static const struct plumtree_link_room none[2] = {{2, 0}, {3, 0}};
    p->answer = plumtree_event(p->block, p->block_length, &p->counts, at, event, n, none, back ? 2 : 0, p->output, sizeof p->output);
}

/* An accepted call. */
static void tell(struct panel *p, uint64_t at, const uint8_t *event, size_t n, bool back)
{
    call(p, at, event, n, back);
    CHECK(p->answer.number == PLUMTREE_ACCEPTED);
}

static void up(struct panel *p, uint64_t peer)
{
    uint8_t event[16];
    tell(p, 0, event, plumtree_put_up(event, peer), false);
}

static void up_quiet(struct panel *p, uint64_t peer)
{
    uint8_t event[16];
    tell(p, 0, event, plumtree_put_up_quiet(event, peer), false);
}

/* A Prune from a neighbour makes it lazy, a Graft without an identifier eager. */
static void make_lazy(struct panel *p, uint8_t peer)
{
    const uint8_t event[] = {PLUMTREE_EVENT_RECEIVED, peer, PLUMTREE_MESSAGE_PRUNE};
    tell(p, 0, event, sizeof event, false);
}

static void make_eager(struct panel *p, uint8_t peer)
{
    const uint8_t event[] = {PLUMTREE_EVENT_RECEIVED, peer, PLUMTREE_MESSAGE_GRAFT, 0, 0};
    tell(p, 0, event, sizeof event, false);
}

/* A broadcast whose content is this number. */
static void broadcast(struct panel *p, uint64_t at, uint8_t content, bool back)
{
    uint8_t event[16];
    tell(p, at, event, plumtree_put_broadcast(event, &content, 1), back);
}

static void tick(struct panel *p, enum plumtree_timer_kind kind, bool back)
{
    uint8_t event[16];
    tell(p, 100, event, plumtree_put_tick(event, kind), back);
}

/* An IHave of an identifier, 32 times this byte, from a neighbour; its timer. */
static void announced(struct panel *p, uint8_t peer, int id)
{
    uint8_t event[64] = {PLUMTREE_EVENT_RECEIVED, peer, PLUMTREE_MESSAGE_IHAVE, 1};
    memset(event + 4, id, PLUMTREE_ID_BYTES);
    event[36] = 5;
    tell(p, 0, event, 37, false);
}

static void send_graft(struct panel *p, uint64_t at, int id)
{
    uint8_t event[64], timer[1 + PLUMTREE_ID_BYTES];
    memset(timer, id, sizeof timer);
    timer[0] = PLUMTREE_TIMER_SEND_GRAFT;
    tell(p, at, event, plumtree_put_timer(event, timer, sizeof timer), false);
}

static bool same_counts(const struct panel *a, const struct panel *b)
{
    return a->counts.payload_messages_received == b->counts.payload_messages_received &&
           a->counts.control_messages_received == b->counts.control_messages_received &&
           a->counts.max_last_delivery_hop == b->counts.max_last_delivery_hop;
}

/* Asked both ways. */
static bool alike(const struct panel *a, const struct panel *b)
{
    struct plumtree_likeness x = plumtree_alike(a->block, a->block_length, b->block, b->block_length);
    struct plumtree_likeness y = plumtree_alike(b->block, b->block_length, a->block, a->block_length);
    CHECK(x.number == PLUMTREE_ACCEPTED && y.number == PLUMTREE_ACCEPTED);
    CHECK(x.alike == y.alike);
    return x.alike;
}

/* The last call was answered the same, with the same actions. */
static bool same_answer(const struct panel *a, const struct panel *b)
{
    return a->answer.number == b->answer.number && a->answer.length == b->answer.length && memcmp(a->output, b->output, a->answer.length) == 0;
}

/* Alike and with equal counts, and so they stay through calls of every kind, refused ones among them. */
static void alike_through_calls(struct panel *a, struct panel *b)
{
    static const struct {
        uint64_t at;
        bool back;
        uint8_t length, event[6];
    } calls[] = {
        {100, true, 2, {PLUMTREE_EVENT_TIMER, PLUMTREE_TIMER_ANNOUNCE_DROPPED}},
        {100, true, 2, {PLUMTREE_EVENT_TIMER, PLUMTREE_TIMER_DISPATCH_LAZY_PUSH}},
        {100, false, 4, {PLUMTREE_EVENT_BROADCAST, 1, 77, PLUMTREE_DELIVERY_SWARM}},
        {(uint64_t)1 << 63, false, 2, {PLUMTREE_EVENT_TIMER, PLUMTREE_TIMER_ANNOUNCE_DROPPED}},
        {100, false, 3, {PLUMTREE_EVENT_RECEIVED, 3, PLUMTREE_MESSAGE_PRUNE}},
        {100, false, 2, {PLUMTREE_EVENT_UP, 0x80}},
        {100, false, 2, {PLUMTREE_EVENT_UP_QUIET, 3}},
        {100, true, 4, {PLUMTREE_EVENT_BROADCAST, 1, 78, PLUMTREE_DELIVERY_SWARM}},
        {100, false, 2, {PLUMTREE_EVENT_TIMER, PLUMTREE_TIMER_ANNOUNCE_DROPPED}},
        {100, false, 2, {PLUMTREE_EVENT_TIMER, PLUMTREE_TIMER_DISPATCH_LAZY_PUSH}},
        {100, false, 5, {PLUMTREE_EVENT_RECEIVED, 3, PLUMTREE_MESSAGE_GRAFT, 0, 0}},
        {100, false, 4, {PLUMTREE_EVENT_BROADCAST, 1, 79, PLUMTREE_DELIVERY_SWARM}},
        {100, false, 2, {PLUMTREE_EVENT_UP, 3}},
        {100, false, 2, {PLUMTREE_EVENT_DOWN, 2}},
        {40000, false, 2, {PLUMTREE_EVENT_TIMER, PLUMTREE_TIMER_EVICT_CACHE}},
    };
    size_t i;
    CHECK(alike(a, b));
    CHECK(same_counts(a, b));
    for (i = 0; i < sizeof calls / sizeof *calls; i++) {
        call(a, calls[i].at, calls[i].event, calls[i].length, calls[i].back);
        call(b, calls[i].at, calls[i].event, calls[i].length, calls[i].back);
        CHECK(same_answer(a, b));
        CHECK(same_counts(a, b));
        CHECK(alike(a, b));
    }
}

/* Records of 65 identifiers for 2, the same ones but for the order of the first and the last; each content has its time, whenever it was broadcast. */
static struct panel *recorded(bool other)
{
    struct panel *p = new_panel(0, 0);
    uint8_t i;
    up(p, 2);
    for (i = 0; i < 65; i++) {
        uint8_t content = other && i == 0 ? 64 : other && i == 64 ? 0 : i;
        broadcast(p, content, content, true);
    }
    return p;
}

/* Whether the actions of the last call announce this content. */
static bool announces(const struct panel *p, uint8_t content)
{
    struct panel *q = new_panel(0, 0);
    struct plumtree_reader r;
    struct plumtree_action a;
    uint8_t id[PLUMTREE_ID_BYTES];
    bool found = false;
    size_t i;
    up(q, 2);
    broadcast(q, 0, content, false);
    r = plumtree_actions_of(q->output, q->answer.length);
    while (plumtree_take_action(&r, &a))
        if (a.kind == PLUMTREE_ACTION_SEND)
            memcpy(id, a.message.bytes + 1, sizeof id);
    for (i = 0; i + sizeof id <= p->answer.length; i++)
        found = found || memcmp(p->output + i, id, sizeof id) == 0;
    free_panel(q);
    return found;
}

/*
 * The specification: "Two panels were shown as alike and sent different identifiers on the next ticks, since their records held the same ones in another order." At the next
 * ticks 64 go out, and the last one waits.
 */
static void customers_case(void)
{
    struct panel *a = recorded(false), *b = recorded(true);
    CHECK(!alike(a, b));
    tick(a, PLUMTREE_TIMER_ANNOUNCE_DROPPED, false);
    tick(b, PLUMTREE_TIMER_ANNOUNCE_DROPPED, false);
    tick(a, PLUMTREE_TIMER_DISPATCH_LAZY_PUSH, false);
    tick(b, PLUMTREE_TIMER_DISPATCH_LAZY_PUSH, false);
    CHECK(announces(a, 0) && !announces(a, 64));
    CHECK(announces(b, 64) && !announces(b, 0));
    free_panel(a);
    free_panel(b);
}

/* Records for 2 and 3, neighbour by neighbour or in turn: a dispatch that both links hand back, or broadcasts that both links hand back. */
static struct panel *records_of_two(bool turns)
{
    struct panel *p = turns ? new_panel(1000, 0x5a) : new_panel(0, 0);
    uint8_t i;
    for (i = 2; i < 4; i++)
        up(p, i);
    for (i = 2; i < 4; i++)
        make_lazy(p, i);
    for (i = 2; i < 4 && turns; i++)
        make_eager(p, i);
    for (i = 0; i < 5; i++)
        broadcast(p, 0, i, turns);
    tick(p, PLUMTREE_TIMER_DISPATCH_LAZY_PUSH, !turns);
    for (i = 2; i < 4 && !turns; i++)
        make_eager(p, i);
    return p;
}

/* Queues for 2 and 3, in turn or neighbour by neighbour: of broadcasts, or of what a tick brings again. */
static struct panel *queues_of_two(bool turns)
{
    struct panel *p = turns ? new_panel(7, 0x5a) : new_panel(0, 0xff);
    uint8_t i;
    for (i = 2; i < 4; i++)
        up(p, i);
    for (i = 2; i < 4; i++)
        make_lazy(p, i);
    for (i = 0; i < 5; i++)
        broadcast(p, 0, i, false);
    if (!turns) {
        tick(p, PLUMTREE_TIMER_DISPATCH_LAZY_PUSH, true);
        tick(p, PLUMTREE_TIMER_ANNOUNCE_DROPPED, false);
    }
    return p;
}

/* Two contents, the first of them at one time and the second `apart` later, in the one order or the other; 2 is eager or lazy, and takes what is sent or hands it back. */
static struct panel *two_broadcasts(bool other, uint64_t apart, bool lazy, bool back)
{
    struct panel *p = new_panel(0, other ? 1 : 2);
    up(p, 2);
    if (lazy)
        make_lazy(p, 2);
    broadcast(p, other ? 5 + apart : 5, other, back);
    broadcast(p, other ? 5 : 5 + apart, !other, back);
    return p;
}

static struct panel *two_grafts(bool other, uint64_t apart)
{
    struct panel *p = new_panel(0, 0);
    up(p, 2);
    announced(p, 2, 8);
    announced(p, 2, 9);
    send_graft(p, other ? 5 + apart : 5, other ? 9 : 8);
    send_graft(p, other ? 5 : 5 + apart, other ? 8 : 9);
    return p;
}

static struct panel *two_announcers(bool other)
{
    struct panel *p = new_panel(0, 0);
    up(p, 2);
    up(p, 3);
    announced(p, other ? 3 : 2, 8);
    announced(p, other ? 2 : 3, 8);
    return p;
}

/* The neighbour 2, told by kind 5 or by kind 3; and pruned, so that the latter is lazy; told so from the first, or told up by the other kind before. */
static struct panel *one_marked(bool quiet, bool pruned, bool other_before)
{
    struct panel *p = new_panel(0, quiet ? 3 : 4);
    if (other_before)
        (quiet ? up : up_quiet)(p, 2);
    (quiet ? up_quiet : up)(p, 2);
    if (pruned)
        make_lazy(p, 2);
    broadcast(p, 0, 1, true);
    return p;
}

/* A quiet neighbour and a lazy one, with the same queue: the ticks are answered the same, and after a Graft of the neighbour no more than that. */
static void quiet_and_lazy(void)
{
    struct panel *a = one_marked(true, true, false), *b = one_marked(false, true, false);
    CHECK(!alike(a, b));
    tick(a, PLUMTREE_TIMER_DISPATCH_LAZY_PUSH, false);
    tick(b, PLUMTREE_TIMER_DISPATCH_LAZY_PUSH, false);
    CHECK(same_answer(a, b) && a->answer.length > 0 && same_counts(a, b));
    make_eager(a, 2);
    make_eager(b, 2);
    broadcast(a, 100, 2, false);
    broadcast(b, 100, 2, false);
    CHECK(!same_answer(a, b));
    free_panel(a);
    free_panel(b);
}

/* Two panels that are not alike, though their counts are equal. */
static void not_alike(struct panel *a, struct panel *b, int line)
{
    if (alike(a, b) || !same_counts(a, b)) {
        printf("alike.c:%d: alike, or other counts\n", line);
        failed = 1;
    }
    free_panel(a);
    free_panel(b);
}

#define NOT_ALIKE(a, b) not_alike(a, b, __LINE__)

/* Two panels that are alike, and stay so. */
static void both_alike(struct panel *a, struct panel *b)
{
    alike_through_calls(a, b);
    free_panel(a);
    free_panel(b);
}

/* What the sheet asks for besides alike blocks: equal counts, and the same output space. */
static void what_else_is_needed(void)
{
    static const uint8_t prune[] = {PLUMTREE_EVENT_RECEIVED, 2, PLUMTREE_MESSAGE_PRUNE};
    static const uint8_t dispatch[] = {PLUMTREE_EVENT_TIMER, PLUMTREE_TIMER_DISPATCH_LAZY_PUSH};
    struct panel *a = queues_of_two(true), *b = queues_of_two(false);
    b->counts.control_messages_received = UINT64_MAX;
    call(a, 100, prune, sizeof prune, false);
    call(b, 100, prune, sizeof prune, false);
    CHECK(a->answer.number == PLUMTREE_ACCEPTED && b->answer.number == PLUMTREE_COUNTS_FULL);
    CHECK(alike(a, b));
    call(a, 100, dispatch, sizeof dispatch, false);
    b->answer = plumtree_event(b->block, b->block_length, &b->counts, 100, dispatch, sizeof dispatch, NULL, 0, b->output, a->answer.length - 1);
    CHECK(a->answer.number == PLUMTREE_ACCEPTED && b->answer.number == PLUMTREE_OUTPUT_TOO_SHORT);
    CHECK(!alike(a, b));
    b->answer = plumtree_event(b->block, b->block_length, &b->counts, 100, dispatch, sizeof dispatch, NULL, 0, b->output, a->answer.length);
    CHECK(same_answer(a, b) && alike(a, b));
    free_panel(a);
    free_panel(b);
}

int main(void)
{
    customers_case();
    both_alike(records_of_two(true), records_of_two(false));
    both_alike(queues_of_two(true), queues_of_two(false));
    NOT_ALIKE(two_announcers(false), two_announcers(true));
    both_alike(two_announcers(false), two_announcers(false));
    /* Queues and records in another order; the contents keep their times, so that the expiry entries are the same. */
    NOT_ALIKE(two_broadcasts(false, 5, true, false), two_broadcasts(true, 5, true, false));
    NOT_ALIKE(two_broadcasts(false, 5, false, true), two_broadcasts(true, 5, false, true));
    /* Expiry entries: of one time in either order, of different times with the clock set back. */
    NOT_ALIKE(two_broadcasts(false, 0, false, false), two_broadcasts(true, 0, false, false));
    both_alike(two_broadcasts(false, 5, false, false), two_broadcasts(true, 5, false, false));
    NOT_ALIKE(two_grafts(false, 0), two_grafts(true, 0));
    both_alike(two_grafts(false, 5), two_grafts(true, 5));
    /* Eager, lazy and quiet are three marks; how a neighbour came to its mark is not seen. */
    NOT_ALIKE(one_marked(true, true, false), one_marked(false, true, false));
    NOT_ALIKE(one_marked(true, false, false), one_marked(false, false, false));
    both_alike(one_marked(true, true, false), one_marked(true, true, true));
    both_alike(one_marked(false, true, false), one_marked(false, true, true));
    both_alike(one_marked(true, false, false), one_marked(true, false, true));
    both_alike(one_marked(false, false, false), one_marked(false, false, true));
    quiet_and_lazy();
    what_else_is_needed();
    printf("%s\n", failed ? "alike: not as promised" : "alike: as promised");
    return failed;
}
