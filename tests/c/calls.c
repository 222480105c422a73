/*
 * The library called from C: that the header's structs are where the library reads them, each refusal and that it touches nothing, each limit that
 * a call can meet, what is forgotten, quiet neighbours, broadcasts for neighbours alone turned down and messages for them taken in, messages rewritten, states saved and returned to, null pointers with length 0. Every lent part is a heap block of exactly its length, so that valgrind sees a
 * step beyond it.
 */
#include <stdio.h>
#include <stdlib.h>
#include <string.h>

#include "plumtree.h"
#include "wire.h"

static int failed;

#define CHECK(fact)                                                    \
    do {                                                               \
        if (!(fact)) {                                                 \
            printf("calls.c:%d: not so: %s\n", __LINE__, #fact); \
            failed = 1;                                                \
        }                                                              \
    } while (0)

/* A panel whose parts are heap blocks of exactly their lengths. */
struct panel {
    uint8_t *block;
    size_t block_length;
    struct plumtree_stats *counts;
};

static void *bytes(size_t n, int value)
{
    void *p = malloc(n ? n : 1);
    if (!p)
        exit(2);
    memset(p, value, n);
    return p;
}

static struct panel new_panel(struct plumtree_settings settings, struct plumtree_limits limits)
{
    struct panel p;
    struct plumtree_answer a;
    p.block_length = plumtree_block_size(limits);
    p.block = (uint8_t *)bytes(p.block_length, 0xa5);
    p.counts = (struct plumtree_stats *)bytes(sizeof *p.counts, 0xa5);
    a = plumtree_create(p.block, p.block_length, p.counts, settings, limits);
    CHECK(a.number == PLUMTREE_ACCEPTED);
    CHECK(a.length == 0);
    CHECK(p.counts->payload_messages_received == 0);
    CHECK(p.counts->control_messages_received == 0);
    CHECK(p.counts->max_last_delivery_hop == 0);
    return p;
}

static void free_panel(struct panel p)
{
    free(p.block);
    free(p.counts);
}

static bool same_counts(const struct plumtree_stats *a, const struct plumtree_stats *b)
{
    return a->payload_messages_received == b->payload_messages_received && a->control_messages_received == b->control_messages_received &&
           a->max_last_delivery_hop == b->max_last_delivery_hop;
}

static uint8_t output[40960];

/* An accepted event; its actions stand in `output`. */
static struct plumtree_reader tell(struct panel *p, uint64_t at, const uint8_t *event, size_t n)
{
    uint8_t *exact = (uint8_t *)bytes(n, 0);
    struct plumtree_answer a;
    memcpy(exact, event, n);
    a = plumtree_event(p->block, p->block_length, p->counts, at, exact, n, NULL, 0, output, sizeof output);
    CHECK(a.number == PLUMTREE_ACCEPTED);
    free(exact);
    return plumtree_actions_of(output, a.length);
}

/* An event that is refused with this number, and touches nothing. */
static void refused(struct panel *p, uint64_t at, const uint8_t *event, size_t n, size_t output_length, uint8_t number, int line)
{
    uint8_t *block = (uint8_t *)bytes(p->block_length, 0);
    uint8_t *exact = (uint8_t *)bytes(n, 0);
    uint8_t *out = (uint8_t *)bytes(output_length, 0x5a);
    struct plumtree_stats counts = *p->counts;
    struct plumtree_answer a;
    size_t i;
    memcpy(block, p->block, p->block_length);
    if (n)
        memcpy(exact, event, n);
    a = plumtree_event(p->block, p->block_length, p->counts, at, n ? exact : NULL, n, NULL, 0, output_length ? out : NULL, output_length);
    if (a.number != number) {
        printf("calls.c:%d: answer %d and not %d\n", line, a.number, number);
        failed = 1;
    }
    CHECK(a.length == 0);
    CHECK(memcmp(block, p->block, p->block_length) == 0);
    CHECK(same_counts(&counts, p->counts));
    for (i = 0; i < output_length; i++)
        CHECK(out[i] == 0x5a);
    free(block);
    free(exact);
    free(out);
}

#define REFUSED(p, at, event, n, output_length, number) refused(p, at, event, n, output_length, number, __LINE__)

/* The next action is to schedule a timer of this kind after this delay. */
static void schedules(struct plumtree_reader *r, uint8_t kind, uint64_t delay)
{
    struct plumtree_action a;
    CHECK(plumtree_take_action(r, &a));
    CHECK(a.kind == PLUMTREE_ACTION_SCHEDULE);
    CHECK(a.kind == PLUMTREE_ACTION_SCHEDULE && a.timer[0] == kind);
    CHECK(a.delay == delay);
}

/* The next action tells that this identifier is forgotten. */
static void forgets(struct plumtree_reader *r, const uint8_t *id)
{
    struct plumtree_action a;
    CHECK(plumtree_take_action(r, &a));
    CHECK(a.kind == PLUMTREE_ACTION_FORGOTTEN && a.id && memcmp(a.id, id, PLUMTREE_ID_BYTES) == 0);
}

static const uint8_t evict[] = {PLUMTREE_EVENT_TIMER, PLUMTREE_TIMER_EVICT_CACHE};

/* Each setting is where the library reads it: the delays that it writes, the times at which it forgets, whom it takes for itself. */
static void settings_in_place(void)
{
    struct plumtree_settings s = plumtree_default_settings(7);
    struct panel p;
    struct plumtree_reader r;
    struct plumtree_action a;
    uint8_t event[64];
    uint8_t id[PLUMTREE_ID_BYTES];
    uint8_t message[64];
    size_t message_length = 0;
    size_t n;
    int sends = 0;

    s.config.graft_timeout_1 = 101;
    s.config.graft_timeout_2 = 102;
    s.config.dispatch_timeout = 103;
    s.config.message_cache_retention = 2000;
    s.config.message_id_retention = 3000;
    s.config.cache_evict_interval = 104;
    p = new_panel(s, plumtree_small_limits());
    tell(&p, 0, event, plumtree_put_up(event, 2));
    tell(&p, 0, event, plumtree_put_up(event, 7));

    r = tell(&p, 0, evict, sizeof evict);
    schedules(&r, PLUMTREE_TIMER_EVICT_CACHE, 104);
    schedules(&r, PLUMTREE_TIMER_EVICT_CACHE, 104);
    CHECK(r.left == 0);

    /* An IHave of one identifier from 2, and the timer that it leads to. */
    memset(id, 9, sizeof id);
    event[0] = PLUMTREE_EVENT_RECEIVED;
    event[1] = 2;
    event[2] = PLUMTREE_MESSAGE_IHAVE;
    event[3] = 1;
    memcpy(event + 4, id, sizeof id);
    event[36] = 5;
    r = tell(&p, 0, event, 37);
    schedules(&r, PLUMTREE_TIMER_SEND_GRAFT, 101);
    CHECK(r.left == 0);
    CHECK(p.counts->control_messages_received == 1);
    event[0] = PLUMTREE_EVENT_TIMER;
    event[1] = PLUMTREE_TIMER_SEND_GRAFT;
    memcpy(event + 2, id, sizeof id);
    r = tell(&p, 0, event, 34);
    CHECK(plumtree_take_action(&r, &a));
    CHECK(a.kind == PLUMTREE_ACTION_SEND && a.peer == 2 && a.taken && a.message.kind == PLUMTREE_MESSAGE_GRAFT && a.message.round == 5);
    CHECK(a.message.id && memcmp(a.message.id, id, sizeof id) == 0);
    schedules(&r, PLUMTREE_TIMER_SEND_GRAFT, 102);
    CHECK(r.left == 0);

    /* A broadcast: sent to 2, and not to 7, which is the panel itself. */
    n = plumtree_put_broadcast(event, "hot", 3);
    r = tell(&p, 0, event, n);
    schedules(&r, PLUMTREE_TIMER_DISPATCH_LAZY_PUSH, 103);
    while (plumtree_take_action(&r, &a)) {
        CHECK(a.kind == PLUMTREE_ACTION_SEND && a.peer == 2);
        memcpy(message, a.message.bytes, a.message.length);
        message_length = a.message.length;
        sends++;
    }
    CHECK(sends == 1);
    CHECK(!r.bad);
    CHECK(message_length == 39);

    /* A Graft for it is answered until it leaves the cache, at 2,000. */
    event[0] = PLUMTREE_EVENT_RECEIVED;
    event[1] = 2;
    event[2] = PLUMTREE_MESSAGE_GRAFT;
    event[3] = 1;
    memcpy(event + 4, message + 1, PLUMTREE_ID_BYTES);
    event[36] = 0;
    r = tell(&p, 1999, evict, sizeof evict);
    schedules(&r, PLUMTREE_TIMER_EVICT_CACHE, 104);
    CHECK(r.left == 0);
    CHECK(tell(&p, 1999, event, 37).left > 0);
    r = tell(&p, 2000, evict, sizeof evict);
    forgets(&r, message + 1);
    schedules(&r, PLUMTREE_TIMER_EVICT_CACHE, 104);
    CHECK(r.left == 0);
    CHECK(tell(&p, 2000, event, 37).left == 0);

    /* It is known until 3,000: from 2 it is answered by a Prune before, and is new then. */
    n = plumtree_put_received(event, 2, message, message_length);
    tell(&p, 2999, evict, sizeof evict);
    r = tell(&p, 2999, event, n);
    CHECK(plumtree_take_action(&r, &a));
    CHECK(a.kind == PLUMTREE_ACTION_SEND && a.message.kind == PLUMTREE_MESSAGE_PRUNE);
    tell(&p, 3000, evict, sizeof evict);
    r = tell(&p, 3000, event, n);
    sends = 0;
    while (plumtree_take_action(&r, &a))
        if (a.kind == PLUMTREE_ACTION_EMIT) {
            CHECK(a.peer == 2 && a.content_length == 3 && memcmp(a.content, "hot", 3) == 0);
            CHECK(a.delivery == PLUMTREE_DELIVERY_SWARM && a.round == 0);
            sends++;
        }
    CHECK(sends == 1);
    CHECK(p.counts->payload_messages_received == 2);
    CHECK(p.counts->max_last_delivery_hop == 1);
    free_panel(p);
}

/* Whether a Gossip of round 9, announced before at this round by 3, makes a panel of this threshold optimise: a Graft goes to 3. */
static bool optimises(uint16_t threshold, uint8_t announced)
{
    struct plumtree_settings s = plumtree_default_settings(1);
    struct panel p;
    struct plumtree_reader r;
    struct plumtree_action a;
    uint8_t event[64];
    uint8_t message[64];
    size_t message_length = 0;
    bool graft = false;

    /* The bytes of a message, from a broadcast of another panel. */
    p = new_panel(s, plumtree_small_limits());
    tell(&p, 0, event, plumtree_put_up(event, 2));
    r = tell(&p, 0, event, plumtree_put_broadcast(event, "hot", 3));
    while (plumtree_take_action(&r, &a))
        if (a.kind == PLUMTREE_ACTION_SEND) {
            memcpy(message, a.message.bytes, a.message.length);
            message_length = a.message.length;
        }
    free_panel(p);

    s.config.optimization_threshold = threshold;
    p = new_panel(s, plumtree_small_limits());
    tell(&p, 0, event, plumtree_put_up(event, 2));
    tell(&p, 0, event, plumtree_put_up(event, 3));
    /* 3 is pruned, so that it is not eager. */
    event[0] = PLUMTREE_EVENT_RECEIVED;
    event[1] = 3;
    event[2] = PLUMTREE_MESSAGE_PRUNE;
    tell(&p, 0, event, 3);
    event[2] = PLUMTREE_MESSAGE_IHAVE;
    event[3] = 1;
    memcpy(event + 4, message + 1, PLUMTREE_ID_BYTES);
    event[36] = announced;
    tell(&p, 0, event, 37);
    message[message_length - 1] = 9;
    r = tell(&p, 0, event, plumtree_put_received(event, 2, message, message_length));
    while (plumtree_take_action(&r, &a))
        if (a.kind == PLUMTREE_ACTION_SEND && a.peer == 3 && a.message.kind == PLUMTREE_MESSAGE_GRAFT)
            graft = true;
    free_panel(p);
    return graft;
}

/* Each limit is where the library reads it: by what one more of it adds to the block, and by its ceiling. */
static void limits_in_place(void)
{
    static const size_t adds[9] = {64, 160, 256, 1, 640, 512, 64, 64, 64};
    static const size_t ceilings[9] = {PLUMTREE_CEILING_NEIGHBOURS, PLUMTREE_CEILING_RECEIVED, PLUMTREE_CEILING_CACHED,
                                       PLUMTREE_CEILING_CONTENT,    PLUMTREE_CEILING_GRAFTED,  PLUMTREE_CEILING_MISSING,
                                       PLUMTREE_CEILING_TIMERS,     PLUMTREE_CEILING_QUEUED,   PLUMTREE_CEILING_DROPPED};
    struct plumtree_limits l = plumtree_small_limits();
    size_t *const fields[9] = {&l.neighbours, &l.received, &l.cached, &l.content, &l.grafted, &l.missing, &l.timers, &l.queued, &l.dropped};
    size_t n = plumtree_block_size(l);
    int i;
    for (i = 0; i < 9; i++) {
        size_t was = *fields[i];
        *fields[i] = was + 1;
        CHECK(plumtree_block_size(l) == n + adds[i]);
        *fields[i] = ceilings[i];
        CHECK(plumtree_block_size(l) == n + adds[i] * (ceilings[i] - was));
        *fields[i] = ceilings[i] + 1;
        CHECK(plumtree_block_size(l) == 0);
        *fields[i] = 0;
        CHECK(plumtree_block_size(l) == 0);
        *fields[i] = was;
    }
}

/* Creation: the answers, and that a refused one touches nothing. */
static void creation(size_t length, struct plumtree_settings s, struct plumtree_limits l, uint8_t number, int line)
{
    uint8_t *block = (uint8_t *)bytes(length, 0xa5);
    struct plumtree_stats *counts = (struct plumtree_stats *)bytes(sizeof *counts, 0xa5);
    struct plumtree_stats before = *counts;
    struct plumtree_answer a = plumtree_create(length ? block : NULL, length, counts, s, l);
    size_t i;
    if (a.number != number) {
        printf("calls.c:%d: answer %d and not %d\n", line, a.number, number);
        failed = 1;
    }
    CHECK(a.length == 0);
    if (number != 0) {
        CHECK(same_counts(&before, counts));
        for (i = 0; i < length; i++)
            if (block[i] != 0xa5) {
                CHECK(!"a byte of the block was written");
                break;
            }
    }
    free(block);
    free(counts);
}

#define CREATION(length, s, l, number) creation(length, s, l, number, __LINE__)

static void creations(void)
{
    struct plumtree_settings s = plumtree_default_settings(1);
    struct plumtree_limits l = plumtree_small_limits();
    struct plumtree_limits most = {PLUMTREE_CEILING_NEIGHBOURS, PLUMTREE_CEILING_RECEIVED, PLUMTREE_CEILING_CACHED,
                                   PLUMTREE_CEILING_CONTENT,    PLUMTREE_CEILING_GRAFTED,  PLUMTREE_CEILING_MISSING,
                                   PLUMTREE_CEILING_TIMERS,     PLUMTREE_CEILING_QUEUED,   PLUMTREE_CEILING_DROPPED};
    size_t n = plumtree_block_size(l);
    struct plumtree_settings t;
    struct plumtree_limits m;

    CHECK(n == 58880);
    CHECK(plumtree_block_size(most) == 2922496);
    CREATION(2922496, s, most, PLUMTREE_ACCEPTED);
    CREATION(2922495, s, most, PLUMTREE_BLOCK_TOO_SHORT);
    CREATION(n, s, l, PLUMTREE_ACCEPTED);
    CREATION(n - 1, s, l, PLUMTREE_BLOCK_TOO_SHORT);
    CREATION(0, s, l, PLUMTREE_BLOCK_TOO_SHORT);

    t = s;
    t.max_message_size = PLUMTREE_LEAST_MESSAGE_SIZE - 1;
    CREATION(n, t, l, PLUMTREE_MESSAGE_SIZE_OUT_OF_RANGE);
    t.max_message_size = PLUMTREE_LEAST_MESSAGE_SIZE;
    CREATION(n, t, l, PLUMTREE_ACCEPTED);
    t.max_message_size = PLUMTREE_GREATEST_MESSAGE_SIZE + 1;
    CREATION(n, t, l, PLUMTREE_MESSAGE_SIZE_OUT_OF_RANGE);

    t = s;
    t.config.cache_evict_interval = ((uint64_t)1 << 40) + 1;
    CREATION(n, t, l, PLUMTREE_DURATION_TOO_LONG);
    t.config.cache_evict_interval = (uint64_t)1 << 40;
    CREATION(n, t, l, PLUMTREE_ACCEPTED);

    m = l;
    m.neighbours = PLUMTREE_CEILING_NEIGHBOURS + 1;
    CHECK(plumtree_block_size(m) == 0);
    CREATION(n + 64 * 64, s, m, PLUMTREE_LIMIT_OUT_OF_RANGE);
    m = l;
    m.dropped = 0;
    CHECK(plumtree_block_size(m) == 0);
    CREATION(n, s, m, PLUMTREE_LIMIT_OUT_OF_RANGE);

    /* What the header counts for a host: the output, the longest content, the limits for a traffic. */
    CHECK(plumtree_output_size(l, PLUMTREE_GREATEST_MESSAGE_SIZE) == 37027);
    CHECK(plumtree_output_size(most, PLUMTREE_GREATEST_MESSAGE_SIZE) == 409664);
    CHECK(plumtree_longest_content(PLUMTREE_GREATEST_MESSAGE_SIZE) == 4055);
    CHECK(plumtree_longest_content(PLUMTREE_LEAST_MESSAGE_SIZE) == 471);
    m = plumtree_limits_for(8, 4, 256);
    CREATION(plumtree_block_size(m), s, m, PLUMTREE_ACCEPTED);
    m = plumtree_limits_for(8, 16, 256);
    CHECK(plumtree_block_size(m) == 0);
    CREATION(2922496, s, m, PLUMTREE_LIMIT_OUT_OF_RANGE);
}

/* The most bytes of each event, as wire.h counts them. */
static void event_lengths(void)
{
    static uint8_t content[471], event[12 + PLUMTREE_LEAST_MESSAGE_SIZE];
    uint8_t timer[1 + PLUMTREE_ID_BYTES] = {PLUMTREE_TIMER_SEND_GRAFT};
    CHECK(plumtree_put_received(event, UINT64_MAX, content, sizeof content) == 11 + sizeof content);
    CHECK(plumtree_put_broadcast(event, content, sizeof content) == 4 + sizeof content);
    CHECK(plumtree_put_timer(event, timer, sizeof timer) == 34);
    CHECK(plumtree_put_tick(event, PLUMTREE_TIMER_EVICT_CACHE) == sizeof evict && memcmp(event, evict, sizeof evict) == 0);
    CHECK(plumtree_put_up(event, UINT64_MAX) == 11);
    CHECK(plumtree_put_up_quiet(event, UINT64_MAX) == 11);
    CHECK(plumtree_put_down(event, UINT64_MAX) == 11);
}

static void events(void)
{
    static const uint8_t unknown[] = {6}, unknown_up[] = {6, 2}, last[] = {255, 2};
    static const uint8_t cut[] = {PLUMTREE_EVENT_UP, 0x80};
    static const uint8_t longer[] = {PLUMTREE_EVENT_UP, 0x80, 0x00};
    static const uint8_t more[] = {PLUMTREE_EVENT_UP, 4, 0};
    static const uint8_t quiet_none[] = {PLUMTREE_EVENT_UP_QUIET};
    static const uint8_t quiet_cut[] = {PLUMTREE_EVENT_UP_QUIET, 0x80};
    static const uint8_t quiet_longer[] = {PLUMTREE_EVENT_UP_QUIET, 0x80, 0x00};
    static const uint8_t quiet_more[] = {PLUMTREE_EVENT_UP_QUIET, 2, 0};
    static const uint8_t prune[] = {PLUMTREE_EVENT_RECEIVED, 2, PLUMTREE_MESSAGE_PRUNE};
    static const uint8_t padded[] = {PLUMTREE_EVENT_RECEIVED, 2, PLUMTREE_MESSAGE_GRAFT, 0, 0x80, 0x00};
    static const uint8_t over[] = {PLUMTREE_EVENT_RECEIVED, 2, PLUMTREE_MESSAGE_GRAFT, 0, 0x80, 0x80, 0x80, 0x00};
    struct plumtree_limits l = plumtree_small_limits();
    struct panel p, q;
    struct plumtree_reader r;
    struct plumtree_action a;
    struct plumtree_likeness likeness;
    uint8_t event[4200];
    uint8_t message[64];
    size_t message_length = 0;
    size_t n;

    l.neighbours = 2;
    p = new_panel(plumtree_default_settings(1), l);

    /* As the first event an eviction schedules itself twice. */
    REFUSED(&p, 0, evict, sizeof evict, 7, PLUMTREE_OUTPUT_TOO_SHORT);
    REFUSED(&p, 0, evict, sizeof evict, 0, PLUMTREE_OUTPUT_TOO_SHORT);
    tell(&p, 0, event, plumtree_put_up(event, 2));
    tell(&p, 0, event, plumtree_put_up(event, 3));
    REFUSED(&p, 0, event, plumtree_put_up(event, 4), 64, PLUMTREE_LIMIT_REACHED);
    REFUSED(&p, 0, event, plumtree_put_up_quiet(event, 4), 64, PLUMTREE_LIMIT_REACHED);

    REFUSED(&p, ((uint64_t)1 << 62) + 1, evict, sizeof evict, 64, PLUMTREE_TIME_TOO_LATE);
    REFUSED(&p, 0, NULL, 0, 64, PLUMTREE_EVENT_CUT);
    REFUSED(&p, 0, cut, sizeof cut, 64, PLUMTREE_EVENT_CUT);
    REFUSED(&p, 0, unknown, sizeof unknown, 64, PLUMTREE_EVENT_MALFORMED);
    REFUSED(&p, 0, unknown_up, sizeof unknown_up, 64, PLUMTREE_EVENT_MALFORMED);
    REFUSED(&p, 0, last, sizeof last, 64, PLUMTREE_EVENT_MALFORMED);
    REFUSED(&p, 0, longer, sizeof longer, 64, PLUMTREE_EVENT_MALFORMED);
    REFUSED(&p, 0, more, sizeof more, 64, PLUMTREE_EVENT_TOO_LONG);
    REFUSED(&p, 0, quiet_none, sizeof quiet_none, 64, PLUMTREE_EVENT_CUT);
    REFUSED(&p, 0, quiet_cut, sizeof quiet_cut, 64, PLUMTREE_EVENT_CUT);
    REFUSED(&p, 0, quiet_longer, sizeof quiet_longer, 64, PLUMTREE_EVENT_MALFORMED);
    REFUSED(&p, 0, quiet_more, sizeof quiet_more, 64, PLUMTREE_EVENT_TOO_LONG);

    /* A Gossip of 4,095 bytes, and M is 4,094. */
    memset(event, 0, sizeof event);
    event[1] = 2;
    n = plumtree_put_number(event, 35, 4058) + 4058 + 2;
    CHECK(n == 2 + 4095);
    REFUSED(&p, 0, event, n, 64, PLUMTREE_MESSAGE_TOO_LONG);

    /* Inside a message a round may be padded, to three bytes; one that makes 4,095 bytes of 4,094 is too long. */
    tell(&p, 0, padded, sizeof padded);
    CHECK(p.counts->control_messages_received == 1);
    REFUSED(&p, 0, over, sizeof over, 64, PLUMTREE_EVENT_MALFORMED);
    n = plumtree_put_number(event, 35, 4057) + 4057 + 2;
    CHECK(n == 2 + 4094);
    tell(&p, 0, event, n);
    event[n - 1] = 0x80;
    event[n++] = 0x00;
    REFUSED(&p, 0, event, n, 64, PLUMTREE_MESSAGE_TOO_LONG);

    p.counts->control_messages_received = UINT64_MAX;
    REFUSED(&p, 0, prune, sizeof prune, 64, PLUMTREE_COUNTS_FULL);
    p.counts->control_messages_received = 41;
    tell(&p, 0, prune, sizeof prune);
    CHECK(p.counts->control_messages_received == 42);

    /* A message of the last round: that of a broadcast, with its round put to 65,535. */
    q = new_panel(plumtree_default_settings(9), l);
    tell(&q, 0, event, plumtree_put_up(event, 1));
    r = tell(&q, 0, event, plumtree_put_broadcast(event, "hot", 3));
    while (plumtree_take_action(&r, &a))
        if (a.kind == PLUMTREE_ACTION_SEND) {
            memcpy(message, a.message.bytes, a.message.length);
            message_length = plumtree_put_number(message, a.message.length - 1, 65535);
        }
    CHECK(message_length == 41);
    REFUSED(&p, 0, event, plumtree_put_received(event, 9, message, message_length), 4096, PLUMTREE_NO_MORE_HOPS);

    /* Alike: of itself, of another, of a block that is none. */
    likeness = plumtree_alike(p.block, p.block_length, p.block, p.block_length);
    CHECK(likeness.number == PLUMTREE_ACCEPTED && likeness.alike);
    likeness = plumtree_alike(p.block, p.block_length, q.block, q.block_length);
    CHECK(likeness.number == PLUMTREE_ACCEPTED && !likeness.alike);
    likeness = plumtree_alike(p.block, p.block_length, NULL, 0);
    CHECK(likeness.number == PLUMTREE_BLOCK_NOT_WHOLE && !likeness.alike);
    likeness = plumtree_alike(NULL, 0, p.block, p.block_length);
    CHECK(likeness.number == PLUMTREE_BLOCK_NOT_WHOLE && !likeness.alike);

    /* A block that somebody wrote, one that is cut, none at all. */
    memset(q.block, 0xff, 64);
    REFUSED(&q, 0, evict, sizeof evict, 64, PLUMTREE_BLOCK_NOT_WHOLE);
    p.block_length--;
    REFUSED(&p, 0, evict, sizeof evict, 64, PLUMTREE_BLOCK_NOT_WHOLE);
    p.block_length = 0;
    REFUSED(&p, 0, evict, sizeof evict, 64, PLUMTREE_BLOCK_NOT_WHOLE);
    {
        struct plumtree_answer none = plumtree_event(NULL, 0, p.counts, 0, NULL, 0, NULL, 0, NULL, 0);
        CHECK(none.number == PLUMTREE_BLOCK_NOT_WHOLE && none.length == 0);
    }
    free_panel(p);
    free_panel(q);
}

/* Link room from C: the first entry for a peer counts. */
static void rooms(void)
{
    struct panel p = new_panel(plumtree_default_settings(1), plumtree_small_limits());
    struct plumtree_link_room *list = (struct plumtree_link_room *)bytes(3 * sizeof *list, 0xff);
    struct plumtree_answer answer;
    struct plumtree_reader r;
    struct plumtree_action a;
    uint8_t event[16];
    size_t n;
    int sends = 0;
    tell(&p, 0, event, plumtree_put_up(event, 2));
    tell(&p, 0, event, plumtree_put_up(event, 3));
    list[0].peer = 300;
    list[0].room = 0;
    list[1].peer = 3;
    list[1].room = 0;
    list[2].peer = 3;
    list[2].room = 65535;
    n = plumtree_put_broadcast(event, "hot", 3);
    answer = plumtree_event(p.block, p.block_length, p.counts, 0, event, n, list, 3, output, sizeof output);
    CHECK(answer.number == PLUMTREE_ACCEPTED);
    r = plumtree_actions_of(output, answer.length);
    while (plumtree_take_action(&r, &a))
        if (a.kind == PLUMTREE_ACTION_SEND) {
            CHECK(a.taken == (a.peer == 2));
            sends++;
        }
    CHECK(sends == 2);
    CHECK(!r.bad);
    free(list);
    free_panel(p);
}

/* A broadcast at this time; its identifier, as the send to a neighbour has it. */
static void broadcast_at(struct panel *p, uint64_t at, const void *content, size_t length, uint8_t *id)
{
    uint8_t event[64];
    struct plumtree_reader r = tell(p, at, event, plumtree_put_broadcast(event, content, length));
    struct plumtree_action a;
    bool sent = false;
    while (plumtree_take_action(&r, &a))
        if (a.kind == PLUMTREE_ACTION_SEND) {
            memcpy(id, a.message.id, PLUMTREE_ID_BYTES);
            sent = true;
        }
    CHECK(sent);
}

/* An EvictCache that tells these identifiers, in this order, before it schedules itself: refused where the output is a byte short, and accepted
 * with just the bytes that it takes. */
static void evicts(struct panel *p, uint64_t at, uint8_t (*ids)[PLUMTREE_ID_BYTES], size_t count, int line)
{
    size_t i, n = count * (1 + PLUMTREE_ID_BYTES) + 4;
    uint8_t *exact = (uint8_t *)bytes(n, 0x5a);
    struct plumtree_reader r;
    struct plumtree_answer a;
    refused(p, at, evict, sizeof evict, n - 1, PLUMTREE_OUTPUT_TOO_SHORT, line);
    a = plumtree_event(p->block, p->block_length, p->counts, at, evict, sizeof evict, NULL, 0, exact, n);
    if (a.number != PLUMTREE_ACCEPTED || a.length != n) {
        printf("calls.c:%d: an eviction answers %d and %zu bytes\n", line, a.number, a.length);
        failed = 1;
    }
    r = plumtree_actions_of(exact, a.length);
    for (i = 0; i < count; i++)
        forgets(&r, ids[i]);
    schedules(&r, PLUMTREE_TIMER_EVICT_CACHE, 1000);
    CHECK(r.left == 0);
    free(exact);
}

#define EVICTS(p, at, ids, count) evicts(p, at, ids, count, __LINE__)

/* What leaves the message cache is told, in the order of removal, each once; the received identifiers are not. */
static void forgotten(void)
{
    struct plumtree_settings s = plumtree_default_settings(1);
    struct plumtree_limits l = plumtree_small_limits();
    uint8_t ids[3][PLUMTREE_ID_BYTES], event[16], *area;
    size_t area_length;
    struct panel p;

    s.config.message_cache_retention = 5;
    p = new_panel(s, l);
    tell(&p, 0, event, plumtree_put_up(event, 2));
    area_length = plumtree_area_size(p.block_length);
    area = (uint8_t *)bytes(area_length, 0);

    /* Not before its time; an output that is too short has forgotten nothing. */
    broadcast_at(&p, 0, "a", 1, ids[0]);
    CHECK(plumtree_save(p.block, p.block_length, *p.counts, area, area_length, 1).number == PLUMTREE_ACCEPTED);
    EVICTS(&p, 4, ids, 0);
    REFUSED(&p, 5, evict, sizeof evict, 4, PLUMTREE_OUTPUT_TOO_SHORT);
    EVICTS(&p, 5, ids, 1);
    EVICTS(&p, 5, ids, 0);

    /* What a return brings back is forgotten again. */
    CHECK(plumtree_return(p.block, p.block_length, p.counts, area, area_length, 1).number == PLUMTREE_ACCEPTED);
    EVICTS(&p, 6, ids, 1);

    /* Cached anew meanwhile: with its later time, once. */
    broadcast_at(&p, 10, "a", 1, ids[0]);
    broadcast_at(&p, 13, "a", 1, ids[0]);
    EVICTS(&p, 15, ids, 0);
    EVICTS(&p, 18, ids, 1);

    /* By the time; of one time the oldest first, and one that was cached anew at this time stays where it was. */
    broadcast_at(&p, 22, "c", 1, ids[2]);
    broadcast_at(&p, 20, "a", 1, ids[0]);
    broadcast_at(&p, 20, "b", 1, ids[1]);
    broadcast_at(&p, 20, "a", 1, ids[0]);
    EVICTS(&p, 30, ids, 3);

    free(area);
    free_panel(p);

    /* An identifier that leaves the received ones while its message stays cached is not told. */
    s.config.message_id_retention = 5;
    s.config.message_cache_retention = 20;
    p = new_panel(s, l);
    tell(&p, 0, event, plumtree_put_up(event, 2));
    broadcast_at(&p, 0, "a", 1, ids[0]);
    EVICTS(&p, 5, ids, 0);
    EVICTS(&p, 20, ids, 1);
    free_panel(p);
}

/* One neighbour, and as many cached messages as there can be: all of them forgotten take more bytes than its sends and announcements. */
static void all_forgotten(void)
{
    struct plumtree_settings s = plumtree_default_settings(1);
    struct plumtree_limits l = {1, PLUMTREE_CEILING_CACHED, PLUMTREE_CEILING_CACHED, 2 * PLUMTREE_CEILING_CACHED, 1, 1, 1, 1, 1};
    static uint8_t ids[PLUMTREE_CEILING_CACHED][PLUMTREE_ID_BYTES];
    size_t sends = 2 * (PLUMTREE_LEAST_MESSAGE_SIZE + 13) + 64, most, i;
    struct plumtree_answer a;
    struct panel p, q;
    uint8_t event[16], *out;
    s.max_message_size = PLUMTREE_LEAST_MESSAGE_SIZE;
    p = new_panel(s, l);
    q = new_panel(s, l);
    most = plumtree_output_size(l, PLUMTREE_LEAST_MESSAGE_SIZE);
    CHECK(most == 16960);
    tell(&p, 0, event, plumtree_put_up(event, 2));
    for (i = 0; i < PLUMTREE_CEILING_CACHED; i++) {
        uint8_t content[2] = {(uint8_t)(i >> 8), (uint8_t)i};
        broadcast_at(&p, 0, content, sizeof content, ids[i]);
    }
    memcpy(q.block, p.block, p.block_length);
    out = (uint8_t *)bytes(most, 0);
    REFUSED(&p, 30000, evict, sizeof evict, sends, PLUMTREE_OUTPUT_TOO_SHORT);
    a = plumtree_event(q.block, q.block_length, q.counts, 30000, evict, sizeof evict, NULL, 0, out, most);
    CHECK(a.number == PLUMTREE_ACCEPTED);
    EVICTS(&p, 30000, ids, PLUMTREE_CEILING_CACHED);
    CHECK(memcmp(p.block, q.block, p.block_length) == 0);
    free(out);
    free_panel(p);
    free_panel(q);
}

/* How many messages of a kind were sent to a peer by the call whose output stands in `output`, and the identifier of the last of them. */
static int sent_of(struct plumtree_reader r, uint64_t peer, uint8_t kind, uint8_t *id)
{
    struct plumtree_action a;
    int sends = 0;
    while (plumtree_take_action(&r, &a))
        if (a.kind == PLUMTREE_ACTION_SEND && a.peer == peer && a.message.kind == kind) {
            if (id && a.message.id)
                memcpy(id, a.message.id, PLUMTREE_ID_BYTES);
            sends++;
        }
    CHECK(!r.bad);
    return sends;
}

/* Whether a broadcast pushes to a peer. */
static bool pushes(struct panel *p, uint64_t peer, const char *content, uint8_t *id)
{
    uint8_t event[64];
    struct plumtree_reader r = tell(p, 0, event, plumtree_put_broadcast(event, content, strlen(content)));
    int sends = sent_of(r, peer, PLUMTREE_MESSAGE_GOSSIP, id);
    CHECK(sends < 2);
    return sends == 1;
}

/* What a dispatch tick sends to a peer: how many IHaves, and how many identifiers in the last of them. */
static int announces(struct panel *p, uint64_t peer, uint64_t *identifiers)
{
    static const uint8_t dispatch[] = {PLUMTREE_EVENT_TIMER, PLUMTREE_TIMER_DISPATCH_LAZY_PUSH};
    struct plumtree_reader r = tell(p, 0, dispatch, sizeof dispatch);
    struct plumtree_action a;
    int sends = 0;
    *identifiers = 0;
    while (plumtree_take_action(&r, &a))
        if (a.kind == PLUMTREE_ACTION_SEND && a.peer == peer) {
            CHECK(a.taken && a.message.kind == PLUMTREE_MESSAGE_IHAVE);
            *identifiers = a.message.count;
            sends++;
        }
    return sends;
}

/* The timer of an identifier, 32 times this byte. */
static size_t send_graft(uint8_t *event, int id)
{
    uint8_t timer[1 + PLUMTREE_ID_BYTES];
    memset(timer, id, sizeof timer);
    timer[0] = PLUMTREE_TIMER_SEND_GRAFT;
    return plumtree_put_timer(event, timer, sizeof timer);
}

/* A Graft for an identifier, or without one; an IHave of it at a round. */
static size_t graft_of(uint8_t *event, uint8_t peer, const uint8_t *id)
{
    uint8_t message[3 + PLUMTREE_ID_BYTES] = {PLUMTREE_MESSAGE_GRAFT, 0, 0};
    if (!id)
        return plumtree_put_received(event, peer, message, 3);
    message[1] = 1;
    memcpy(message + 2, id, PLUMTREE_ID_BYTES);
    message[2 + PLUMTREE_ID_BYTES] = 0;
    return plumtree_put_received(event, peer, message, 3 + PLUMTREE_ID_BYTES);
}

static size_t ihave_of(uint8_t *event, uint8_t peer, const uint8_t *id, uint8_t round)
{
    uint8_t message[3 + PLUMTREE_ID_BYTES] = {PLUMTREE_MESSAGE_IHAVE, 1};
    memcpy(message + 2, id, PLUMTREE_ID_BYTES);
    message[2 + PLUMTREE_ID_BYTES] = round;
    return plumtree_put_received(event, peer, message, sizeof message);
}

/* A Gossip of this content as panel 9 broadcasts it, with another round (0 to 127). */
static size_t gossip_of(uint8_t *message, uint8_t *id, const char *content, uint8_t round)
{
    struct panel q = new_panel(plumtree_default_settings(9), plumtree_small_limits());
    struct plumtree_reader r;
    struct plumtree_action a;
    uint8_t event[64];
    size_t n = 0;
    tell(&q, 0, event, plumtree_put_up(event, 1));
    r = tell(&q, 0, event, plumtree_put_broadcast(event, content, strlen(content)));
    while (plumtree_take_action(&r, &a))
        if (a.kind == PLUMTREE_ACTION_SEND) {
            n = a.message.length;
            memcpy(message, a.message.bytes, n);
            memcpy(id, a.message.id, PLUMTREE_ID_BYTES);
            message[n - 1] = round;
        }
    free_panel(q);
    return n;
}

/* The event kind 5: a quiet neighbour is announced to and answered, and never pushed to, until it is told down or up by kind 3. */
static void quiet(void)
{
    static const uint8_t prune[] = {PLUMTREE_EVENT_RECEIVED, 2, PLUMTREE_MESSAGE_PRUNE};
    static const uint8_t announce[] = {PLUMTREE_EVENT_TIMER, PLUMTREE_TIMER_ANNOUNCE_DROPPED};
    struct plumtree_link_room full = {2, 0};
    struct panel p = new_panel(plumtree_default_settings(1), plumtree_small_limits());
    struct plumtree_answer answer;
    struct plumtree_reader r;
    uint8_t event[128], message[64], id[PLUMTREE_ID_BYTES], other[PLUMTREE_ID_BYTES];
    uint64_t identifiers;
    size_t n;

    /* It leads to no action, as up does, and is no first event: the broadcast schedules the eviction. */
    CHECK(tell(&p, 0, event, plumtree_put_up_quiet(event, 2)).left == 0);
    CHECK(tell(&p, 0, event, plumtree_put_up(event, 3)).left == 0);
    r = tell(&p, 0, event, plumtree_put_broadcast(event, "a", 1));
    CHECK(sent_of(r, 2, PLUMTREE_MESSAGE_GOSSIP, NULL) == 0 && sent_of(r, 3, PLUMTREE_MESSAGE_GOSSIP, id) == 1);
    schedules(&r, PLUMTREE_TIMER_EVICT_CACHE, 1000);
    schedules(&r, PLUMTREE_TIMER_DISPATCH_LAZY_PUSH, 5);

    /* Queued for it, and announced. */
    CHECK(announces(&p, 2, &identifiers) == 1 && identifiers == 1);
    CHECK(announces(&p, 2, &identifiers) == 0);

    /* Its Graft is answered from the cache, and it stays lazy; a Graft without an identifier is answered by nothing. */
    r = tell(&p, 0, event, graft_of(event, 2, id));
    CHECK(sent_of(r, 2, PLUMTREE_MESSAGE_GOSSIP, other) == 1 && memcmp(id, other, sizeof id) == 0);
    CHECK(!pushes(&p, 2, "b", NULL));
    CHECK(tell(&p, 0, event, graft_of(event, 2, NULL)).left == 0);
    CHECK(!pushes(&p, 2, "c", NULL));
    CHECK(announces(&p, 2, &identifiers) == 1 && identifiers == 2);

    /* A Prune leaves it quiet, as a second copy does: the Graft after that makes it eager no more than the first one. */
    CHECK(tell(&p, 0, prune, sizeof prune).left == 0);
    tell(&p, 0, event, graft_of(event, 2, id));
    CHECK(!pushes(&p, 2, "d", NULL));
    n = gossip_of(message, id, "a", 0);
    r = tell(&p, 0, event, plumtree_put_received(event, 2, message, n));
    CHECK(sent_of(r, 2, PLUMTREE_MESSAGE_PRUNE, NULL) == 1);
    tell(&p, 0, event, graft_of(event, 2, NULL));
    CHECK(!pushes(&p, 2, "e", NULL));

    /* As the first announcer it is asked, and stays lazy. */
    memset(other, 8, sizeof other);
    tell(&p, 0, event, ihave_of(event, 2, other, 3));
    r = tell(&p, 0, event, send_graft(event, 8));
    CHECK(sent_of(r, 2, PLUMTREE_MESSAGE_GRAFT, id) == 1 && memcmp(id, other, sizeof id) == 0);
    CHECK(!pushes(&p, 2, "f", NULL));

    /* Far closer than the sender it is asked for the next ones, each time, and stays lazy; the sender is pruned. */
    n = gossip_of(message, id, "g", 9);
    tell(&p, 0, event, ihave_of(event, 2, id, 0));
    r = tell(&p, 0, event, plumtree_put_received(event, 3, message, n));
    CHECK(sent_of(r, 2, PLUMTREE_MESSAGE_GRAFT, NULL) == 1 && sent_of(r, 3, PLUMTREE_MESSAGE_PRUNE, NULL) == 1);
    CHECK(sent_of(r, 2, PLUMTREE_MESSAGE_GOSSIP, NULL) == 0);
    tell(&p, 0, event, plumtree_put_up(event, 3));
    n = gossip_of(message, id, "h", 9);
    tell(&p, 0, event, ihave_of(event, 2, id, 0));
    r = tell(&p, 0, event, plumtree_put_received(event, 3, message, n));
    CHECK(sent_of(r, 2, PLUMTREE_MESSAGE_GRAFT, NULL) == 1 && sent_of(r, 3, PLUMTREE_MESSAGE_PRUNE, NULL) == 1);
    CHECK(!pushes(&p, 2, "i", NULL));

    /* Kind 3 makes it an ordinary, eager neighbour; kind 5 makes that one quiet again; down and up by kind 3 make it eager. */
    tell(&p, 0, event, plumtree_put_up(event, 2));
    CHECK(pushes(&p, 2, "k", NULL));
    tell(&p, 0, event, plumtree_put_up_quiet(event, 2));
    CHECK(!pushes(&p, 2, "l", NULL));
    tell(&p, 0, event, graft_of(event, 2, NULL));
    CHECK(!pushes(&p, 2, "m", NULL));
    tell(&p, 0, event, plumtree_put_down(event, 2));
    tell(&p, 0, event, graft_of(event, 2, NULL));
    tell(&p, 0, event, plumtree_put_up(event, 2));
    CHECK(pushes(&p, 2, "n", NULL));

    /* Kind 5 for a lazy one, whose Graft would make it eager otherwise. */
    tell(&p, 0, prune, sizeof prune);
    tell(&p, 0, event, plumtree_put_up_quiet(event, 2));
    tell(&p, 0, event, graft_of(event, 2, NULL));
    CHECK(!pushes(&p, 2, "o", NULL));
    free_panel(p);

    /* What waits for a neighbour stays when it is told quiet: what is queued, and what a link handed back. */
    p = new_panel(plumtree_default_settings(1), plumtree_small_limits());
    tell(&p, 0, event, plumtree_put_up(event, 2));
    n = plumtree_put_broadcast(event, "a", 1);
    answer = plumtree_event(p.block, p.block_length, p.counts, 0, event, n, &full, 1, output, sizeof output);
    CHECK(answer.number == PLUMTREE_ACCEPTED);
    CHECK(sent_of(plumtree_actions_of(output, answer.length), 2, PLUMTREE_MESSAGE_GOSSIP, id) == 1);
    tell(&p, 0, prune, sizeof prune);
    CHECK(!pushes(&p, 2, "b", NULL));
    tell(&p, 0, event, plumtree_put_up_quiet(event, 2));
    tell(&p, 0, announce, sizeof announce);
    CHECK(announces(&p, 2, &identifiers) == 1 && identifiers == 2);

    /* What a link of it hands back of an answer is recorded, and announced. */
    n = graft_of(event, 2, id);
    answer = plumtree_event(p.block, p.block_length, p.counts, 0, event, n, &full, 1, output, sizeof output);
    CHECK(sent_of(plumtree_actions_of(output, answer.length), 2, PLUMTREE_MESSAGE_GOSSIP, NULL) == 1);
    tell(&p, 0, announce, sizeof announce);
    CHECK(announces(&p, 2, &identifiers) == 1 && identifiers == 1);
    CHECK(!pushes(&p, 2, "c", NULL));
    free_panel(p);
}

/* A message that 2 announced and was asked for comes from 3 and then, as late, from 2: whom the panel prunes. */
static uint64_t pruned_by_a_late_reply(bool quiet_2)
{
    struct panel p = new_panel(plumtree_default_settings(1), plumtree_small_limits());
    struct plumtree_reader r;
    struct plumtree_action a;
    uint8_t event[128], message[64], id[PLUMTREE_ID_BYTES], timer[1 + PLUMTREE_ID_BYTES] = {PLUMTREE_TIMER_SEND_GRAFT};
    size_t n = gossip_of(message, id, "a", 3);
    uint64_t pruned = 0;
    memcpy(timer + 1, id, sizeof id);
    tell(&p, 0, event, quiet_2 ? plumtree_put_up_quiet(event, 2) : plumtree_put_up(event, 2));
    tell(&p, 0, event, plumtree_put_up(event, 3));
    tell(&p, 0, event, ihave_of(event, 2, id, 3));
    r = tell(&p, 0, event, plumtree_put_timer(event, timer, sizeof timer));
    CHECK(sent_of(r, 2, PLUMTREE_MESSAGE_GRAFT, NULL) == 1);
    tell(&p, 0, event, plumtree_put_received(event, 3, message, n));
    r = tell(&p, 0, event, plumtree_put_received(event, 2, message, n));
    while (plumtree_take_action(&r, &a))
        if (a.kind == PLUMTREE_ACTION_SEND && a.message.kind == PLUMTREE_MESSAGE_PRUNE) {
            CHECK(pruned == 0);
            pruned = a.peer;
        }
    free_panel(p);
    return pruned;
}

/* Panels 1 and 2 and the link between them, over which each message crosses at once. Of the Gossips that crossed to an end: how many it had not asked for, and how
 * many answered its Graft that named them. */
struct pair {
    struct panel p[2];
    int unasked[2], answers[2], emitted;
    uint8_t timer[2][1 + PLUMTREE_ID_BYTES]; /* SendGraft, where one waits */
    bool waits[2];
};

/* An event at an end, with the identifier that it asks for, and all that comes of it. */
static void carry(struct pair *x, int end, const uint8_t *event, size_t n, const uint8_t *wanted)
{
    struct plumtree_reader r = tell(&x->p[end], 0, event, n);
    uint8_t *actions = (uint8_t *)bytes(r.left, 0), came[128];
    struct plumtree_action a;
    if (r.left)
        memcpy(actions, r.bytes, r.left);
    r.bytes = actions;
    while (plumtree_take_action(&r, &a)) {
        if (a.kind == PLUMTREE_ACTION_EMIT)
            x->emitted++;
        if (a.kind == PLUMTREE_ACTION_SCHEDULE && a.timer[0] == PLUMTREE_TIMER_SEND_GRAFT) {
            memcpy(x->timer[end], a.timer, a.timer_length);
            x->waits[end] = true;
        }
        if (a.kind == PLUMTREE_ACTION_SEND) {
            const uint8_t *asks = a.message.kind == PLUMTREE_MESSAGE_GRAFT ? a.message.id : NULL;
            if (a.message.kind == PLUMTREE_MESSAGE_GOSSIP && wanted && memcmp(wanted, a.message.id, PLUMTREE_ID_BYTES) == 0)
                x->answers[1 - end]++;
            else if (a.message.kind == PLUMTREE_MESSAGE_GOSSIP)
                x->unasked[1 - end]++;
            carry(x, 1 - end, came, plumtree_put_received(came, (uint64_t)end + 1, a.message.bytes, a.message.length), asks);
        }
    }
    CHECK(!r.bad);
    free(actions);
}

/* A reading made at an end, the dispatch there, and the other end's SendGraft: it has come. */
static void reading(struct pair *x, int end, uint8_t content)
{
    static const uint8_t dispatch[] = {PLUMTREE_EVENT_TIMER, PLUMTREE_TIMER_DISPATCH_LAZY_PUSH};
    uint8_t event[64];
    int i, emitted = x->emitted;
    carry(x, end, event, plumtree_put_broadcast(event, &content, 1), NULL);
    for (i = 0; i < 2; i++)
        carry(x, i, dispatch, sizeof dispatch, NULL);
    for (i = 0; i < 2; i++) {
        if (x->waits[i])
            carry(x, i, event, plumtree_put_timer(event, x->timer[i], sizeof x->timer[i]), NULL);
        x->waits[i] = false;
    }
    CHECK(x->emitted == emitted + 1);
}

/* A link carries payload both ways. Four readings from each end, by turns: what crossed to each unasked. */
static void both_ends(bool quiet_1, bool quiet_2, int to_1, int to_2, int line)
{
    struct pair x;
    uint8_t event[16], i;
    memset(&x, 0, sizeof x);
    for (i = 0; i < 2; i++) {
        x.p[i] = new_panel(plumtree_default_settings((uint64_t)i + 1), plumtree_small_limits());
        carry(&x, i, event, (i ? quiet_2 : quiet_1) ? plumtree_put_up_quiet(event, 2 - i) : plumtree_put_up(event, 2 - i), NULL);
    }
    for (i = 0; i < 8; i++)
        reading(&x, i % 2, i);
    if (x.unasked[0] != to_1 || x.unasked[1] != to_2 || x.unasked[0] + x.answers[0] != 4 || x.unasked[1] + x.answers[1] != 4) {
        printf("calls.c:%d: %d and %d unasked, %d and %d asked for\n", line, x.unasked[0], x.unasked[1], x.answers[0], x.answers[1]);
        failed = 1;
    }

    /* Made ordinary, or quiet, at both ends while readings go on. */
    for (i = 0; i < 2; i++)
        carry(&x, i, event, quiet_1 && quiet_2 ? plumtree_put_up(event, 2 - i) : plumtree_put_up_quiet(event, 2 - i), NULL);
    memset(x.unasked, 0, sizeof x.unasked);
    for (i = 8; i < 16; i++)
        reading(&x, i % 2, i);
    CHECK(x.unasked[0] == (quiet_1 && quiet_2 ? 4 : 0) && x.unasked[1] == x.unasked[0]);
    free_panel(x.p[0]);
    free_panel(x.p[1]);
}

/* A Graft that a panel sends makes the other end push to it: the neighbour 2, which a Prune made lazy, after the first reading that is asked for. */
static void grafts_open_a_link(void)
{
    static const uint8_t prune[] = {PLUMTREE_EVENT_RECEIVED, 1, PLUMTREE_MESSAGE_PRUNE};
    struct pair x;
    uint8_t event[16];
    memset(&x, 0, sizeof x);
    x.p[0] = new_panel(plumtree_default_settings(1), plumtree_small_limits());
    x.p[1] = new_panel(plumtree_default_settings(2), plumtree_small_limits());
    carry(&x, 0, event, plumtree_put_up_quiet(event, 2), NULL);
    carry(&x, 1, event, plumtree_put_up(event, 1), NULL);
    carry(&x, 1, prune, sizeof prune, NULL);
    reading(&x, 1, 0);
    CHECK(x.unasked[0] == 0 && x.answers[0] == 1);
    reading(&x, 1, 1);
    CHECK(x.unasked[0] == 1 && x.answers[0] == 1);
    free_panel(x.p[0]);
    free_panel(x.p[1]);
}

/* A link's mark is one byte of the block: 0 eager, 1 lazy, 2 quiet. Two panels that differ in the mark alone differ in this byte, and these are its values.
 * Any other value is read as quiet. */
static void marked(bool quiet_a, bool pruned_a, uint8_t mark_a, bool quiet_b, bool pruned_b, uint8_t mark_b, int line)
{
    static const uint8_t prune[] = {PLUMTREE_EVENT_RECEIVED, 2, PLUMTREE_MESSAGE_PRUNE}, prune_4[] = {PLUMTREE_EVENT_RECEIVED, 4, PLUMTREE_MESSAGE_PRUNE};
    struct panel p[2];
    uint8_t event[16];
    size_t i, at = 0, differ = 0;
    for (i = 0; i < 2; i++) {
        p[i] = new_panel(plumtree_default_settings(1), plumtree_small_limits());
        memset(p[i].block, 0, p[i].block_length);
        CHECK(plumtree_create(p[i].block, p[i].block_length, p[i].counts, plumtree_default_settings(1), plumtree_small_limits()).number == PLUMTREE_ACCEPTED);
        tell(&p[i], 0, event, plumtree_put_up(event, 3));
        tell(&p[i], 0, event, (i ? quiet_b : quiet_a) ? plumtree_put_up_quiet(event, 2) : plumtree_put_up(event, 2));
        tell(&p[i], 0, (i ? pruned_b : pruned_a) ? prune : prune_4, sizeof prune);
    }
    for (i = 0; i < p[0].block_length; i++)
        if (p[0].block[i] != p[1].block[i]) {
            at = i;
            differ++;
        }
    if (differ != 1 || p[0].block[at] != mark_a || p[1].block[at] != mark_b) {
        printf("calls.c:%d: %zu bytes differ, of the marks %d and %d\n", line, differ, p[0].block[at], p[1].block[at]);
        failed = 1;
    }
    memcpy(p[0].block, p[1].block, p[0].block_length);
    for (i = 0; i < 256; i++) {
        struct plumtree_likeness likeness;
        p[0].block[at] = (uint8_t)i;
        likeness = plumtree_alike(p[0].block, p[0].block_length, p[1].block, p[1].block_length);
        CHECK(likeness.number == PLUMTREE_ACCEPTED && likeness.alike == ((i < 2 ? i : 2) == mark_b));
    }
    free_panel(p[0]);
    free_panel(p[1]);
}

static void marks(void)
{
    marked(false, false, 0, false, true, 1, __LINE__);
    marked(false, false, 0, true, false, 2, __LINE__);
    marked(false, true, 1, true, true, 2, __LINE__);
}

static void quiet_links(void)
{
    /* A quiet one that was asked is not eager, so that its reply is a second copy. */
    CHECK(pruned_by_a_late_reply(false) == 3);
    CHECK(pruned_by_a_late_reply(true) == 2);
    both_ends(false, false, 4, 4, __LINE__);
    both_ends(true, false, 4, 0, __LINE__);
    both_ends(false, true, 0, 4, __LINE__);
    both_ends(true, true, 0, 0, __LINE__);
    grafts_open_a_link();
}

/* The limit that is told for an event at 0 with this link room, before the call and again after a refusal; the call is answered 13 exactly if one is. */
static uint8_t met_with(struct panel *p, const uint8_t *event, size_t n, const struct plumtree_link_room *list, size_t length)
{
    uint8_t limit = plumtree_limit_met(p->block, p->block_length, 0, event, n, list, length);
    struct plumtree_answer a = plumtree_event(p->block, p->block_length, p->counts, 0, event, n, list, length, output, sizeof output);
    CHECK((a.number == PLUMTREE_LIMIT_REACHED) == (limit != PLUMTREE_LIMIT_NONE));
    CHECK(a.number == PLUMTREE_ACCEPTED || plumtree_limit_met(p->block, p->block_length, 0, event, n, list, length) == limit);
    return limit;
}

static uint8_t met(struct panel *p, const uint8_t *event, size_t n)
{
    return met_with(p, event, n, NULL, 0);
}

/* An IHave of two identifiers from 2. */
static size_t two_announced(uint8_t *event)
{
    event[0] = PLUMTREE_EVENT_RECEIVED;
    event[1] = 2;
    event[2] = PLUMTREE_MESSAGE_IHAVE;
    event[3] = 2;
    memset(event + 4, 8, PLUMTREE_ID_BYTES);
    event[36] = 5;
    memset(event + 37, 9, PLUMTREE_ID_BYTES);
    event[69] = 5;
    return 70;
}

/* A panel with the neighbours 2 and 3 and these limits. */
static struct panel two_neighbours(struct plumtree_limits l)
{
    struct panel p = new_panel(plumtree_default_settings(1), l);
    uint8_t event[16];
    CHECK(met(&p, event, plumtree_put_up(event, 2)) == PLUMTREE_LIMIT_NONE);
    CHECK(met(&p, event, plumtree_put_up(event, 3)) == PLUMTREE_LIMIT_NONE);
    return p;
}

/* Each of the nine limits, met by a call and told; the first in their order; none for a call that is accepted or refused by another question. */
static void limits_met(void)
{
    static const uint8_t prune[] = {PLUMTREE_EVENT_RECEIVED, 2, PLUMTREE_MESSAGE_PRUNE};
    static const uint8_t prune_3[] = {PLUMTREE_EVENT_RECEIVED, 3, PLUMTREE_MESSAGE_PRUNE};
    struct plumtree_link_room none[2] = {{2, 0}, {3, 0}};
    struct plumtree_limits l;
    struct panel p;
    uint8_t event[128];

    l = plumtree_small_limits();
    l.neighbours = 2;
    p = two_neighbours(l);
    CHECK(met(&p, event, plumtree_put_up(event, 4)) == PLUMTREE_LIMIT_NEIGHBOURS);
    CHECK(met(&p, event, plumtree_put_up_quiet(event, 4)) == PLUMTREE_LIMIT_NEIGHBOURS);
    CHECK(met(&p, event, plumtree_put_up(event, 3)) == PLUMTREE_LIMIT_NONE);
    CHECK(met(&p, event, plumtree_put_up_quiet(event, 3)) == PLUMTREE_LIMIT_NONE);
    CHECK(met(&p, event, plumtree_put_down(event, 3)) == PLUMTREE_LIMIT_NONE);
    CHECK(met(&p, event, plumtree_put_up_quiet(event, 4)) == PLUMTREE_LIMIT_NONE);
    CHECK(met(&p, event, plumtree_put_up(event, 3)) == PLUMTREE_LIMIT_NEIGHBOURS);
    free_panel(p);

    /* One received and one cached: received comes first. The expiry entries of a content that is repeated count to received too. */
    l = plumtree_small_limits();
    l.received = 1;
    p = two_neighbours(l);
    CHECK(met(&p, event, plumtree_put_broadcast(event, "a", 1)) == PLUMTREE_LIMIT_NONE);
    CHECK(met(&p, event, plumtree_put_broadcast(event, "b", 1)) == PLUMTREE_LIMIT_RECEIVED);
    CHECK(met(&p, event, plumtree_put_broadcast(event, "a", 1)) == PLUMTREE_LIMIT_NONE);
    CHECK(met(&p, event, plumtree_put_broadcast(event, "a", 1)) == PLUMTREE_LIMIT_RECEIVED);
    free_panel(p);
    l.cached = 1;
    p = two_neighbours(l);
    CHECK(met(&p, event, plumtree_put_broadcast(event, "a", 1)) == PLUMTREE_LIMIT_NONE);
    CHECK(met(&p, event, plumtree_put_broadcast(event, "b", 1)) == PLUMTREE_LIMIT_RECEIVED);
    free_panel(p);
    l = plumtree_small_limits();
    l.cached = 1;
    p = two_neighbours(l);
    CHECK(met(&p, event, plumtree_put_broadcast(event, "a", 1)) == PLUMTREE_LIMIT_NONE);
    CHECK(met(&p, event, plumtree_put_broadcast(event, "b", 1)) == PLUMTREE_LIMIT_CACHED);
    free_panel(p);

    l = plumtree_small_limits();
    l.content = 3;
    p = two_neighbours(l);
    CHECK(met(&p, event, plumtree_put_broadcast(event, "abc", 3)) == PLUMTREE_LIMIT_NONE);
    CHECK(met(&p, event, plumtree_put_broadcast(event, "d", 1)) == PLUMTREE_LIMIT_CONTENT);
    free_panel(p);

    l = plumtree_small_limits();
    l.grafted = 1;
    p = two_neighbours(l);
    CHECK(met(&p, event, two_announced(event)) == PLUMTREE_LIMIT_NONE);
    CHECK(met(&p, event, send_graft(event, 8)) == PLUMTREE_LIMIT_NONE);
    CHECK(met(&p, event, send_graft(event, 9)) == PLUMTREE_LIMIT_GRAFTED);
    free_panel(p);

    l = plumtree_small_limits();
    l.timers = 1;
    p = two_neighbours(l);
    CHECK(met(&p, event, two_announced(event)) == PLUMTREE_LIMIT_TIMERS);
    free_panel(p);
    l.missing = 1;
    p = two_neighbours(l);
    CHECK(met(&p, event, two_announced(event)) == PLUMTREE_LIMIT_MISSING);
    free_panel(p);

    l = plumtree_small_limits();
    l.queued = 1;
    p = two_neighbours(l);
    CHECK(met(&p, prune, sizeof prune) == PLUMTREE_LIMIT_NONE);
    CHECK(met(&p, prune_3, sizeof prune_3) == PLUMTREE_LIMIT_NONE);
    CHECK(met(&p, event, plumtree_put_broadcast(event, "a", 1)) == PLUMTREE_LIMIT_QUEUED);
    free_panel(p);

    /* What is handed back is recorded: the limit is met by the link room. */
    l = plumtree_small_limits();
    l.dropped = 1;
    p = two_neighbours(l);
    CHECK(met_with(&p, event, plumtree_put_broadcast(event, "a", 1), none, 2) == PLUMTREE_LIMIT_DROPPED);
    CHECK(met_with(&p, event, plumtree_put_broadcast(event, "a", 1), none, 1) == PLUMTREE_LIMIT_NONE);
    CHECK(met(&p, event, plumtree_put_broadcast(event, "b", 1)) == PLUMTREE_LIMIT_NONE);
    free_panel(p);

    /* Other questions come first: no panel, a time too late, an event that is none. An output is not asked for. */
    l = plumtree_small_limits();
    l.neighbours = 2;
    p = two_neighbours(l);
    CHECK(plumtree_limit_met(NULL, 0, 0, event, plumtree_put_up(event, 4), NULL, 0) == PLUMTREE_LIMIT_NONE);
    CHECK(plumtree_limit_met(p.block, p.block_length - 1, 0, event, plumtree_put_up(event, 4), NULL, 0) == PLUMTREE_LIMIT_NONE);
    CHECK(plumtree_limit_met(p.block, p.block_length, ((uint64_t)1 << 62) + 1, event, plumtree_put_up(event, 4), NULL, 0) == PLUMTREE_LIMIT_NONE);
    CHECK(plumtree_limit_met(p.block, p.block_length, (uint64_t)1 << 62, event, plumtree_put_up(event, 4), NULL, 0) == PLUMTREE_LIMIT_NEIGHBOURS);
    CHECK(plumtree_limit_met(p.block, p.block_length, 0, NULL, 0, NULL, 0) == PLUMTREE_LIMIT_NONE);
    CHECK(plumtree_limit_met(p.block, p.block_length, 0, event, plumtree_put_up(event, 4) - 1, NULL, 0) == PLUMTREE_LIMIT_NONE);
    CHECK(plumtree_limit_met(p.block, p.block_length, 0, evict, sizeof evict, NULL, 0) == PLUMTREE_LIMIT_NONE);
    free_panel(p);
}

/* A broadcast for neighbours alone: 01, length, content, 01. */
static size_t put_for_neighbours(uint8_t *event, const void *content, size_t length)
{
    size_t n = plumtree_put_broadcast(event, content, length);
    event[n - 1] = 1;
    return n;
}

/* It is refused with 23, without an output, with one that is too short for an action and with one for all of them, and meets no limit. */
static void turned_down(struct panel *p, uint64_t at, const void *content, size_t length, int line)
{
    static const size_t output_lengths[] = {0, 3, sizeof output};
    struct plumtree_link_room full = {2, 0};
    uint8_t *event = (uint8_t *)bytes(12 + length, 0);
    size_t n = put_for_neighbours(event, content, length), i;
    for (i = 0; i < sizeof output_lengths / sizeof *output_lengths; i++)
        refused(p, at, event, n, output_lengths[i], PLUMTREE_NEIGHBORS_BROADCAST, line);
    CHECK(plumtree_limit_met(p->block, p->block_length, at, event, n, NULL, 0) == PLUMTREE_LIMIT_NONE);
    CHECK(plumtree_limit_met(p->block, p->block_length, at, event, n, &full, 1) == PLUMTREE_LIMIT_NONE);
    free(event);
}

#define TURNED_DOWN(p, at, content, length) turned_down(p, at, content, length, __LINE__)

/* "A broadcast event with byte 1 is turned down", whatever the panel and the content; 5 to 9 are asked before, and 13 and 14 after. */
static void neighbours_only(void)
{
    static const uint8_t last_is_2[] = {1, 1, 'A', 2}, last_is_padded[] = {1, 1, 'A', 0x81, 0}, length_is_padded[] = {1, 0x81, 0, 'A', 1};
    static const uint8_t more[] = {1, 1, 'A', 1, 0}, cut[] = {1, 2, 'A', 1}, whole[] = {1, 1, 'A', 1};
    static const uint8_t prune[] = {PLUMTREE_EVENT_RECEIVED, 2, PLUMTREE_MESSAGE_PRUNE};
    static const uint8_t dispatch[] = {PLUMTREE_EVENT_TIMER, PLUMTREE_TIMER_DISPATCH_LAZY_PUSH};
    static uint8_t content[5000];
    static const size_t lengths[] = {0, 1, 127, 128, 471, 474, 475, 4055, 4058, 4059, sizeof content};
    struct plumtree_limits l = {2, 1, 1, 1, 1, 1, 1, 1, 1};
    struct plumtree_settings s = plumtree_default_settings(1);
    struct plumtree_link_room full = {3, 0};
    struct plumtree_reader r;
    struct panel p = new_panel(s, plumtree_small_limits());
    uint8_t event[64], ids[1][PLUMTREE_ID_BYTES];
    size_t i;
    memset(content, 'A', sizeof content);

    /* As the first event it is none: the dispatch tick after it is, and schedules the eviction, once. */
    TURNED_DOWN(&p, 0, content, 1);
    tell(&p, 0, event, plumtree_put_up(event, 2));
    tell(&p, 0, event, plumtree_put_up(event, 3));
    for (i = 0; i < sizeof lengths / sizeof *lengths; i++)
        TURNED_DOWN(&p, 0, content, lengths[i]);
    r = tell(&p, 0, dispatch, sizeof dispatch);
    schedules(&r, PLUMTREE_TIMER_EVICT_CACHE, 1000);
    CHECK(r.left == 0);
    for (i = 0; i < sizeof lengths / sizeof *lengths; i++)
        TURNED_DOWN(&p, 0, content, lengths[i]);
    CHECK(tell(&p, 0, dispatch, sizeof dispatch).left == 0);

    /* Upon what is queued, recorded and cached; of a content that is cached; at the last time. Nothing of it is announced or told as forgotten. */
    tell(&p, 0, prune, sizeof prune);
    broadcast_at(&p, 0, "A", 1, ids[0]);
    TURNED_DOWN(&p, 5, "A", 1);
    TURNED_DOWN(&p, 5, "B", 1);
    r = tell(&p, 5, dispatch, sizeof dispatch);
    CHECK(sent_of(r, 2, PLUMTREE_MESSAGE_IHAVE, NULL) == 1 && r.left == 4 + 1 + PLUMTREE_ID_BYTES + 1);
    EVICTS(&p, 30000, ids, 1);
    TURNED_DOWN(&p, (uint64_t)1 << 62, "A", 1);

    /* The order of the questions: 5 to 9 come before it. */
    REFUSED(&p, ((uint64_t)1 << 62) + 1, whole, sizeof whole, 64, PLUMTREE_TIME_TOO_LATE);
    for (i = 0; i < sizeof whole; i++)
        REFUSED(&p, 0, whole, i, 64, PLUMTREE_EVENT_CUT);
    REFUSED(&p, 0, cut, sizeof cut, 64, PLUMTREE_EVENT_CUT);
    REFUSED(&p, 0, last_is_2, sizeof last_is_2, 64, PLUMTREE_EVENT_MALFORMED);
    REFUSED(&p, 0, last_is_padded, sizeof last_is_padded, 64, PLUMTREE_EVENT_MALFORMED);
    REFUSED(&p, 0, length_is_padded, sizeof length_is_padded, 64, PLUMTREE_EVENT_MALFORMED);
    REFUSED(&p, 0, more, sizeof more, 64, PLUMTREE_EVENT_TOO_LONG);
    p.block_length--;
    REFUSED(&p, 0, whole, sizeof whole, 64, PLUMTREE_BLOCK_NOT_WHOLE);
    p.block_length++;

    /* The counts may be any: no count is brought up to date. */
    memset(p.counts, 0xff, sizeof *p.counts);
    TURNED_DOWN(&p, 0, "A", 1);
    free_panel(p);

    /* Upon a state in which every table is full: a broadcast to all panels is 13 there, and 14 is asked after it. */
    p = two_neighbours(l);
    CHECK(met(&p, prune, sizeof prune) == PLUMTREE_LIMIT_NONE);
    CHECK(met_with(&p, event, plumtree_put_broadcast(event, "A", 1), &full, 1) == PLUMTREE_LIMIT_NONE);
    event[0] = PLUMTREE_EVENT_RECEIVED;
    event[1] = 2;
    event[2] = PLUMTREE_MESSAGE_IHAVE;
    event[3] = 1;
    memset(event + 4, 8, PLUMTREE_ID_BYTES);
    event[36] = 5;
    CHECK(met(&p, event, 37) == PLUMTREE_LIMIT_NONE);
    CHECK(met(&p, event, send_graft(event, 8)) == PLUMTREE_LIMIT_NONE);
    memset(ids[0], 9, sizeof ids[0]);
    CHECK(met(&p, event, ihave_of(event, 2, ids[0], 5)) == PLUMTREE_LIMIT_NONE);
    CHECK(met(&p, event, plumtree_put_broadcast(event, "B", 1)) == PLUMTREE_LIMIT_RECEIVED);
    CHECK(met(&p, event, send_graft(event, 9)) == PLUMTREE_LIMIT_GRAFTED);
    memset(ids[0], 7, sizeof ids[0]);
    CHECK(met(&p, event, ihave_of(event, 2, ids[0], 5)) == PLUMTREE_LIMIT_MISSING);
    TURNED_DOWN(&p, 0, "A", 1);
    TURNED_DOWN(&p, 0, "B", 1);
    TURNED_DOWN(&p, 0, content, sizeof content);
    free_panel(p);
}

/* "Messages of that delivery from older panels are still read and emitted." */
static void for_neighbours_only(void)
{
    struct panel p = new_panel(plumtree_default_settings(1), plumtree_small_limits());
    struct plumtree_reader r;
    uint8_t event[128], message[64], id[PLUMTREE_ID_BYTES], *block;
    size_t n = gossip_of(message, id, "A", 0), m;
    CHECK(n == 37);
    message[n - 2] = 1;
    n--;

    /* As the first event: evicted first. */
    tell(&p, 0, event, plumtree_put_up(event, 2));
    tell(&p, 0, event, plumtree_put_up(event, 3));
    m = plumtree_put_received(event, 2, message, n);
    CHECK(m == 2 + 33 + 3);
    r = tell(&p, 0, event, m);
    schedules(&r, PLUMTREE_TIMER_EVICT_CACHE, 1000);
    CHECK(r.left == 5 && memcmp(r.bytes, "\x03\x02\x01" "A" "\x01", 5) == 0);
    CHECK(p.counts->payload_messages_received == 1 && p.counts->control_messages_received == 0 && p.counts->max_last_delivery_hop == 0);

    /* Later: the emit alone, and again when it comes again, since it is not marked received. It leaves the state as it was. */
    block = (uint8_t *)bytes(p.block_length, 0);
    memcpy(block, p.block, p.block_length);
    REFUSED(&p, 0, event, m, 4, PLUMTREE_OUTPUT_TOO_SHORT);
    r = tell(&p, 0, event, m);
    CHECK(r.left == 5 && memcmp(r.bytes, "\x03\x02\x01" "A" "\x01", 5) == 0);
    CHECK(p.counts->payload_messages_received == 2 && p.counts->control_messages_received == 0 && p.counts->max_last_delivery_hop == 0);

    /* With padded numbers; from a stranger. */
    event[m - 1] = 0x81;
    event[m] = 0x80;
    event[m + 1] = 0x00;
    r = tell(&p, 0, event, m + 2);
    CHECK(r.left == 5 && memcmp(r.bytes, "\x03\x02\x01" "A" "\x01", 5) == 0);
    r = tell(&p, 0, event, plumtree_put_received(event, 9, message, n));
    CHECK(r.left == 5 && memcmp(r.bytes, "\x03\x09\x01" "A" "\x01", 5) == 0);
    CHECK(p.counts->payload_messages_received == 4);

    /* It is not cached: a Graft for it is answered by nothing, and nothing is forgotten. */
    CHECK(tell(&p, 0, event, graft_of(event, 3, id)).left == 0);
    CHECK(memcmp(block, p.block, p.block_length) == 0);
    EVICTS(&p, 30000, NULL, 0);
    CHECK(memcmp(block, p.block, p.block_length) == 0);

    /* A wrong identifier: counted, and nothing. */
    message[1] ^= 1;
    CHECK(tell(&p, 0, event, plumtree_put_received(event, 2, message, n)).left == 0);
    message[1] ^= 1;
    CHECK(p.counts->payload_messages_received == 5);
    CHECK(memcmp(block, p.block, p.block_length) == 0);
    p.counts->payload_messages_received = UINT64_MAX;
    REFUSED(&p, 0, event, plumtree_put_received(event, 2, message, n), 64, PLUMTREE_COUNTS_FULL);
    p.counts->payload_messages_received = 5;

    /* One whose identifier is received is a second copy. */
    CHECK(pushes(&p, 2, "A", NULL));
    r = tell(&p, 0, event, plumtree_put_received(event, 2, message, n));
    CHECK(r.left == 4 && memcmp(r.bytes, "\x01\x02\x00\x01", 4) == 0);
    CHECK(p.counts->payload_messages_received == 6);
    free(block);
    free_panel(p);
}

/* A message rewritten into an output of this length: answered with this number and left so, by its first `n` bytes; the rest is untouched, and so is
 * the message. */
static void rewritten(const uint8_t *message, size_t message_length, size_t output_length, uint8_t number, const uint8_t *left, size_t n, int line)
{
    uint8_t *exact = (uint8_t *)bytes(message_length, 0);
    uint8_t *out = (uint8_t *)bytes(output_length, 0x5a);
    struct plumtree_answer a;
    size_t i;
    if (message_length)
        memcpy(exact, message, message_length);
    a = plumtree_rewrite(message_length ? exact : NULL, message_length, output_length ? out : NULL, output_length);
    if (a.number != number || a.length != n) {
        printf("calls.c:%d: answer %d with %zu bytes and not %d with %zu\n", line, a.number, a.length, number, n);
        failed = 1;
    }
    CHECK(n == 0 || memcmp(out, left, n) == 0);
    for (i = n; i < output_length; i++)
        CHECK(out[i] == 0x5a);
    CHECK(message_length == 0 || memcmp(exact, message, message_length) == 0);
    free(exact);
    free(out);
}

/* A message whose shortest form is this: in an output as long as the message, in a longer one and in the shortest; in one byte less there is no room;
 * and the shortest form's is itself. */
static void shortest(const uint8_t *message, size_t message_length, const uint8_t *form, size_t n, int line)
{
    rewritten(message, message_length, message_length, PLUMTREE_ACCEPTED, form, n, line);
    rewritten(message, message_length, message_length + 8, PLUMTREE_ACCEPTED, form, n, line);
    rewritten(message, message_length, n, PLUMTREE_ACCEPTED, form, n, line);
    rewritten(message, message_length, n - 1, PLUMTREE_OUTPUT_TOO_SHORT, NULL, 0, line);
    rewritten(form, n, n, PLUMTREE_ACCEPTED, form, n, line);
}

#define SHORTEST(message, n, form, m) shortest(message, n, form, m, __LINE__)

/* A message that is refused, with room and without. */
static void not_rewritten(const uint8_t *message, size_t n, uint8_t number, int line)
{
    rewritten(message, n, n + 64, number, NULL, 0, line);
    rewritten(message, n, 0, number, NULL, 0, line);
}

#define NOT_REWRITTEN(message, n, number) not_rewritten(message, n, number, __LINE__)

static size_t add(uint8_t *out, size_t at, const char *what, size_t n)
{
    memcpy(out + at, what, n);
    return at + n;
}

static size_t add_id(uint8_t *out, size_t at, int id)
{
    memset(out + at, id, PLUMTREE_ID_BYTES);
    return at + PLUMTREE_ID_BYTES;
}

/* Rewriting from C: each kind of message with each of its numbers padded, and the refusals. */
static void rewriting(void)
{
    static const uint8_t prune[] = {0x81, 0x80, 0x80, 0x80, 0x00}, graft[] = {0x82, 0x00, 0, 0x80, 0x80, 0x00};
    static const uint8_t prune_form[] = {1}, graft_form[] = {2, 0, 0};
    static const uint8_t event[] = {PLUMTREE_EVENT_RECEIVED, 2, PLUMTREE_MESSAGE_PRUNE}, unknown[] = {0x84, 0x00};
    static const uint8_t over[] = {2, 0, 0x80, 0x80, 0x80, 0x00}, flag[] = {2, 0x80, 0, 0}, more[] = {0x81, 0x00, 0x00};
    uint8_t *padded = (uint8_t *)bytes(70050, 7), *form = (uint8_t *)bytes(70050, 7);
    size_t n, m, i;

    SHORTEST(prune, sizeof prune, prune_form, sizeof prune_form);
    SHORTEST(graft, sizeof graft, graft_form, sizeof graft_form);

    /* There is no M: a content of 70,000 bytes. The identifier is not the content's. */
    n = plumtree_put_number(padded, add_id(padded, add(padded, 0, "\x00", 1), 9), 70000) + 70000;
    n = add(padded, n, "\x80\x00\x87\x00", 4);
    m = plumtree_put_number(form, add_id(form, add(form, 0, "\x00", 1), 9), 70000) + 70000;
    m = add(form, m, "\x00\x07", 2);
    CHECK(n == 70040 && m == 70038);
    SHORTEST(padded, n, form, m);

    /* A Gossip: kind, length, delivery's kind and round. */
    n = add_id(padded, add(padded, 0, "\x80\x00", 2), 9);
    n = add(padded, n, "\x83\x80\x80\x80\x80\x80\x80\x80\x80\x00" "hot" "\x80\x80\x80\x80\x00" "\xac\x82\x00", 21);
    m = add_id(form, add(form, 0, "\x00", 1), 9);
    m = add(form, m, "\x03" "hot" "\x00\xac\x02", 7);
    SHORTEST(padded, n, form, m);
    for (i = 0; i < n; i++)
        NOT_REWRITTEN(padded, i, PLUMTREE_EVENT_CUT);

    /* One of delivery Neighbors. */
    n = add_id(padded, add(padded, 0, "\x80\x00", 2), 9);
    n = add(padded, n, "\x83\x00" "hot" "\x81\x80\x80\x80\x00", 10);
    m = add_id(form, add(form, 0, "\x00", 1), 9);
    m = add(form, m, "\x03" "hot" "\x01", 5);
    SHORTEST(padded, n, form, m);

    /* An IHave: its order stays, and what stands twice. */
    n = add(padded, 0, "\x03\x83\x00", 3);
    m = add(form, 0, "\x03\x03", 2);
    for (i = 0; i < 3; i++) {
        n = add(padded, add_id(padded, n, i == 1 ? 8 : 9), "\x85\x00", 2);
        m = add(form, add_id(form, m, i == 1 ? 8 : 9), "\x05", 1);
    }
    SHORTEST(padded, n, form, m);

    /* An event is no message: its peer is read as an identifier. */
    NOT_REWRITTEN(NULL, 0, PLUMTREE_EVENT_CUT);
    NOT_REWRITTEN(event, sizeof event, PLUMTREE_EVENT_CUT);
    NOT_REWRITTEN(unknown, 1, PLUMTREE_EVENT_CUT);
    NOT_REWRITTEN(unknown, sizeof unknown, PLUMTREE_EVENT_MALFORMED);
    NOT_REWRITTEN(over, sizeof over, PLUMTREE_EVENT_MALFORMED);
    NOT_REWRITTEN(flag, sizeof flag, PLUMTREE_EVENT_MALFORMED);
    NOT_REWRITTEN(more, sizeof more, PLUMTREE_EVENT_TOO_LONG);
    free(padded);
    free(form);
}

/* A saving with this answer; it touches the area alone, and where it is refused nothing. */
static void saving(const struct panel *p, uint8_t *area, size_t area_length, uint64_t name, uint8_t number, int line)
{
    uint8_t *block = (uint8_t *)bytes(p->block_length, 0), *before = (uint8_t *)bytes(area_length, 0);
    struct plumtree_stats counts = *p->counts;
    struct plumtree_answer a;
    if (p->block_length)
        memcpy(block, p->block, p->block_length);
    if (area_length)
        memcpy(before, area, area_length);
    a = plumtree_save(p->block_length ? p->block : NULL, p->block_length, *p->counts, area, area_length, name);
    if (a.number != number) {
        printf("calls.c:%d: a saving answers %d and not %d\n", line, a.number, number);
        failed = 1;
    }
    CHECK(a.length == 0);
    CHECK(memcmp(block, p->block, p->block_length) == 0);
    CHECK(same_counts(&counts, p->counts));
    CHECK((a.number == 0) == (area_length != 0 && memcmp(before, area, area_length) != 0));
    free(block);
    free(before);
}

#define SAVING(p, area, n, name, number) saving(p, area, n, name, number, __LINE__)

/* A return that is refused with this number and touches nothing. */
static void not_returning(struct panel *p, const uint8_t *area, size_t area_length, uint64_t name, uint8_t number, int line)
{
    uint8_t *block = (uint8_t *)bytes(p->block_length, 0), *before = (uint8_t *)bytes(area_length, 0);
    struct plumtree_stats counts = *p->counts;
    struct plumtree_answer a;
    if (p->block_length)
        memcpy(block, p->block, p->block_length);
    if (area_length)
        memcpy(before, area, area_length);
    a = plumtree_return(p->block_length ? p->block : NULL, p->block_length, p->counts, area, area_length, name);
    if (a.number != number) {
        printf("calls.c:%d: a return answers %d and not %d\n", line, a.number, number);
        failed = 1;
    }
    CHECK(a.length == 0);
    CHECK(memcmp(block, p->block, p->block_length) == 0);
    CHECK(same_counts(&counts, p->counts));
    CHECK(area_length == 0 || memcmp(before, area, area_length) == 0);
    free(block);
    free(before);
}

#define NOT_RETURNING(p, area, n, name, number) not_returning(p, area, n, name, number, __LINE__)

/* States saved and returned to: each refusal, in its order. tests/c/states.c has more. */
static void states(void)
{
    struct panel p = new_panel(plumtree_default_settings(1), plumtree_small_limits());
    struct panel q = new_panel(plumtree_default_settings(7), plumtree_small_limits()), none = q;
    size_t n = p.block_length, long_enough = plumtree_area_size(n);
    uint8_t *area = (uint8_t *)bytes(long_enough, 0), *tiny = (uint8_t *)bytes(10, 0), event[16];
    struct plumtree_answer a;
    uint64_t name;
    tell(&p, 0, event, plumtree_put_up(event, 2));
    p.counts->payload_messages_received = 11;
    p.counts->control_messages_received = 12;
    p.counts->max_last_delivery_hop = 13;
    CHECK(long_enough == 235776);
    NOT_RETURNING(&p, area, long_enough, 0, PLUMTREE_NAME_NOT_KEPT);
    SAVING(&p, area, long_enough - 1, 0, PLUMTREE_AREA_NOT_WHOLE);
    SAVING(&p, tiny, 10, 0, PLUMTREE_AREA_NOT_WHOLE);
    SAVING(&p, NULL, 0, 0, PLUMTREE_AREA_NOT_WHOLE);
    NOT_RETURNING(&p, NULL, 0, 0, PLUMTREE_AREA_NOT_WHOLE);
    SAVING(&p, area, long_enough, 0, PLUMTREE_ACCEPTED);
    for (name = 1; name < 4; name++)
        SAVING(&q, area, long_enough, name, PLUMTREE_ACCEPTED);
    SAVING(&q, area, long_enough, 4, PLUMTREE_NAMES_FULL);
    NOT_RETURNING(&q, area, long_enough, 4, PLUMTREE_NAME_NOT_KEPT);
    none.block_length = n - 1;
    SAVING(&none, area, long_enough, 0, PLUMTREE_BLOCK_NOT_WHOLE);
    NOT_RETURNING(&none, area, long_enough, 0, PLUMTREE_BLOCK_NOT_WHOLE);
    none.block_length = 0;
    SAVING(&none, NULL, 0, 0, PLUMTREE_BLOCK_NOT_WHOLE);
    NOT_RETURNING(&none, NULL, 0, 0, PLUMTREE_BLOCK_NOT_WHOLE);
    area[255] = 5;
    SAVING(&q, area, long_enough, 4, PLUMTREE_AREA_NOT_WHOLE);
    NOT_RETURNING(&q, area, long_enough, 4, PLUMTREE_AREA_NOT_WHOLE);
    area[255] = 4;
    a = plumtree_return(q.block, n, q.counts, area, long_enough, 0);
    CHECK(a.number == PLUMTREE_ACCEPTED && a.length == 0);
    CHECK(memcmp(p.block, q.block, n) == 0);
    CHECK(same_counts(p.counts, q.counts));
    CHECK(q.counts->payload_messages_received == 11 && q.counts->control_messages_received == 12 && q.counts->max_last_delivery_hop == 13);
    free(area);
    free(tiny);
    free_panel(p);
    free_panel(q);
}

int main(void)
{
    CHECK(sizeof(struct plumtree_config) == 56);
    CHECK(offsetof(struct plumtree_config, optimization_threshold) == 24);
    CHECK(sizeof plumtree_default_settings(1).config.optimization_threshold == 2);
    CHECK(sizeof(struct plumtree_settings) == 72);
    CHECK(sizeof(struct plumtree_limits) == 72);
    CHECK(sizeof(struct plumtree_stats) == 24);
    CHECK(sizeof(struct plumtree_link_room) == 16);
    CHECK(sizeof(struct plumtree_answer) == 16);
    CHECK(sizeof(struct plumtree_likeness) == 2);
    settings_in_place();
    /* The specification: "Threshold 7, r = 9: announcer round 3 optimises, 4 doesn't." */
    CHECK(optimises(7, 3));
    CHECK(!optimises(7, 4));
    CHECK(optimises(6, 4));
    limits_in_place();
    creations();
    event_lengths();
    events();
    rooms();
    forgotten();
    all_forgotten();
    quiet();
    marks();
    quiet_links();
    limits_met();
    neighbours_only();
    for_neighbours_only();
    rewriting();
    states();
    printf("%s\n", failed ? "calls from C: not as promised" : "calls from C: as promised");
    return failed;
}
