/*
 * Named states of an older library: an area that the library of commit a888e395 wrote, the last one that took a broadcast for neighbours alone. "Saved
 * states hold none and load unchanged": both names return byte for byte as they were saved, each call from there on answers what it answered then, and
 * the same calls without that broadcast lead to the same states. Every lent part is a heap block of exactly its length, so that valgrind sees a step
 * beyond it.
 *
 *     older_area make            writes the area, what was saved and the calls since to standard output. Linked with that library, compiled without its
 *                                proofs (tests/mutants/build.sh), it wrote older_area.txt; with today's it fails at the first such broadcast
 *     older_area FILE            holds the library against such a file
 *
 * The file is words between blanks. Bytes are a length and then runs, each the place of its first byte, a colon, and the bytes in hexadecimal; what
 * is in no run is 0. A lone ; ends them. A line that begins with # is for people.
 */
#include <ctype.h>
#include <inttypes.h>
#include <stdio.h>
#include <stdlib.h>
#include <string.h>

#include "plumtree.h"
#include "wire.h"

static int failed;

#define CHECK(fact)                                                  \
    do {                                                             \
        if (!(fact)) {                                               \
            printf("older_area.c:%d: not so: %s\n", __LINE__, #fact); \
            failed = 1;                                              \
        }                                                            \
    } while (0)

static void stop(const char *why)
{
    fprintf(stderr, "older_area: %s\n", why);
    exit(1);
}

static uint8_t *bytes(size_t n, int value)
{
    uint8_t *p = (uint8_t *)malloc(n ? n : 1);
    if (!p)
        stop("no memory");
    memset(p, value, n);
    return p;
}

/* PANELS */

struct panel {
    uint8_t *block;
    size_t length;
    struct plumtree_stats counts;
};

static struct panel new_panel(struct plumtree_settings s, struct plumtree_limits l, int value)
{
    struct panel p;
    p.length = plumtree_block_size(l);
    p.block = bytes(p.length, value);
    if (plumtree_create(p.block, p.length, &p.counts, s, l).number != PLUMTREE_ACCEPTED)
        stop("no panel");
    return p;
}

static bool same_counts(struct plumtree_stats a, struct plumtree_stats b)
{
    return a.payload_messages_received == b.payload_messages_received && a.control_messages_received == b.control_messages_received &&
           a.max_last_delivery_hop == b.max_last_delivery_hop;
}

/* The limits of the panel that is saved. */
static struct plumtree_limits its_limits(void)
{
    struct plumtree_limits l = {6, 8, 6, 256, 3, 4, 4, 16, 8};
    return l;
}

/* An event, and the one peer whose link is full; 0 if none is. */
struct call {
    uint64_t at, full;
    uint8_t event[128];
    size_t n;
};

static struct plumtree_answer told(struct panel *p, const struct call *c, uint8_t *output, size_t output_length)
{
    struct plumtree_link_room *room = (struct plumtree_link_room *)bytes(sizeof *room, 0);
    uint8_t *exact = bytes(c->n, 0);
    struct plumtree_answer a;
    memcpy(exact, c->event, c->n);
    room->peer = c->full;
    a = plumtree_event(p->block, p->length, &p->counts, c->at, exact, c->n, room, c->full ? 1 : 0, output, output_length);
    free(exact);
    free(room);
    return a;
}

static void tell(struct panel *p, uint64_t at, uint64_t full, const uint8_t *event, size_t n)
{
    static uint8_t output[16384];
    struct call c;
    c.at = at;
    c.full = full;
    c.n = n;
    memcpy(c.event, event, n);
    if (told(p, &c, output, sizeof output).number != PLUMTREE_ACCEPTED)
        stop("a call of the panel's first ones is refused");
}

/* A Gossip of this content as panel 9 broadcasts it, with another round (0 to 127). */
static size_t gossip_of(uint8_t *message, const char *content, uint8_t round)
{
    struct panel q = new_panel(plumtree_default_settings(9), plumtree_small_limits(), 0);
    struct plumtree_answer answer;
    struct plumtree_reader r;
    struct plumtree_action a;
    uint8_t event[64], output[256];
    size_t n = 0;
    tell(&q, 0, 0, event, plumtree_put_up(event, 1));
    answer = plumtree_event(q.block, q.length, &q.counts, 0, event, plumtree_put_broadcast(event, content, strlen(content)), NULL, 0, output, sizeof output);
    r = plumtree_actions_of(output, answer.length);
    while (plumtree_take_action(&r, &a))
        if (a.kind == PLUMTREE_ACTION_SEND) {
            n = a.message.length;
            memcpy(message, a.message.bytes, n);
            message[n - 1] = round;
        }
    free(q.block);
    return n;
}

static size_t received(uint8_t *event, uint64_t peer, const char *content, uint8_t round)
{
    uint8_t message[64];
    return plumtree_put_received(event, peer, message, gossip_of(message, content, round));
}

/* The same for neighbours alone: its kind of delivery is the last byte. */
static size_t received_for_neighbours(uint8_t *event, uint64_t peer, const char *content)
{
    size_t n = received(event, peer, content, 0) - 1;
    event[n - 1] = PLUMTREE_DELIVERY_NEIGHBORS;
    return n;
}

static size_t broadcast_for_neighbours(uint8_t *event, const char *content)
{
    size_t n = plumtree_put_broadcast(event, content, strlen(content));
    event[n - 1] = 1;
    return n;
}

/* An IHave of one identifier or two, 32 times a byte each, and the timer of one. */
static size_t announced(uint8_t *event, uint64_t peer, uint8_t one, uint8_t other)
{
    uint8_t message[2 + 2 * (PLUMTREE_ID_BYTES + 1)] = {PLUMTREE_MESSAGE_IHAVE, 1}, *second = message + 2 + PLUMTREE_ID_BYTES + 1;
    memset(message + 2, one, PLUMTREE_ID_BYTES);
    message[2 + PLUMTREE_ID_BYTES] = 4;
    if (!other)
        return plumtree_put_received(event, peer, message, 3 + PLUMTREE_ID_BYTES);
    message[1] = 2;
    memset(second, other, PLUMTREE_ID_BYTES);
    second[PLUMTREE_ID_BYTES] = 6;
    return plumtree_put_received(event, peer, message, sizeof message);
}

static size_t send_graft(uint8_t *event, uint8_t id)
{
    uint8_t timer[1 + PLUMTREE_ID_BYTES];
    memset(timer, id, sizeof timer);
    timer[0] = PLUMTREE_TIMER_SEND_GRAFT;
    return plumtree_put_timer(event, timer, sizeof timer);
}

/* THE STATES THAT ARE SAVED */

static const uint8_t prune_from_3[] = {PLUMTREE_EVENT_RECEIVED, 3, PLUMTREE_MESSAGE_PRUNE};

/* A broadcast for neighbours alone: the older library takes it (0), and it leaves nothing behind; today's turns it down (23). */
static void tell_for_neighbours(struct panel *p, uint64_t at, uint64_t full, const char *content, uint8_t number)
{
    uint8_t output[512], *block = bytes(p->length, 0);
    struct plumtree_stats counts = p->counts;
    struct plumtree_answer a;
    struct call c;
    c.at = at;
    c.full = full;
    c.n = broadcast_for_neighbours(c.event, content);
    memcpy(block, p->block, p->length);
    a = told(p, &c, output, sizeof output);
    CHECK(a.number == number);
    CHECK((a.length == 0) == (number != PLUMTREE_ACCEPTED));
    CHECK(memcmp(block, p->block, p->length) == 0);
    CHECK(same_counts(counts, p->counts));
    free(block);
}

/* Panel 1 with the neighbours 2 (eager), 3 (lazy), 4 (quiet) and 5, whose link is full. Of two readings, its own and one that came, the identifiers
 * are queued for 3 and 4 and recorded for 5. 3 has announced two messages that are not here, 4 one of them; 3 was asked for it. */
static struct panel plan_a(uint8_t number)
{
    struct plumtree_settings s = plumtree_default_settings(1);
    struct panel p;
    uint8_t e[128];
    s.max_message_size = 1000;
    s.config.optimization_threshold = 5;
    p = new_panel(s, its_limits(), 0);
    tell(&p, 0, 0, e, plumtree_put_up(e, 2));
    tell(&p, 0, 0, e, plumtree_put_up(e, 3));
    tell(&p, 1, 0, e, plumtree_put_up_quiet(e, 4));
    tell(&p, 1, 0, e, plumtree_put_up(e, 5));
    tell(&p, 2, 0, prune_from_3, sizeof prune_from_3);
    tell_for_neighbours(&p, 3, 5, "1/0", number);
    tell(&p, 10, 5, e, plumtree_put_broadcast(e, "1/1", 3));
    tell_for_neighbours(&p, 11, 5, "1/2", number);
    tell(&p, 12, 5, e, received(e, 2, "9/1", 3));
    tell(&p, 13, 0, e, received_for_neighbours(e, 2, "9/2"));
    tell(&p, 14, 0, e, announced(e, 3, 8, 9));
    tell(&p, 15, 0, e, announced(e, 4, 8, 0));
    tell(&p, 95, 0, e, send_graft(e, 8));
    return p;
}

/* Later: the queue was sent, but not to 4, whose link was full; 2 is down and 6 up; one more reading of each kind; and 3's second announcement asked for. */
static void plan_b(struct panel *p, uint8_t number)
{
    uint8_t e[128];
    tell(p, 100, 4, e, plumtree_put_tick(e, PLUMTREE_TIMER_DISPATCH_LAZY_PUSH));
    tell(p, 110, 0, e, plumtree_put_down(e, 2));
    tell(p, 110, 0, e, plumtree_put_up(e, 6));
    tell_for_neighbours(p, 111, 6, "1/3", number);
    tell(p, 120, 6, e, plumtree_put_broadcast(e, "1/4", 3));
    tell(p, 121, 0, e, received(e, 3, "9/3", 0));
    tell(p, 122, 0, e, send_graft(e, 9));
    tell(p, 130, 0, e, announced(e, 6, 7, 9));
    tell(p, 1010, 0, e, plumtree_put_tick(e, PLUMTREE_TIMER_EVICT_CACHE));
}

static const char *const name_of[2] = {"plan A  ", "plan B  "};

#define CALLS 14

static void add(struct call *c, size_t *i, uint64_t at, uint64_t full, const uint8_t *event, size_t n)
{
    c[*i].at = at;
    c[*i].full = full;
    c[*i].n = n;
    memcpy(c[(*i)++].event, event, n);
}

/* What is told after a return, the same upon both states: each kind of event. */
static void calls_since(struct call *c)
{
    uint8_t graft[3 + PLUMTREE_ID_BYTES] = {PLUMTREE_MESSAGE_GRAFT, 1}, message[64], e[128];
    size_t i = 0;
    gossip_of(message, "1/1", 0);
    memcpy(graft + 2, message + 1, PLUMTREE_ID_BYTES);
    add(c, &i, 1100, 3, e, plumtree_put_tick(e, PLUMTREE_TIMER_DISPATCH_LAZY_PUSH));
    add(c, &i, 1101, 0, e, plumtree_put_received(e, 4, graft, sizeof graft));
    add(c, &i, 1102, 0, e, send_graft(e, 8));
    add(c, &i, 1103, 0, e, received_for_neighbours(e, 3, "9/4"));
    add(c, &i, 1104, 0, e, received(e, 3, "9/1", 3));
    add(c, &i, 1105, 3, e, received(e, 6, "9/5", 9));
    add(c, &i, 1106, 5, e, plumtree_put_broadcast(e, "1/5", 3));
    add(c, &i, 1107, 0, e, announced(e, 3, 7, 0));
    add(c, &i, 1108, 0, e, plumtree_put_tick(e, PLUMTREE_TIMER_ANNOUNCE_DROPPED));
    add(c, &i, 1109, 0, e, plumtree_put_tick(e, PLUMTREE_TIMER_DISPATCH_LAZY_PUSH));
    add(c, &i, 1110, 0, e, plumtree_put_up(e, 4));
    add(c, &i, 1111, 0, e, plumtree_put_down(e, 5));
    add(c, &i, 30015, 0, e, plumtree_put_tick(e, PLUMTREE_TIMER_EVICT_CACHE));
    add(c, &i, 200000, 0, e, plumtree_put_tick(e, PLUMTREE_TIMER_EVICT_CACHE));
    CHECK(i == CALLS);
}

/* WRITING THE FILE */

static void put_bytes(const uint8_t *p, size_t n)
{
    size_t i = 0, end, k;
    printf(" %zu", n);
    while (i < n) {
        if (!p[i]) {
            i++;
            continue;
        }
        for (end = i + 1; end < n && end - i < 60 && (p[end] || (end + 2 < n && (p[end + 1] || p[end + 2]))); end++)
            ;
        printf("\n%zu:", i);
        for (k = i; k < end; k++)
            printf("%02x", p[k]);
        i = end;
    }
    printf("\n;\n");
}

static void put_state(const char *word, const struct panel *p)
{
    printf("%s %" PRIu64 " %" PRIu64 " %u", word, p->counts.payload_messages_received, p->counts.control_messages_received,
           (unsigned)p->counts.max_last_delivery_hop);
    put_bytes(p->block, p->length);
}

static void make(void)
{
    static uint8_t output[16384];
    struct panel p = plan_a(PLUMTREE_ACCEPTED);
    size_t n = p.length, area_length = plumtree_area_size(n), i, k;
    uint8_t *area = bytes(area_length, 0);
    struct call c[CALLS];
    CHECK(plumtree_save(p.block, n, p.counts, area, area_length, plumtree_name(name_of[0])).number == PLUMTREE_ACCEPTED);
    plan_b(&p, PLUMTREE_ACCEPTED);
    CHECK(plumtree_save(p.block, n, p.counts, area, area_length, plumtree_name(name_of[1])).number == PLUMTREE_ACCEPTED);
    printf("# Written by `older_area make`, upon the library of commit a888e395 compiled without its proofs: the area; then of each name counts and\n"
           "# block as they were saved, what each call since a return answered, and counts and block after these.\n");
    printf("area");
    put_bytes(area, area_length);
    for (i = 0; i < 2; i++) {
        CHECK(plumtree_return(p.block, n, &p.counts, area, area_length, plumtree_name(name_of[i])).number == PLUMTREE_ACCEPTED);
        put_state("saved", &p);
        calls_since(c);
        for (k = 0; k < CALLS; k++) {
            struct plumtree_answer a = told(&p, &c[k], output, sizeof output);
            printf("call %u", (unsigned)a.number);
            put_bytes(output, a.length);
        }
        put_state("after", &p);
    }
    free(area);
    free(p.block);
}

/* READING IT */

static FILE *file;

/* The next word, without the lines for people. */
static const char *word(void)
{
    static char w[256];
    int c;
    for (;;) {
        if (fscanf(file, "%255s", w) != 1)
            stop("the file ends early");
        if (*w != '#')
            return w;
        while ((c = getc(file)) != '\n' && c != EOF)
            ;
    }
}

static void expect(const char *w)
{
    if (strcmp(word(), w))
        stop("the file is not of this form");
}

static uint64_t number(void)
{
    const char *w = word();
    char *end;
    uint64_t v = strtoull(w, &end, 10);
    if (!isdigit((unsigned char)*w) || *end)
        stop("the file has no number where there should be one");
    return v;
}

static uint8_t *get_bytes(size_t *n)
{
    uint8_t *p;
    *n = (size_t)number();
    p = bytes(*n, 0);
    for (;;) {
        const char *w = word();
        char *hex;
        size_t at;
        unsigned b;
        if (strcmp(w, ";") == 0)
            return p;
        at = (size_t)strtoull(w, &hex, 10);
        if (*hex++ != ':')
            stop("the file has no bytes where there should be some");
        for (; *hex; hex += 2, at++) {
            if (at >= *n || sscanf(hex, "%2x", &b) != 1 || !hex[1])
                stop("the file has bytes that are none");
            p[at] = (uint8_t)b;
        }
    }
}

static struct panel get_state(const char *w)
{
    struct panel p;
    memset(&p, 0, sizeof p);
    expect(w);
    p.counts.payload_messages_received = number();
    p.counts.control_messages_received = number();
    p.counts.max_last_delivery_hop = (uint16_t)number();
    p.block = get_bytes(&p.length);
    return p;
}

static bool alike(const struct panel *p, const struct panel *q)
{
    struct plumtree_likeness a = plumtree_alike(p->block, p->length, q->block, q->length);
    return a.number == PLUMTREE_ACCEPTED && a.alike && same_counts(p->counts, q->counts);
}

/* A call of a broadcast for neighbours alone is refused and changes nothing, and meets no limit. */
static void turned_down(struct panel *p, uint64_t at)
{
    uint8_t event[16];
    size_t n = broadcast_for_neighbours(event, "1/6");
    tell_for_neighbours(p, at, 0, "1/6", PLUMTREE_NEIGHBORS_BROADCAST);
    CHECK(plumtree_limit_met(p->block, p->length, at, event, n, NULL, 0) == PLUMTREE_LIMIT_NONE);
}

static void check(void)
{
    struct panel today = plan_a(PLUMTREE_NEIGHBORS_BROADCAST), p;
    size_t area_length, n = today.length, i, k;
    uint8_t *area, *again, *before;
    struct call c[CALLS];
    expect("area");
    area = get_bytes(&area_length);
    CHECK(area_length == plumtree_area_size(n));
    again = bytes(area_length, 0);
    before = bytes(area_length, 0);
    memcpy(before, area, area_length);

    /* A block of this length that is another panel's. */
    p = new_panel(plumtree_default_settings(7), its_limits(), 0xa5);
    CHECK(p.length == n);
    for (i = 0; i < 2; i++) {
        struct panel saved = get_state("saved"), after;
        struct plumtree_answer a = plumtree_return(p.block, n, &p.counts, area, area_length, plumtree_name(name_of[i]));
        CHECK(a.number == PLUMTREE_ACCEPTED && a.length == 0);
        CHECK(saved.length == n && memcmp(p.block, saved.block, n) == 0);
        CHECK(same_counts(p.counts, saved.counts));
        CHECK(memcmp(area, before, area_length) == 0);
        CHECK(plumtree_save(p.block, n, p.counts, again, area_length, plumtree_name(name_of[i])).number == PLUMTREE_ACCEPTED);

        /* The same calls lead here, without the broadcasts for neighbours alone. */
        if (i == 1)
            plan_b(&today, PLUMTREE_NEIGHBORS_BROADCAST);
        CHECK(alike(&today, &p));

        /* And from here on each is answered as it was. */
        turned_down(&p, 1099);
        calls_since(c);
        for (k = 0; k < CALLS; k++) {
            uint8_t number_then, *output_then, *output;
            size_t length_then;
            expect("call");
            number_then = (uint8_t)number();
            output_then = get_bytes(&length_then);
            output = bytes(16384, 0x5a);
            a = told(&p, &c[k], output, 16384);
            if (a.number != number_then || a.length != length_then || memcmp(output, output_then, length_then)) {
                printf("older_area.c: call %zu since the return to \"%s\": answer %d with %zu bytes, and then %d with %zu\n", k, name_of[i], a.number, a.length,
                       number_then, length_then);
                failed = 1;
            }
            turned_down(&p, c[k].at);
            free(output_then);
            free(output);
        }
        after = get_state("after");
        CHECK(alike(&after, &p));
        free(saved.block);
        free(after.block);
    }
    if (fscanf(file, "%*s") != EOF)
        stop("the file goes on");
    CHECK(memcmp(area, again, area_length) == 0);

    /* The area goes on: a third name beside the two. */
    CHECK(plumtree_save(p.block, n, p.counts, area, area_length, plumtree_name("plan C  ")).number == PLUMTREE_ACCEPTED);
    for (i = 0; i < 2; i++) {
        CHECK(plumtree_return(p.block, n, &p.counts, area, area_length, plumtree_name(name_of[i])).number == PLUMTREE_ACCEPTED);
        CHECK(plumtree_return(today.block, n, &today.counts, before, area_length, plumtree_name(name_of[i])).number == PLUMTREE_ACCEPTED);
        CHECK(memcmp(p.block, today.block, n) == 0 && same_counts(p.counts, today.counts));
    }
    printf("an older area: two states of %zu bytes return as they were saved, and of each %d calls since answer as they did: %s\n", n, CALLS,
           failed ? "not as promised" : "as promised");
    free(area);
    free(again);
    free(before);
    free(p.block);
    free(today.block);
}

int main(int n, char **words)
{
    if (n != 2)
        stop("make, or the name of a file");
    if (strcmp(words[1], "make") == 0) {
        make();
    } else {
        file = fopen(words[1], "r");
        if (!file)
            stop("no such file");
        check();
        fclose(file);
    }
    return failed;
}
