/*
 * A commissioning sheet: a list of calls that is tried on two panels. Panels that were set up in three ways are held against each other by
 * plumtree_alike, and each pair is put through the same sheet. From alike blocks and equal counts come the same answers and actions. One panel has
 * recorded the same identifiers in another order: it is not alike, and sends other actions.
 *
 *     cc -Wall -Wextra -pedantic -I include -o commissioning_sheet examples/c/commissioning_sheet.c target/staticlib/libplumtree.a
 *     ./commissioning_sheet
 *
 * examples/c/build.sh builds it too. commissioning_sheet.expected is what it prints; it ends with 1 where panels that are told alike differ.
 */
#include <inttypes.h>
#include <stdio.h>
#include <stdlib.h>
#include <string.h>

#include "plumtree.h"
#include "wire.h"

#define ENOUGH 40960

/* A panel; a copy of it is the same panel once more, since a block is plain bytes. */
struct panel {
    uint8_t block[65536];
    size_t block_length;
    struct plumtree_stats counts;
    uint8_t output[ENOUGH];
};

/* A line of the sheet: a timer that fires, and how much output is lent. Every send is taken. */
struct line {
    const char *what;
    uint64_t at;
    enum plumtree_timer_kind timer;
    size_t output_length;
};

static const struct line sheet[] = {{"AnnounceDropped fires", 1010, PLUMTREE_TIMER_ANNOUNCE_DROPPED, ENOUGH},
                                    {"DispatchLazyPush fires, with an output of 40 bytes", 1015, PLUMTREE_TIMER_DISPATCH_LAZY_PUSH, 40},
                                    {"DispatchLazyPush fires", 1015, PLUMTREE_TIMER_DISPATCH_LAZY_PUSH, ENOUGH}};

static const char *const timer_names[] = {"SendGraft", "DispatchLazyPush", "EvictCache", "AnnounceDropped"};
static const char *const message_names[] = {"Gossip", "Prune", "Graft", "IHave"};

static void stop(const char *why)
{
    fprintf(stderr, "commissioning_sheet: %s\n", why);
    exit(1);
}

/* SETTING UP: the links to 2 and 3 have no room. */

static void tell(struct panel *p, uint64_t at, const uint8_t *event, size_t length)
{
    static const struct plumtree_link_room full[] = {{2, 0}, {3, 0}};
    struct plumtree_answer answer = plumtree_event(p->block, p->block_length, &p->counts, at, event, length, full, 2, p->output, ENOUGH);
    if (answer.number != PLUMTREE_ACCEPTED)
        stop(plumtree_number_text(answer.number));
}

/* Panel 1 with the neighbours 2 and 3, in a block that may be longer than its limits need. */
static void create(struct panel *p, size_t more)
{
    struct plumtree_limits limits = plumtree_small_limits();
    struct plumtree_answer answer;
    uint8_t event[64];
    p->block_length = plumtree_block_size(limits) + more;
    if (p->block_length > sizeof p->block)
        stop("no memory");
    answer = plumtree_create(p->block, p->block_length, &p->counts, plumtree_default_settings(1), limits);
    if (answer.number != PLUMTREE_ACCEPTED)
        stop(plumtree_number_text(answer.number));
    tell(p, 0, event, plumtree_put_up(event, 2));
    tell(p, 0, event, plumtree_put_up(event, 3));
}

/* 2 and 3 want announcements alone. */
static void prune(struct panel *p, uint64_t at)
{
    static const uint8_t message[] = {PLUMTREE_MESSAGE_PRUNE};
    uint8_t event[64];
    tell(p, at, event, plumtree_put_received(event, 2, message, sizeof message));
    tell(p, at, event, plumtree_put_received(event, 3, message, sizeof message));
}

static void broadcast(struct panel *p, uint64_t at, const char *reading)
{
    uint8_t event[64];
    tell(p, at, event, plumtree_put_broadcast(event, reading, strlen(reading)));
}

static void dispatch(struct panel *p, uint64_t at)
{
    uint8_t event[64];
    tell(p, at, event, plumtree_put_tick(event, PLUMTREE_TIMER_DISPATCH_LAZY_PUSH));
}

/* THE SHEET */

/* Whether the sheet of one panel serves for the other: alike blocks and equal counts. */
static bool alike(const struct panel *p, const struct panel *q)
{
    struct plumtree_likeness told = plumtree_alike(p->block, p->block_length, q->block, q->block_length);
    if (told.number != PLUMTREE_ACCEPTED)
        stop(plumtree_number_text(told.number));
    return told.alike && p->counts.payload_messages_received == q->counts.payload_messages_received &&
           p->counts.control_messages_received == q->counts.control_messages_received &&
           p->counts.max_last_delivery_hop == q->counts.max_last_delivery_hop;
}

static struct plumtree_answer call(struct panel *p, const struct line *l)
{
    uint8_t event[64];
    return plumtree_event(p->block, p->block_length, &p->counts, l->at, event, plumtree_put_tick(event, l->timer), NULL, 0, p->output, l->output_length);
}

static void print_actions(const struct panel *p, size_t length)
{
    struct plumtree_reader actions = plumtree_actions_of(p->output, length);
    struct plumtree_action a;
    uint64_t i;
    while (plumtree_take_action(&actions, &a)) {
        if (a.kind == PLUMTREE_ACTION_SCHEDULE)
            printf("        schedule %s in %" PRIu64, timer_names[a.timer[0]], a.delay);
        else if (a.kind == PLUMTREE_ACTION_FORGOTTEN)
            printf("        forgotten %02x%02x..", a.id[0], a.id[1]);
        else
            printf("        send to %" PRIu64 ": %s", a.peer, message_names[a.message.kind]);
        for (i = 0; i < a.message.count; i++, plumtree_take_round(&a.message.entries)) {
            const uint8_t *id = plumtree_take_id(&a.message.entries);
            printf(" %02x%02x..", id[0], id[1]);
        }
        printf("\n");
    }
}

/* A line of the sheet on both panels: whether the answers are the same, and the actions byte for byte. */
static bool try_line(struct panel *p, struct panel *q, const struct line *l)
{
    struct plumtree_answer a = call(p, l), b = call(q, l);
    bool same = a.number == b.number && a.length == b.length && memcmp(p->output, q->output, a.length) == 0;
    printf("    %" PRIu64 " %s: answers %u and %u, %s\n", l->at, l->what, a.number, b.number, same ? "the same actions" : "other actions");
    print_actions(p, a.length);
    if (!same) {
        printf("      and\n");
        print_actions(q, b.length);
    }
    return same;
}

/* The sheet on copies of two panels. Panels that are told alike have to do the same and to stay alike. */
static bool compare(const char *what, struct panel p, struct panel q)
{
    bool before = alike(&p, &q), same = true;
    size_t i;
    printf("%s: %s\n", what, before ? "alike" : "not alike");
    for (i = 0; i < sizeof sheet / sizeof *sheet; i++)
        same &= try_line(&p, &q, &sheet[i]);
    return !before || (same && alike(&p, &q));
}

int main(void)
{
    static const char one[] = "1/17 burner 3: 1452 C", two[] = "1/18 burner 3: 1455 C";
    static struct panel payloads, announcements, set_back;

    /* Both links hand back the payloads of two readings; later 2 and 3 want announcements alone. */
    create(&payloads, 0);
    broadcast(&payloads, 5, one);
    broadcast(&payloads, 10, two);
    prune(&payloads, 15);
    dispatch(&payloads, 15);

    /* 2 and 3 want announcements alone from the beginning, and both links hand these back. The block is longer. */
    create(&announcements, 64);
    prune(&announcements, 5);
    broadcast(&announcements, 5, one);
    broadcast(&announcements, 10, two);
    dispatch(&announcements, 15);

    /* As the first, but the clock was set back between the readings: each has its time, and they were recorded in another order. */
    create(&set_back, 0);
    broadcast(&set_back, 10, two);
    broadcast(&set_back, 5, one);
    prune(&set_back, 15);
    dispatch(&set_back, 15);

    if (!compare("payloads handed back, announcements handed back", payloads, announcements))
        stop("alike panels differ");
    if (!compare("the same readings, recorded in another order", payloads, set_back))
        stop("alike panels differ");
    return 0;
}
