/*
 * A first broadcast. Panel 1 is told that its neighbours 2 and 3 are up and broadcasts a reading; the link to 3 has no room. Then its timers
 * fire: the reading is announced to 3, and forgotten after 30 seconds. Each event is printed, and below it the actions that it led to.
 *
 *     tools/staticlib.sh plumtree
 *     cc -Wall -Wextra -pedantic -I include -o first_broadcast examples/c/first_broadcast.c target/staticlib/libplumtree.a
 *     ./first_broadcast
 *
 * examples/c/build.sh does the same. first_broadcast.expected is what it prints.
 */
#include <inttypes.h>
#include <stdio.h>
#include <stdlib.h>
#include <string.h>

#include "plumtree.h"
#include "wire.h"

/* A panel as a host keeps it: the block, the counts and an output. */
struct panel {
    uint8_t *block;
    size_t block_length;
    struct plumtree_stats counts;
    uint8_t output[40960];
};

static void stop(const char *what, const char *why)
{
    fprintf(stderr, "first_broadcast: %s: %s\n", what, why);
    exit(1);
}

/* PRINTING */

/* The first bytes of an identifier, enough to tell one from another. */
static void print_id(const uint8_t *id)
{
    int i;
    for (i = 0; i < 4; i++)
        printf("%02x", id[i]);
    printf("..");
}

static void print_delivery(uint8_t delivery, uint16_t round)
{
    if (delivery == PLUMTREE_DELIVERY_SWARM)
        printf(", Swarm, round %u", round);
    else
        printf(", Neighbors");
}

static void print_message(const struct plumtree_message *m)
{
    struct plumtree_reader entries = m->entries;
    uint64_t i;
    switch (m->kind) {
    case PLUMTREE_MESSAGE_GOSSIP:
        printf("Gossip ");
        print_id(m->id);
        printf(" \"%.*s\"", (int)m->content_length, (const char *)m->content);
        print_delivery(m->delivery, m->round);
        break;
    case PLUMTREE_MESSAGE_PRUNE:
        printf("Prune");
        break;
    case PLUMTREE_MESSAGE_GRAFT:
        printf("Graft ");
        if (m->id)
            print_id(m->id);
        printf(", round %u", m->round);
        break;
    case PLUMTREE_MESSAGE_IHAVE:
        printf("IHave");
        for (i = 0; i < m->count; i++) {
            printf(i ? ", " : " ");
            print_id(plumtree_take_id(&entries));
            printf(" round %u", plumtree_take_round(&entries));
        }
        break;
    }
}

static void print_timer(const uint8_t *timer)
{
    static const char *const names[] = {"SendGraft", "DispatchLazyPush", "EvictCache", "AnnounceDropped"};
    printf("%s", names[timer[0]]);
    if (timer[0] == PLUMTREE_TIMER_SEND_GRAFT) {
        printf(" ");
        print_id(timer + 1);
    }
}

static void print_action(const struct plumtree_action *a)
{
    printf("    ");
    switch (a->kind) {
    case PLUMTREE_ACTION_SEND:
        printf(a->taken ? "send to %" PRIu64 ": " : "handed back, for %" PRIu64 ": ", a->peer);
        print_message(&a->message);
        break;
    case PLUMTREE_ACTION_SCHEDULE:
        printf("schedule ");
        print_timer(a->timer);
        printf(" in %" PRIu64, a->delay);
        break;
    case PLUMTREE_ACTION_EMIT:
        printf("emit from %" PRIu64 ": \"%.*s\"", a->peer, (int)a->content_length, (const char *)a->content);
        print_delivery(a->delivery, a->round);
        break;
    case PLUMTREE_ACTION_FORGOTTEN:
        printf("forgotten ");
        print_id(a->id);
        break;
    }
    printf("\n");
}

/* ONE EVENT */

static void tell(struct panel *p, const char *what, uint64_t at, const uint8_t *event, size_t event_length,
                 const struct plumtree_link_room *rooms, size_t rooms_length)
{
    struct plumtree_answer answer;
    struct plumtree_reader actions;
    struct plumtree_action action;

    answer = plumtree_event(p->block, p->block_length, &p->counts, at, event, event_length, rooms, rooms_length, p->output, sizeof p->output);
    if (answer.number != PLUMTREE_ACCEPTED)
        stop(what, plumtree_number_text(answer.number));

    printf("%" PRIu64 " %s\n", at, what);
    actions = plumtree_actions_of(p->output, answer.length);
    while (plumtree_take_action(&actions, &action))
        print_action(&action);
    if (actions.bad)
        stop(what, "the actions cannot be read");
}

int main(void)
{
    /* the panel's number and a sequence number first: the same content twice is one message */
    static const char reading[] = "1/17 burner 3: 1452 C";
    static const struct plumtree_link_room full[] = {{3, 0}};
    static struct panel panel;
    struct plumtree_limits limits = plumtree_small_limits();
    struct plumtree_answer answer;
    uint8_t event[64];

    /* The block, of the size that these limits need. */
    panel.block_length = plumtree_block_size(limits);
    panel.block = (uint8_t *)calloc(1, panel.block_length);
    if (!panel.block)
        stop("create", "no memory");
    answer = plumtree_create(panel.block, panel.block_length, &panel.counts, plumtree_default_settings(1), limits);
    if (answer.number != PLUMTREE_ACCEPTED)
        stop("create", plumtree_number_text(answer.number));

    tell(&panel, "neighbour 2 is up", 0, event, plumtree_put_up(event, 2), NULL, 0);
    tell(&panel, "neighbour 3 is up", 0, event, plumtree_put_up(event, 3), NULL, 0);

    /* The reading goes to both; the link to 3 hands it back, so its identifier is recorded for 3. */
    tell(&panel, "broadcast", 10, event, plumtree_put_broadcast(event, reading, strlen(reading)), full, 1);

    /* The timers that were scheduled fire: 3 gets the announcement, and may ask for the reading. */
    tell(&panel, "DispatchLazyPush fires", 15, event, plumtree_put_tick(event, PLUMTREE_TIMER_DISPATCH_LAZY_PUSH), NULL, 0);
    tell(&panel, "AnnounceDropped fires", 1010, event, plumtree_put_tick(event, PLUMTREE_TIMER_ANNOUNCE_DROPPED), NULL, 0);
    tell(&panel, "DispatchLazyPush fires", 1015, event, plumtree_put_tick(event, PLUMTREE_TIMER_DISPATCH_LAZY_PUSH), NULL, 0);

    /* EvictCache fires once a second. The tick of now finds a reading that has been cached for 30 seconds; those before it are left out here. */
    tell(&panel, "EvictCache fires", 30010, event, plumtree_put_tick(event, PLUMTREE_TIMER_EVICT_CACHE), NULL, 0);

    printf("payload messages received %" PRIu64 ", control messages received %" PRIu64 "\n", panel.counts.payload_messages_received,
           panel.counts.control_messages_received);
    free(panel.block);
    return 0;
}
