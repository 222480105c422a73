/*
 * Commissioning. A fitter sets up panel 1 with a link plan, saves it under a name, tries another plan, and returns. Block and counts come back by
 * plumtree_return. The timers that wait and the list of neighbours are the host's: it keeps them beside the area, with each name. Each event is
 * printed, and below it the actions that it led to.
 *
 *     cc -Wall -Wextra -pedantic -I include -o commissioning examples/c/commissioning.c target/staticlib/libplumtree.a
 *     ./commissioning
 *
 * examples/c/build.sh builds it too. commissioning.expected is what it prints; it ends with 1 unless the panel does the same again after a return.
 */
#include <inttypes.h>
#include <stdio.h>
#include <stdlib.h>
#include <string.h>

#include "plumtree.h"
#include "wire.h"

#define STATES 4 /* the most that an area keeps */
#define PEERS 5  /* peers have the numbers below this */
#define TIMERS 64

/* A timer that waits: the time at which it is told, or, where it is kept, the time left; then its bytes. */
struct timer {
    uint64_t at;
    size_t length;
    uint8_t bytes[1 + PLUMTREE_ID_BYTES];
};

/* What the host has of a panel beside its block. No call lists the neighbours, and none the names of an area. */
struct beside {
    char name[8];
    bool up[PEERS];
    size_t count;
    struct timer timers[TIMERS];
};

static uint8_t *block, *area, output[40960];
static size_t block_length, area_length, actions_length;
static struct plumtree_stats counts;
static struct beside host, kept[STATES];
static size_t kept_count;
static uint64_t now;

static const char *const timer_names[] = {"SendGraft", "DispatchLazyPush", "EvictCache", "AnnounceDropped"};
static const char *const message_names[] = {"Gossip", "Prune", "Graft", "IHave"};

static void stop(const char *why)
{
    fprintf(stderr, "commissioning: %s\n", why);
    exit(1);
}

/* The first bytes of an identifier, enough to tell one from another. */
static void print_id(const uint8_t *id)
{
    printf(" %02x%02x%02x%02x..", id[0], id[1], id[2], id[3]);
}

static void print_action(const struct plumtree_action *a)
{
    struct plumtree_reader entries = a->message.entries;
    uint64_t i;
    if (a->kind == PLUMTREE_ACTION_SCHEDULE) {
        printf("    schedule %s in %" PRIu64, timer_names[a->timer[0]], a->delay);
    } else if (a->kind == PLUMTREE_ACTION_EMIT) {
        printf("    emit from %" PRIu64 ": \"%.*s\"", a->peer, (int)a->content_length, (const char *)a->content);
    } else if (a->kind == PLUMTREE_ACTION_FORGOTTEN) {
        printf("    forgotten");
        print_id(a->id);
    } else {
        printf("    %s %" PRIu64 ": %s", a->taken ? "send to" : "handed back, for", a->peer, message_names[a->message.kind]);
        if (a->message.id)
            print_id(a->message.id);
        for (i = 0; i < a->message.count; i++, plumtree_take_round(&entries))
            print_id(plumtree_take_id(&entries));
    }
    printf("\n");
}

/* An event, whose actions are printed; a schedule starts a timer. (A host puts the sends on its links: examples/c/three_panels.c.) */
static void tell(const char *what, const char *which, const uint8_t *event, size_t length, const struct plumtree_link_room *rooms,
                 size_t rooms_length)
{
    struct plumtree_reader actions;
    struct plumtree_action a;
    struct plumtree_answer answer =
        plumtree_event(block, block_length, &counts, now, event, length, rooms, rooms_length, output, sizeof output);
    if (answer.number != PLUMTREE_ACCEPTED)
        stop(plumtree_number_text(answer.number));
    printf("%" PRIu64 " %s %s\n", now, what, which);
    actions_length = answer.length;
    actions = plumtree_actions_of(output, answer.length);
    while (plumtree_take_action(&actions, &a)) {
        print_action(&a);
        if (a.kind == PLUMTREE_ACTION_SCHEDULE) {
            if (host.count == TIMERS)
                stop("too many timers");
            host.timers[host.count].at = now + a.delay;
            host.timers[host.count].length = a.timer_length;
            memcpy(host.timers[host.count++].bytes, a.timer, a.timer_length);
        }
    }
}

static void neighbour(uint64_t peer, bool up)
{
    uint8_t event[64];
    char which[32];
    sprintf(which, "%" PRIu64 " is %s", peer, up ? "up" : "down");
    host.up[peer] = up;
    tell("neighbour", which, event, up ? plumtree_put_up(event, peer) : plumtree_put_down(event, peer), NULL, 0);
}

static void broadcast(const char *reading, const struct plumtree_link_room *rooms, size_t rooms_length)
{
    uint8_t event[64];
    tell("broadcast", reading, event, plumtree_put_broadcast(event, reading, strlen(reading)), rooms, rooms_length);
}

/* The timers that are due by then, in their order. */
static void run_until(uint64_t until)
{
    uint8_t event[64];
    for (;;) {
        size_t i, first = 0;
        struct timer t;
        for (i = 1; i < host.count; i++)
            if (host.timers[i].at < host.timers[first].at)
                first = i;
        if (host.count == 0 || host.timers[first].at > until)
            break;
        t = host.timers[first];
        memmove(host.timers + first, host.timers + first + 1, (--host.count - first) * sizeof t);
        now = t.at > now ? t.at : now;
        tell(timer_names[t.bytes[0]], "fires", event, plumtree_put_timer(event, t.bytes, t.length), NULL, 0);
    }
    now = until;
}

/* The place of a name among those kept beside the area, or how many these are. */
static size_t place_of(const char name[8])
{
    size_t i = 0;
    while (i < kept_count && memcmp(kept[i].name, name, 8) != 0)
        i++;
    return i;
}

static void print_answer(const char *what, const char name[8], struct plumtree_answer answer)
{
    size_t i;
    printf("%" PRIu64 " %s \"%.8s\": %s", now, what, name, plumtree_number_text(answer.number));
    if (answer.number == PLUMTREE_ACCEPTED) {
        printf(", %u timer(s) wait, neighbours", (unsigned)host.count);
        for (i = 0; i < PEERS; i++)
            if (host.up[i])
                printf(" %u", (unsigned)i);
    }
    printf("\n");
}

/* A saving; where it is accepted the host keeps its own beside the area, each timer with the time left. */
static void save(const char name[8])
{
    struct plumtree_answer answer = plumtree_save(block, block_length, counts, area, area_length, plumtree_name(name));
    size_t k, i = place_of(name);
    print_answer("save under", name, answer);
    if (answer.number != PLUMTREE_ACCEPTED)
        return;
    kept_count += i == kept_count;
    kept[i] = host;
    memcpy(kept[i].name, name, 8);
    for (k = 0; k < host.count; k++)
        kept[i].timers[k].at = host.timers[k].at > now ? host.timers[k].at - now : 0;
}

/*
 * A return; where it is accepted the timers that were kept take the place of those that wait: each has the time left that it had. The clock goes
 * on, and so do the numbers of the readings. A neighbour that went since the saving would be told down here, one that came and stays told up.
 */
static void go_back(const char name[8])
{
    struct plumtree_answer answer = plumtree_return(block, block_length, &counts, area, area_length, plumtree_name(name));
    size_t k, i = place_of(name);
    if (answer.number == PLUMTREE_ACCEPTED) {
        if (i == kept_count)
            stop("the area keeps a name whose timers the host has not kept");
        host = kept[i];
        for (k = 0; k < host.count; k++)
            host.timers[k].at += now;
    }
    print_answer("return to", name, answer);
}

int main(void)
{
    static const uint8_t prune[] = {PLUMTREE_EVENT_RECEIVED, 3, PLUMTREE_MESSAGE_PRUNE};
    static const struct plumtree_link_room full[] = {{4, 0}};
    static uint8_t before[sizeof output];
    struct plumtree_limits limits = plumtree_small_limits();
    size_t length;
    bool same;

    /* The area starts as zeros. */
    block_length = plumtree_block_size(limits);
    area_length = plumtree_area_size(block_length);
    block = (uint8_t *)calloc(1, block_length);
    area = (uint8_t *)calloc(1, area_length);
    if (!block || !area)
        stop("no memory");
    if (plumtree_create(block, block_length, &counts, plumtree_default_settings(1), limits).number != PLUMTREE_ACCEPTED)
        stop("not created");

    /* Plan A: the neighbours 2 and 3, of which 3 wants announcements alone. It is saved while one waits for its timer. */
    neighbour(2, true);
    neighbour(3, true);
    tell("Prune", "from 3", prune, sizeof prune, NULL, 0);
    now = 10;
    broadcast("1/17 burner 3: 1452 C", NULL, 0);
    save("plan A  ");
    run_until(15);
    memcpy(before, output, length = actions_length);

    /* Plan B: 4 in place of 2. The link to 4 is full, and a reading for it is handed back. */
    run_until(100);
    neighbour(4, true);
    neighbour(2, false);
    broadcast("1/18 burner 3: 1455 C", full, 1);
    run_until(105);
    save("plan B  ");

    /* Back to plan A, with its links; their other ends are told too. The timer that waited at the saving fires again, and the panel does the same. */
    run_until(200);
    go_back("plan A  ");
    run_until(205);
    same = actions_length == length && memcmp(output, before, length) == 0;
    printf("the same actions as before: %s\n", same ? "yes" : "no");
    broadcast("1/19 burner 3: 1449 C", NULL, 0);

    /* A name that is not kept; a fifth name. A used name is replaced. */
    go_back("plan C  ");
    save("plan C  ");
    save("plan D  ");
    save("plan E  ");
    save("plan C  ");

    /* Plan B again: the reading that was handed back for 4 is announced, since the timer was kept that it waits for. */
    go_back("plan B  ");
    run_until(1250);

    free(block);
    free(area);
    return same ? 0 : 1;
}
