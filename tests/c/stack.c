/*
 * How much stack the calls take, at the ceilings: each runs in a thread whose stack was painted before. Writes a line for each function, its name and
 * the most bytes that a call of it took, with what the function took that the thread began with, and fails where that is over what the header says.
 * tests/c/stack_bound.py has the bounds beside these.
 */
#define _GNU_SOURCE
#include <pthread.h>
#include <stdio.h>
#include <stdlib.h>
#include <string.h>
#include <sys/mman.h>

#include "plumtree.h"
#include "wire.h"

#define STACK ((size_t)1 << 20)
#define PAINT 0xcd
#define SAID 65536

static const struct plumtree_limits most = {PLUMTREE_CEILING_NEIGHBOURS, PLUMTREE_CEILING_RECEIVED, PLUMTREE_CEILING_CACHED,
                                            PLUMTREE_CEILING_CONTENT,    PLUMTREE_CEILING_GRAFTED,  PLUMTREE_CEILING_MISSING,
                                            PLUMTREE_CEILING_TIMERS,     PLUMTREE_CEILING_QUEUED,   PLUMTREE_CEILING_DROPPED};

static uint8_t *stack, *block, *output, *event, *content, *kept;
static size_t block_length, event_length, kept_length;
static uint64_t name;
static const size_t output_length = (size_t)1 << 22;
static uint64_t at;
static struct plumtree_stats counts;
static struct plumtree_answer answer;
static struct plumtree_link_room rooms[32];
static size_t rooms_length;
static size_t nothing_takes;

static void *nothing(void *unused)
{
    return unused;
}

static void *create(void *unused)
{
    answer = plumtree_create(block, block_length, &counts, plumtree_default_settings(1), most);
    return unused;
}

static void *tell(void *unused)
{
    answer = plumtree_event(block, block_length, &counts, at, event, event_length, rooms, rooms_length, output, output_length);
    return unused;
}

/* Of two blocks that are, so that all of them is compared. */
static void *alike(void *unused)
{
    struct plumtree_likeness a = plumtree_alike(block, block_length, block, block_length);
    answer.number = a.alike ? a.number : PLUMTREE_BLOCK_NOT_WHOLE;
    return unused;
}

/* Which limit the event would meet: none. */
static void *limit(void *unused)
{
    answer.number = plumtree_limit_met(block, block_length, at, event, event_length, rooms, rooms_length);
    return unused;
}

/* What stands in `event` is a message here. */
static void *rewritten(void *unused)
{
    answer = plumtree_rewrite(event, event_length, output, output_length);
    return unused;
}

/* Into an area that keeps up to four states, and back. */
static void *save(void *unused)
{
    answer = plumtree_save(block, block_length, counts, kept, kept_length, name);
    return unused;
}

static void *go_back(void *unused)
{
    answer = plumtree_return(block, block_length, &counts, kept, kept_length, name);
    return unused;
}

static void stop(const char *why)
{
    fprintf(stderr, "stack: %s\n", why);
    exit(1);
}

/* The bytes of stack that a thread takes for this, with its start. */
static size_t depth(void *(*what)(void *))
{
    pthread_attr_t attributes;
    pthread_t thread;
    size_t untouched = 0;
    memset(stack, PAINT, STACK);
    if (pthread_attr_init(&attributes) || pthread_attr_setstack(&attributes, stack, STACK) || pthread_create(&thread, &attributes, what, NULL) ||
        pthread_join(thread, NULL))
        stop("no thread");
    pthread_attr_destroy(&attributes);
    while (untouched < STACK && stack[untouched] == PAINT)
        untouched++;
    return STACK - untouched;
}

/* The bytes of stack of an accepted call. */
static size_t taken(void *(*call)(void *))
{
    size_t d = depth(call);
    if (answer.number != PLUMTREE_ACCEPTED)
        stop("a call was refused");
    return d > nothing_takes ? d - nothing_takes : 0;
}

static size_t most_of_events, most_of_alike, most_of_limits, most_of_rewrites, most_of_saves, most_of_returns;

static void measure(size_t *most_of, void *(*call)(void *))
{
    size_t d = taken(call);
    if (d > *most_of)
        *most_of = d;
}

static void event_of(size_t length)
{
    event_length = length;
    measure(&most_of_limits, limit);
    measure(&most_of_events, tell);
}

/* An event in which a message comes from a peer, and the message rewritten. */
static void received(uint64_t from, const uint8_t *message, size_t n)
{
    event_of(plumtree_put_received(event, from, message, n));
    memcpy(event, message, n);
    event_length = n;
    measure(&most_of_rewrites, rewritten);
}

static uint8_t *area(size_t n)
{
    uint8_t *p = (uint8_t *)calloc(1, n);
    if (!p)
        stop("no memory");
    return p;
}

int main(void)
{
    uint8_t message[4200];
    uint8_t timer[1 + PLUMTREE_ID_BYTES];
    struct plumtree_reader actions;
    struct plumtree_action action;
    size_t n = 0, of_create, i;
    uint64_t peer;

    block_length = plumtree_block_size(most);
    block = area(block_length);
    output = area(output_length);
    event = area((size_t)1 << 21);
    content = area((size_t)1 << 20);
    kept_length = plumtree_area_size(block_length);
    kept = area(kept_length);
    stack = (uint8_t *)mmap(NULL, STACK, PROT_READ | PROT_WRITE, MAP_PRIVATE | MAP_ANONYMOUS, -1, 0);
    if (stack == (uint8_t *)MAP_FAILED)
        stop("no memory");
    nothing_takes = depth(nothing);

    /* The longest message that goes out, from the panel's own broadcast; then it comes to a new one. */
    of_create = taken(create);
    event_of(plumtree_put_up(event, 3));
    event_of(plumtree_put_broadcast(event, content, 4055));
    actions = plumtree_actions_of(output, answer.length);
    while (plumtree_take_action(&actions, &action))
        if (action.kind == PLUMTREE_ACTION_SEND) {
            n = action.message.length;
            memcpy(message, action.message.bytes, n);
        }
    taken(create);

    /* One of delivery Neighbors, which is emitted and leaves it new. */
    message[n - 2] = PLUMTREE_DELIVERY_NEIGHBORS;
    received(3, message, n - 1);
    message[n - 2] = PLUMTREE_DELIVERY_SWARM;

    for (peer = 2; peer < 34; peer++) {
        rooms[peer - 2].peer = peer;
        event_of(plumtree_put_up(event, peer));
    }
    received(3, message, n);
    received(4, message, n);
    for (i = 0; i < 400; i++) {
        memcpy(content, &i, sizeof i);
        event_of(plumtree_put_broadcast(event, content, 1000));
    }
    event_of(plumtree_put_broadcast(event, content, (size_t)1 << 20));
    message[0] = PLUMTREE_MESSAGE_PRUNE;
    received(5, message, 1);
    message[0] = PLUMTREE_MESSAGE_GRAFT;
    message[1] = message[2] = 0;
    received(5, message, 3);
    message[0] = PLUMTREE_MESSAGE_IHAVE;
    n = plumtree_put_number(message, 1, 116);
    for (i = 0; i < 116; i++) {
        memset(message + n, (int)i, PLUMTREE_ID_BYTES);
        n += PLUMTREE_ID_BYTES;
        message[n++] = 3;
    }
    received(6, message, n);
    memset(timer, 9, sizeof timer);
    timer[0] = PLUMTREE_TIMER_SEND_GRAFT;
    event_of(plumtree_put_timer(event, timer, sizeof timer));
    /* What is queued, then what every link hands back. */
    measure(&most_of_alike, alike);
    rooms_length = 32;
    event_of(plumtree_put_tick(event, PLUMTREE_TIMER_DISPATCH_LAZY_PUSH));
    event_of(plumtree_put_broadcast(event, content, 999));
    measure(&most_of_alike, alike);
    rooms_length = 0;
    event_of(plumtree_put_tick(event, PLUMTREE_TIMER_ANNOUNCE_DROPPED));
    measure(&most_of_alike, alike);
    event_of(plumtree_put_tick(event, PLUMTREE_TIMER_DISPATCH_LAZY_PUSH));
    for (name = 0; name < 4; name++) {
        measure(&most_of_saves, save);
        measure(&most_of_returns, go_back);
    }
    name = 0;
    measure(&most_of_saves, save);
    at = 30000;
    event_of(plumtree_put_tick(event, PLUMTREE_TIMER_EVICT_CACHE));
    event_of(plumtree_put_down(event, 5));

    printf("create %zu\nevent %zu\nalike %zu\nlimit_met %zu\nrewrite %zu\nsave %zu\nreturn %zu\n", of_create, most_of_events, most_of_alike, most_of_limits,
           most_of_rewrites, most_of_saves, most_of_returns);
    if (most_of_events == 0 || most_of_alike == 0 || most_of_rewrites == 0 || most_of_saves == 0 || most_of_returns == 0)
        stop("nothing was measured");
    if (of_create > SAID || most_of_events > SAID || most_of_alike > SAID || most_of_limits > SAID || most_of_rewrites > SAID || most_of_saves > SAID ||
        most_of_returns > SAID)
        stop("more than the header says");
    munmap(stack, STACK);
    free(block);
    free(output);
    free(event);
    free(content);
    free(kept);
    return 0;
}
