/*
 * plumtree.h: the state machine of the kiln panel broadcast, for C and C++.
 *
 * Link libplumtree.a (`tools/staticlib.sh plumtree` writes target/staticlib/libplumtree.a, for x86-64 Linux). It needs memcpy, memmove and
 * memset of the C library and nothing else: it has no heap, no thread, no clock, no file, no variable of its own. What a panel knows
 * stands in one block of bytes that its owner lends to each call. examples/c/first_broadcast.c is a program to start from, and
 * examples/c/three_panels.c a host to copy; beside them archive.c shows plumtree_rewrite, commissioning.c plumtree_save and plumtree_return, and
 * commissioning_sheet.c plumtree_alike.
 *
 *     cc -I include program.c target/staticlib/libplumtree.a
 *
 * The specification is docs/SPECIFICATION.md, with what customers asked for since as its last sections; its words stand in quotes.
 *
 *
 * WHAT A HOST DOES
 *
 *   1. Lend a block: plumtree_block_size says how many bytes. plumtree_create makes it a panel without neighbours. Tell it each planned one up.
 *   2. Tell what happens, one plumtree_event each: a neighbour is up, up as quiet, or down, a message came over a link, the panel's own reading is
 *      to be broadcast, a timer fired.
 *   3. Carry out the actions that the call wrote, in their order: put the message of each send that was taken onto the link to its peer,
 *      start a timer for each schedule, hand the content of each emit to the panel's screen, which greys the curve of each identifier that is
 *      told as forgotten.
 *
 * A message goes over a link as the bytes it has in the send action; the host frames them (up to M + 1 bytes). The panel at the other end
 * gets it as an event: a byte 0, the sender's number, and these bytes as they came, damaged or not.
 *
 *
 * WHAT A HOST HAS TO KNOW
 *
 * It stands in docs/LINKING.md under these words: what a host loses readings by, how it counts room, which limits it takes, what it keeps. Here each
 * call, event and action has, in a sentence, what loses readings there.
 *
 *
 * WHAT A CALLER OWES
 *
 * The functions are proved for every value of their arguments; nothing checks a caller in C. So a caller owes what the types mean:
 *
 *   - Each pointer is valid for its length: a const pointer for reading, the others for reading and writing, until the call returns.
 *     A pointer whose length is 0 may be null or any other value. `counts` is never null.
 *   - block, counts, output and area do not overlap each other, nor event, rooms or message. (event and rooms may overlap, the two blocks of
 *     plumtree_alike may be the same, and what plumtree_limit_met is lent may overlap.)
 *   - No other thread writes what is lent, nor reads what is not const, before the call returns. Calls on different panels may run at
 *     the same time; so may returns from one area, but nothing beside a saving into it.
 *   - Each lent part has fewer than 2^63 bytes. `counts` and `rooms` are aligned as C aligns them; bytes need no alignment.
 *   - What is lent has been written once, block, counts, output and area too (calloc or memset will do). Padding does not matter; after a call it
 *     can hold anything, so who keeps the counts keeps the three numbers.
 *   - The thread has 64 KiB of stack left. (Not proved: no proof speaks of the stack. For the compiler and the flags with which the archive was made,
 *     tests/c/stack_bound.py reads from it a bound of every path of its code, but for what memcpy, memmove and memset take; it leaves the rest of the
 *     64 KiB to these. tests/c/stack.c measures calls at the ceilings.)
 *
 * Nothing else is asked. There is no order of calls to keep and no event that must not come: a call that cannot be carried out is refused.
 *
 *
 * WHAT A CALL PROMISES
 *
 *   - It returns, and touches nothing but block, counts and output, and plumtree_save nothing but the area, within their lengths.
 *   - Answer number 0: it was accepted. The block holds the state after the call, the counts are brought up to date, the first `length`
 *     bytes of the output hold the actions (of plumtree_rewrite the message), and the bytes after them keep their old content. An accepted
 *     saving changes the area alone, an accepted return block and counts alone; their length is 0.
 *   - Any other number: "The first no gives its number and output length 0; block, counts record and output are untouched." And "Neither a return
 *     nor a refusal changes the area."
 *   - Each call is a function of what is lent: from the same block, counts, time, event, rooms and output length come the same answer,
 *     actions and state; of plumtree_rewrite, from the same message and output length the same answer and bytes; of plumtree_save, from the same
 *     block, counts, area and name the same answer and area; of plumtree_return, from the same block, area and name the same answer, block and,
 *     where it is accepted, counts.
 *   - "from alike blocks and equal counts, the same list of events, times, link room and output space gives the same answers and actions"
 *     (plumtree_alike).
 *   - Over a list of calls, from a creation on: tree links carry the reading, other links its identifier only, and no neighbour is passed
 *     over (docs/GUARANTEE.md). A quiet neighbour is sent no Gossip but in answer to its own Graft that names the identifier. That speaks of lists in
 *     which each call gets block and counts as the one before left them. Times may go back, calls may be refused, links may hand back what they like.
 *   - "From a return on, the list of calls that the guarantees speak about is the one up to the saving, followed by the calls since the return."
 *     That speaks of an area that "starts as zeros" and that savings alone have written.
 *   - From an accepted creation on, no call is answered 5 as long as nobody else writes the block: a return brings back a whole one.
 *
 * A block is plain bytes: it can be copied, or kept and lent again later, with its counts. A call that is cut off (power, a killed process)
 * can leave it half written, and question 5 does not find every such block: whoever keeps a block over that goes on from a copy made
 * between two calls. Question 5 is no checksum either: a block in a file wants one of its own. With the block are kept the timers that have
 * not been told: what waits for one that is lost is never sent. The panel still has its neighbours: one that is gone meanwhile is told down.
 * A link's mark stands in one byte of the block: 0 eager, 1 lazy, 2 quiet. Blocks from before event kind 5 hold 0 and 1 there, and read as before.
 *
 * An area is plain bytes too. A saving that is cut off can leave it half written: then mostly every call upon it is answered 17, but a state that
 * is damaged and not found so can stand in it; whoever keeps an area over that goes on from a copy made between two calls. A return that is cut off
 * can leave the block half written, and the area as it was: plumtree_create makes the block a panel, and the return is made again. Question 17 is
 * no checksum, as question 5 is none: it does not find a bit that is turned in kept counts, or in a kept block that stays whole.
 */
#ifndef PLUMTREE_H
#define PLUMTREE_H

#include <stddef.h>
#include <stdint.h>
#ifndef __cplusplus
#include <stdbool.h>
#endif

#ifdef __cplusplus
extern "C" {
#endif

/*
 * ANSWERS
 *
 * "Answer 0 is yes to all. The first no gives its number". Creation asks 1 to 4, an event 5 to 9, 23 and 10 to 14, plumtree_alike 5, plumtree_rewrite
 * 7, 8, 9 and 14, plumtree_save 5, 17, 16 and plumtree_return 5, 17, 15, each in this order. The questions stand in plumtree_number_text below: 1 to 14
 * are the specification's from the first, 15 to 17 those of "Named states", which has no question in words but what is answered so; of 23 it says "Such a
 * broadcast answers 23, asked between 9 and 10." Those of plumtree_rewrite are asked of the message it is lent, and 14 of what it writes. Question 5 of
 * plumtree_return is asked of the block as it is lent.
 */
enum plumtree_number {
    PLUMTREE_ACCEPTED = 0,

    PLUMTREE_MESSAGE_SIZE_OUT_OF_RANGE = 1,
    PLUMTREE_DURATION_TOO_LONG = 2,
    PLUMTREE_LIMIT_OUT_OF_RANGE = 3,
    /* plumtree_block_size says how many bytes it needs. */
    PLUMTREE_BLOCK_TOO_SHORT = 4,

    /* It was not created, was written by somebody else, or is shorter than its limits need. */
    PLUMTREE_BLOCK_NOT_WHOLE = 5,
    PLUMTREE_TIME_TOO_LATE = 6,
    PLUMTREE_EVENT_CUT = 7,
    /* Shortest are an event's own numbers; inside a message they may be padded (EVENTS AND ACTIONS, BYTE BY BYTE). */
    PLUMTREE_EVENT_MALFORMED = 8,
    PLUMTREE_EVENT_TOO_LONG = 9,
    /* Its bytes are those behind the peer's number, as they came. */
    PLUMTREE_MESSAGE_TOO_LONG = 10,
    PLUMTREE_COUNTS_FULL = 11,
    /* Drop it. */
    PLUMTREE_NO_MORE_HOPS = 12,
    /* What the call frees counts as free. Entries that expire and neighbours that go down make room; so do higher limits at creation.
     * plumtree_limit_met says which limit it is. */
    PLUMTREE_LIMIT_REACHED = 13,
    /* Nothing has changed: the same call with a longer output goes through. */
    PLUMTREE_OUTPUT_TOO_SHORT = 14,

    /* Names are compared over all eight bytes. */
    PLUMTREE_NAME_NOT_KEPT = 15,
    /* Save under one of the four names, or into another area. */
    PLUMTREE_NAMES_FULL = 16,
    /* It is shorter than plumtree_area_size says, did not start as zeros, was written by somebody else, or keeps blocks of another length. */
    PLUMTREE_AREA_NOT_WHOLE = 17,

    /* A broadcast whose last byte is 01, for neighbours alone. It is refused each time; one for all panels ends with 00. */
    PLUMTREE_NEIGHBORS_BROADCAST = 23
};

/* An answer's number as text for people: what it means, then the question, in UTF-8. Plain C, in this header. */
static inline const char *plumtree_number_text(uint8_t number)
{
    switch (number) {
    case PLUMTREE_ACCEPTED:
        return "accepted";
    case PLUMTREE_MESSAGE_SIZE_OUT_OF_RANGE:
        return "the message size M is out of range (question 1: \"Is M, `max_message_size`, from 510 to 4,094?\")";
    case PLUMTREE_DURATION_TOO_LONG:
        return "a duration is too long (question 2: \"Is each of the six durations at most 2^40?\")";
    case PLUMTREE_LIMIT_OUT_OF_RANGE:
        return "a limit is 0 or over its ceiling (question 3: \"Is each limit from 1 to its ceiling?\")";
    case PLUMTREE_BLOCK_TOO_SHORT:
        return "the block is too short for the limits (question 4: "
               "\"Has the lent block at least 4,096 + B + 160R + 256C + 640G + 512S + 64(N + T + Q + D) bytes?\")";
    case PLUMTREE_BLOCK_NOT_WHOLE:
        return "the block holds no panel, or a damaged one (question 5: \"Is the block whole?\")";
    case PLUMTREE_TIME_TOO_LATE:
        return "the time is too late (question 6: \"Is now \342\211\244 2^62?\")";
    case PLUMTREE_EVENT_CUT:
        return "the bytes end within a field (question 7: \"Does each field end within the bytes?\")";
    case PLUMTREE_EVENT_MALFORMED:
        return "a kind is unknown, or a number is too wide or not shortest (question 8: "
               "\"Is each kind known, each number in its width and shortest?\")";
    case PLUMTREE_EVENT_TOO_LONG:
        return "there are bytes after the end (question 9: \"Do the bytes end there?\")";
    case PLUMTREE_MESSAGE_TOO_LONG:
        return "the received message is too long (question 10: \"Is a received message at most M bytes?\")";
    case PLUMTREE_COUNTS_FULL:
        return "a count would pass its greatest value (question 11: \"Do the counts stay under 2^64?\")";
    case PLUMTREE_NO_MORE_HOPS:
        return "the message is new here and has made 65,535 hops already (question 12: "
               "\"Is it anything but a valid Swarm message of round 65,535, unreceived once a first event has evicted?\")";
    case PLUMTREE_LIMIT_REACHED:
        return "a limit is reached (question 13: \"Is the state after the call within every limit?\")";
    case PLUMTREE_OUTPUT_TOO_SHORT:
        return "the output is too short (question 14: \"Do the actions fit the output?\")";
    case PLUMTREE_NAME_NOT_KEPT:
        return "no state is kept under this name (question 15: \"Returning to a name not kept\")";
    case PLUMTREE_NAMES_FULL:
        return "four states are kept under other names (question 16: \"saving a fifth name\")";
    case PLUMTREE_AREA_NOT_WHOLE:
        return "the area is too short, damaged, or of blocks of another length (question 17: "
               "\"an area too short, or one that savings of blocks of this length couldn't have left\")";
    case PLUMTREE_NEIGHBORS_BROADCAST:
        return "neighbours-only broadcasts are retired (question 23: \"Is it anything but a Neighbors broadcast?\")";
    default:
        return "no answer of this library";
    }
}

/*
 * SETTINGS AND LIMITS
 */

/* The Rust's `Config`, in its order: six durations in milliseconds, at most 2^40 each, and a number of hops. */
struct plumtree_config {
    uint64_t graft_timeout_1;         /* from an announcement to asking for the message; default 80 */
    uint64_t graft_timeout_2;         /* until the next announcer is asked; default 40 */
    uint64_t dispatch_timeout;        /* until queued announcements are sent; default 5 */
    uint16_t optimization_threshold;  /* hops that a shorter way must save; default 7 */
    uint64_t message_cache_retention; /* a message stays cached; default 30,000 */
    uint64_t message_id_retention;    /* an identifier stays known; default 90,000 */
    uint64_t cache_evict_interval;    /* between two evictions; default 1,000 */
};

struct plumtree_settings {
    struct plumtree_config config;
    uint64_t max_message_size; /* M, from 510 to 4,094; default 4,094 */
    uint64_t me;               /* the panel's own peer number */
};

/* How much a panel can hold, each from 1 to its ceiling. The block's size follows from these. They are for the readings of all panels together
 * (plumtree_limits_for): a message that goes over one of them is refused, and lost unless it is announced anew. */
struct plumtree_limits {
    size_t neighbours; /* N: neighbours */
    size_t received;   /* R: identifiers of messages that came; twice as many expiry entries (a repeated content takes one more each time) */
    size_t cached;     /* C: messages held for others to ask for; twice as many expiry entries */
    size_t content;    /* B: bytes of the contents of those */
    size_t grafted;    /* G: identifiers that were asked for; twice as many expiry entries */
    size_t missing;    /* S: identifiers that were announced and are not here */
    size_t timers;     /* T: identifiers whose graft timer is marked */
    size_t queued;     /* Q: announcements queued, over all neighbours */
    size_t dropped;    /* D: identifiers recorded since a link handed them back, over all neighbours, those too whose link is not there yet */
};

/* Which limit a call met (plumtree_limit_met), in the order of struct plumtree_limits. */
enum plumtree_limit {
    PLUMTREE_LIMIT_NONE = 0,
    PLUMTREE_LIMIT_NEIGHBOURS = 1,
    PLUMTREE_LIMIT_RECEIVED = 2,
    PLUMTREE_LIMIT_CACHED = 3,
    PLUMTREE_LIMIT_CONTENT = 4,
    PLUMTREE_LIMIT_GRAFTED = 5,
    PLUMTREE_LIMIT_MISSING = 6,
    PLUMTREE_LIMIT_TIMERS = 7,
    PLUMTREE_LIMIT_QUEUED = 8,
    PLUMTREE_LIMIT_DROPPED = 9
};

#define PLUMTREE_CEILING_NEIGHBOURS 32
#define PLUMTREE_CEILING_RECEIVED 2048
#define PLUMTREE_CEILING_CACHED 512
#define PLUMTREE_CEILING_CONTENT 1048576
#define PLUMTREE_CEILING_GRAFTED 512
#define PLUMTREE_CEILING_MISSING 512
#define PLUMTREE_CEILING_TIMERS 512
#define PLUMTREE_CEILING_QUEUED 8192
#define PLUMTREE_CEILING_DROPPED 4096

#define PLUMTREE_LEAST_MESSAGE_SIZE 510
#define PLUMTREE_GREATEST_MESSAGE_SIZE 4094

/* The default settings (`Config::default`, M 4,094) for panel `me`. Plain C, in this header. */
static inline struct plumtree_settings plumtree_default_settings(uint64_t me)
{
    struct plumtree_settings s;
    s.config.graft_timeout_1 = 80;
    s.config.graft_timeout_2 = 40;
    s.config.dispatch_timeout = 5;
    s.config.optimization_threshold = 7;
    s.config.message_cache_retention = 30000;
    s.config.message_id_retention = 90000;
    s.config.cache_evict_interval = 1000;
    s.max_message_size = PLUMTREE_GREATEST_MESSAGE_SIZE;
    s.me = me;
    return s;
}

/* The limits of the program panelrun: "N 8, R 64, C 32, B 8,192, G S T 16, Q D 64". They need 58,880 bytes and are for trying out: they
 * carry 0.7 readings a second of all panels together, and 16 that wait behind a full link. Plain C, in this header. */
static inline struct plumtree_limits plumtree_small_limits(void)
{
    struct plumtree_limits l;
    l.neighbours = 8;
    l.received = 64;
    l.cached = 32;
    l.content = 8192;
    l.grafted = 16;
    l.missing = 16;
    l.timers = 16;
    l.queued = 64;
    l.dropped = 64;
    return l;
}

/*
 * Limits for a panel among others that take in `per_second` readings a second, of all panels together, of at most `content` bytes each, with
 * the default durations: an identifier is known for 90 seconds and a message cached for 30, to which come one until the next eviction and
 * two to spare, since timers fire late. The rate is the highest over any 33 seconds: a burst over the limits is lost, not delayed, where
 * every panel has the same. What is announced, asked for, queued or recorded can be all that stands in the caches. `neighbours` counts each
 * planned one, whether its link is there or not. A limit over its ceiling (more than 15 readings a second, say) is answered 3 by
 * plumtree_create. Plain C, in this header.
 */
static inline struct plumtree_limits plumtree_limits_for(size_t neighbours, size_t per_second, size_t content)
{
    struct plumtree_limits l;
    size_t cached = 33 * per_second, recorded = cached < 256 ? cached : 256;
    l.neighbours = neighbours;
    l.received = 93 * per_second;
    l.cached = cached;
    l.content = cached * content;
    l.grafted = cached;
    l.missing = cached;
    l.timers = cached;
    l.queued = neighbours * cached < PLUMTREE_CEILING_QUEUED ? neighbours * cached : PLUMTREE_CEILING_QUEUED;
    l.dropped = neighbours * recorded < PLUMTREE_CEILING_DROPPED ? neighbours * recorded : PLUMTREE_CEILING_DROPPED;
    return l;
}

/*
 * A panel that comes from a creation with these limits and this max_message_size, or a lesser one, never answers 14 to an event call with an output
 * of this length: a message to each neighbour and an emit, or 50 bytes for each queued announcement, or 33 for each cached message, which an
 * eviction tells. 37,027 for panelrun's limits, 409,664 at the ceilings. After a return settings and limits are those that came back.
 * That this number is enough is proved (crates/plumtree/specs/OutputSize.antt). This function is plain C, in this header: that it computes the
 * number is tested, not proved.
 */
static inline size_t plumtree_output_size(struct plumtree_limits limits, uint64_t max_message_size)
{
    size_t sends = (limits.neighbours + 1) * ((size_t)max_message_size + 13);
    size_t announcements = 50 * limits.queued;
    size_t forgotten = 33 * limits.cached;
    size_t most = sends < announcements ? announcements : sends;
    return (most < forgotten ? forgotten : most) + 64;
}

/* The longest content that a broadcast sends: 4,055 where M is 4,094. Plain C. */
static inline size_t plumtree_longest_content(uint64_t max_message_size)
{
    return (size_t)max_message_size - 39;
}

/*
 * WHAT IS LENT AND ANSWERED
 */

/* The counts record: "payload, control, largest r + 1". An accepted creation sets it to zeros. */
struct plumtree_stats {
    uint64_t payload_messages_received; /* every Gossip, valid or not */
    uint64_t control_messages_received; /* every Prune, Graft and IHave */
    uint16_t max_last_delivery_hop;     /* the largest r + 1 of a new Swarm message of round r */
};

/* Link room: how many sends of this call the link to a peer takes. "The first entry for a peer counts, a peer without one has no bound, and
 * the k-th send of a call to a peer is taken when k <= room." Of a socket it is the free bytes, divided by M + 1 and the bytes of the host's
 * framing, rounded down. A link that is not there yet, or is broken and will come back, has room 0: what a link is said to take and then loses is
 * not sent again. So a link acknowledges what came: bare datagrams lose readings. An entry for each neighbour is enough: the time of a call grows
 * with a longer list. It is not read at events that send nothing (a Prune, an IHave, EvictCache, AnnounceDropped, a neighbour up or down). */
struct plumtree_link_room {
    uint64_t peer;
    uint16_t room;
};

/* A call's answer: the number (enum plumtree_number) and how many bytes the call wrote into the output: actions, or a message (plumtree_rewrite). */
struct plumtree_answer {
    uint8_t number;
    size_t length;
};

/* Whether two blocks are alike (plumtree_alike); number 5, and then alike is false, where either is not whole. */
struct plumtree_likeness {
    uint8_t number;
    bool alike;
};

/*
 * CALLS
 */

/* How many bytes a block of these limits needs, or 0 where a limit is not "from 1 to its ceiling". A longer block is taken too. */
size_t plumtree_block_size(struct plumtree_limits limits);

/*
 * Makes the block a new panel: "An accepted creation leaves the state of `State::new`, the counts zero and length 0."
 * Asks 1 to 4. A refused one leaves block and counts untouched. What the block held before does not matter.
 */
struct plumtree_answer plumtree_create(uint8_t *block, size_t block_length, struct plumtree_stats *counts, struct plumtree_settings settings,
                                       struct plumtree_limits limits);

/*
 * One event at the time `at`, in milliseconds. Asks 5 to 9, 23 and 10 to 14 in this order, then does what the specification says of the event. One that
 * is refused has not happened: a timer, an up or a broadcast is told again later, since what waits for it waits on; a message is lost as on a bad
 * link, an IHave whole. A clock that starts at 0 again keeps what was taken in before until it has passed the old times, and fills the limits.
 * `rooms` is the link room of this call; none (null, 0): every send is taken.
 * `output` takes the actions: plumtree_output_size bytes are always enough; a host that lends less and is answered 14 calls again with more.
 */
struct plumtree_answer plumtree_event(uint8_t *block, size_t block_length, struct plumtree_stats *counts, uint64_t at, const uint8_t *event,
                                      size_t event_length, const struct plumtree_link_room *rooms, size_t rooms_length, uint8_t *output,
                                      size_t output_length);

/*
 * Whether two blocks hold the same: "yes exactly when own peer number, settings, limits, sets, flags and maps agree". It "also compares the order of
 * announcers, queues and records, and the order of expiry entries of one time". Each neighbour has a queue and a record of its own: how the rows of
 * different neighbours are interleaved in the block is not compared, nor the length of the blocks, nor bytes that hold nothing. A quiet neighbour and
 * a lazy one are not alike. Comparing bytes says less: alike blocks can be laid out in different bytes. Asks 5 of either block, and nothing else;
 * nothing is written.
 * From alike blocks and equal counts the same calls give the same answers, refusals too, and the same actions; then the blocks are alike and the counts
 * equal again. The counts are no part of the block, and are compared by the host (docs/LINKING.md, What a commissioning sheet can rely on).
 */
struct plumtree_likeness plumtree_alike(const uint8_t *a, size_t a_length, const uint8_t *b, size_t b_length);

/*
 * Which limit a call met that is answered 13 (enum plumtree_limit): asked after the refusal, with what the call was lent. It is the first, in
 * their order, that the state after the call would be past; an expiry entry counts to its cache. 0 (none) where the call, with the counts
 * zero, is not answered 13. Nothing is written.
 */
uint8_t plumtree_limit_met(const uint8_t *block, size_t block_length, uint64_t at, const uint8_t *event, size_t event_length,
                           const struct plumtree_link_room *rooms, size_t rooms_length);

/*
 * Writes a message in its shortest form, as panels write it: for an archive that files messages by their bytes. The message is lent alone, as it
 * stands behind the kind and the peer of an event, or behind the byte 00 or 01 of a send. It is read as one that came, so padded numbers are let
 * through. Asks 7, 8, 9, then 14 of the shortest form's length. A refusal leaves the output untouched; an output as long as the message is always
 * enough. Two messages are rewritten to equal bytes exactly when they have the same meaning: the same kind, identifiers, content, delivery and
 * rounds, an IHave's entries in the same order with the same repeats. So a message that was rewritten is rewritten to itself.
 * There is no block and no M: a message of any length is taken. The identifier is not held against the content. message and output do not overlap.
 */
struct plumtree_answer plumtree_rewrite(const uint8_t *message, size_t message_length, uint8_t *output, size_t output_length);

/* How many bytes an area for blocks of this length needs: "four times the block and 256 bytes more". 0 where that is no size_t. Plain C, in this
 * header. */
static inline size_t plumtree_area_size(size_t block_length)
{
    return block_length <= ((size_t)-1 - 256) / 4 ? 4 * block_length + 256 : 0;
}

/* The name of these eight bytes, as plumtree_save and plumtree_return take it: a number of which the first byte is the lowest. Exactly eight are
 * read: pad a shorter name with blanks. Plain C, in this header. */
static inline uint64_t plumtree_name(const char bytes[8])
{
    uint64_t name = 0;
    int i;
    for (i = 7; i >= 0; i--)
        name = name << 8 | (uint8_t)bytes[i];
    return name;
}

/*
 * A saving: keeps block and counts under a name in `area`, a second lent part of at least plumtree_area_size bytes that starts as zeros. "Up to four
 * states are kept"; "Any name is allowed, and saving under a used one replaces it." Eight zeros are a name too, and all eight bytes are compared.
 * Asks 5, 17, 16. An accepted saving changes the area alone, a refused one nothing.
 * 17 is answered exactly if the area is shorter than plumtree_area_size says, or if no list of accepted savings of blocks of this length leaves it
 * from zeros. What such a list leaves: the names differ, each kept block is whole, and every byte that no kept state uses is 0, but for the one that
 * says how many there are. Use an area with blocks of one length: a saving of another length is answered 17, or, where savings of that length could
 * have left the same bytes, makes the area one of that length. Several panels may share it: a name is the area's, not the panel's. Nothing takes a
 * name out: who wants an empty area lends zeros.
 * The host keeps its timers beside the area, with the name: they do not come back with a return (docs/LINKING.md, Named states).
 */
struct plumtree_answer plumtree_save(const uint8_t *block, size_t block_length, struct plumtree_stats counts, uint8_t *area, size_t area_length,
                                     uint64_t name);

/*
 * A return: "Returning brings back block and counts in full", byte for byte as they were saved last under this name, with the own peer number, the
 * settings, the limits and the neighbours of then. Asks 5, 17, 15; 5 of the block as it is lent, so a damaged one is created first. An accepted
 * return changes block and counts alone, a refused one nothing.
 * The panel has forgotten what happened since the saving. The host takes back the timers that it kept with the name, in place of those that wait,
 * tells which neighbours came or went since, and goes on with its clock and its readings' numbers (docs/LINKING.md, Named states).
 */
struct plumtree_answer plumtree_return(uint8_t *block, size_t block_length, struct plumtree_stats *counts, const uint8_t *area, size_t area_length,
                                       uint64_t name);

/*
 * EVENTS AND ACTIONS, BYTE BY BYTE
 *
 * A number is written in groups of seven bits, the lowest group first, with the high bit (0x80) set on every byte but the last, in its
 * shortest form: 0 is 00, 127 is 7F, 128 is 80 01, 300 is AC 02, 65,535 is FF FF 03. A round has 16 bits (at most 3 bytes); a peer, a time, a
 * length and a count have 64 (at most 10). An identifier is 32 bytes as they are: BLAKE3 of the content. A kind is one byte.
 *
 * Of an event's own fields (its kind, a peer, a broadcast's length and last byte, a TIMER) nothing else is read. Inside the MESSAGE of a received
 * message, or one lent to plumtree_rewrite, a number may be padded with groups of 0, as the Postcard specification lets a reader accept it: a round
 * to 3 bytes, a length or a count to 10, and a message's or delivery's kind, which is a number of 32 bits there, to 5. So round 0 is 00, 80 00 or
 * 80 80 00. A kind is judged at its last byte: 84 is cut (7), 84 00 unknown (8). A Graft's byte 00 or 01 is no number. Question 10 counts the
 * message's bytes as they came: a padded one can be over M where its shortest form is not. What a panel writes is shortest, whatever came.
 *
 * An event:
 *
 *     received message   00  peer  MESSAGE
 *     broadcast          01  length  content  00
 *     timer              02  TIMER
 *     neighbour up       03  peer
 *     neighbour down     04  peer
 *     up, quiet          05  peer
 *
 * "A broadcast event with byte 1 is turned down": 01 in the place of its last byte, which was for neighbours alone, is answered 23, and any other byte 8.
 *
 * The actions, one after another:
 *
 *     send               01  peer  00 taken, 01 handed back  MESSAGE
 *     schedule           02  delay  TIMER
 *     emit               03  peer  length  content  DELIVERY
 *     forgotten          04  identifier
 *
 *     MESSAGE   Gossip   00  identifier  length  content  DELIVERY
 *               Prune    01
 *               Graft    02  00, or 01 and identifier  round
 *               IHave    03  count  (identifier  round) for each
 *     DELIVERY           00  round: Swarm, for all panels        01: Neighbors, for eager neighbours alone (received and emitted, never sent)
 *     TIMER              00  identifier: SendGraft    01: DispatchLazyPush    02: EvictCache    03: AnnounceDropped
 *
 * Send: the message is for that peer, which need not be a neighbour (a Prune goes to whoever sent a reading twice): without a link to it,
 * drop the message. Taken: put it onto the link. Handed back: the link had no room in this call (struct plumtree_link_room); put nothing
 * there. Of a Gossip and of an IHave the panel has noted the identifiers and announces them later, unless its record is full
 * (docs/GUARANTEE.md, 3 d); of the other messages it has noted nothing. A Graft that is handed back the host keeps, and puts onto the link when
 * there is room: the panel does not ask this neighbour again, and where no other announces the reading it is lost. A message's length is not
 * written: it ends where its fields end. It can be one byte longer than M: a round that goes from 127 to 128 takes a byte more.
 * Schedule: when `delay` milliseconds have passed, call with the event `02 TIMER`, once. A timer is never taken back. One whose event is refused
 * has not fired: tell it again, with a longer output (14) or later (13); what waits for it is not scheduled anew, and is lost without it.
 * AnnounceDropped may be told before its time, and then not at it: as soon as a link has room again, or what waits for it is sent late, and
 * lost when it is no longer cached. An EvictCache told in addition goes on beside the others for ever.
 * Emit: a new message, for the panel's own use; `peer` brought it, with this round. A panel's own broadcasts are not emitted.
 * Forgotten: the message of this identifier, BLAKE3 of its content, has left the message cache, own broadcasts too: "The trend screen greys a
 * curve when its message leaves the cache". An EvictCache tells each one before its schedule, in the order of removal: by the time to which each
 * was kept, of one time the oldest first. One cached anew meanwhile is kept longer, and told once. The identifier is known for message_id_retention,
 * and the content emitted again only after that. A tick that is answered 14 has forgotten nothing.
 *
 * Neighbors: "Messages of that delivery from older panels are still read and emitted." They were sent once, to the older panel's eager neighbours. Here
 * such a message is counted and emitted; it is not cached, announced to nobody, and not sent on.
 *
 * Up: told at both ends of a link. Who is whose neighbour is the host's business: three each are a good choice. The neighbour gets what is
 * taken in from then on, and not what came before. So each planned neighbour is told up right after creation, and has room 0 until its link is
 * there: the panel records what it misses, within the limit `dropped`, and announces it then. One that was not planned is told up when its link
 * is there; one that does not come is told down.
 * Down: what waits for the neighbour is forgotten, and it does not get what is taken in until it is up again; so a link that will come back is
 * not told down, but has room 0.
 * Up, quiet: for a link that must never carry unasked payload. A quiet neighbour is lazy, and stays so whatever comes, until it is told down or up by
 * kind 3. Announcements, Grafts and Prunes go to it as to any lazy one; a Gossip goes to it only in answer to its own Graft that names the identifier.
 * A link carries payload both ways: a Graft that this panel sends makes the panel at the other end push to it. So a link carries none unasked only when
 * both ends are told by kind 5. Kind 5 makes a neighbour that is up already quiet, and kind 3 makes a quiet one an ordinary, eager one again; what
 * waits for it stays either way. The rest is as with up: each planned quiet neighbour is told right after creation, and has room 0 until its link is there.
 * Broadcast: told while no neighbour is up it is accepted and reaches nobody: where none is planned, hold it back until one is. (Holding it back
 * does not do for planned ones: the first that is up may have no other neighbour yet.) The same content told again while it is known
 * (message_id_retention, 90 s) is one message, and nobody emits it a second time: a reading carries its panel's number and a sequence number or
 * a time.
 *
 * A broadcast that would be over M bytes on its way is accepted and sent to nobody: look at its length first (plumtree_longest_content). So a
 * content has at most 4,055 bytes where M is 4,094 and 471 where it is 510: "Size is content + its length's groups + 37". A Gossip whose identifier
 * is not that of its content is accepted, counted, and leads to nothing.
 *
 * Examples, in hexadecimal: `03 02` neighbour 2 is up. `05 02` it is up, quiet. `02 01` DispatchLazyPush fired. `00 05 01` a Prune from 5.
 * `01 05 31 34 35 32 43 00` broadcast of "1452C" to all panels. The action `02 E8 07 02`: schedule EvictCache in 1,000. `04` and 32 bytes: forgotten.
 */
enum plumtree_event_kind {
    PLUMTREE_EVENT_RECEIVED = 0,
    PLUMTREE_EVENT_BROADCAST = 1,
    PLUMTREE_EVENT_TIMER = 2,
    PLUMTREE_EVENT_UP = 3,
    PLUMTREE_EVENT_DOWN = 4,
    PLUMTREE_EVENT_UP_QUIET = 5
};

enum plumtree_action_kind {
    PLUMTREE_ACTION_SEND = 1,
    PLUMTREE_ACTION_SCHEDULE = 2,
    PLUMTREE_ACTION_EMIT = 3,
    PLUMTREE_ACTION_FORGOTTEN = 4
};

enum plumtree_message_kind {
    PLUMTREE_MESSAGE_GOSSIP = 0,
    PLUMTREE_MESSAGE_PRUNE = 1,
    PLUMTREE_MESSAGE_GRAFT = 2,
    PLUMTREE_MESSAGE_IHAVE = 3
};

enum plumtree_delivery_kind {
    PLUMTREE_DELIVERY_SWARM = 0,
    PLUMTREE_DELIVERY_NEIGHBORS = 1
};

enum plumtree_timer_kind {
    PLUMTREE_TIMER_SEND_GRAFT = 0,
    PLUMTREE_TIMER_DISPATCH_LAZY_PUSH = 1,
    PLUMTREE_TIMER_EVICT_CACHE = 2,
    PLUMTREE_TIMER_ANNOUNCE_DROPPED = 3
};

/* The bytes of an identifier; the most bytes of a number of 64 bits and of a round. */
#define PLUMTREE_ID_BYTES 32
#define PLUMTREE_NUMBER_BYTES 10
#define PLUMTREE_ROUND_BYTES 3

#ifdef __cplusplus
}
#endif

#endif
