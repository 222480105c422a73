/*
 * wire.h: events written and actions read, as plumtree.h tells their bytes. Plain C to copy into a host; each name begins with plumtree_.
 *
 * A writer appends to a buffer that holds `length` bytes and answers the new length; the caller sees to it that there is room. The most bytes
 * that an event takes: a received message 11 and the message, a broadcast 12 and the content, a timer 34, up, up as quiet and down 11. A message that a
 * panel sends has at most M + 1 bytes, so 12 + M bytes hold every event of a host whose contents are at most M bytes long.
 *
 * A reader takes fields from the left of `bytes` and sets `bad` where they end early or hold a kind that it does not know; the bytes of an
 * accepted call never do.
 */
#ifndef PLUMTREE_WIRE_H
#define PLUMTREE_WIRE_H

#include <string.h>

#include "plumtree.h"

/* WRITING */

/* A number: groups of seven bits, the lowest first, the high bit on all but the last. At most PLUMTREE_NUMBER_BYTES. */
static inline size_t plumtree_put_number(uint8_t *out, size_t length, uint64_t v)
{
    while (v >= 128) {
        out[length++] = (uint8_t)(128 | (v & 127));
        v >>= 7;
    }
    out[length++] = (uint8_t)v;
    return length;
}

/* Neighbour up: 2 to 11 bytes. */
static inline size_t plumtree_put_up(uint8_t *out, uint64_t peer)
{
    out[0] = PLUMTREE_EVENT_UP;
    return plumtree_put_number(out, 1, peer);
}

/* Neighbour up, quiet: 2 to 11 bytes. */
static inline size_t plumtree_put_up_quiet(uint8_t *out, uint64_t peer)
{
    out[0] = PLUMTREE_EVENT_UP_QUIET;
    return plumtree_put_number(out, 1, peer);
}

/* Neighbour down: 2 to 11 bytes. */
static inline size_t plumtree_put_down(uint8_t *out, uint64_t peer)
{
    out[0] = PLUMTREE_EVENT_DOWN;
    return plumtree_put_number(out, 1, peer);
}

/* A broadcast of a content, to all panels: at most 12 bytes more than it has. */
static inline size_t plumtree_put_broadcast(uint8_t *out, const void *content, size_t content_length)
{
    size_t n;
    out[0] = PLUMTREE_EVENT_BROADCAST;
    n = plumtree_put_number(out, 1, content_length);
    memcpy(out + n, content, content_length);
    n += content_length;
    out[n++] = PLUMTREE_DELIVERY_SWARM;
    return n;
}

/* A message as it came over the link from a peer: at most 11 bytes more than it has. */
static inline size_t plumtree_put_received(uint8_t *out, uint64_t peer, const uint8_t *message, size_t message_length)
{
    size_t n;
    out[0] = PLUMTREE_EVENT_RECEIVED;
    n = plumtree_put_number(out, 1, peer);
    memcpy(out + n, message, message_length);
    return n + message_length;
}

/* A timer that fired, with the bytes that its schedule action had: 2 or 34 bytes. */
static inline size_t plumtree_put_timer(uint8_t *out, const uint8_t *timer, size_t timer_length)
{
    out[0] = PLUMTREE_EVENT_TIMER;
    memcpy(out + 1, timer, timer_length);
    return 1 + timer_length;
}

/* A timer that has no identifier (all but SendGraft) and fired: 2 bytes. */
static inline size_t plumtree_put_tick(uint8_t *out, enum plumtree_timer_kind kind)
{
    out[0] = PLUMTREE_EVENT_TIMER;
    out[1] = (uint8_t)kind;
    return 2;
}

/*
 * The room of a link whose socket has so many bytes free, where the host puts `framing` bytes to each message: as many sends as fit, each of them as
 * long as a message can be (M + 1). It is counted anew before each call.
 */
static inline uint16_t plumtree_room_of(size_t free_bytes, uint64_t max_message_size, size_t framing)
{
    uint64_t sends = free_bytes / (max_message_size + 1 + framing);
    return sends < UINT16_MAX ? (uint16_t)sends : UINT16_MAX;
}

/* READING */

struct plumtree_reader {
    const uint8_t *bytes;
    size_t left;
    bool bad;
};

/* A reader of the actions that an accepted call wrote: its output, and the length that it answered. */
static inline struct plumtree_reader plumtree_actions_of(const uint8_t *output, size_t length)
{
    struct plumtree_reader r;
    r.bytes = output;
    r.left = length;
    r.bad = false;
    return r;
}

/* The next n bytes, or null. */
static inline const uint8_t *plumtree_take(struct plumtree_reader *r, uint64_t n)
{
    const uint8_t *here = r->bytes;
    if (r->bad || n > r->left) {
        r->bad = true;
        return NULL;
    }
    r->bytes += n;
    r->left -= (size_t)n;
    return here;
}

static inline uint8_t plumtree_take_byte(struct plumtree_reader *r)
{
    const uint8_t *b = plumtree_take(r, 1);
    return b ? *b : 0;
}

/* A byte of which only 0 and 1 are known. */
static inline bool plumtree_take_flag(struct plumtree_reader *r)
{
    uint8_t b = plumtree_take_byte(r);
    if (b > 1)
        r->bad = true;
    return b == 1;
}

static inline uint64_t plumtree_take_number(struct plumtree_reader *r)
{
    uint64_t v = 0;
    unsigned shift;
    for (shift = 0; shift < 64; shift += 7) {
        uint8_t b = plumtree_take_byte(r);
        v |= (uint64_t)(b & 127) << shift;
        if (b < 128)
            return v;
    }
    r->bad = true;
    return v;
}

/* A message. `bytes` and `length` are what goes over the link. */
struct plumtree_message {
    const uint8_t *bytes;
    size_t length;
    uint8_t kind;           /* enum plumtree_message_kind */
    const uint8_t *id;      /* Gossip; Graft: may be null */
    const uint8_t *content; /* Gossip */
    size_t content_length;
    uint8_t delivery; /* Gossip: enum plumtree_delivery_kind */
    uint16_t round;   /* Gossip of delivery Swarm; Graft */
    uint64_t count;   /* IHave; its entries are read by plumtree_take_id and plumtree_take_round from `entries` */
    struct plumtree_reader entries;
};

static inline uint16_t plumtree_take_round(struct plumtree_reader *r)
{
    return (uint16_t)plumtree_take_number(r);
}

static inline const uint8_t *plumtree_take_id(struct plumtree_reader *r)
{
    return plumtree_take(r, PLUMTREE_ID_BYTES);
}

static inline void plumtree_take_delivery(struct plumtree_reader *r, uint8_t *delivery, uint16_t *round)
{
    *delivery = plumtree_take_byte(r);
    *round = 0;
    if (*delivery == PLUMTREE_DELIVERY_SWARM)
        *round = plumtree_take_round(r);
    else if (*delivery != PLUMTREE_DELIVERY_NEIGHBORS)
        r->bad = true;
}

static inline struct plumtree_message plumtree_take_message(struct plumtree_reader *r)
{
    struct plumtree_message m;
    uint64_t i;
    memset(&m, 0, sizeof m);
    m.bytes = r->bytes;
    m.kind = plumtree_take_byte(r);
    switch (m.kind) {
    case PLUMTREE_MESSAGE_GOSSIP:
        m.id = plumtree_take_id(r);
        m.content_length = (size_t)plumtree_take_number(r);
        m.content = plumtree_take(r, m.content_length);
        plumtree_take_delivery(r, &m.delivery, &m.round);
        break;
    case PLUMTREE_MESSAGE_PRUNE:
        break;
    case PLUMTREE_MESSAGE_GRAFT:
        if (plumtree_take_flag(r))
            m.id = plumtree_take_id(r);
        m.round = plumtree_take_round(r);
        break;
    case PLUMTREE_MESSAGE_IHAVE:
        m.count = plumtree_take_number(r);
        m.entries = *r;
        for (i = 0; i < m.count && !r->bad; i++) {
            plumtree_take_id(r);
            plumtree_take_round(r);
        }
        break;
    default:
        r->bad = true;
    }
    m.length = (size_t)(r->bytes - m.bytes);
    return m;
}

/* An action. */
struct plumtree_action {
    uint8_t kind;  /* enum plumtree_action_kind */
    uint64_t peer; /* send, emit */

    bool taken;                      /* send */
    struct plumtree_message message; /* send */

    uint64_t delay;       /* schedule */
    const uint8_t *timer; /* schedule: its bytes, for plumtree_put_timer; the first is enum plumtree_timer_kind */
    size_t timer_length;

    const uint8_t *content; /* emit */
    size_t content_length;
    uint8_t delivery;
    uint16_t round;

    const uint8_t *id; /* forgotten */
};

/* The next action; false at the end of the bytes, or where they are bad. */
static inline bool plumtree_take_action(struct plumtree_reader *r, struct plumtree_action *a)
{
    uint8_t kind;
    memset(a, 0, sizeof *a);
    if (r->left == 0 || r->bad)
        return false;
    a->kind = plumtree_take_byte(r);
    switch (a->kind) {
    case PLUMTREE_ACTION_SEND:
        a->peer = plumtree_take_number(r);
        a->taken = !plumtree_take_flag(r);
        a->message = plumtree_take_message(r);
        break;
    case PLUMTREE_ACTION_SCHEDULE:
        a->delay = plumtree_take_number(r);
        a->timer = r->bytes;
        kind = plumtree_take_byte(r);
        if (kind == PLUMTREE_TIMER_SEND_GRAFT)
            plumtree_take_id(r);
        else if (kind > PLUMTREE_TIMER_ANNOUNCE_DROPPED)
            r->bad = true;
        a->timer_length = (size_t)(r->bytes - a->timer);
        break;
    case PLUMTREE_ACTION_EMIT:
        a->peer = plumtree_take_number(r);
        a->content_length = (size_t)plumtree_take_number(r);
        a->content = plumtree_take(r, a->content_length);
        plumtree_take_delivery(r, &a->delivery, &a->round);
        break;
    case PLUMTREE_ACTION_FORGOTTEN:
        a->id = plumtree_take_id(r);
        break;
    default:
        r->bad = true;
    }
    return !r->bad;
}

#endif
