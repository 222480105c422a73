/* The library, but for one thing: behind each seventh call that it fits, a byte is changed that the call must not change. WRONG is the number of it, 0 of none.
 * wrong.sh runs it beside the Rust, once for each number; what the run has to tell stands behind the bar. */
#include <stdlib.h>
#include <string.h>

#include "plumtree.h"

size_t right_block_size(struct plumtree_limits);
struct plumtree_answer right_create(uint8_t *, size_t, struct plumtree_stats *, struct plumtree_settings, struct plumtree_limits);
struct plumtree_answer right_event(uint8_t *, size_t, struct plumtree_stats *, uint64_t, const uint8_t *, size_t, const struct plumtree_link_room *, size_t, uint8_t *, size_t);
struct plumtree_likeness right_alike(const uint8_t *, size_t, const uint8_t *, size_t);
uint8_t right_limit_met(const uint8_t *, size_t, uint64_t, const uint8_t *, size_t, const struct plumtree_link_room *, size_t);
struct plumtree_answer right_rewrite(const uint8_t *, size_t, uint8_t *, size_t);
struct plumtree_answer right_save(const uint8_t *, size_t, struct plumtree_stats, uint8_t *, size_t, uint64_t);
struct plumtree_answer right_return(uint8_t *, size_t, struct plumtree_stats *, const uint8_t *, size_t, uint64_t);

static int chosen(void)
{
    static int number = -1;
    if (number < 0) number = getenv("WRONG") ? atoi(getenv("WRONG")) : 0;
    return number;
}

static void change(int number, bool fits, const void *byte)
{
    static unsigned times;
    if (number == chosen() && fits && ++times % 7 == 0) *(uint8_t *)byte += 1;
}

/* A byte of the header that stands for nothing, where the block has one. */
enum { SPARE = 2040, HEADER = 2048, LIMITS = 72, ROWS = 200 };

static size_t need(const uint8_t *block)
{
    struct plumtree_limits l;
    memcpy(&l, block + LIMITS, sizeof l);
    return right_block_size(l);
}

size_t plumtree_block_size(struct plumtree_limits limits)
{
    return right_block_size(limits);
}

struct plumtree_answer plumtree_create(uint8_t *block, size_t length, struct plumtree_stats *counts, struct plumtree_settings settings, struct plumtree_limits limits)
{
    struct plumtree_answer a = right_create(block, length, counts, settings, limits);
    bool yes = a.number == 0, no = !yes && length > 0;
    change(1, no, block + length / 2);                           /* creation, refused: the block | changed */
    change(2, no, counts);                                       /* creation, refused: the counts | counts */
    change(3, yes && length > need(block), block + length - 1);  /* creation: the block's last byte, behind the need | past the need */
    return a;
}

struct plumtree_answer plumtree_event(uint8_t *block, size_t length, struct plumtree_stats *counts, uint64_t at, const uint8_t *event, size_t event_length,
                                      const struct plumtree_link_room *rooms, size_t rooms_length, uint8_t *output, size_t room)
{
    static const uint8_t *last_event, *last_block;
    /* The same event upon another block. */
    bool second = event == last_event && block != last_block && room > 0;
    struct plumtree_answer a = right_event(block, length, counts, at, event, event_length, rooms, rooms_length, output, room);
    bool first = !second && room > 0, yes = first && a.number == 0, no = first && !yes, wide = length >= HEADER;
    uint8_t *behind = output + a.length;
    if (room > 0) {
        last_event = event;
        last_block = block;
    }
    change(10, yes && a.length < room, behind);                      /* event: the output's byte at the length | wrote beyond the length */
    change(11, yes && a.length + 100 < room, behind + 100);          /* event: a hundred bytes behind the length | wrote */
    change(12, yes && a.length + 5000 < room, behind + 5000);        /* event: far behind the length | wrote */
    change(13, yes && a.length < room, output + room - 1);           /* event: the output's last byte | wrote beyond the length */
    change(14, no, output);                                          /* event, refused: the output's first byte | wrote beyond the length */
    change(15, no && room > 5000, output + 5000);                    /* event, refused: a byte of the output | wrote beyond the length */
    change(16, no, output + room - 1);                               /* event, refused: the output's last byte | wrote beyond the length */
    change(17, first, output - 1);                                   /* event: before the output | wrote outside of the output */
    change(18, first, output + room);                                /* event: behind the output | wrote outside of the output */
    change(19, first, output + room + 63);                           /* event: 64 bytes behind the output | wrote outside of the output */
    change(20, first, block - 1);                                    /* event: before the block | wrote outside of the block */
    change(21, first, block + length);                               /* event: behind the block | wrote outside of the block */
    change(22, yes && length > need(block), block + length - 1);     /* event: the block's last byte, behind the need | wrote past the need */
    change(23, no && wide, block + SPARE);                           /* event, refused: the block's header | a refused call changed the block */
    change(24, no && wide, block + length - 1);                      /* event, refused: the block's last byte | a refused call changed the block */
    change(25, no && a.number == 5 && length > 0, block);            /* event, refused with 5: the block's first byte | a refused call changed the block */
    change(26, no, counts);                                          /* event, refused: the counts | counts of a refused call */
    change(27, yes, counts);                                         /* event: the counts | counts */
    change(28, first, (uint8_t *)counts - 1);                        /* event: before the counts | wrote outside of the counts */
    change(29, first, (uint8_t *)(counts + 1));                      /* event: behind the counts | wrote outside of the counts */
    change(30, yes && a.length > 0, output);                         /* event: an action | actions */
    change(31, yes, block + HEADER);                                 /* event: the state, or a byte of no row | state */
    change(32, no && a.number == 23 && wide, block + length - 1);    /* event, refused with 23: the block's last byte | a refused call changed the block */
    change(33, no && a.number == 23, counts);                        /* event, refused with 23: the counts | counts of a refused call */
    change(34, no && a.number == 23, output);                        /* event, refused with 23: the output's first byte | wrote beyond the length */
    yes = second && a.number == 0, no = second && !yes;
    change(40, yes && a.length < room, behind);                      /* second panel: the output's byte at the length | second panel: wrote beyond the length */
    change(41, yes && a.length + 5000 < room, behind + 5000);        /* second panel: far behind the length | second panel: wrote */
    change(42, no && room > 5000, output + 5000);                    /* second panel, refused: a byte of the output | second panel: wrote beyond the length */
    change(43, second, output + room);                               /* second panel: behind the output | second panel: wrote outside of the output */
    change(44, second, block + length);                              /* second panel: behind the block | second panel: wrote outside of the block */
    change(45, no && wide, block + SPARE);                           /* second panel, refused: the block's header | second panel: a refused call changed the block */
    change(46, no, counts);                                          /* second panel, refused: the counts | second panel: a refused call changed the counts */
    change(47, yes, counts);                                         /* second panel: the counts | second panel: other counts */
    change(48, yes && a.length > 0, output);                         /* second panel: an action | second panel: other actions */
    change(49, second, (uint8_t *)(counts + 1));                     /* second panel: behind the counts | second panel: wrote outside of the counts */
    return a;
}

struct plumtree_likeness plumtree_alike(const uint8_t *a, size_t a_length, const uint8_t *b, size_t b_length)
{
    struct plumtree_likeness l = right_alike(a, a_length, b, b_length);
    change(50, a_length >= HEADER, a + SPARE); /* alike: the header of the first block | changed the block */
    return l;
}

uint8_t plumtree_limit_met(const uint8_t *block, size_t length, uint64_t at, const uint8_t *event, size_t event_length, const struct plumtree_link_room *rooms, size_t rooms_length)
{
    uint8_t limit = right_limit_met(block, length, at, event, event_length, rooms, rooms_length);
    change(55, length >= HEADER, block + SPARE); /* limit met: the block's header | a refused call changed the block */
    return limit;
}

struct plumtree_answer plumtree_rewrite(const uint8_t *message, size_t length, uint8_t *output, size_t room)
{
    struct plumtree_answer a = right_rewrite(message, length, output, room);
    bool yes = a.number == 0, no = !yes && room > 0;
    change(60, yes && a.length < room, output + a.length);            /* rewrite: the byte at the length | rewrite wrote beyond the length */
    change(61, yes && a.length + 200 < room, output + a.length + 99); /* rewrite: a hundred bytes behind the length | rewrite wrote */
    change(62, yes && a.length < room, output + room - 1);            /* rewrite: the output's last byte | rewrite wrote beyond the length */
    change(63, no, output);                                           /* rewrite, refused: the first byte | rewrite wrote beyond the length */
    change(64, no, output + room / 2);                                /* rewrite, refused: a byte | rewrite wrote beyond the length */
    change(65, true, output - 1);                                     /* rewrite: before the output | rewrite wrote outside of the output */
    change(66, true, output + room);                                  /* rewrite: behind the output | rewrite wrote outside of the output */
    change(67, length > 0, message + length / 2);                     /* rewrite: the message | rewrite */
    change(68, true, message - 1);                                    /* rewrite: before the message | wrote outside of the message */
    change(69, true, message + length);                               /* rewrite: behind the message | wrote outside of the message */
    change(70, yes, output + a.length / 2);                           /* rewrite: a byte of the shortest form | rewrite bytes */
    return a;
}

struct plumtree_answer plumtree_save(const uint8_t *block, size_t length, struct plumtree_stats counts, uint8_t *area, size_t area_length, uint64_t name)
{
    struct plumtree_answer a = right_save(block, length, counts, area, area_length, name);
    bool yes = a.number == 0, no = !yes && area_length > 0;
    change(80, no, area + area_length - 1);            /* saving, refused: the area's last byte | a refused saving changed the area */
    change(81, no, area);                              /* saving, refused: the area's first byte | a refused saving changed the area */
    change(82, yes, area + ROWS);                      /* saving: a byte behind the rows | area after a saving */
    change(83, yes, area + area_length - 1);           /* saving: the area's last byte | area after a saving */
    change(84, yes, area);                             /* saving: a name | area after a saving */
    change(85, yes, area + area_length / 2);           /* saving: a byte of the area | area after a saving */
    change(86, length > 0, block + length / 2);        /* saving: the block | save changed the block */
    change(87, true, block - 1);                       /* saving: before the block | save wrote outside of the block */
    change(88, true, area - 1);                        /* saving: before the area | save wrote outside of the area */
    change(89, true, area + area_length);              /* saving: behind the area | save wrote outside of the area */
    return a;
}

struct plumtree_answer plumtree_return(uint8_t *block, size_t length, struct plumtree_stats *counts, const uint8_t *area, size_t area_length, uint64_t name)
{
    struct plumtree_answer a = right_return(block, length, counts, area, area_length, name);
    bool yes = a.number == 0, no = !yes && length > 0;
    change(90, no, block + length - 1);                /* return, refused: the block | a refused return changed the block */
    change(91, no, counts);                            /* return, refused: the counts | counts of a refused return */
    change(92, yes, block + SPARE);                    /* return: a byte of the header | block after a return */
    change(93, yes, block + length - 1);               /* return: the block's last byte | block after a return */
    change(94, yes, counts);                           /* return: the counts | counts of a return */
    change(95, area_length > 0, area + area_length / 2); /* return: the area | a return changed the area */
    change(96, true, block + length);                  /* return: behind the block | return wrote outside of the block */
    change(97, true, area + area_length);              /* return: behind the area | return wrote outside of the area */
    change(98, true, (uint8_t *)(counts + 1));         /* return: behind the counts | return wrote outside of the counts */
    return a;
}
