/*
 * A works archive that files messages by their bytes, each message once. A panel may pad the numbers of a message, so that one message comes in
 * several spellings: plumtree_rewrite writes it in its shortest form first. Two messages have the same shortest form exactly when they mean the same.
 *
 *     cc -Wall -Wextra -pedantic -I include -o archive examples/c/archive.c target/staticlib/libplumtree.a
 *     ./archive
 *
 * examples/c/build.sh builds it too. archive.expected is what it prints.
 */
#include <stdio.h>
#include <stdlib.h>
#include <string.h>

#include "plumtree.h"

struct filed {
    uint8_t *bytes;
    size_t length;
    int times;
};

static struct filed archive[16];
static size_t count;

static void print_bytes(const uint8_t *bytes, size_t length)
{
    size_t i;
    for (i = 0; i < length; i++)
        printf(i ? " %02x" : "%02x", bytes[i]);
}

/* Files a message as it came over a link. */
static void file(const uint8_t *message, size_t length)
{
    uint8_t *bytes = (uint8_t *)calloc(1, length ? length : 1); /* as long as the message is always enough */
    struct plumtree_answer answer;
    size_t i = 0;
    if (!bytes)
        exit(1);
    answer = plumtree_rewrite(message, length, bytes, length);
    print_bytes(message, length);
    if (answer.number != PLUMTREE_ACCEPTED) {
        printf(": not filed: %s\n", plumtree_number_text(answer.number));
        free(bytes);
        return;
    }
    while (i < count && !(archive[i].length == answer.length && memcmp(archive[i].bytes, bytes, answer.length) == 0))
        i++;
    if (i < count) {
        free(bytes);
    } else if (count < sizeof archive / sizeof *archive) {
        archive[count].bytes = bytes;
        archive[count].length = answer.length;
        count++;
    } else {
        exit(1);
    }
    archive[i].times++;
    printf(": %s\n", archive[i].times > 1 ? "filed before" : "new");
}

int main(void)
{
    static const uint8_t mill[] = {2, 0, 0x80, 0x00};                /* a Graft of round 0 from a panel of another maker */
    static const uint8_t ours[] = {2, 0, 0};                         /* the same from a panel that uses this library */
    static const uint8_t next[] = {2, 0, 0x81, 0x00};                /* of round 1: another message */
    static const uint8_t again[] = {0x82, 0x00, 0, 0x80, 0x80, 0};   /* of round 0, its kind padded too */
    static const uint8_t prune[] = {0x81, 0x00};
    static const uint8_t cut[] = {2, 0, 0x80};
    size_t i;
    file(mill, sizeof mill);
    file(ours, sizeof ours);
    file(next, sizeof next);
    file(again, sizeof again);
    file(prune, sizeof prune);
    file(cut, sizeof cut);
    printf("the archive:\n");
    for (i = 0; i < count; i++) {
        print_bytes(archive[i].bytes, archive[i].length);
        printf(", %d time(s)\n", archive[i].times);
        free(archive[i].bytes);
    }
    return 0;
}
