/*
 * Formats a volume in a file, writes a message, cuts a second write off after one store, as a power failure would, then
 * recovers from the file alone and reads the message back.
 *
 *     (cd crates/capi && rt lib)
 *     cc -O2 -Wall -Iinclude include/example.c crates/capi/out/libcapi.a -o crates/capi/out/example
 *     crates/capi/out/example
 *
 * The volume's file is chat.vlog in the current folder, or the one named as the argument.
 */
#include "vlog.h"

#include <stdio.h>
#include <stdlib.h>
#include <string.h>

enum { N = 64, L = 100 };

static uint8_t image[VLOG_SECTOR * N];
static uint32_t map[L];
static uint32_t places[VLOG_PIECES(L)];
static uint32_t numbers[VLOG_PIECES(L)];
static uint8_t used[VLOG_USED_BYTES(N)];

/* A disk of 4 tracks, 16 sectors each. While the head changes tracks, 2 sectors pass by. */
static const vlog_settings settings = {L, 16, 4, 2};

#define IMAGE image, sizeof image
#define TABLES map, L, places, VLOG_PIECES(L), numbers, VLOG_PIECES(L), used, sizeof used

static void fail(const char *what, const char *name)
{
    fprintf(stderr, "example: cannot %s %s\n", what, name);
    exit(1);
}

static void save(const char *name)
{
    FILE *f = fopen(name, "wb");
    if (!f || fwrite(image, 1, sizeof image, f) != sizeof image || fclose(f))
        fail("write", name);
}

static void load(const char *name)
{
    FILE *f = fopen(name, "rb");
    if (!f || fread(image, 1, sizeof image, f) != sizeof image)
        fail("read", name);
    fclose(f);
}

/* Prints a result, and hands on its state. Any answer but the expected one ends the program. */
static vlog_state told(const char *call, vlog_result r, uint32_t expected)
{
    printf("%-8s answers %u, %u stores, %u skipped; state: N %u, L %u, tail %u, number %u, phase %u, "
           "%u tracks of %u, head switch %u",
           call, (unsigned)r.answer, (unsigned)r.stores, (unsigned)r.skipped, (unsigned)r.n, (unsigned)r.l,
           (unsigned)r.tail, (unsigned)r.number, (unsigned)r.phase, (unsigned)r.tracks, (unsigned)r.per_track,
           (unsigned)r.head_switch);
    if (r.way)
        printf("; by a %s, %u sectors read", r.way == VLOG_WALK ? "walk" : "scan", (unsigned)r.read);
    printf("\n");
    if (r.answer != expected) {
        fprintf(stderr, "example: %s answered %u; expected %u (the numbers stand in vlog.h)\n", call, (unsigned)r.answer,
                (unsigned)expected);
        exit(1);
    }
    return vlog_state_of(r);
}

int main(int argc, char **argv)
{
    const char *name = argc > 1 ? argv[1] : "chat.vlog";
    uint32_t block[1] = {7};
    uint8_t bytes[VLOG_SECTOR] = "Ann: meet at the old mill at nine.";
    uint8_t out[VLOG_SECTOR];
    vlog_state s = {0, 0, 0, 0, 0, 0, 0, 0};

    s = told("format", vlog_format(s, IMAGE, TABLES, settings, VLOG_NO_LIMIT), VLOG_ACCEPTED);
    s = told("write", vlog_write(s, IMAGE, TABLES, 10, block, 1, bytes, sizeof bytes, VLOG_NO_LIMIT), VLOG_ACCEPTED);
    save(name);

    /* From the same head the two sectors just stored are in the way: sector 12 is next. The power fails: one store is
     * made, where this write needs two. */
    strcpy((char *)bytes, "Bob: no, at ten.");
    s = told("write", vlog_write(s, IMAGE, TABLES, 10, block, 1, bytes, sizeof bytes, 1), VLOG_POWER_FAILED);
    save(name);

    /* Memory is lost; the file is all there is. */
    memset(&s, 0, sizeof s);
    memset(image, 0, sizeof image);
    memset(map, 0, sizeof map);
    memset(places, 0, sizeof places);
    memset(numbers, 0, sizeof numbers);
    memset(used, 0, sizeof used);
    load(name);
    s = told("recover", vlog_recover(s, IMAGE, TABLES, settings, VLOG_NO_LIMIT), VLOG_ACCEPTED);
    s = told("read", vlog_read(s, IMAGE, TABLES, block[0], out, sizeof out), VLOG_ACCEPTED);
    printf("block %u: %s\n", (unsigned)block[0], (char *)out);

    /* Two commits in one call: Bob's message in the next block, and Ann's, which is answered, dropped. */
    uint32_t commits[] = {VLOG_WRITE, 12, 1, sizeof bytes, VLOG_DROP, 20, 1, 0};
    uint32_t named[] = {8, 7};
    uint32_t answers[2 * VLOG_ANSWER_WORDS];
    vlog_batch_result b = vlog_batch(s, IMAGE, TABLES, commits, 8, named, 2, bytes, sizeof bytes, VLOG_NO_LIMIT, answers,
                                     2 * VLOG_ANSWER_WORDS);
    printf("batch    answers %u, %u of 2 commits answered: %u and %u; %u stores\n", (unsigned)b.answer,
           (unsigned)b.answered, (unsigned)answers[0], (unsigned)answers[VLOG_ANSWER_WORDS], (unsigned)b.stores);
    s = vlog_batch_state_of(b);
    s = told("read", vlog_read(s, IMAGE, TABLES, 8, out, sizeof out), VLOG_ACCEPTED);
    printf("block 8: %s\n", (char *)out);

    /* Parked before it is put away, the volume is found by a walk. */
    s = told("park", vlog_park(s, IMAGE, TABLES, VLOG_NO_LIMIT), VLOG_ACCEPTED);
    s = told("recover", vlog_recover(s, IMAGE, TABLES, settings, VLOG_NO_LIMIT), VLOG_ACCEPTED);
    save(name);
    return 0;
}
