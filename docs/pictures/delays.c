/* How long a write waits: volumes of one cylinder are filled to a share of free sectors, then blocks are written
 * one at a time, at random, each from a random head.  Prints, for each drive and share: sectors a track, tracks,
 * head switch, share of free sectors, mean delay of a store in sector times.
 *
 *   cc -O2 -I../../include delays.c ../../crates/capi/out/libcapi.a -lpthread -ldl -lm -o ../../crates/capi/out/delays */
#include <stdint.h>
#include <stdio.h>
#include <stdlib.h>
#include <string.h>
#include "vlog.h"

enum { WRITES = 20000 };

static uint64_t seed = 1;

static uint32_t below(uint32_t bound) {
    seed = seed * 6364136223846793005u + 1442695040888963407u;
    return (uint32_t)((seed >> 33) % bound);
}

typedef struct {
    vlog_state state;
    uint32_t n, l, pieces;
    uint8_t *image, *used;
    uint32_t *map, *places, *numbers;
} volume;

static void take(volume *v, vlog_result r) {
    v->state = (vlog_state){ r.n, r.l, r.tail, r.number, r.phase, r.per_track, r.tracks, r.head_switch };
}

static void *lent(size_t count, size_t size) {
    void *p = calloc(count, size);
    if (!p) { fprintf(stderr, "delays: no memory for %zu bytes\n", count * size); exit(1); }
    return p;
}

static volume formatted(vlog_settings s) {
    volume v = { .n = s.per_track * s.tracks, .l = s.l, .pieces = (s.l + 95) / 96 };
    v.image = lent(v.n, 512);
    v.map = lent(v.l, 4);
    v.places = lent(v.pieces, 4);
    v.numbers = lent(v.pieces, 4);
    v.used = lent((v.n + 7) / 8, 1);
    vlog_result r = vlog_format(v.state, v.image, 512 * (size_t)v.n, v.map, v.l, v.places, v.pieces, v.numbers,
                                v.pieces, v.used, (v.n + 7) / 8, s, UINT32_MAX);
    if (r.answer) { fprintf(stderr, "delays: format of %u sectors refused with %u\n", v.n, r.answer); exit(1); }
    take(&v, r);
    return v;
}

static vlog_result write_block(volume *v, uint32_t block) {
    static const uint8_t bytes[512];
    vlog_result r = vlog_write(v->state, v->image, 512 * (size_t)v->n, v->map, v->l, v->places, v->pieces, v->numbers,
                               v->pieces, v->used, (v->n + 7) / 8, below(v->n), &block, 1, bytes, 512, UINT32_MAX);
    if (r.answer) { fprintf(stderr, "delays: a write refused with %u\n", r.answer); exit(1); }
    take(v, r);
    return r;
}

static void released(volume *v) {
    free(v->image); free(v->map); free(v->places); free(v->numbers); free(v->used);
}

/* The mean over WRITES writes, each of a block that was written before: the share stays what it is. */
static double mean_delay(vlog_settings s, uint32_t filled) {
    volume v = formatted(s);
    for (uint32_t block = 0; block < filled; block++) write_block(&v, block);
    for (int i = 0; i < WRITES / 4; i++) write_block(&v, below(filled));
    uint64_t skipped = 0, stores = 0;
    for (int i = 0; i < WRITES; i++) {
        vlog_result r = write_block(&v, below(filled));
        skipped += r.skipped;
        stores += r.stores;
    }
    released(&v);
    return (double)skipped / (double)stores;
}

static void drive(uint32_t per_track, uint32_t tracks, uint32_t head_switch) {
    uint32_t n = per_track * tracks;
    for (int percent = 4; percent <= 90; percent += percent < 20 ? 2 : 5) {
        /* L blocks in P pieces of 96, all written: 1 + P + L sectors are used. */
        uint32_t used = n - (uint32_t)((uint64_t)n * (uint32_t)percent / 100);
        uint32_t blocks = (used - 1) * 96 / 97;
        vlog_settings s = { blocks, per_track, tracks, head_switch };
        uint32_t free_sectors = n - 1 - (blocks + 95) / 96 - blocks;
        printf("%u %u %u %.4f %.4f\n", per_track, tracks, head_switch, (double)free_sectors / n, mean_delay(s, blocks));
        fflush(stdout);
    }
}

int main(void) {
    drive(72, 19, 12);   /* the report's HP97560: 2.5 ms of 14.99 ms a revolution */
    drive(256, 16, 21);  /* its ST19101: 0.5 ms of 6 ms */
    drive(1368, 1, 0);   /* one track */
    return 0;
}
