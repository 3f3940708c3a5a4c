/*
 * A virtual log volume: a block layer that never overwrites in place, so that a power failure loses nothing that was
 * accepted.
 *
 * A volume is an image of N sectors of 512 bytes. It shows L blocks of 512 bytes, numbered from 0. L is 1 to 24,576,
 * P is L / 96 rounded up, and N is 2P + 2 to 65,536.
 *
 * The disk below it has tracks of equally many sectors, which turn under one head. Tracks hold consecutive sectors, from
 * sector 0 on: 1 to 65,536 a track, and 1 to 256 tracks, which together hold N. While the head changes to another track,
 * 0 to 255 sectors pass by: the head switch. These settings say where the sectors of a write or a drop go, and nothing
 * else; a volume may be recovered with others than it was formatted with. A disk of which nothing is known is one track
 * of N sectors, with a head switch of 0.
 *
 * A call works on memory alone: the image and the tables that it is lent. All lengths are in elements:
 *
 *     image     512 * N bytes
 *     map       L words
 *     places    P words
 *     numbers   P words
 *     used      N / 8 bytes, rounded up
 *
 * Whatever these hold, a call returns and touches nothing else. Each pointer must be valid for its length and aligned
 * for its type, and nothing lent for writing may overlap anything else that is lent. With a length of 0 a pointer may be
 * null: nothing is looked at there. No call accepts an empty buffer but a batch of drops, which has no bytes.
 *
 * A caller hands each call the state, and goes on with the state in the result. A state for the first format or recover
 * may hold anything: those two look at nothing in it.
 *
 * Format and recover are given the settings, and the state keeps them. After 8, 9 or their own 10 it holds N and what was
 * given, L and the settings; tail and number are 0 then.
 *
 * A storing call is told how many sectors it may store (its allowance). With fewer than it needs it makes that many,
 * from the front, and answers 10, as if the power had failed there. VLOG_NO_LIMIT is always enough.
 *
 * Nothing is allocated. A recover takes up to 1.1 MB of stack, any other call up to 20 KB.
 */
#ifndef VLOG_H
#define VLOG_H

#include <stddef.h>
#include <stdint.h>

#ifdef __cplusplus
extern "C" {
#endif

#define VLOG_SECTOR 512u
#define VLOG_NO_LIMIT UINT32_MAX

/* The tables' lengths. */
#define VLOG_PIECES(l) (((uint32_t)(l) + 95u) / 96u)
#define VLOG_USED_BYTES(n) (((uint32_t)(n) + 7u) / 8u)

/* Phases. Any other number counts as cut. */
enum {
    VLOG_RUNNING = 0, /* every call */
    VLOG_PARKED = 1,  /* read, format and recover */
    VLOG_CUT = 2      /* format and recover */
};

/* Answers. The first that applies is the one given, in this order: 1, 11, 2, 12, then 3 to 10. */
enum {
    VLOG_ACCEPTED = 0,
    /* 1 to 7, 11 and 12 change nothing: the state comes back as it was handed in, the image and the tables are as they
     * were. */
    VLOG_SIZE = 1,            /* N, L or the image's length: not in the ranges above, or the image is not 512 * N bytes
                                 of the state's N (for format and recover: not whole sectors) */
    VLOG_WRONG_SETTINGS = 11, /* the settings, those given or, for the other calls, the state's: not in the ranges
                                 above, or the tracks do not hold N sectors */
    VLOG_BUFFER_LENGTH = 2,   /* a table, the bytes or the 512 bytes of a read have the wrong length */
    VLOG_COMMIT_COUNT = 12,   /* a batch has no commit, or more than 32 */
    VLOG_BLOCK_NUMBERS = 3,   /* expected: 1 to 64 strictly ascending numbers below L, and a head below N; for a read,
                                 a number below L */
    VLOG_WRONG_PHASE = 4,     /* write, drop and park need running, read needs running or parked */
    VLOG_INCONSISTENT = 5,    /* the tables are not sound or do not agree with the image: recover them; for a read, its
                                 entry of the map names a sector outside 1 to N - 1 */
    VLOG_NO_ROOM = 6,         /* a write needs as many free sectors as it has blocks, and P more: drop blocks first */
    VLOG_NUMBERS_USED_UP = 7, /* the tail's number is above 4,294,967,039: copy to a fresh volume */
    /* 8 and 9, of a recover: the image is as it was, the tables are zeros, the phase is cut. */
    VLOG_NO_LOG = 8,          /* no sector of the image closes a commit: not a volume of L blocks, or not formatted */
    VLOG_DAMAGED_LOG = 9,     /* two map sectors have one number, a piece is missing, or the tables are not sound */
    /* 10: the allowed stores were made, more were needed. The phase is cut: recover. (A cut format is done again.) */
    VLOG_POWER_FAILED = 10
};

/* How a recover found the log. */
enum { VLOG_WALK = 1, VLOG_SCAN = 2 };

typedef struct {
    uint32_t n;      /* sectors of the image */
    uint32_t l;      /* blocks that it shows */
    uint32_t tail;   /* the sector of the newest map sector, */
    uint32_t number; /* and its number */
    uint32_t phase;
    uint32_t per_track;   /* sectors a track, */
    uint32_t tracks;      /* tracks, */
    uint32_t head_switch; /* and the head switch, in sector times */
} vlog_state;

/* What a format or a recover is given. N is taken from the image's length. */
typedef struct {
    uint32_t l;
    uint32_t per_track, tracks, head_switch;
} vlog_settings;

typedef struct {
    uint32_t answer;  /* 0, or the number of the refusal */
    uint32_t stores;  /* sectors stored; 0 on every refusal but 10 */
    uint32_t skipped; /* of a write or a drop: the sum of the delays to these, in sector times, else 0 */
    uint32_t way;     /* of an accepted recover: VLOG_WALK or VLOG_SCAN, else 0 */
    uint32_t read;    /* and the sectors that it read, else 0 */
    uint32_t n, l, tail, number, phase, per_track, tracks, head_switch; /* the state to go on with */
} vlog_result;

/* The state of a result. */
static inline vlog_state vlog_state_of(vlog_result r)
{
    vlog_state s = {r.n, r.l, r.tail, r.number, r.phase, r.per_track, r.tracks, r.head_switch};
    return s;
}

/* What a batch hands back. Where it is refused as a whole, nothing changed: the counts are 0 and the state is as it
 * came. */
typedef struct {
    uint32_t answer;   /* 0, or the refusal of the call as a whole: 1, 11, 2 or 12 */
    uint32_t answered; /* commits that were answered, one that was turned back included */
    uint32_t stores;   /* sectors stored by all of them, one that met 10 included, */
    uint32_t skipped;  /* and the sum of the delays to these, in sector times */
    uint32_t n, l, tail, number, phase, per_track, tracks, head_switch; /* the state to go on with */
} vlog_batch_result;

/* The state of a batch's result. */
static inline vlog_state vlog_batch_state_of(vlog_batch_result r)
{
    vlog_state s = {r.n, r.l, r.tail, r.number, r.phase, r.per_track, r.tracks, r.head_switch};
    return s;
}

/* Makes an empty volume of given.l blocks in the image, with N + P stores. */
vlog_result vlog_format(vlog_state state,
                        uint8_t *image, size_t image_length,
                        uint32_t *map, size_t map_length,
                        uint32_t *places, size_t places_length,
                        uint32_t *numbers, size_t numbers_length,
                        uint8_t *used, size_t used_length,
                        vlog_settings given, uint32_t allowance);

/* Writes 1 to 64 blocks, all or none: 512 bytes for each number, in the order of the numbers. The head is the sector,
 * below N, where the disk's head stands. Each store goes to the free sector of least delay, the lower number where two
 * tie. The delay is the wait, in sector times, until the sector's position on its track comes under the head: on the
 * head's own track at least 0, on another at least the head switch. The next search starts one position after the store,
 * on its track. With one track that is upwards from the head and around. */
vlog_result vlog_write(vlog_state state,
                       uint8_t *image, size_t image_length,
                       uint32_t *map, size_t map_length,
                       uint32_t *places, size_t places_length,
                       uint32_t *numbers, size_t numbers_length,
                       uint8_t *used, size_t used_length,
                       uint32_t head,
                       const uint32_t *blocks, size_t blocks_length,
                       const uint8_t *bytes, size_t bytes_length,
                       uint32_t allowance);

/* Drops 1 to 64 blocks, all or none: they read as zeros, and their sectors are free. */
vlog_result vlog_drop(vlog_state state,
                      uint8_t *image, size_t image_length,
                      uint32_t *map, size_t map_length,
                      uint32_t *places, size_t places_length,
                      uint32_t *numbers, size_t numbers_length,
                      uint8_t *used, size_t used_length,
                      uint32_t head,
                      const uint32_t *blocks, size_t blocks_length,
                      uint32_t allowance);

/* A commit of a batch: its words, and its kinds. */
enum { VLOG_COMMIT_WORDS = 4, VLOG_ANSWER_WORDS = 5 };
enum { VLOG_WRITE = 0, VLOG_DROP = 1 };

/* Makes 1 to 32 commits, writes and drops, one after the other, up to and including the first that is turned back; those
 * before it stay. Each commit has VLOG_COMMIT_WORDS words: its kind, its head, how many block numbers are its own, and how
 * many bytes. The block numbers of all of them stand one after the other in blocks, and the bytes in bytes. The allowance
 * is for all of them together.
 *
 * As a whole it is refused with 2, besides, where commits_length is no multiple of 4, where the counts do not add up to
 * blocks_length and bytes_length, or where answers_length is not 5 for each commit; and then with 12.
 *
 * Each commit is answered as the single call would answer it, in VLOG_ANSWER_WORDS words of answers: its answer, its
 * stores, their delays, and tail and number of the state after it. A write whose bytes are not 512 for each block, or a
 * drop that has any, is that commit's 2; a kind that is neither is its 3. The words past those of the answered commits
 * stay as they came. The tables are looked at once, and not again for each commit. */
vlog_batch_result vlog_batch(vlog_state state,
                             uint8_t *image, size_t image_length,
                             uint32_t *map, size_t map_length,
                             uint32_t *places, size_t places_length,
                             uint32_t *numbers, size_t numbers_length,
                             uint8_t *used, size_t used_length,
                             const uint32_t *commits, size_t commits_length,
                             const uint32_t *blocks, size_t blocks_length,
                             const uint8_t *bytes, size_t bytes_length,
                             uint32_t allowance,
                             uint32_t *answers, size_t answers_length);

/* Fills out, 512 bytes, with a block. A block never written, or dropped, is zeros. The state comes back as it was handed
 * in, so that a caller that reads one block after another can go on with the state that it has. */
vlog_result vlog_read(vlog_state state,
                      const uint8_t *image, size_t image_length,
                      const uint32_t *map, size_t map_length,
                      const uint32_t *places, size_t places_length,
                      const uint32_t *numbers, size_t numbers_length,
                      const uint8_t *used, size_t used_length,
                      uint32_t block,
                      uint8_t *out, size_t out_length);

/* Notes the tail in sector 0, with one store, so that the next recover can walk and need not scan. A parked volume can
 * be read; to write again, recover it. */
vlog_result vlog_park(vlog_state state,
                      uint8_t *image, size_t image_length,
                      const uint32_t *map, size_t map_length,
                      const uint32_t *places, size_t places_length,
                      const uint32_t *numbers, size_t numbers_length,
                      const uint8_t *used, size_t used_length,
                      uint32_t allowance);

/* Finds the log of a volume of given.l blocks in the image and fills the tables from it: by a walk if it was parked and
 * the walk finds all, otherwise by a scan of all sectors. */
vlog_result vlog_recover(vlog_state state,
                         uint8_t *image, size_t image_length,
                         uint32_t *map, size_t map_length,
                         uint32_t *places, size_t places_length,
                         uint32_t *numbers, size_t numbers_length,
                         uint8_t *used, size_t used_length,
                         vlog_settings given, uint32_t allowance);

#ifdef __cplusplus
}
#endif

#endif
