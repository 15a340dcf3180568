/* The map of the scope paper's ridge, with a ban, another step or another length, or without, and a way to fail. Lengths and offsets are in centimetres. */
#ifndef RIDGE_H
#define RIDGE_H

#include "openlr.h"

#include <stdio.h>
#include <stdlib.h>
#include <string.h>

_Static_assert(OPENLR_UNITS_PER_METRE == 100, "lengths and offsets are in centimetres");

/* The papers' limits. A leg is at most as long as a line, and D counts these steps in it. */
enum { LONGEST_LINE = 1500000, DISTANCE_STEP = 5860 };

#define EXPECT(e)                                                    \
    do {                                                             \
        if (!(e)) {                                                  \
            fprintf(stderr, "%s:%d: not so: %s\n", __FILE__, __LINE__, #e); \
            exit(1);                                                 \
        }                                                            \
    } while (0)

/* Nodes 0 to 3 at (0, 0), (1000, 0), (1000, 1000), (2000, 0); lines 0 to 3, all FRC 3 and FOW 3. Steps are (east, north), out and back, in decimetres,
   stored plus 250. */
static const uint8_t ridge[] = {
    4,                                                                                      /* nodes */
    0x80, 0xD1, 0xCA, 0x08, 0xC0, 0xA8, 0xA5, 0x04,                                         /* 18,000,000 and 9,000,000 */
    0xE8, 0xD8, 0xCA, 0x08, 0xC0, 0xA8, 0xA5, 0x04,                                         /* 18,001,000 and 9,000,000 */
    0xE8, 0xD8, 0xCA, 0x08, 0xA8, 0xB0, 0xA5, 0x04,                                         /* 18,001,000 and 9,001,000 */
    0xD0, 0xE0, 0xCA, 0x08, 0xC0, 0xA8, 0xA5, 0x04,                                         /* 18,002,000 and 9,000,000 */
    4,                                                                                      /* lines */
    0, 1, 0x90, 0x4E, 3, 3, 0xC2, 0x03, 0xFA, 0x01, 0x32, 0xFA, 0x01,                       /* 0 to 1, 10000, (200, 0), (-200, 0) */
    1, 3, 0x90, 0x4E, 3, 3, 0xC2, 0x03, 0xFA, 0x01, 0x32, 0xFA, 0x01,                       /* 1 to 3, 10000, (200, 0), (-200, 0) */
    1, 2, 0x88, 0x27, 3, 3, 0xFA, 0x01, 0xC2, 0x03, 0xFA, 0x01, 0x32,                       /* 1 to 2, 5000, (0, 200), (0, -200) */
    2, 3, 0x88, 0x27, 3, 3, 0x87, 0x03, 0x6D, 0x32, 0x81, 0x02,                             /* 2 to 3, 5000, (141, -141), (-200, 7) */
    0,                                                                                      /* bans */
};

/* Where some numbers of two bytes stand: the length of line 0 and its steps out east and back north, the length of line 2 and its steps out, the steps out east
   and back north of line 3. */
enum { LENGTH_0 = 36, OUT_EAST_0 = 40, BACK_NORTH_0 = 45, LENGTH_2 = 62, OUT_EAST_2 = 66, OUT_NORTH_2 = 68, OUT_EAST_3 = 79, BACK_NORTH_3 = 83 };

/* The ridge with one of these stored as another number of two bytes. */
static inline void put_ridge_with_step(uint8_t *bytes, size_t at, uint32_t number) {
    memcpy(bytes, ridge, sizeof ridge);
    bytes[at] = (uint8_t)(number % 128 + 128);
    bytes[at + 1] = (uint8_t)(number / 128);
}

/* The ridge with another length of line 0, stored in three bytes. */
enum { LONG_RIDGE_BYTES = sizeof ridge + 1 };

static inline void put_long_ridge(uint8_t *bytes, uint32_t length) {
    const uint8_t stored[] = {(uint8_t)(length % 128 + 128), (uint8_t)(length / 128 % 128 + 128), (uint8_t)(length / 16384)};
    memcpy(bytes, ridge, LENGTH_0);
    memcpy(bytes + LENGTH_0, stored, sizeof stored);
    memcpy(bytes + LENGTH_0 + sizeof stored, ridge + LENGTH_0 + 2, sizeof ridge - LENGTH_0 - 2);
}

/* The ridge with one ban: `second` must not come straight after `first`. Both are below 128. */
enum { BANNED_RIDGE_BYTES = sizeof ridge + 2 };

static inline void put_banned_ridge(uint8_t *bytes, uint8_t first, uint8_t second) {
    const uint8_t bans[] = {1, first, second};
    memcpy(bytes, ridge, sizeof ridge - 1);
    memcpy(bytes + sizeof ridge - 1, bans, sizeof bans);
}

#endif
