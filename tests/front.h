/* A message's front as paper 02 has it, and maps whose sums lie at the edges of it. */
#ifndef FRONT_H
#define FRONT_H

#include "ridge.h"

/* The bytes of a number's shortest form, at most five. Gives how many they are. */
static inline uint32_t put_number(uint8_t *bytes, uint32_t number) {
    uint32_t count = 0;
    for (; number >= 128; number /= 128) bytes[count++] = (uint8_t)(number % 128 + 128);
    bytes[count++] = (uint8_t)number;
    return count;
}

/* "start at 0, for each byte multiply by 257, add the byte, keep the remainder by 4,294,967,291" */
static inline uint32_t sum_of(const uint8_t *map, size_t map_len) {
    uint64_t sum = 0;
    for (size_t i = 0; i < map_len; i++) sum = (sum * 257 + map[i]) % 4294967291;
    return (uint32_t)sum;
}

/* Room for any two numbers. */
enum { MOST_FRONT_BYTES = 10 };

static inline uint32_t put_front_of(uint8_t *bytes, uint32_t map_len, uint32_t sum) {
    uint32_t count = put_number(bytes, map_len);
    return count + put_number(bytes + count, sum);
}

static inline uint32_t put_front(uint8_t *bytes, const uint8_t *map, size_t map_len) {
    return put_front_of(bytes, (uint32_t)map_len, sum_of(map, map_len));
}

/* The ridge has 86 bytes (56). Their sum is 849,892,572: 92 (DC), 41 (A9), 33 (A1), 21 (95) and 3 in groups of seven bits. */
static const uint8_t ridge_front[] = {0x56, 0xDC, 0xA9, 0xA1, 0x95, 0x03};

enum { RIDGE_FRONT = sizeof ridge_front };

/* Maps of two nodes and a line, the shortest that there are, made so that their sums are the least and the greatest with so many bytes. The last has the sum of
   the first, and other lines. */
enum { EDGE_MAPS = 12, EDGE_MAP_BYTES = 16, FIRST_OF_SUM_0 = 0, OF_SUM_4 = 1, OTHER_OF_SUM_0 = EDGE_MAPS - 1 };

static const struct {
    uint32_t sum;
    uint8_t bytes[EDGE_MAP_BYTES];
} edge_maps[EDGE_MAPS] = {
    {0, {2, 0x09, 0x07, 0x14, 0x69, 1, 0, 1, 0x7C, 7, 0, 0x46, 0x21, 0x77, 0x04, 0}},
    {4, {2, 0x29, 0x7E, 0x13, 0x42, 1, 0, 1, 0x0A, 2, 5, 0x16, 0x14, 0x1A, 0x6E, 0}},
    {127, {2, 0x33, 0x72, 0x2B, 0x66, 1, 0, 1, 0x54, 6, 4, 0x68, 0x14, 0x51, 0x00, 0}},
    {128, {2, 0x13, 0x34, 0x78, 0x0E, 1, 0, 1, 0x52, 7, 6, 0x7E, 0x49, 0x23, 0x21, 0}},
    {16383, {2, 0x58, 0x53, 0x0B, 0x7C, 1, 0, 1, 0x58, 0, 3, 0x7C, 0x26, 0x52, 0x79, 0}},
    {16384, {2, 0x16, 0x52, 0x09, 0x25, 1, 0, 1, 0x54, 5, 0, 0x28, 0x22, 0x1D, 0x5E, 0}},
    {2097151, {2, 0x13, 0x5C, 0x74, 0x4C, 1, 0, 1, 0x32, 1, 4, 0x03, 0x57, 0x45, 0x00, 0}},
    {2097152, {2, 0x69, 0x38, 0x10, 0x57, 1, 0, 1, 0x0B, 5, 5, 0x73, 0x2A, 0x4D, 0x69, 0}},
    {268435455, {2, 0x02, 0x0A, 0x6F, 0x55, 1, 0, 1, 0x63, 3, 2, 0x19, 0x1F, 0x36, 0x75, 0}},
    {268435456, {2, 0x57, 0x21, 0x65, 0x0F, 1, 0, 1, 0x0F, 4, 7, 0x10, 0x42, 0x46, 0x58, 0}},
    {4294967290, {2, 0x02, 0x12, 0x52, 0x23, 1, 0, 1, 0x5C, 1, 3, 0x0B, 0x46, 0x2C, 0x03, 0}},
    {0, {2, 0x79, 0x0F, 0x2D, 0x53, 1, 0, 1, 0x12, 5, 5, 0x2F, 0x0A, 0x13, 0x3A, 0}},
};

/* The ridge with a fault: what stands in it from a place on, and how it is refused. */
static const struct {
    uint32_t refusal, at, count;
    uint8_t bytes[3];
} faults[] = {
    {2, 0, 2, {0x84, 0x00}},              /* a count of nodes that is not in its shortest form */
    {2, sizeof ridge - 1, 2, {0, 0}},     /* a byte too many */
    {2, sizeof ridge - 1, 2, {1, 0}},     /* a ban of one number */
    {3, 0, 1, {1}},                       /* one node */
    {4, 4, 1, {0x7F}},                    /* a longitude past the 180th degree */
    {5, 35, 1, {0}},                      /* line 0 from node 0 to node 0 */
    {24, OUT_EAST_0, 2, {0xFA, 0x01}},    /* line 0 with steps out of 0 and 0 */
    {6, 21, 2, {0xC0, 0xA8}},             /* node 2 where node 1 is */
    {23, sizeof ridge - 1, 3, {1, 0, 4}}, /* a ban of line 4 */
    {23, sizeof ridge - 1, 3, {1, 1, 0}}, /* a ban of a turn that is none */
};

enum { FAULTS = sizeof faults / sizeof faults[0], MOST_FAULTY_BYTES = sizeof ridge + 2 };

/* Gives how many bytes it has. */
static inline size_t put_faulty_ridge(uint8_t *bytes, size_t fault) {
    size_t end = faults[fault].at + faults[fault].count;
    memcpy(bytes, ridge, sizeof ridge);
    memcpy(bytes + faults[fault].at, faults[fault].bytes, faults[fault].count);
    return end < sizeof ridge ? sizeof ridge : end;
}

#endif
