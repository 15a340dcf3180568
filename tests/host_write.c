/* The writer as a C program sees it: the layout of its answer, the bytes, the byte buffer, and numbers of tests. What is expected is worked out from the
   papers. */
#include "ridge.h"

_Static_assert(sizeof(struct openlr_written) == 16, "four numbers of 32 bits");
_Static_assert(_Alignof(struct openlr_written) == 4, "aligned as one of them");
_Static_assert(offsetof(struct openlr_written, refusal) == 0, "first");
_Static_assert(offsetof(struct openlr_written, byte_count) == 4, "second");
_Static_assert(offsetof(struct openlr_written, tests) == 8, "third");
_Static_assert(offsetof(struct openlr_written, excess) == 12, "fourth");

enum { UNTOUCHED = 0xEE, GUARD = 0x55, ALL_TESTS = OPENLR_MOST_TESTS };

static int untouched(const uint8_t *byte_buffer, size_t from, size_t to) {
    for (size_t i = from; i < to; i++)
        if (byte_buffer[i] != UNTOUCHED) return 0;
    return 1;
}

static int is_written(struct openlr_written a, size_t byte_count, uint32_t tests, uint32_t excess) {
    return a.refusal == 0 && a.byte_count == byte_count && a.tests == tests && a.excess == excess;
}

static int is_refused(struct openlr_written a, uint32_t number) {
    return a.refusal == number && a.byte_count == 0 && a.tests == 0 && a.excess == 0;
}

/* Writes into a buffer of that size with a guard behind it. All of it must be as before where `expected` is NULL, and else all behind those `count` bytes,
   which stand first. */
static struct openlr_written write_in(size_t room, const uint8_t *map, size_t map_len, const uint8_t *stretch, size_t length, uint32_t pos, uint32_t tests,
                                      const uint8_t *expected, size_t count) {
    uint8_t *byte_buffer = malloc(room + 1);
    EXPECT(byte_buffer != NULL);
    memset(byte_buffer, UNTOUCHED, room);
    byte_buffer[room] = GUARD;
    struct openlr_written a = openlr_write(map, map_len, stretch, length, pos, 0, tests, byte_buffer, room);
    EXPECT(expected == NULL || (count <= room && memcmp(byte_buffer, expected, count) == 0));
    EXPECT(untouched(byte_buffer, expected == NULL ? 0 : count, room) && byte_buffer[room] == GUARD);
    free(byte_buffer);
    return a;
}

/* Lines 0 and 1 with positive offset 5000, for buffers up to longer than the reference. Two lines have three legs. */
static void ridge_bytes(void) {
    static const uint8_t stretch[] = {0, 0, 0, 0, 1, 0, 0, 0};
    static const uint8_t expected[] = {0x0B, 0, 0, 0, 0, 0, 0, 0x1B, 0x68, 0x01, 0x03, 0xE8, 0, 0, 0x1B, 0x68, 0x01, 0x03, 0xE8, 0, 0, 0x1B, 0x58, 0x80};
    for (size_t room = 0; room <= sizeof expected + 3; room++) {
        int is_long_enough = room >= sizeof expected;
        struct openlr_written a = write_in(room, ridge, sizeof ridge, stretch, sizeof stretch, 5000, ALL_TESTS, is_long_enough ? expected : NULL,
                                           sizeof expected);
        EXPECT(is_long_enough ? is_written(a, sizeof expected, 3, 0) : is_refused(a, 11));
    }
}

/* Every number of tests for lines 0 and 1, and the largest number. Legs are 0-1, which is good, 0-2, which is the tie, and 1-2, which is good. It is tested
   last, and until then it counts as good: 26, also where there is no room. */
static void ridge_tests(void) {
    static const uint8_t stretch[] = {0, 0, 0, 0, 1, 0, 0, 0};
    static const uint8_t expected[] = {0x0B, 0, 0, 0, 0, 0, 0, 0x1B, 0x68, 0x01, 0x03, 0xE8, 0, 0, 0x1B, 0x68, 0x01, 0x03, 0xE8, 0, 0, 0x1B, 0x18};
    static const uint32_t numbers[] = {0, 1, 2, 3, 4, UINT32_MAX};
    for (size_t i = 0; i < sizeof numbers / sizeof numbers[0]; i++) {
        int is_found = numbers[i] >= 3;
        struct openlr_written a = write_in(OPENLR_LONGEST_REFERENCE, ridge, sizeof ridge, stretch, sizeof stretch, 0, numbers[i],
                                           is_found ? expected : NULL, sizeof expected);
        EXPECT(is_found ? is_written(a, sizeof expected, 3, 0) : is_refused(a, OPENLR_UNFINISHED));
        a = write_in(0, ridge, sizeof ridge, stretch, sizeof stretch, 0, numbers[i], NULL, 0);
        EXPECT(is_refused(a, is_found ? OPENLR_BYTES_SHORT : OPENLR_UNFINISHED));
    }
}

/* Four lines, 0-1, 1-2, 2-3 and 3-4, each 10003 long, FRC 3 and FOW 3, with the steps (200, 0) and (-200, 0). One line leaves each node, and so only
   differences decide which legs are good: between neighbours in the ring 0, 1, 2, 4, 3 they fit 16 bits, between other nodes they do not. */
static const uint8_t pentagon[] = {
    5,                                                                /* nodes */
    0x80, 0xD1, 0xCA, 0x08, 0xC0, 0xA8, 0xA5, 0x04,                   /* (0, 0): 18,000,000 and 9,000,000 */
    0xB0, 0xBB, 0xCC, 0x08, 0xC0, 0xA8, 0xA5, 0x04,                   /* (30000, 0): 18,030,000 and 9,000,000 */
    0xC0, 0x89, 0xCD, 0x08, 0xF0, 0x92, 0xA7, 0x04,                   /* (40000, 30000): 18,040,000 and 9,030,000 */
    0xF0, 0x82, 0xCA, 0x08, 0xF0, 0x92, 0xA7, 0x04,                   /* (-10000, 30000): 17,990,000 and 9,030,000 */
    0xA0, 0xED, 0xCB, 0x08, 0x90, 0xAF, 0xA8, 0x04,                   /* (20000, 50000): 18,020,000 and 9,050,000 */
    4,                                                                /* lines */
    0, 1, 0x93, 0x4E, 3, 3, 0xC2, 0x03, 0xFA, 0x01, 0x32, 0xFA, 0x01, /* 0 to 1 */
    1, 2, 0x93, 0x4E, 3, 3, 0xC2, 0x03, 0xFA, 0x01, 0x32, 0xFA, 0x01, /* 1 to 2 */
    2, 3, 0x93, 0x4E, 3, 3, 0xC2, 0x03, 0xFA, 0x01, 0x32, 0xFA, 0x01, /* 2 to 3 */
    3, 4, 0x93, 0x4E, 3, 3, 0xC2, 0x03, 0xFA, 0x01, 0x32, 0xFA, 0x01, /* 3 to 4 */
    0,                                                                /* bans */
};
static const uint8_t pentagon_stretch[] = {0, 0, 0, 0, 1, 0, 0, 0, 2, 0, 0, 0, 3, 0, 0, 0};

/* The ten legs in order: 0-1, 0-2, 0-3, 0-4, 1-2, 1-3, 1-4, 2-3, 2-4, 3-4. Good are 0-1, 0-3, 1-2, 2-4 and 3-4. With 8 tests none that is good ends at node 4.
   The ninth gives 0-1, 1-2, 2-4, of 10003, 10003 and 20006 (D is 1, 1 and 3), while 0-3, 3-4 is still open; the tenth gives that, of 30009 and 10003 (D
   is 5 and 1). Differences: 30,000 is 7530, 10,000 is 2710, -20,000 is B1E0, 20,000 is 4E20, -10,000 is D8F0. */
static const uint8_t four_points[] = {0x0B, 0, 0, 0, 0, 0, 0, 0x1B, 0x68, 0x01, 0x75, 0x30, 0, 0, 0x1B, 0x68, 0x01,
                                      0x27, 0x10, 0x75, 0x30, 0x1B, 0x68, 0x03, 0xB1, 0xE0, 0x4E, 0x20, 0x1B, 0x18};
static const uint8_t three_points[] = {0x0B, 0, 0, 0, 0, 0, 0, 0x1B, 0x68, 0x05, 0xD8, 0xF0, 0x75, 0x30, 0x1B, 0x68, 0x01, 0x75, 0x30, 0x4E, 0x20, 0x1B, 0x18};

static struct openlr_written write_pentagon(size_t room, uint32_t tests, const uint8_t *expected, size_t count) {
    return write_in(room, pentagon, sizeof pentagon, pentagon_stretch, sizeof pentagon_stretch, 0, tests, expected, count);
}

/* Every number of tests on the pentagon, in a buffer that is long enough and in one that is a byte too short for what nine tests find. */
static void pentagon_tests(void) {
    static const uint32_t more[] = {10, 11, 256, 65536, OPENLR_MOST_TESTS, UINT32_MAX};
    for (uint32_t tests = 0; tests <= 8; tests++) {
        EXPECT(is_refused(write_pentagon(OPENLR_LONGEST_REFERENCE, tests, NULL, 0), OPENLR_UNFINISHED));
        EXPECT(is_refused(write_pentagon(sizeof four_points - 1, tests, NULL, 0), OPENLR_UNFINISHED));
    }
    EXPECT(is_written(write_pentagon(sizeof four_points, 9, four_points, sizeof four_points), 30, 9, 1));
    EXPECT(is_refused(write_pentagon(sizeof four_points - 1, 9, NULL, 0), OPENLR_BYTES_SHORT));
    for (size_t i = 0; i < sizeof more / sizeof more[0]; i++) {
        EXPECT(is_written(write_pentagon(OPENLR_LONGEST_REFERENCE, more[i], three_points, sizeof three_points), 23, 10, 0));
        EXPECT(is_written(write_pentagon(sizeof four_points - 1, more[i], three_points, sizeof three_points), 23, 10, 0));
    }
}

/* The box as the office sees it: what was sent last, and how often something was. */
static uint8_t box[OPENLR_LONGEST_REFERENCE];
static uint32_t box_count, times_sent;

static void send_to_box(const uint8_t *bytes, uint32_t count) {
    memcpy(box, bytes, count);
    box_count = count;
    times_sent++;
}

/* What the header shows: the office's loop, here on the pentagon and with any number of tests to start with. */
static void office(uint32_t first_tests) {
    uint8_t bytes[OPENLR_LONGEST_REFERENCE];
    uint32_t sent = 0;
    times_sent = 0;
    for (uint32_t tests = first_tests;; tests *= 2) {
        struct openlr_written a =
            openlr_write(pentagon, sizeof pentagon, pentagon_stretch, sizeof pentagon_stretch, 0, 0, tests, bytes, sizeof bytes);
        if (a.refusal == OPENLR_UNFINISHED) continue;
        if (a.refusal != 0) break;
        if (sent == 0 || a.byte_count < sent) {
            send_to_box(bytes, a.byte_count);
            sent = a.byte_count;
        }
        if (a.excess == 0) break;
    }
}

/* Nine tests find four points, which are sent, and 18 find three, which are sent again. From 1, 3 or 64 tests on the doubled number passes nine by, and only
   the three points are sent. The box reads the four lines from whatever it was sent. */
static void office_loop(void) {
    static const uint32_t first_tests[] = {1, 3, 9, 64};
    uint8_t line_buffer[sizeof pentagon_stretch];
    for (size_t i = 0; i < sizeof first_tests / sizeof first_tests[0]; i++) {
        office(first_tests[i]);
        EXPECT(times_sent == (first_tests[i] == 9 ? 2u : 1u));
        EXPECT(box_count == sizeof three_points && memcmp(box, three_points, sizeof three_points) == 0);
    }
    struct openlr_reading four = openlr_read(pentagon, sizeof pentagon, four_points, sizeof four_points, line_buffer, sizeof line_buffer);
    EXPECT(four.refusal == 0 && four.line_count == 4 && memcmp(line_buffer, pentagon_stretch, sizeof pentagon_stretch) == 0);
    struct openlr_reading three = openlr_read(pentagon, sizeof pentagon, box, box_count, line_buffer, sizeof line_buffer);
    EXPECT(three.refusal == 0 && three.line_count == 4 && memcmp(line_buffer, pentagon_stretch, sizeof pentagon_stretch) == 0);
}

/* An offset of 15000 skips one line of 10000 whole, the first or the last by which of the two it is, and leaves 5000, whose byte is 80. One line is left, which
   is one leg, whatever was given. */
static void offsets(void) {
    static const uint8_t stretch[] = {0, 0, 0, 0, 1, 0, 0, 0};
    static const uint8_t second[] = {1, 0, 0, 0};
    uint8_t both[64], alone[64];
    struct openlr_written a = openlr_write(ridge, sizeof ridge, stretch, sizeof stretch, 15000, 0, ALL_TESTS, both, sizeof both);
    struct openlr_written b = openlr_write(ridge, sizeof ridge, second, sizeof second, 5000, 0, 1, alone, sizeof alone);
    EXPECT(is_written(a, 17, 1, 0) && is_written(b, 17, 1, 0) && memcmp(both, alone, 17) == 0);
    EXPECT(both[15] == 0x58 && both[16] == 0x80);
    a = openlr_write(ridge, sizeof ridge, stretch, sizeof stretch, 0, 15000, 1, both, sizeof both);
    EXPECT(is_written(a, 17, 1, 0) && both[15] == 0x38 && both[16] == 0x80);
    EXPECT(is_refused(openlr_write(ridge, sizeof ridge, stretch, sizeof stretch, 15000, 0, 0, both, sizeof both), OPENLR_UNFINISHED));
}

/* Lines 0 and 1 of the ridge with both offsets, and the two spans when the bytes are read back. Neither line is skipped. */
static void spans(uint32_t pos, uint32_t neg, uint8_t pos_byte, uint8_t neg_byte, const uint32_t *expected) {
    static const uint8_t stretch[] = {0, 0, 0, 0, 1, 0, 0, 0};
    uint8_t bytes[25], line_buffer[sizeof stretch];
    EXPECT(is_written(openlr_write(ridge, sizeof ridge, stretch, sizeof stretch, pos, neg, ALL_TESTS, bytes, sizeof bytes), sizeof bytes, 3, 0));
    EXPECT(bytes[22] == 0x78 && bytes[23] == pos_byte && bytes[24] == neg_byte);
    struct openlr_reading a = openlr_read(ridge, sizeof ridge, bytes, sizeof bytes, line_buffer, sizeof line_buffer);
    EXPECT(a.refusal == 0 && a.line_count == 2 && memcmp(line_buffer, stretch, sizeof stretch) == 0);
    EXPECT(a.pos_least == expected[0] && a.pos_greatest == expected[1] && a.neg_least == expected[2] && a.neg_greatest == expected[3]);
}

/* An offset of 1 centimetre has its flag and byte 0, which means 1 to 19 (0.5 x 10000 / 256 is 19.53). One of all but 1 has byte FF, which means 9942
   (254.5 x 10000 / 256 is 9941.41) to 9999. */
static void single_centimetres(void) {
    static const uint32_t both_1[] = {1, 19, 1, 19}, first_9999[] = {9942, 9999, 1, 19}, last_9999[] = {1, 19, 9942, 9999};
    spans(1, 1, 0x00, 0x00, both_1);
    spans(9999, 1, 0xFF, 0x00, first_9999);
    spans(1, 9999, 0x00, 0xFF, last_9999);
}

/* A line 0 of the greatest length, alone: D is 255, 1 centimetre at both ends is byte 0, and that means 1 to 2929 (0.5 x 1500000 / 256 is 2929.69). With 1
   centimetre more the map is refused. */
static void longest_line(void) {
    static const uint8_t stretch[] = {0, 0, 0, 0};
    static const uint8_t expected[] = {0x0B, 0, 0, 0, 0, 0, 0, 0x1B, 0x68, 0xFF, 0x03, 0xE8, 0, 0, 0x1B, 0x78, 0x00, 0x00};
    uint8_t map[LONG_RIDGE_BYTES], bytes[OPENLR_LONGEST_REFERENCE], line_buffer[4];
    put_long_ridge(map, LONGEST_LINE);
    EXPECT(is_written(openlr_write(map, sizeof map, stretch, sizeof stretch, 1, 1, ALL_TESTS, bytes, sizeof bytes), sizeof expected, 1, 0));
    EXPECT(memcmp(bytes, expected, sizeof expected) == 0);
    struct openlr_reading a = openlr_read(map, sizeof map, expected, sizeof expected, line_buffer, sizeof line_buffer);
    EXPECT(a.refusal == 0 && a.line_count == 1 && memcmp(line_buffer, stretch, sizeof stretch) == 0);
    EXPECT(a.pos_least == 1 && a.pos_greatest == 2929 && a.neg_least == 1 && a.neg_greatest == 2929);
    put_long_ridge(map, LONGEST_LINE + 1);
    EXPECT(is_refused(openlr_write(map, sizeof map, stretch, sizeof stretch, 1, 1, ALL_TESTS, bytes, sizeof bytes), OPENLR_MAP_LINE));
    EXPECT(openlr_read(map, sizeof map, expected, sizeof expected, line_buffer, sizeof line_buffer).refusal == OPENLR_MAP_LINE);
}

/* A refusal that is asked before the tests is given whatever their number is. */
static void refused(const uint8_t *stretch, size_t length, uint32_t pos, uint32_t neg, uint32_t number) {
    static const uint32_t tests[] = {0, 1, ALL_TESTS, UINT32_MAX};
    uint8_t byte_buffer[OPENLR_LONGEST_REFERENCE];
    memset(byte_buffer, UNTOUCHED, sizeof byte_buffer);
    for (size_t i = 0; i < sizeof tests / sizeof tests[0]; i++) {
        struct openlr_written a = openlr_write(ridge, sizeof ridge, stretch, length, pos, neg, tests[i], byte_buffer, sizeof byte_buffer);
        EXPECT(is_refused(a, number) && untouched(byte_buffer, 0, sizeof byte_buffer));
    }
}

static void refusals(void) {
    static const uint8_t good[] = {0, 0, 0, 0, 1, 0, 0, 0};
    static const uint8_t gap[] = {1, 0, 0, 0, 0, 0, 0, 0};
    static const uint8_t none[] = {4, 0, 0, 0};
    static const uint8_t high_byte[] = {0, 0, 0, 1};
    static const uint8_t zeros[4 * 2000];
    for (size_t length = 0; length < 8; length++)
        if (length != 4) refused(good, length, 0, 0, 7);
    refused(none, sizeof none, 0, 0, 7);
    refused(high_byte, sizeof high_byte, 0, 0, 7);
    refused(zeros, 4 * 64, 0, 0, 8);
    refused(zeros, 4 * 65, 0, 0, 7);
    refused(zeros, 4 * 66, 0, 0, 7);
    refused(zeros, sizeof zeros, 0, 0, 7);
    refused(gap, sizeof gap, 0, 0, 8);
    refused(good, sizeof good, 10000, 10000, 9);
    refused(good, sizeof good, 19999, 1, 9);
    refused(good, sizeof good, 1, 19999, 9);
    refused(good, sizeof good, UINT32_MAX, UINT32_MAX, 9);
    uint8_t byte_buffer[4];
    EXPECT(is_refused(openlr_write(ridge, sizeof ridge - 1, good, 7, 0, 0, 0, byte_buffer, sizeof byte_buffer), 2));
}

/* On the ridge with one ban: the answer for a stretch, and the two-point bytes where it is written. */
static void on_banned_ridge(uint8_t first, uint8_t second, const uint8_t *stretch, size_t length, uint32_t pos, uint32_t number) {
    static const uint8_t two[] = {0x0B, 0, 0, 0, 0, 0, 0, 0x1B, 0x68, 0x03, 0x07, 0xD0, 0, 0, 0x1B, 0x18};
    uint8_t map[BANNED_RIDGE_BYTES], byte_buffer[OPENLR_LONGEST_REFERENCE];
    put_banned_ridge(map, first, second);
    memset(byte_buffer, UNTOUCHED, sizeof byte_buffer);
    uint32_t line_count = (uint32_t)length / 4, leg_count = line_count * (line_count + 1) / 2;
    struct openlr_written a = openlr_write(map, sizeof map, stretch, length, pos, 0, ALL_TESTS, byte_buffer, sizeof byte_buffer);
    EXPECT(number == 0 ? is_written(a, sizeof two, leg_count, 0) : is_refused(a, number));
    EXPECT(memcmp(byte_buffer, two, a.byte_count) == 0 && untouched(byte_buffer, a.byte_count, sizeof byte_buffer));
}

/* With the turn from line 0 into line 2 banned, two points are enough for lines 0 and 1; the way over the ridge is refused (21), also where an offset drops
   line 0 or is too large. With the turn into line 1 banned it is the other way round. Pairs that name no line, or lines that do not join: 23, before 7. */
static void bans(void) {
    static const uint8_t straight[] = {0, 0, 0, 0, 1, 0, 0, 0}, over_the_ridge[] = {0, 0, 0, 0, 2, 0, 0, 0, 3, 0, 0, 0};
    on_banned_ridge(0, 2, straight, sizeof straight, 0, 0);
    on_banned_ridge(0, 2, over_the_ridge, sizeof over_the_ridge, 0, 21);
    on_banned_ridge(0, 2, over_the_ridge, sizeof over_the_ridge, 10000, 21);
    on_banned_ridge(0, 2, over_the_ridge, sizeof over_the_ridge, 20000, 21);
    on_banned_ridge(2, 3, over_the_ridge, sizeof over_the_ridge, 15000, 21);
    on_banned_ridge(0, 1, over_the_ridge, sizeof over_the_ridge, 0, 0);
    on_banned_ridge(0, 1, straight, sizeof straight, 0, 21);
    on_banned_ridge(0, 4, straight, sizeof straight, 0, 23);
    on_banned_ridge(1, 0, straight, sizeof straight, 0, 23);
    on_banned_ridge(3, 3, straight, 0, 0, 23);
}

/* On the ridge with one step stored as another number: the answer for lines 0 and 1. */
static void on_ridge_with_step(size_t at, uint32_t number, uint32_t refusal, uint32_t byte_count) {
    static const uint8_t stretch[] = {0, 0, 0, 0, 1, 0, 0, 0};
    uint8_t map[sizeof ridge], byte_buffer[OPENLR_LONGEST_REFERENCE];
    put_ridge_with_step(map, at, number);
    memset(byte_buffer, UNTOUCHED, sizeof byte_buffer);
    struct openlr_written a = openlr_write(map, sizeof map, stretch, sizeof stretch, 0, 0, ALL_TESTS, byte_buffer, sizeof byte_buffer);
    EXPECT(refusal == 0 ? is_written(a, byte_count, 3, 0) : is_refused(a, refusal));
    EXPECT(untouched(byte_buffer, byte_count, sizeof byte_buffer));
}

/* A step out of range, and both of a pair zero, stored as 250. Where line 3 arrives in another sector than line 1, two points are enough: 16 bytes, and not 23.
   It does with a step back north of -1 or of 40, and with 0 or 39 it does not. */
static void steps(void) {
    on_ridge_with_step(OUT_EAST_0, 501, OPENLR_MAP_STEP, 0);
    on_ridge_with_step(BACK_NORTH_0, 501, OPENLR_MAP_STEP, 0);
    on_ridge_with_step(OUT_NORTH_2, 250, OPENLR_MAP_STEP, 0);
    on_ridge_with_step(BACK_NORTH_3, 501, OPENLR_MAP_STEP, 0);
    on_ridge_with_step(OUT_EAST_0, 500, 0, 23);
    on_ridge_with_step(BACK_NORTH_3, 250 - 1, 0, 16);
    on_ridge_with_step(BACK_NORTH_3, 250, 0, 23);
    on_ridge_with_step(BACK_NORTH_3, 250 + 39, 0, 23);
    on_ridge_with_step(BACK_NORTH_3, 250 + 40, 0, 16);
}

/* A slice of no bytes may be NULL, whichever and however many are. The first that is missing decides. */
static void null_slices(void) {
    static const uint8_t stretch[] = {0, 0, 0, 0, 1, 0, 0, 0};
    for (int missing = 0; missing < 8; missing++) {
        int no_map = missing & 1, no_stretch = missing & 2, no_buffer = missing & 4;
        uint8_t byte_buffer[23];
        struct openlr_written a =
            openlr_write(no_map ? NULL : ridge, no_map ? 0 : sizeof ridge, no_stretch ? NULL : stretch, no_stretch ? 0 : sizeof stretch, 0, 0, ALL_TESTS,
                         no_buffer ? NULL : byte_buffer, no_buffer ? 0 : sizeof byte_buffer);
        EXPECT(missing == 0 ? is_written(a, 23, 3, 0) : is_refused(a, no_map ? 2 : no_stretch ? 7 : 11));
    }
}

int main(void) {
    ridge_bytes();
    ridge_tests();
    pentagon_tests();
    office_loop();
    offsets();
    single_centimetres();
    longest_line();
    refusals();
    bans();
    steps();
    null_slices();
    puts("openlr_write: as a C program expects");
    return 0;
}
