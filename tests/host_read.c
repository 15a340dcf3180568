/* The reader as a C program sees it: the layout of its answer, each of its fields, and the line buffer. What is expected is the scope paper's, and its
   arithmetic. */
#include "ridge.h"

_Static_assert(sizeof(struct openlr_reading) == 28, "seven numbers of 32 bits");
_Static_assert(_Alignof(struct openlr_reading) == 4, "aligned as one of them");
_Static_assert(offsetof(struct openlr_reading, refusal) == 0, "first");
_Static_assert(offsetof(struct openlr_reading, place) == 4, "second");
_Static_assert(offsetof(struct openlr_reading, line_count) == 8, "third");
_Static_assert(offsetof(struct openlr_reading, pos_least) == 12, "fourth");
_Static_assert(offsetof(struct openlr_reading, pos_greatest) == 16, "fifth");
_Static_assert(offsetof(struct openlr_reading, neg_least) == 20, "sixth");
_Static_assert(offsetof(struct openlr_reading, neg_greatest) == 24, "seventh");
_Static_assert(sizeof(size_t) == 8, "the counts are of 64 bits");

enum { UNTOUCHED = 0xEE };

/* The answer for a line buffer of `room` bytes, all UNTOUCHED. `line_buffer` is of just that size, so that a sanitizer sees what lies beyond. */
static struct openlr_reading answer(const uint8_t *reference, size_t length, uint8_t *line_buffer, size_t room) {
    memset(line_buffer, UNTOUCHED, room);
    return openlr_read(ridge, sizeof ridge, reference, length, line_buffer, room);
}

static int untouched(const uint8_t *line_buffer, size_t from, size_t to) {
    for (size_t i = from; i < to; i++)
        if (line_buffer[i] != UNTOUCHED) return 0;
    return 1;
}

/* Lines 0 and 1. Of 10000 centimetres, byte 80 means 4981 to 5019 (127.5 x 10000 / 256 is 4980.47 and 128.5 x 10000 / 256 is 5019.53), and byte 40 means 2481
   to 2519 (2480.47 and 2519.53 likewise). */
static void both_offsets(void) {
    static const uint8_t reference[] = {0x0B, 0, 0, 0, 0, 0, 0, 0x1B, 0x68, 0x01, 0x03, 0xE8, 0, 0, 0x1B, 0x68, 0x01, 0x03, 0xE8, 0, 0, 0x1B, 0x78, 0x80, 0x40};
    static const uint8_t expected[] = {0, 0, 0, 0, 1, 0, 0, 0};
    for (size_t room = 0; room <= 19; room++) {
        uint8_t *line_buffer = malloc(room + 1);
        EXPECT(line_buffer != NULL);
        line_buffer[room] = 0x55;
        struct openlr_reading a = answer(reference, sizeof reference, line_buffer, room);
        if (room < 8) {
            EXPECT(a.refusal == 20 && a.place == 0 && a.line_count == 0);
            EXPECT(a.pos_least == 0 && a.pos_greatest == 0 && a.neg_least == 0 && a.neg_greatest == 0);
            EXPECT(untouched(line_buffer, 0, room));
        } else {
            EXPECT(a.refusal == 0 && a.place == 0 && a.line_count == 2);
            EXPECT(a.pos_least == 4981 && a.pos_greatest == 5019 && a.neg_least == 2481 && a.neg_greatest == 2519);
            EXPECT(memcmp(line_buffer, expected, sizeof expected) == 0 && untouched(line_buffer, sizeof expected, room));
        }
        EXPECT(line_buffer[room] == 0x55);
        free(line_buffer);
    }
}

/* Refused, with a place or without one, and nothing written. */
static void refused(const uint8_t *reference, size_t length, uint32_t number, uint32_t place) {
    uint8_t line_buffer[64];
    struct openlr_reading a = answer(reference, length, line_buffer, sizeof line_buffer);
    EXPECT(a.refusal == number && a.place == place && a.line_count == 0);
    EXPECT(a.pos_least == 0 && a.pos_greatest == 0 && a.neg_least == 0 && a.neg_greatest == 0);
    EXPECT(untouched(line_buffer, 0, sizeof line_buffer));
}

/* The paper's two-point bytes; the three-point bytes with a second leg of D 2, with a third point that has no node, with another status, and cut short. */
static void refusals(void) {
    static const uint8_t two[] = {0x0B, 0, 0, 0, 0, 0, 0, 0x1B, 0x68, 0x03, 0x07, 0xD0, 0, 0, 0x1B, 0x18};
    uint8_t three[] = {0x0B, 0, 0, 0, 0, 0, 0, 0x1B, 0x68, 0x01, 0x03, 0xE8, 0, 0, 0x1B, 0x68, 0x01, 0x03, 0xE8, 0, 0, 0x1B, 0x18};
    refused(two, sizeof two, 18, 0);
    three[16] = 2;
    refused(three, sizeof three, 17, 1);
    three[20] = 1;
    refused(three, sizeof three, 16, 2);
    three[0] = 0x0A;
    refused(three, sizeof three, 13, 0);
    refused(three, 15, 12, 0);
    uint8_t line_buffer[4];
    struct openlr_reading a = openlr_read(ridge, sizeof ridge - 1, two, sizeof two, line_buffer, sizeof line_buffer);
    EXPECT(a.refusal == 2 && a.place == 0);
}

/* On the ridge with one ban: what the two-point bytes and the three-point bytes of lines 0 and 1 give, and how many lines where they are read. */
static void on_banned_ridge(uint8_t first, uint8_t second, uint32_t two_points, uint32_t three_points, uint32_t line_count, const uint8_t *lines) {
    static const uint8_t two[] = {0x0B, 0, 0, 0, 0, 0, 0, 0x1B, 0x68, 0x03, 0x07, 0xD0, 0, 0, 0x1B, 0x18};
    static const uint8_t three[] = {0x0B, 0, 0, 0, 0, 0, 0, 0x1B, 0x68, 0x01, 0x03, 0xE8, 0, 0, 0x1B, 0x68, 0x01, 0x03, 0xE8, 0, 0, 0x1B, 0x18};
    uint8_t map[BANNED_RIDGE_BYTES], line_buffer[64];
    put_banned_ridge(map, first, second);
    memset(line_buffer, UNTOUCHED, sizeof line_buffer);
    struct openlr_reading a = openlr_read(map, sizeof map, two, sizeof two, line_buffer, sizeof line_buffer);
    EXPECT(a.refusal == two_points && a.place == 0 && a.line_count == (two_points == 0 ? line_count : 0));
    for (uint32_t i = 0; i < a.line_count; i++) EXPECT(line_buffer[4 * i] == lines[i] && line_buffer[4 * i + 1] == 0);
    EXPECT(untouched(line_buffer, 4 * a.line_count, sizeof line_buffer));
    memset(line_buffer, UNTOUCHED, sizeof line_buffer);
    a = openlr_read(map, sizeof map, three, sizeof three, line_buffer, sizeof line_buffer);
    EXPECT(a.refusal == three_points && a.place == 0 && a.line_count == (three_points == 0 ? 2u : 0u));
    EXPECT(untouched(line_buffer, 4 * a.line_count, sizeof line_buffer));
}

/* No turn over the ridge, from line 0 into line 2: lines 0 and 1 are left, with two points too. No turn from line 0 into line 1: two points are the way over
   the ridge, and the two legs of the three-point bytes meet in the banned turn (22). Pairs that name no line, or lines that do not join: 23. */
static void bans(void) {
    static const uint8_t straight[] = {0, 1}, over_the_ridge[] = {0, 2, 3};
    on_banned_ridge(0, 2, 0, 0, 2, straight);
    on_banned_ridge(2, 3, 0, 0, 2, straight);
    on_banned_ridge(0, 1, 0, 22, 3, over_the_ridge);
    on_banned_ridge(0, 4, 23, 23, 0, NULL);
    on_banned_ridge(4, 0, 23, 23, 0, NULL);
    on_banned_ridge(1, 0, 23, 23, 0, NULL);
    on_banned_ridge(0, 0, 23, 23, 0, NULL);
}

/* On the ridge with one step stored as another number: what the two-point bytes of lines 0 and 1 give. */
static void on_ridge_with_step(size_t at, uint32_t number, uint32_t refusal) {
    static const uint8_t two[] = {0x0B, 0, 0, 0, 0, 0, 0, 0x1B, 0x68, 0x03, 0x07, 0xD0, 0, 0, 0x1B, 0x18};
    static const uint8_t expected[] = {0, 0, 0, 0, 1, 0, 0, 0};
    uint8_t map[sizeof ridge], line_buffer[64];
    put_ridge_with_step(map, at, number);
    memset(line_buffer, UNTOUCHED, sizeof line_buffer);
    struct openlr_reading a = openlr_read(map, sizeof map, two, sizeof two, line_buffer, sizeof line_buffer);
    EXPECT(a.refusal == refusal && a.place == 0 && a.line_count == (refusal == 0 ? 2u : 0u));
    EXPECT(memcmp(line_buffer, expected, 4 * a.line_count) == 0 && untouched(line_buffer, 4 * a.line_count, sizeof line_buffer));
}

/* A step is out of range from 501 on, and 250 is 0: both of a pair must not be. The number's form is asked before, here 1 in two bytes. Line 3 arrives in the
   sector of line 1, 24, while its step back north is 0 to 39 (200 x tan 11.25 degrees is 39.8), and only then do the two ways tie. */
static void steps(void) {
    on_ridge_with_step(OUT_EAST_0, 500, 18);
    on_ridge_with_step(OUT_EAST_0, 501, OPENLR_MAP_STEP);
    on_ridge_with_step(OUT_EAST_0, 16383, OPENLR_MAP_STEP);
    on_ridge_with_step(OUT_EAST_0, 250, OPENLR_MAP_STEP);
    on_ridge_with_step(OUT_EAST_0, 1, 2);
    on_ridge_with_step(BACK_NORTH_0, 501, OPENLR_MAP_STEP);
    on_ridge_with_step(OUT_NORTH_2, 250, OPENLR_MAP_STEP);
    on_ridge_with_step(OUT_NORTH_2, 501, OPENLR_MAP_STEP);
    on_ridge_with_step(OUT_EAST_3, 501, OPENLR_MAP_STEP);
    on_ridge_with_step(BACK_NORTH_3, 501, OPENLR_MAP_STEP);
    on_ridge_with_step(BACK_NORTH_3, 250 - 1, 0);
    on_ridge_with_step(BACK_NORTH_3, 250, 18);
    on_ridge_with_step(BACK_NORTH_3, 250 + 39, 18);
    on_ridge_with_step(BACK_NORTH_3, 250 + 40, 0);
}

/* More than 1,024 lines' room serves no more lines, and no more bytes are touched. */
static void large_buffer(void) {
    static const uint8_t reference[] = {0x0B, 0, 0, 0, 0, 0, 0, 0x1B, 0x68, 0x01, 0x03, 0xE8, 0, 0, 0x1B, 0x68, 0x01, 0x03, 0xE8, 0, 0, 0x1B, 0x18};
    size_t room = 8192;
    uint8_t *line_buffer = malloc(room);
    EXPECT(line_buffer != NULL);
    struct openlr_reading a = answer(reference, sizeof reference, line_buffer, room);
    EXPECT(a.refusal == 0 && a.line_count == 2 && a.pos_greatest == 0 && a.neg_greatest == 0);
    EXPECT(untouched(line_buffer, 8, room));
    free(line_buffer);
}

/* A slice of no bytes may be NULL, whichever and however many are. The first that is missing decides. */
static void null_slices(void) {
    static const uint8_t reference[] = {0x0B, 0, 0, 0, 0, 0, 0, 0x1B, 0x68, 0x01, 0x03, 0xE8, 0, 0, 0x1B, 0x68, 0x01, 0x03, 0xE8, 0, 0, 0x1B, 0x18};
    for (int missing = 0; missing < 8; missing++) {
        int no_map = missing & 1, no_reference = missing & 2, no_buffer = missing & 4;
        uint8_t line_buffer[8];
        struct openlr_reading a = openlr_read(no_map ? NULL : ridge, no_map ? 0 : sizeof ridge, no_reference ? NULL : reference,
                                              no_reference ? 0 : sizeof reference, no_buffer ? NULL : line_buffer, no_buffer ? 0 : sizeof line_buffer);
        EXPECT(a.refusal == (no_map ? 2u : no_reference ? 12u : no_buffer ? 20u : 0u));
        EXPECT(a.place == 0 && a.line_count == (missing ? 0u : 2u));
    }
}

int main(void) {
    both_offsets();
    refusals();
    bans();
    steps();
    large_buffer();
    null_slices();
    puts("openlr_read: as a C program expects");
    return 0;
}
