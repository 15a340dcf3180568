/* The writer and the reader of points along a line as a C program sees them: the layout of their answers, each of the fields, the bytes, and the buffers. What
   is expected is worked out from the papers. */
#include "ridge.h"

_Static_assert(sizeof(struct openlr_point) == 28, "seven numbers of 32 bits");
_Static_assert(_Alignof(struct openlr_point) == 4, "aligned as one of them");
_Static_assert(offsetof(struct openlr_point, refusal) == 0, "first");
_Static_assert(offsetof(struct openlr_point, place) == 4, "second");
_Static_assert(offsetof(struct openlr_point, lines) == 8, "third");
_Static_assert(offsetof(struct openlr_point, least) == 12, "fourth");
_Static_assert(offsetof(struct openlr_point, greatest) == 16, "fifth");
_Static_assert(offsetof(struct openlr_point, orientation) == 20, "sixth");
_Static_assert(offsetof(struct openlr_point, side) == 24, "seventh");
_Static_assert(sizeof(struct openlr_point_written) == 8, "two numbers of 32 bits");
_Static_assert(_Alignof(struct openlr_point_written) == 4, "aligned as one of them");
_Static_assert(offsetof(struct openlr_point_written, refusal) == 0, "first");
_Static_assert(offsetof(struct openlr_point_written, bytes) == 4, "second");

enum { UNTOUCHED = 0xEE, GUARD = 0x55, FIRST_P = 7, D = 9, LAST_P = 14, R = 15, OFFSET = 16 };

/* A hydrant at 1200 of line 2, without orientation, on the right side. The line runs north from node 1, 466 (01D2) and 0 in codes, to node 2, which is 1000
   (03E8) further. Q: lowest class 3, sector 0. D: 5000 / 5860. R: positive flag, sector 16. 256 x 1200 / 5000 is 61.4 (3D), which is 1182 (60.52) to 1201
   (61.49). */
static const uint8_t hydrant[OPENLR_LONGEST_POINT] = {0x2B, 0, 0x01, 0xD2, 0, 0, 0, 0x1B, 0x60, 0, 0, 0, 0x03, 0xE8, 0x5B, 0x50, 0x3D};

static int untouched(const uint8_t *buffer, size_t from, size_t to) {
    for (size_t i = from; i < to; i++)
        if (buffer[i] != UNTOUCHED) return 0;
    return 1;
}

/* A buffer of just that size, so that a sanitizer sees what lies beyond, and a guard after it. */
static uint8_t *new_buffer(size_t room) {
    uint8_t *buffer = malloc(room + 1);
    EXPECT(buffer != NULL);
    memset(buffer, UNTOUCHED, room);
    buffer[room] = GUARD;
    return buffer;
}

static int is_refused(struct openlr_point a, uint32_t number, uint32_t place) {
    return a.refusal == number && a.place == place && a.lines == 0 && a.least == 0 && a.greatest == 0 && a.orientation == 0 && a.side == 0;
}

/* Written at `offset` of line 2 into buffers up to longer than the reference: with an offset the hydrant's bytes, with 0 neither flag nor byte. */
static void bytes_for_each_room(uint32_t offset) {
    uint8_t expected[OPENLR_LONGEST_POINT];
    size_t count = offset == 0 ? OPENLR_LONGEST_POINT - 1 : OPENLR_LONGEST_POINT;
    memcpy(expected, hydrant, sizeof expected);
    if (offset == 0) expected[R] = 0x10;
    for (size_t room = 0; room <= count + 3; room++) {
        uint8_t *byte_buffer = new_buffer(room);
        struct openlr_point_written a = openlr_write_point(ridge, sizeof ridge, 2, offset, OPENLR_ORIENTATION_NONE, OPENLR_SIDE_RIGHT, byte_buffer, room);
        if (room < count) {
            EXPECT(a.refusal == 11 && a.bytes == 0 && untouched(byte_buffer, 0, room));
        } else {
            EXPECT(a.refusal == 0 && a.bytes == count);
            EXPECT(memcmp(byte_buffer, expected, count) == 0 && untouched(byte_buffer, count, room));
        }
        EXPECT(byte_buffer[room] == GUARD);
        free(byte_buffer);
    }
}

/* Read into buffers from none up to longer than the lines: `count` lines below 128, the span, orientation and side. */
static void lines_for_each_room(const uint8_t *reference, const uint8_t *lines, uint32_t count, uint32_t least, uint32_t greatest, uint32_t orientation,
                                uint32_t side) {
    for (size_t room = 0; room <= 4 * count + 7; room++) {
        uint8_t *line_buffer = new_buffer(room);
        struct openlr_point a = openlr_read_point(ridge, sizeof ridge, reference, OPENLR_LONGEST_POINT, line_buffer, room);
        if (room < 4 * count) {
            EXPECT(is_refused(a, 20, 0) && untouched(line_buffer, 0, room));
        } else {
            EXPECT(a.refusal == 0 && a.place == 0 && a.lines == count && a.least == least && a.greatest == greatest);
            EXPECT(a.orientation == orientation && a.side == side);
            for (uint32_t i = 0; i < 4 * count; i++) EXPECT(line_buffer[i] == (i % 4 == 0 ? lines[i / 4] : 0));
            EXPECT(untouched(line_buffer, 4 * count, room));
        }
        EXPECT(line_buffer[room] == GUARD);
        free(line_buffer);
    }
}

/* The hydrant; and a point of orientation 3 and side 2 along lines 0 and 2, from node 0 to node 2: 15000 long, so that D is 2, and byte 80 means 7471
   to 7529 (256 x 7471 / 15000 is 127.505, 256 x 7529 / 15000 is 128.495). */
static void readings(void) {
    static const uint8_t along_two[] = {0x2B, 0, 0, 0, 0, 0, 0, 0xDB, 0x68, 0x02, 0x03, 0xE8, 0x03, 0xE8, 0x9B, 0x50, 0x80};
    static const uint8_t line_2[] = {2}, lines_0_and_2[] = {0, 2};
    lines_for_each_room(hydrant, line_2, 1, 1182, 1201, 0, 1);
    lines_for_each_room(along_two, lines_0_and_2, 2, 7471, 7529, 3, 2);
}

/* On a line 2 of 512 every odd offset is half between two 256ths and rounds up: 1 to 1, 3 to 2, 509 to 255. 511 rounds up to 256, for which FF is written. The
   bytes give back the offset and its neighbour, FF three. Nothing gives byte 0. */
static void rounding(void) {
    static const uint32_t cases[][4] = {{1, 1, 1, 2}, {2, 1, 1, 2}, {3, 2, 3, 4}, {508, 254, 507, 508}, {509, 255, 509, 511}, {511, 255, 509, 511}};
    uint8_t map[sizeof ridge], reference[OPENLR_LONGEST_POINT], line[4];
    put_ridge_with_step(map, LENGTH_2, 512);
    for (size_t i = 0; i < sizeof cases / sizeof cases[0]; i++) {
        struct openlr_point_written a = openlr_write_point(map, sizeof map, 2, cases[i][0], 0, 0, reference, sizeof reference);
        EXPECT(a.refusal == 0 && a.bytes == sizeof reference && reference[OFFSET] == cases[i][1]);
        struct openlr_point b = openlr_read_point(map, sizeof map, reference, sizeof reference, line, sizeof line);
        EXPECT(b.refusal == 0 && b.lines == 1 && line[0] == 2 && b.least == cases[i][2] && b.greatest == cases[i][3]);
    }
    reference[OFFSET] = 0;
    EXPECT(is_refused(openlr_read_point(map, sizeof map, reference, sizeof reference, line, sizeof line), OPENLR_NO_OFFSET, 0));
}

/* 1 centimetre from either end of line 2, whose length is 5000. Byte 0 means 1 to 9 (0.5 x 5000 / 256 is 9.77), byte FF means 4971 (254.5 x 5000 / 256 is
   4970.70) to 4999. */
static void single_centimetres(void) {
    static const uint32_t cases[][4] = {{1, 0x00, 1, 9}, {4999, 0xFF, 4971, 4999}};
    for (size_t i = 0; i < sizeof cases / sizeof cases[0]; i++) {
        uint8_t reference[OPENLR_LONGEST_POINT], line[4];
        struct openlr_point_written a = openlr_write_point(ridge, sizeof ridge, 2, cases[i][0], 0, 0, reference, sizeof reference);
        EXPECT(a.refusal == 0 && a.bytes == sizeof reference && reference[R] == 0x50 && reference[OFFSET] == cases[i][1]);
        struct openlr_point b = openlr_read_point(ridge, sizeof ridge, reference, sizeof reference, line, sizeof line);
        EXPECT(b.refusal == 0 && b.lines == 1 && line[0] == 2 && b.least == cases[i][2] && b.greatest == cases[i][3]);
    }
}

/* A line 0 of the greatest length: D is 255, and half of it is byte 80, which means 747071 (127.5 x 1500000 / 256 is 747070.31) to 752929
   (752929.69). With 1 centimetre more the map is refused. */
static void longest_line(void) {
    uint8_t map[LONG_RIDGE_BYTES], reference[OPENLR_LONGEST_POINT], line[4];
    put_long_ridge(map, LONGEST_LINE);
    struct openlr_point_written a = openlr_write_point(map, sizeof map, 0, LONGEST_LINE / 2, 0, 0, reference, sizeof reference);
    EXPECT(a.refusal == 0 && a.bytes == sizeof reference && reference[D] == 255 && reference[OFFSET] == 0x80);
    struct openlr_point b = openlr_read_point(map, sizeof map, reference, sizeof reference, line, sizeof line);
    EXPECT(b.refusal == 0 && b.lines == 1 && line[0] == 0 && b.least == 747071 && b.greatest == 752929);
    EXPECT(openlr_write_point(map, sizeof map, 0, LONGEST_LINE, 0, 0, reference, sizeof reference).refusal == OPENLR_STRETCH_OFFSETS);
    put_long_ridge(map, LONGEST_LINE + 1);
    a = openlr_write_point(map, sizeof map, 0, LONGEST_LINE / 2, 0, 0, reference, sizeof reference);
    EXPECT(a.refusal == OPENLR_MAP_LINE && a.bytes == 0);
    EXPECT(is_refused(openlr_read_point(map, sizeof map, reference, sizeof reference, line, sizeof line), OPENLR_MAP_LINE, 0));
}

/* Each orientation with each side: bits 7 and 6 of the two P, and back. */
static void orientations_and_sides(void) {
    for (uint32_t orientation = 0; orientation < 4; orientation++)
        for (uint32_t side = 0; side < 4; side++) {
            uint8_t byte_buffer[OPENLR_LONGEST_POINT], line_buffer[4];
            struct openlr_point_written w = openlr_write_point(ridge, sizeof ridge, 2, 1200, orientation, side, byte_buffer, sizeof byte_buffer);
            EXPECT(w.refusal == 0 && w.bytes == sizeof byte_buffer);
            for (size_t i = 0; i < sizeof byte_buffer; i++)
                EXPECT(byte_buffer[i] == (i == FIRST_P ? 0x1B + 64 * orientation : i == LAST_P ? 0x1B + 64 * side : hydrant[i]));
            struct openlr_point a = openlr_read_point(ridge, sizeof ridge, byte_buffer, w.bytes, line_buffer, sizeof line_buffer);
            EXPECT(a.refusal == 0 && a.lines == 1 && a.orientation == orientation && a.side == side && line_buffer[0] == 2);
        }
}

/* On a map, refused, and nothing written. */
static void refused_on(const uint8_t *map, size_t map_len, const uint8_t *reference, size_t length, uint32_t number, uint32_t place) {
    uint8_t line_buffer[64];
    memset(line_buffer, UNTOUCHED, sizeof line_buffer);
    EXPECT(is_refused(openlr_read_point(map, map_len, reference, length, line_buffer, sizeof line_buffer), number, place));
    EXPECT(untouched(line_buffer, 0, sizeof line_buffer));
}

/* The hydrant's bytes with one of them changed. */
static void refused_with(size_t at, uint8_t byte, uint32_t number, uint32_t place) {
    uint8_t reference[sizeof hydrant];
    memcpy(reference, hydrant, sizeof reference);
    reference[at] = byte;
    refused_on(ridge, sizeof ridge, reference, sizeof reference, number, place);
}

/* Each refusal of the reader. The last two points tie as the ridge does; and on a line 2 of 200 no offset gives byte 7 (5 gives 6.4, 6 gives 7.7). */
static void reader_refusals(void) {
    static const uint8_t white_paper[] = {0x2B, 0x04, 0x5B, 0xA0, 0x23, 0x46, 0x7E, 0x12, 0x51, 0x01, 0xFF, 0xCE, 0xFF, 0xB4, 0x92, 0x43, 0x4D};
    static const uint8_t tie[] = {0x2B, 0, 0, 0, 0, 0, 0, 0x1B, 0x68, 0x03, 0x07, 0xD0, 0, 0, 0x1B, 0x18};
    uint8_t longer[sizeof hydrant + 1], short_line[sizeof ridge];
    memcpy(longer, hydrant, sizeof hydrant);
    longer[sizeof hydrant] = 0;
    refused_on(ridge, sizeof ridge - 1, hydrant, sizeof hydrant, 2, 0);
    refused_on(ridge, sizeof ridge, hydrant, 15, 12, 0);
    refused_on(ridge, sizeof ridge, longer, sizeof longer, 12, 0);
    refused_with(0, 0x0B, 13, 0);
    refused_with(R, 0xD0, 14, 0);
    refused_with(R, 0x70, 14, 0);
    refused_with(R, 0x10, 15, 0);
    refused_on(ridge, sizeof ridge, hydrant, 16, 15, 0);
    refused_on(ridge, sizeof ridge, white_paper, sizeof white_paper, OPENLR_NO_NODE, 0);
    refused_with(13, 0xE7, OPENLR_NO_NODE, 1);
    refused_with(D, 1, OPENLR_NO_READING, 0);
    refused_with(FIRST_P, 0x13, OPENLR_NO_READING, 0);
    refused_on(ridge, sizeof ridge, tie, sizeof tie, OPENLR_SEVERAL_READINGS, 0);
    put_ridge_with_step(short_line, LENGTH_2, 200);
    memcpy(longer, hydrant, sizeof hydrant);
    longer[OFFSET] = 7;
    refused_on(short_line, sizeof short_line, longer, sizeof hydrant, OPENLR_NO_OFFSET, 0);
}

/* A point's bytes for the reader of stretches, and a stretch's for that of points. */
static void other_kind(void) {
    static const uint8_t two[] = {0x0B, 0, 0, 0, 0, 0, 0, 0x1B, 0x68, 0x03, 0x07, 0xD0, 0, 0, 0x1B, 0x18};
    static const uint8_t three[] = {0x0B, 0, 0, 0, 0, 0, 0, 0x1B, 0x68, 0x01, 0x03, 0xE8, 0, 0, 0x1B, 0x68, 0x01, 0x03, 0xE8, 0, 0, 0x1B, 0x18};
    uint8_t line_buffer[64];
    EXPECT(openlr_read(ridge, sizeof ridge, hydrant, sizeof hydrant, line_buffer, sizeof line_buffer).refusal == OPENLR_REFERENCE_STATUS);
    refused_on(ridge, sizeof ridge, two, sizeof two, OPENLR_REFERENCE_STATUS, 0);
    refused_on(ridge, sizeof ridge, three, sizeof three, OPENLR_REFERENCE_LENGTH, 0);
}

static void not_written(uint32_t line, uint32_t offset, uint32_t orientation, uint32_t side, uint32_t number) {
    uint8_t byte_buffer[OPENLR_LONGEST_POINT];
    memset(byte_buffer, UNTOUCHED, sizeof byte_buffer);
    struct openlr_point_written a = openlr_write_point(ridge, sizeof ridge, line, offset, orientation, side, byte_buffer, sizeof byte_buffer);
    EXPECT(a.refusal == number && a.bytes == 0 && untouched(byte_buffer, 0, sizeof byte_buffer));
}

/* No such line before an offset that is not below the length, and that before an orientation or a side over 3. */
static void writer_refusals(void) {
    uint8_t byte_buffer[OPENLR_LONGEST_POINT];
    not_written(4, 0, 0, 0, 7);
    not_written(UINT32_MAX, UINT32_MAX, 4, 4, 7);
    not_written(65536, 0, 0, 0, 7);
    not_written(2, 5000, 0, 0, 9);
    not_written(2, UINT32_MAX, 4, 4, 9);
    not_written(2, 4999, 4, 0, OPENLR_POINT_MARKS);
    not_written(2, 4999, 0, 4, OPENLR_POINT_MARKS);
    not_written(2, 0, UINT32_MAX, 3, OPENLR_POINT_MARKS);
    not_written(2, 0, 3, 256, OPENLR_POINT_MARKS);
    EXPECT(openlr_write_point(ridge, sizeof ridge, 2, 4999, 3, 3, byte_buffer, sizeof byte_buffer).refusal == 0 && byte_buffer[OFFSET] == 0xFF);
    EXPECT(openlr_write_point(ridge, sizeof ridge, 2, 0, 4, 0, byte_buffer, 0).refusal == OPENLR_POINT_MARKS);
    EXPECT(openlr_write_point(ridge, sizeof ridge - 1, 4, 0, 4, 0, byte_buffer, 0).refusal == 2);
}

/* Where line 2 leaves to the east, lines 2 and 3 are as long as line 1 and have its marks at both ends, and so line 1 is not told by its ends: 10, before 11.
   With the turn from line 2 into line 3 banned it is. */
static void tie_with_a_way_around(void) {
    static const uint8_t eastward[] = {0xC2, 0x03, 0xFA, 0x01};
    uint8_t map[BANNED_RIDGE_BYTES], byte_buffer[OPENLR_LONGEST_POINT];
    memcpy(map, ridge, sizeof ridge);
    memcpy(map + OUT_EAST_2, eastward, sizeof eastward);
    memset(byte_buffer, UNTOUCHED, sizeof byte_buffer);
    for (size_t room = 0; room <= sizeof byte_buffer; room++) {
        struct openlr_point_written a = openlr_write_point(map, sizeof ridge, 1, 0, 0, 0, byte_buffer, room);
        EXPECT(a.refusal == OPENLR_NO_CHOICE && a.bytes == 0 && untouched(byte_buffer, 0, sizeof byte_buffer));
    }
    put_banned_ridge(map, 2, 3);
    memcpy(map + OUT_EAST_2, eastward, sizeof eastward);
    struct openlr_point_written a = openlr_write_point(map, sizeof map, 1, 0, 0, 0, byte_buffer, sizeof byte_buffer);
    EXPECT(a.refusal == 0 && a.bytes == 16 && byte_buffer[R] == 0x18 && untouched(byte_buffer, 16, sizeof byte_buffer));
}

/* A slice of no bytes may be NULL, whichever and however many are. The first that is missing decides. */
static void null_slices(void) {
    for (int missing = 0; missing < 8; missing++) {
        int no_map = missing & 1, no_reference = missing & 2, no_buffer = missing & 4;
        uint8_t line_buffer[4], byte_buffer[OPENLR_LONGEST_POINT];
        const uint8_t *map = no_map ? NULL : ridge;
        size_t map_len = no_map ? 0 : sizeof ridge;
        struct openlr_point a = openlr_read_point(map, map_len, no_reference ? NULL : hydrant, no_reference ? 0 : sizeof hydrant,
                                                  no_buffer ? NULL : line_buffer, no_buffer ? 0 : sizeof line_buffer);
        EXPECT(a.refusal == (no_map ? 2u : no_reference ? 12u : no_buffer ? 20u : 0u) && a.place == 0 && a.lines == (missing ? 0u : 1u));
        struct openlr_point_written w = openlr_write_point(map, map_len, 2, 1200, 0, 1, no_buffer ? NULL : byte_buffer, no_buffer ? 0 : sizeof byte_buffer);
        EXPECT(w.refusal == (no_map ? 2u : no_buffer ? 11u : 0u) && w.bytes == (no_map || no_buffer ? 0u : 17u));
    }
}

int main(void) {
    bytes_for_each_room(1200);
    bytes_for_each_room(0);
    readings();
    rounding();
    single_centimetres();
    longest_line();
    orientations_and_sides();
    reader_refusals();
    other_kind();
    writer_refusals();
    tie_with_a_way_around();
    null_slices();
    puts("openlr_read_point and openlr_write_point: as a C program expects");
    return 0;
}
