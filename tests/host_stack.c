/* The functions in a thread with a stack of just OPENLR_LEAST_STACK bytes, on full-size maps with 512 bans and on the calls that take most: 64 legs, 64 lines,
   1,024 lines read, in many legs and in one, of a stretch and of a point, by themselves and out of a message; and on the longest messages. Prints how much of
   the stack was used, the thread's own part with it. It is compiled without sanitizers, which need more stack. Lengths and offsets are in centimetres. */
#define _DEFAULT_SOURCE
#include "front.h"

#include <pthread.h>
#include <sys/mman.h>

enum { NODES = 512, LINES = 1024, BANS = 512, GUARD = 65536, UNUSED = 0xA5 };

static uint8_t map[OPENLR_LONGEST_MAP], given[OPENLR_LONGEST_REFERENCE], line_buffer[4 * OPENLR_MOST_LINES], byte_buffer[OPENLR_LONGEST_REFERENCE];
static size_t map_len, given_len;
static uint32_t pos, neg, tests = OPENLR_MOST_TESTS, point_line, point_offset;
static struct openlr_reading reading;
static struct openlr_written written;
static struct openlr_point point;
static struct openlr_point_written point_written;
static uint8_t message_buffer[OPENLR_LONGEST_MESSAGE];
static struct openlr_message message;
static uint32_t reference_length, asked;
static struct openlr_part part;

static void put_in_map(uint32_t number) {
    map_len += put_number(map + map_len, number);
}

/* A line that leaves to the south-east, sector 12, and arrives from the north-west, sector 28. */
static void put_line(uint32_t start, uint32_t end, uint32_t length, uint32_t form) {
    const uint32_t numbers[] = {start, end, length, 3, form, 250 + 141, 250 - 141, 250 - 141, 250 + 141};
    for (int i = 0; i < 9; i++) put_in_map(numbers[i]);
}

static void put_nodes(void) {
    map_len = 0;
    put_in_map(NODES);
    for (uint32_t i = 0; i < NODES; i++) {
        put_in_map(18000000 + 100 * (i % 32));
        put_in_map(9000000 + 100 * (i / 32));
    }
    put_in_map(LINES);
}

/* Lines `from` to 1,023: there and back between nodes next to each other from node 15 on. They are of another form, and no leg below is shorter by them.
   Turning back at the second node is banned, there and there again until there are 512 bans. `from` is even. */
static void put_other_lines(uint32_t from) {
    for (uint32_t i = from; i < LINES; i++) {
        uint32_t node = 15 + i / 2 % (NODES - 16);
        put_line(node + i % 2, node + 1 - i % 2, 200003, 5);
    }
    put_in_map(BANS);
    for (uint32_t i = 0; i < BANS; i++) {
        uint32_t line = from + 2 * i % (LINES - from);
        put_in_map(line);
        put_in_map(line + 1);
    }
}

static void put_stretch(uint32_t count) {
    memset(given, 0, sizeof given);
    given_len = 4 * count;
    for (uint32_t i = 0; i < count; i++) given[4 * i] = (uint8_t)i;
}

static void *read_once(void *unused) {
    reading = openlr_read(map, map_len, given, given_len, line_buffer, sizeof line_buffer);
    return unused;
}

static void *write_once(void *unused) {
    written = openlr_write(map, map_len, given, given_len, pos, neg, tests, byte_buffer, sizeof byte_buffer);
    return unused;
}

static void *read_point_once(void *unused) {
    point = openlr_read_point(map, map_len, given, given_len, line_buffer, sizeof line_buffer);
    return unused;
}

static void *start_once(void *unused) {
    message = openlr_message_start(map, map_len, message_buffer, sizeof message_buffer);
    return unused;
}

static void *read_of_message_once(void *unused) {
    reading = openlr_read_of_message(map, map_len, message_buffer, message.byte_count, given, given_len, line_buffer, sizeof line_buffer);
    return unused;
}

static void *read_point_of_message_once(void *unused) {
    point = openlr_read_point_of_message(map, map_len, message_buffer, message.byte_count, given, given_len, line_buffer, sizeof line_buffer);
    return unused;
}

static void *write_point_once(void *unused) {
    point_written = openlr_write_point(map, map_len, point_line, point_offset, OPENLR_ORIENTATION_BOTH, OPENLR_SIDE_LEFT, byte_buffer, sizeof byte_buffer);
    return unused;
}

/* One reference more, of bytes of `given`, in two portions. The second moves the first where it makes the length take two bytes. */
static void *message_once(void *unused) {
    uint32_t first = reference_length / 4;
    message = openlr_message_open(message);
    message = openlr_message_add(message, message_buffer, sizeof message_buffer, given, first);
    message = openlr_message_add(message, message_buffer, sizeof message_buffer, given + first, reference_length - first);
    message = openlr_message_close(message);
    return unused;
}

static void *ask_once(void *unused) {
    part = openlr_message_reference(message_buffer, message.byte_count, asked);
    return unused;
}

/* Runs a call in a thread of its own. Below its stack no memory may be touched. */
static void run(const char *what, void *(*call)(void *)) {
    uint8_t *memory = mmap(NULL, GUARD + OPENLR_LEAST_STACK, PROT_READ | PROT_WRITE, MAP_PRIVATE | MAP_ANONYMOUS, -1, 0), *stack = memory + GUARD;
    EXPECT(memory != MAP_FAILED && mprotect(memory, GUARD, PROT_NONE) == 0);
    memset(stack, UNUSED, OPENLR_LEAST_STACK);
    pthread_attr_t attributes;
    pthread_t thread;
    EXPECT(pthread_attr_init(&attributes) == 0 && pthread_attr_setstack(&attributes, stack, OPENLR_LEAST_STACK) == 0);
    EXPECT(pthread_create(&thread, &attributes, call, NULL) == 0 && pthread_join(thread, NULL) == 0);
    size_t unused = 0;
    while (stack[unused] == UNUSED) unused++;
    printf("%s: %zu of %d bytes of stack\n", what, (size_t)OPENLR_LEAST_STACK - unused, OPENLR_LEAST_STACK);
    EXPECT(pthread_attr_destroy(&attributes) == 0 && munmap(memory, GUARD + OPENLR_LEAST_STACK) == 0);
}

/* Reads by itself, and out of a message that is started for the map: the answers and the lines are the same. */
static void run_read(const char *by_itself, const char *out_of_message) {
    static uint8_t lines[sizeof line_buffer];
    memset(line_buffer, 0, sizeof line_buffer);
    run(by_itself, read_once);
    struct openlr_reading before = reading;
    memcpy(lines, line_buffer, sizeof lines);
    memset(line_buffer, 0, sizeof line_buffer);
    start_once(NULL);
    run(out_of_message, read_of_message_once);
    EXPECT(memcmp(&reading, &before, sizeof before) == 0 && memcmp(line_buffer, lines, sizeof lines) == 0);
}

static void run_read_point(const char *by_itself, const char *out_of_message) {
    static uint8_t lines[sizeof line_buffer];
    memset(line_buffer, 0, sizeof line_buffer);
    run(by_itself, read_point_once);
    struct openlr_point before = point;
    memcpy(lines, line_buffer, sizeof lines);
    memset(line_buffer, 0, sizeof line_buffer);
    start_once(NULL);
    run(out_of_message, read_point_of_message_once);
    EXPECT(memcmp(&point, &before, sizeof before) == 0 && memcmp(line_buffer, lines, sizeof lines) == 0);
}

/* A ring of 16 lines, and 64 legs that each go once around it from node 0, with both offsets. Of 1,411,792 centimetres, D is 240 (F0), and byte 80 means
   703,139 (127.5 x 1,411,792 / 256 is 703,138.59) to 708,653 (128.5 x 1,411,792 / 256 is 708,653.41). */
static void read_most(void) {
    static const uint8_t first[] = {0x0B, 0, 0, 0, 0, 0, 0, 0x1B, 0x6C, 0xF0}, next[] = {0, 0, 0, 0, 0x1B, 0x6C, 0xF0};
    static const uint8_t last[] = {0, 0, 0, 0, 0x1B, 0x7C, 0x80, 0x80};
    put_nodes();
    for (uint32_t i = 0; i < 16; i++) put_line(i, (i + 1) % 16, 88237, 3);
    put_other_lines(16);
    memcpy(given, first, sizeof first);
    for (size_t i = 0; i < 63; i++) memcpy(given + sizeof first + i * sizeof next, next, sizeof next);
    memcpy(given + sizeof first + 63 * sizeof next, last, sizeof last);
    given_len = sizeof given;
    run_read("openlr_read, 64 legs, 1,024 lines", "openlr_read_of_message, 64 legs, 1,024 lines");
    EXPECT(reading.refusal == 0 && reading.line_count == 1024);
    EXPECT(reading.pos_least == 703139 && reading.pos_greatest == 708653 && reading.neg_least == 703139 && reading.neg_greatest == 708653);
    for (uint32_t i = 0; i < 1024; i++) EXPECT(line_buffer[4 * i] == i % 16 && line_buffer[4 * i + 1] == 0);
}

/* Node 0, and around the others two lines from node to node: 1 to 511 the one time, 512 to 1,021 the other. Line 0 leads there, line 1,022 back, and line 1,023
   there again with another form. Bans leave one way from line 0 to that last line: all 1,024 lines, 1,499,136 centimetres. D is 255. Node 1 is 100 to the
   east. The same bytes are then a point, of orientation 3 and side 2. Byte FF of 1,499,136 is 1,490,352, exactly half between 254 and 255 256ths, to
   1,499,135. */
static void read_longest_leg(void) {
    static const uint8_t reference[] = {0x0B, 0, 0, 0, 0, 0, 0, 0x1B, 0x6C, 0xFF, 0, 0x64, 0, 0, 0x1D, 0x1C};
    static const uint8_t point_bytes[] = {0x2B, 0, 0, 0, 0, 0, 0, 0xDB, 0x6C, 0xFF, 0, 0x64, 0, 0, 0x9D, 0x5C, 0xFF};
    const uint32_t length = LONGEST_LINE / LINES; /* 1,464 */
    put_nodes();
    put_line(0, 1, length, 3);
    for (uint32_t i = 0; i < 511; i++) put_line(1 + i, 1 + (i + 1) % 511, length, 3);
    for (uint32_t i = 0; i < 510; i++) put_line(1 + i, 2 + i, length, 3);
    put_line(511, 0, length, 3);
    put_line(0, 1, length, 5);
    put_in_map(BANS);
    for (uint32_t i = 0; i < BANS; i++) {
        put_in_map(i % 511);
        put_in_map(512 + i % 511);
    }
    memcpy(given, reference, sizeof reference);
    given_len = sizeof reference;
    run_read("openlr_read, one leg of 1,024 lines", "openlr_read_of_message, one leg of 1,024 lines");
    EXPECT(reading.refusal == 0 && reading.line_count == 1024);
    for (uint32_t i = 0; i < 1024; i++) EXPECT(line_buffer[4 * i] == i % 256 && line_buffer[4 * i + 1] == i / 256);
    memcpy(given, point_bytes, sizeof point_bytes);
    given_len = sizeof point_bytes;
    run_read_point("openlr_read_point, 1,024 lines", "openlr_read_point_of_message, 1,024 lines");
    EXPECT(point.refusal == 0 && point.lines == 1024 && point.least == 1490352 && point.greatest == 1499135 && point.orientation == 3 && point.side == 2);
    for (uint32_t i = 0; i < 1024; i++) EXPECT(line_buffer[4 * i] == i % 256 && line_buffer[4 * i + 1] == i / 256);
}

/* A map with a chain of 64 lines of one length, all of it marked. */
static void put_chain(uint32_t length) {
    put_nodes();
    for (uint32_t i = 0; i < 64; i++) put_line(i, i + 1, length, 3);
    put_other_lines(64);
    put_stretch(64);
}

/* A chain of which no two lines fit one leg: 64 legs and both offsets. The bytes are read back: byte 80 of 760,003 means 378,518
   (127.5 x 760,003 / 256 is 378,517.12) to 381,485 (128.5 x 760,003 / 256 is 381,485.88). */
static void write_most_legs(void) {
    put_chain(760003);
    pos = neg = 380000;
    run("openlr_write, 64 legs", write_once);
    EXPECT(written.refusal == 0 && written.byte_count == OPENLR_LONGEST_REFERENCE && byte_buffer[457] == 0x80 && byte_buffer[458] == 0x80);
    EXPECT(written.tests == OPENLR_MOST_TESTS && written.excess == 0);
    memcpy(given, byte_buffer, sizeof given);
    given_len = sizeof given;
    run_read("openlr_read, 64 legs, 64 lines", "openlr_read_of_message, 64 legs, 64 lines");
    EXPECT(reading.refusal == 0 && reading.line_count == 64 && reading.pos_least == 378518 && reading.neg_greatest == 381485);
    for (uint32_t i = 0; i < 64; i++) EXPECT(line_buffer[4 * i] == i);
}

/* A chain of short lines: every part of it is the only way, so that all 2,080 legs are good. Two points are enough, and D of 640,192 is 109. The 64th leg is
   the first that ends where the chain does: with 63 tests nothing is found, and with 64 the two points are. */
static void write_most_tests(void) {
    put_chain(10003);
    pos = neg = 0;
    run("openlr_write, one leg of 64 lines", write_once);
    EXPECT(written.refusal == 0 && written.byte_count == 16 && byte_buffer[9] == 109 && written.tests == 2080 && written.excess == 0);
    tests = 64;
    run("openlr_write, 64 tests", write_once);
    EXPECT(written.refusal == 0 && written.byte_count == 16 && byte_buffer[9] == 109 && written.tests == 64 && written.excess == 0);
    tests = 63;
    run("openlr_write, 63 tests", write_once);
    EXPECT(written.refusal == OPENLR_UNFINISHED && written.byte_count == 0 && written.tests == 0 && written.excess == 0);
    tests = OPENLR_MOST_TESTS;
}

/* A map with every number as long as it can be. Up to three lines join the same two nodes; D tells them apart. Half of 1,500,000 is byte 80, which is
   747,071 (127.5 x 1,500,000 / 256 is 747,070.31) to 752,929 (128.5 x 1,500,000 / 256 is 752,929.69). */
static void longest_map(void) {
    map_len = 0;
    put_in_map(NODES);
    for (uint32_t i = 0; i < NODES; i++) {
        put_in_map(35999998 - 100 * i);
        put_in_map(18000000);
    }
    put_in_map(LINES);
    for (uint32_t i = 0; i < LINES; i++) {
        const uint32_t numbers[] = {128 + i % 384, 128 + (i + 1) % 384, LONGEST_LINE - i / 384 * DISTANCE_STEP, 7, 7, 500, 500, 500, 500};
        for (int k = 0; k < 9; k++) put_in_map(numbers[k]);
    }
    put_in_map(BANS);
    for (uint32_t i = 0; i < BANS; i++) {
        put_in_map(128 + i);
        put_in_map(129 + i);
    }
    EXPECT(map_len == OPENLR_LONGEST_MAP);
    put_stretch(1);
    given[0] = 1;
    pos = neg = 0;
    run("openlr_write, longest map", write_once);
    EXPECT(written.refusal == 0 && written.byte_count == 16 && written.tests == 1 && written.excess == 0);
    memcpy(given, byte_buffer, 16);
    given_len = 16;
    run_read("openlr_read, longest map", "openlr_read_of_message, longest map");
    EXPECT(reading.refusal == 0 && reading.line_count == 1 && line_buffer[0] == 1);
    point_line = 1;
    point_offset = LONGEST_LINE / 2;
    run("openlr_write_point, longest map", write_point_once);
    EXPECT(point_written.refusal == 0 && point_written.bytes == OPENLR_LONGEST_POINT && byte_buffer[16] == 0x80);
    memcpy(given, byte_buffer, OPENLR_LONGEST_POINT);
    given_len = OPENLR_LONGEST_POINT;
    run_read_point("openlr_read_point, longest map", "openlr_read_point_of_message, longest map");
    EXPECT(point.refusal == 0 && point.lines == 1 && line_buffer[0] == 1 && point.least == 747071 && point.greatest == 752929);
}

/* As many references of one length as a message for the longest map holds, the last of them with the stack measured. Then the last one is asked for. */
static void put_message(const char *writing, const char *asking, uint32_t length, uint32_t length_bytes) {
    const uint32_t front = OPENLR_LONGEST_FRONT, count = (OPENLR_LONGEST_MESSAGE - front) / (length_bytes + length);
    start_once(NULL);
    reference_length = length;
    for (uint32_t i = 0; i < sizeof given; i++) given[i] = (uint8_t)i;
    for (uint32_t i = 0; i + 1 < count; i++) message_once(NULL);
    run(writing, message_once);
    EXPECT(message.refusal == 0 && message.byte_count == front + count * (length_bytes + length) && message.open == 0 && message.added == 0);
    asked = count - 1;
    run(asking, ask_once);
    EXPECT(part.from == front + asked * (length_bytes + length) + length_bytes && part.byte_count == length);
    EXPECT(memcmp(message_buffer + part.from, given, length) == 0);
}

/* The front of the longest map has 8 bytes. 35 of the longest references are 16,135 bytes, and 8,188 of the shortest are 16,376. */
static void longest_messages(void) {
    uint8_t front[MOST_FRONT_BYTES];
    EXPECT(put_front(front, map, map_len) == OPENLR_LONGEST_FRONT);
    run("openlr_message_start, longest map", start_once);
    EXPECT(message.refusal == 0 && message.byte_count == OPENLR_LONGEST_FRONT && message.open == 0 && message.added == 0);
    EXPECT(memcmp(message_buffer, front, OPENLR_LONGEST_FRONT) == 0);
    put_message("openlr_message_open, _add, _close, 459 bytes", "openlr_message_reference, the last of 35", OPENLR_LONGEST_REFERENCE, 2);
    put_message("openlr_message_open, _add, _close, 1 byte", "openlr_message_reference, the last of 8,188", 1, 1);
}

int main(void) {
    read_most();
    read_longest_leg();
    write_most_legs();
    write_most_tests();
    longest_map();
    longest_messages();
    return 0;
}
