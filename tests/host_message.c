/* Messages as a C program sees them: the layout of the structs, the bytes, the buffer, starts, calls in any order, received messages, made-up states, and the
   loops of the header. What is expected is worked out from the papers. Beside a message stands a plain account of what was started, opened, added and
   closed. */
#define _DEFAULT_SOURCE
#include "front.h"

#include <sys/mman.h>

_Static_assert(_Alignof(struct openlr_message) == 4, "aligned as one of its numbers");
_Static_assert(offsetof(struct openlr_message, refusal) == 0, "first");
_Static_assert(offsetof(struct openlr_message, byte_count) == 4, "second");
_Static_assert(offsetof(struct openlr_message, open) == 8, "third");
_Static_assert(offsetof(struct openlr_message, added) == 12, "fourth");
_Static_assert(_Alignof(struct openlr_part) == 4, "aligned as one of its numbers");
_Static_assert(offsetof(struct openlr_part, from) == 0, "first");
_Static_assert(offsetof(struct openlr_part, byte_count) == 4, "second");

#define COUNT_OF(list) (sizeof(list) / sizeof(list)[0])

enum { GUARD = 0x55, GUARD_BYTES = 16, LARGEST_ROOM = 20000, MOST_PARTS = OPENLR_LONGEST_MESSAGE / 2, FENCED_BYTES = 24576 };

/* Memory for input slices, with memory behind it that must not be touched. */
static uint8_t *fenced;

static void put_up_fence(void) {
    fenced = mmap(NULL, 2 * FENCED_BYTES, PROT_READ | PROT_WRITE, MAP_PRIVATE | MAP_ANONYMOUS, -1, 0);
    EXPECT(fenced != MAP_FAILED && mprotect(fenced + FENCED_BYTES, FENCED_BYTES, PROT_NONE) == 0);
}

/* The bytes once more, right before the fence. */
static uint8_t *before_fence(const uint8_t *bytes, size_t count) {
    EXPECT(count <= FENCED_BYTES);
    if (count > 0) memcpy(fenced + FENCED_BYTES - count, bytes, count);
    return fenced + FENCED_BYTES - count;
}

static uint32_t next_number(void) {
    static uint32_t state = 1;
    state = state * 1103515245 + 12345;
    return state >> 16;
}

/* As many bytes as are asked for, other ones each time. Many of them are lengths, if they are taken for such. */
static const uint8_t *portion_of(size_t count) {
    static uint8_t bytes[FENCED_BYTES];
    for (size_t i = 0; i < count; i++) bytes[i] = (uint8_t)next_number();
    return before_fence(bytes, count);
}

/* A message under way. The buffer of `room` bytes stands between two guards. What must be: all of the memory, the bytes of the front and of the finished
   references, whether one is open, its bytes so far, and where the finished references stand. `message` is what the caller goes on with: what the last call
   returned, but for a refused start. */
static struct {
    size_t room;
    uint8_t memory[GUARD_BYTES + LARGEST_ROOM + GUARD_BYTES], expected[GUARD_BYTES + LARGEST_ROOM + GUARD_BYTES];
    uint32_t byte_count, open, added, part_count;
    uint8_t reference[OPENLR_LONGEST_REFERENCE];
    struct openlr_part parts[MOST_PARTS];
    struct openlr_message message;
} now;

/* What is given to each call in place of 1 for `open`, and in place of the last refusal: neither may make a difference. */
static uint32_t given_open = 1, given_refusal;

static uint8_t *const buffer = now.memory + GUARD_BYTES;

/* A buffer of that size, in which something stands already. */
static void put_buffer(size_t room) {
    EXPECT(room <= LARGEST_ROOM);
    memset(now.memory, GUARD, sizeof now.memory);
    for (size_t i = 0; i < room; i++) buffer[i] = (uint8_t)(i % 251);
    memcpy(now.expected, now.memory, sizeof now.memory);
    now.room = room;
}

static struct openlr_message given(void) {
    struct openlr_message message = now.message;
    message.refusal = given_refusal;
    if (message.open != 0) message.open = given_open;
    return message;
}

/* What a call returned: the account's numbers, or the refusal and the numbers as they were given. All of the memory is as it must be. Gives the refusal. */
static uint32_t returned(struct openlr_message before, struct openlr_message after, uint32_t refusal) {
    EXPECT(after.refusal == refusal);
    if (refusal != 0) {
        EXPECT(after.byte_count == before.byte_count && after.open == before.open && after.added == before.added);
    } else {
        EXPECT(after.byte_count == now.byte_count && after.open == now.open && after.added == now.added);
    }
    EXPECT(memcmp(now.memory, now.expected, GUARD_BYTES + now.room + GUARD_BYTES) == 0);
    now.message = after;
    return refusal;
}

/* A map, and how it is refused or 0. */
struct map {
    const uint8_t *bytes;
    size_t count;
    uint32_t refusal;
};

static const struct map whole_ridge = {ridge, sizeof ridge, 0};

/* Where it is not refused, a start leaves nothing of what was opened and finished before, and of the buffer all but the front's bytes. A refused one returns a
   message of no bytes, and the one under way goes on. */
static uint32_t start(struct map map) {
    const struct openlr_message none = {0, 0, 0, 0}, under_way = now.message;
    uint8_t front[MOST_FRONT_BYTES];
    uint32_t count = put_front(front, map.bytes, map.count), refusal = map.refusal != 0 ? map.refusal : count > now.room ? 28 : 0;
    if (refusal == 0) {
        memcpy(now.expected + GUARD_BYTES, front, count);
        now.byte_count = count;
        now.open = now.added = now.part_count = 0;
    }
    returned(none, openlr_message_start(before_fence(map.bytes, map.count), map.count, buffer, now.room), refusal);
    if (refusal != 0) now.message = under_way;
    return refusal;
}

/* A message for the ridge in a buffer of that size. What was known of another must not matter. */
static void begin(size_t room) {
    static const struct openlr_message other = {28, 7, 1, 3};
    put_buffer(room);
    now.message = other;
    EXPECT(start(whole_ridge) == 0 && now.message.byte_count == RIDGE_FRONT);
}

/* The same as it was after its start, without a call. The functions keep nothing, and so these are all that there is of it. */
static void begin_again(void) {
    const struct openlr_message started = {0, RIDGE_FRONT, 0, 0};
    put_buffer(now.room);
    memcpy(buffer, ridge_front, RIDGE_FRONT);
    memcpy(now.expected + GUARD_BYTES, ridge_front, RIDGE_FRONT);
    now.byte_count = RIDGE_FRONT;
    now.open = now.added = now.part_count = 0;
    now.message = started;
}

static uint32_t open_one(void) {
    uint32_t refusal = now.open ? 27 : 0;
    struct openlr_message before = given();
    now.open = 1;
    return returned(before, openlr_message_open(before), refusal);
}

/* The bytes of a length: its own value below 128, else the lower seven bits with the top bit, and then the higher ones. Gives how many they are. */
static uint32_t put_length(uint8_t *bytes, uint32_t length) {
    bytes[0] = (uint8_t)(length < 128 ? length : length % 128 + 128);
    if (length >= 128) bytes[1] = (uint8_t)(length / 128);
    return length < 128 ? 1 : 2;
}

/* Whether `count` more bytes make the open reference, or the message with it and its length, too long. */
static int is_too_long(size_t count) {
    size_t length = now.added + count, limit = now.room < 16384 ? now.room : 16384;
    return length > 459 || now.byte_count + (length < 128 ? 1 : 2) + length > limit;
}

static uint32_t add(const uint8_t *portion, size_t count) {
    uint32_t refusal = !now.open ? 27 : count > 0 && is_too_long(count) ? 28 : 0;
    struct openlr_message before = given();
    if (refusal == 0 && count > 0) {
        memcpy(now.reference + now.added, portion, count);
        now.added += (uint32_t)count;
        uint8_t *to = now.expected + GUARD_BYTES + now.byte_count;
        to += put_length(to, now.added);
        memcpy(to, now.reference, now.added);
    }
    return returned(before, openlr_message_add(before, buffer, now.room, portion, count), refusal);
}

static uint32_t add_some(size_t count) {
    return add(count == 0 ? NULL : portion_of(count), count);
}

static uint32_t close_one(void) {
    uint32_t refusal = !now.open || now.added == 0 ? 27 : 0;
    struct openlr_message before = given();
    if (refusal == 0) {
        now.parts[now.part_count].from = now.byte_count + (now.added < 128 ? 1 : 2);
        now.parts[now.part_count].byte_count = now.added;
        now.byte_count = now.parts[now.part_count].from + now.added;
        now.part_count++;
        now.open = now.added = 0;
    }
    return returned(before, openlr_message_close(before), refusal);
}

/* A whole reference of that many bytes. */
static void finish_one(size_t count) {
    EXPECT(open_one() == 0 && add_some(count) == 0 && close_one() == 0);
}

static int is_part(struct openlr_part part, uint32_t from, uint32_t byte_count) {
    return part.from == from && part.byte_count == byte_count;
}

/* These parts and no others are in the message, whose list stops at that byte. */
static void expect_list(const uint8_t *message, size_t length, const struct openlr_part *parts, uint32_t count, uint32_t stop) {
    const uint32_t none[] = {count, count + 1, 65536, 65536 + count, 0x80000000, UINT32_MAX};
    for (uint32_t n = 0; n < count; n++) EXPECT(is_part(openlr_message_reference(message, length, n), parts[n].from, parts[n].byte_count));
    for (size_t i = 0; i < COUNT_OF(none); i++) EXPECT(is_part(openlr_message_reference(message, length, none[i]), stop, 0));
}

/* Every finished reference is there, and the open one is not. */
static void expect_finished(void) {
    expect_list(before_fence(buffer, now.byte_count), now.byte_count, now.parts, now.part_count, now.byte_count);
}

/* Every order of so many calls: open, additions of 0, 1 and 3 bytes, close. In every small buffer. */
static void every_order(uint32_t call_count, size_t largest_left) {
    uint32_t orders = 1;
    for (uint32_t i = 0; i < call_count; i++) orders *= 5;
    for (size_t left = 0; left <= largest_left; left++) {
        begin(RIDGE_FRONT + left);
        for (uint32_t order = 0; order < orders; order++) {
            begin_again();
            for (uint32_t i = 0, rest = order; i < call_count; i++, rest /= 5) {
                static const size_t counts[] = {0, 1, 3};
                if (rest % 5 == 3) open_one();
                else if (rest % 5 == 4) close_one();
                else add_some(counts[rest % 5]);
            }
            expect_finished();
        }
    }
}

/* Any number but 0 says that one is open, and the number of the last refusal says nothing. */
static void odd_numbers(void) {
    static const uint32_t opens[] = {2, 256, 65536, 0x80000000, UINT32_MAX}, refusals[] = {27, 28, 1, UINT32_MAX, 256};
    for (size_t i = 0; i < COUNT_OF(opens); i++) {
        given_open = opens[i];
        given_refusal = refusals[i];
        every_order(4, 4);
    }
    given_open = 1;
    given_refusal = 0;
}

/* In every buffer up to one that is longer than the front by two bytes. What is known of a message before does not matter, and a started one goes on. */
static uint32_t start_in_each_room(struct map map) {
    static const struct openlr_message others[] = {{0, 0, 0, 0}, {0, 6, 1, 9}, {27, UINT32_MAX, UINT32_MAX, UINT32_MAX}};
    uint8_t front[MOST_FRONT_BYTES];
    uint32_t count = put_front(front, map.bytes, map.count);
    for (size_t room = 0; room <= count + 2; room++) {
        put_buffer(room);
        now.message = others[room % COUNT_OF(others)];
        EXPECT(start(map) == (map.refusal != 0 ? map.refusal : room < count ? 28 : 0));
        if (map.refusal != 0 || room < count) continue;
        EXPECT(now.message.byte_count == count && memcmp(buffer, front, count) == 0);
        expect_finished();
        EXPECT(open_one() == 0 && add_some(1) == (room == count + 2 ? 0 : 28) && close_one() == (room == count + 2 ? 0 : 27));
        expect_finished();
    }
    return count;
}

/* A map of that many bytes, 127 to 16,384: two nodes and lines between them, every other one the way back. The lengths and the steps take as many bytes as are
   needed, so that a line has 9 to 15. A map of over 15,000 bytes also has 300 bans of four bytes. */
static const uint8_t *map_of(size_t total) {
    static uint8_t map[OPENLR_LONGEST_MAP];
    const uint32_t bans = total > 15000 ? 300 : 0;
    const size_t others = 5 + 1 + (bans > 0 ? 2 + 4 * bans : 1), rest = total - others - (total > 2000 ? 1 : 0);
    const uint32_t lines = (uint32_t)((rest + 14) / 15);
    static const uint8_t nodes[] = {2, 0, 0, 100, 100};
    memcpy(map, nodes, sizeof nodes);
    uint8_t *at = map + sizeof nodes;
    at += put_number(at, lines);
    for (uint32_t i = 0; i < lines; i++) {
        uint32_t more = (uint32_t)(rest / lines - 9 + (i < rest % lines ? 1 : 0));
        static const uint32_t lengths[] = {100, 1000, 100000};
        *at++ = (uint8_t)(i % 2);
        *at++ = (uint8_t)(1 - i % 2);
        at += put_number(at, lengths[more < 2 ? more : 2] + i % 20);
        *at++ = 3;
        *at++ = 3;
        for (uint32_t step = 0; step < 4; step++) at += put_number(at, step + 2 < more ? 400 : 100);
    }
    at += put_number(at, bans);
    for (uint32_t i = 0; i < bans; i++) {
        at += put_number(at, 200 + i);
        at += put_number(at, 201 + i);
    }
    EXPECT((size_t)(at - map) == total);
    return map;
}

/* Fronts of two to eight bytes: byte counts of one to three, and sums of one to five. */
static void starts(void) {
    static const size_t counts[] = {127, 128, 16383, 16384};
    uint32_t seen[OPENLR_LONGEST_FRONT + 1] = {0};
    uint8_t front[MOST_FRONT_BYTES];
    EXPECT(put_front(front, ridge, sizeof ridge) == RIDGE_FRONT && memcmp(front, ridge_front, RIDGE_FRONT) == 0);
    EXPECT(start_in_each_room(whole_ridge) == RIDGE_FRONT);
    for (size_t i = 0; i < EDGE_MAPS; i++) {
        const struct map map = {edge_maps[i].bytes, EDGE_MAP_BYTES, 0};
        EXPECT(sum_of(map.bytes, map.count) == edge_maps[i].sum);
        seen[start_in_each_room(map)]++;
    }
    for (size_t i = 0; i < COUNT_OF(counts); i++) {
        const struct map map = {map_of(counts[i]), counts[i], 0};
        seen[start_in_each_room(map)]++;
    }
    for (uint32_t count = 2; count <= OPENLR_LONGEST_FRONT; count++) EXPECT(seen[count] > 0);
    put_buffer(LARGEST_ROOM);
    EXPECT(start(whole_ridge) == 0);
}

/* Maps that are refused, with room for a front and without, which is asked after the map. Every cut of the ridge ends early. */
static void starts_on_refused_maps(void) {
    uint8_t faulty[MOST_FAULTY_BYTES];
    for (size_t i = 0; i < FAULTS; i++) {
        size_t count = put_faulty_ridge(faulty, i);
        const struct map map = {faulty, count, faults[i].refusal};
        start_in_each_room(map);
    }
    for (size_t cut = 0; cut < sizeof ridge; cut++) {
        const struct map map = {ridge, cut, 2};
        put_buffer(cut % 10);
        EXPECT(start(map) == 2);
    }
}

/* Two are finished, and none is open, or one with nothing added yet, or one with some bytes. A start leaves a front alone, and the rest of the buffer as it
   was. A refused one leaves all, and the message goes on. */
static void starts_in_the_middle(void) {
    const struct map cut = {ridge, sizeof ridge - 1, 2}, shorter = {edge_maps[FIRST_OF_SUM_0].bytes, EDGE_MAP_BYTES, 0};
    for (int stage = 0; stage < 3; stage++)
        for (int refused = 0; refused < 2; refused++) {
            begin(200);
            finish_one(2);
            finish_one(130);
            if (stage > 0) EXPECT(open_one() == 0);
            if (stage > 1) EXPECT(add_some(40) == 0);
            if (refused) {
                EXPECT(start(cut) == 2 && now.part_count == 2 && now.byte_count == RIDGE_FRONT + 3 + 132);
                expect_finished();
                EXPECT(stage > 0 || open_one() == 0);
                EXPECT(add_some(3) == 0 && close_one() == 0 && now.part_count == 3);
            } else {
                EXPECT(start(shorter) == 0 && now.part_count == 0 && now.byte_count == 2 && close_one() == 27);
                expect_finished();
                EXPECT(add_some(1) == 27 && open_one() == 0 && add_some(127) == 0 && add_some(1) == 0 && close_one() == 0);
                EXPECT(start(whole_ridge) == 0 && start(whole_ridge) == 0 && now.byte_count == RIDGE_FRONT);
            }
            expect_finished();
        }
}

/* Calls of any kind in any order: starts for three maps, of which one may find no room, and for maps that are refused. */
static void any_calls(void) {
    const struct map maps[] = {whole_ridge, {edge_maps[FIRST_OF_SUM_0].bytes, EDGE_MAP_BYTES, 0}, {edge_maps[10].bytes, EDGE_MAP_BYTES, 0},
                               {ridge, sizeof ridge - 1, 2}, {ridge + 1, sizeof ridge - 1, 3}};
    uint32_t refused_starts[31] = {0};
    for (uint32_t history = 0; history < 2000; history++) {
        put_buffer(2 + next_number() % (history % 2 == 0 ? 12 : 300));
        EXPECT(start(maps[1]) == 0);
        for (uint32_t i = 0; i < 14; i++) {
            static const size_t counts[] = {0, 1, 3, 127, 128};
            uint32_t kind = next_number() % 10;
            if (kind < 2) refused_starts[start(maps[next_number() % COUNT_OF(maps)])]++;
            else if (kind < 5) open_one();
            else if (kind < 8) add_some(counts[next_number() % COUNT_OF(counts)]);
            else close_one();
            expect_finished();
        }
    }
    EXPECT(refused_starts[0] > 0 && refused_starts[2] > 0 && refused_starts[3] > 0 && refused_starts[28] > 0);
}

/* What is asked first: whether one is open (27), and then whether there is room (28). Nothing but 0 bytes is added to a full message. */
static void order_of_refusals(void) {
    begin(RIDGE_FRONT + 5);
    EXPECT(add_some(1) == 27 && add_some(0) == 27 && add_some(6) == 27 && add_some(460) == 27 && close_one() == 27);
    EXPECT(open_one() == 0 && open_one() == 27 && close_one() == 27 && add_some(0) == 0 && close_one() == 27);
    EXPECT(add_some(5) == 28 && add_some(460) == 28 && add_some(FENCED_BYTES) == 28 && close_one() == 27);
    EXPECT(add_some(1) == 0 && open_one() == 27 && add_some(4) == 28 && add_some(3) == 0 && add_some(1) == 28 && add_some(0) == 0);
    EXPECT(close_one() == 0 && now.message.byte_count == RIDGE_FRONT + 5 && close_one() == 27 && add_some(1) == 27);
    EXPECT(open_one() == 0 && add_some(0) == 0 && add_some(1) == 28 && close_one() == 27 && open_one() == 27);
    expect_finished();
}

/* How many bytes of one reference fit what is left of a buffer: with one byte for the length up to 127, with two from 128 on. */
static size_t bytes_that_fit(size_t left) {
    return left < 2 ? 0 : left <= 128 ? left - 1 : left == 129 ? 127 : left <= 461 ? left - 2 : 459;
}

/* The open reference of `count` bytes takes no byte more and no 459 more, is closed where it has one, and is found. */
static void expect_full(size_t count) {
    EXPECT(now.message.added == count && add_some(1) == 28 && add_some(459) == 28 && add_some(0) == 0);
    EXPECT(close_one() == (count == 0 ? 27 : 0));
    expect_finished();
}

/* In every buffer up to one that is longer than the longest reference, behind the front alone and behind a reference of two bytes: byte by byte, and each count
   at once. */
static void each_room(size_t before) {
    for (size_t left = 0; left <= 465; left++) {
        size_t fit = bytes_that_fit(left);
        begin(RIDGE_FRONT + left + (before == 0 ? 0 : 1 + before));
        for (size_t count = 0; count <= 465; count++) {
            begin_again();
            if (before > 0) finish_one(before);
            EXPECT(open_one() == 0 && add_some(count) == (count <= fit ? 0 : 28));
            EXPECT(now.message.added == (count <= fit ? count : 0) && close_one() == (count == 0 || count > fit ? 27 : 0));
        }
        begin_again();
        if (before > 0) finish_one(before);
        EXPECT(open_one() == 0);
        for (size_t count = 0; count < fit; count++) EXPECT(add_some(1) == 0);
        expect_full(fit);
    }
}

/* Each of these lengths in each two portions, the second of which may move the first. Then one more byte. */
static void two_portions(void) {
    static const size_t lengths[] = {2, 126, 127, 128, 129, 255, 256, 257, 383, 384, 458, 459};
    begin(500);
    for (size_t i = 0; i < COUNT_OF(lengths); i++)
        for (size_t first = 0; first <= lengths[i]; first++) {
            begin_again();
            finish_one(1);
            EXPECT(open_one() == 0 && add_some(first) == 0 && add_some(lengths[i] - first) == 0);
            EXPECT(add_some(1) == (lengths[i] == 459 ? 28 : 0) && add_some(459) == 28 && close_one() == 0);
            expect_finished();
        }
}

/* The bytes themselves behind the front: 127 of them behind 7F, and 128 and 129 behind 80 01 and 81 01, a place further. Then comes what stood there. */
static void bytes_at_128(void) {
    uint8_t bytes[129], *const at = buffer + RIDGE_FRONT;
    for (size_t i = 0; i < sizeof bytes; i++) bytes[i] = (uint8_t)(0xFF - i);
    begin(RIDGE_FRONT + 133);
    EXPECT(memcmp(buffer, ridge_front, RIDGE_FRONT) == 0 && open_one() == 0 && at[0] == RIDGE_FRONT);
    EXPECT(add(bytes, 127) == 0 && at[0] == 0x7F && memcmp(at + 1, bytes, 127) == 0 && at[128] == RIDGE_FRONT + 128 && at[129] == RIDGE_FRONT + 129);
    EXPECT(add(bytes + 127, 1) == 0 && at[0] == 0x80 && at[1] == 1 && memcmp(at + 2, bytes, 128) == 0 && at[130] == RIDGE_FRONT + 130);
    EXPECT(add(bytes + 128, 1) == 0 && at[0] == 0x81 && at[1] == 1 && memcmp(at + 2, bytes, 129) == 0 && at[131] == RIDGE_FRONT + 131);
    EXPECT(now.message.byte_count == RIDGE_FRONT && is_part(openlr_message_reference(buffer, RIDGE_FRONT, 0), RIDGE_FRONT, 0));
    EXPECT(close_one() == 0 && now.message.byte_count == RIDGE_FRONT + 131);
    EXPECT(is_part(openlr_message_reference(buffer, RIDGE_FRONT + 131, 0), RIDGE_FRONT + 2, 129));
}

/* 6 bytes of the front and 35 references of 459 bytes, 461 with their lengths, are 16,141 bytes of 16,384. */
enum { LONGEST_ONES = 35, LEFT_OF_LONGEST = 16384 - RIDGE_FRONT - LONGEST_ONES * 461 };

static void put_longest_ones(size_t room) {
    begin(room);
    for (int i = 0; i < LONGEST_ONES; i++) finish_one(459);
}

/* Buffers around 16,384 bytes: of a longer one no more are used. 243 bytes are left, or one or two less, of which the length takes two. */
static void longest_message(void) {
    static const size_t rooms[] = {16382, 16383, 16384, 16385, 16386, 20000};
    for (size_t i = 0; i < COUNT_OF(rooms); i++) {
        uint32_t used = rooms[i] < 16384 ? (uint32_t)rooms[i] : 16384;
        size_t fit = used - (16384 - LEFT_OF_LONGEST) - 2;
        put_longest_ones(rooms[i]);
        EXPECT(open_one() == 0 && add_some(fit + 1) == 28 && add_some(fit - 1) == 0 && add_some(2) == 28 && add_some(1) == 0);
        expect_full(fit);
        EXPECT(now.message.byte_count == used && open_one() == 0 && add_some(0) == 0 && add_some(1) == 28 && close_one() == 27);
        expect_list(before_fence(buffer, rooms[i]), rooms[i], now.parts, LONGEST_ONES + 1, used);
    }
}

/* What is left of 16,384 bytes is 125 to 131: byte by byte, in a longer buffer. With 129 left a byte stays free, since 128 bytes take 130. */
static void last_bytes_of_the_longest(void) {
    for (size_t left = 125; left <= 131; left++) {
        put_longest_ones(LARGEST_ROOM);
        finish_one(LEFT_OF_LONGEST - left - 1);
        EXPECT(now.message.byte_count == 16384 - left && open_one() == 0);
        for (size_t count = 0; count < bytes_that_fit(left); count++) EXPECT(add_some(1) == 0);
        expect_full(bytes_that_fit(left));
        EXPECT(now.message.byte_count == (left == 129 ? 16383 : 16384));
    }
}

/* As many references as there can be: behind the shortest front, of two bytes, 8,191 of one byte. */
static void most_references(void) {
    enum { MOST = (16384 - 2) / 2 };
    const struct map shortest = {edge_maps[FIRST_OF_SUM_0].bytes, EDGE_MAP_BYTES, 0};
    put_buffer(LARGEST_ROOM);
    EXPECT(start(shortest) == 0);
    for (int i = 0; i < MOST; i++) finish_one(1);
    EXPECT(now.message.byte_count == 16384 && open_one() == 0 && add_some(0) == 0 && add_some(1) == 28);
    expect_finished();
    EXPECT(is_part(openlr_message_reference(buffer, LARGEST_ROOM, MOST - 1), 16383, 1));
    EXPECT(is_part(openlr_message_reference(buffer, LARGEST_ROOM, MOST), 16384, 0));
}

/* A slice of no bytes may be NULL. */
static void null_slices(void) {
    struct openlr_message message = openlr_message_start(NULL, 0, NULL, 0);
    EXPECT(message.refusal == 2 && message.byte_count == 0 && message.open == 0 && message.added == 0);
    message = openlr_message_start(ridge, sizeof ridge, NULL, 0);
    EXPECT(message.refusal == 28 && message.byte_count == 0 && message.open == 0 && message.added == 0);
    begin(100);
    message = openlr_message_start(NULL, 0, buffer, now.room);
    EXPECT(message.refusal == 2 && message.byte_count == 0 && memcmp(now.memory, now.expected, sizeof now.memory) == 0);
    EXPECT(add(NULL, 0) == 27 && open_one() == 0 && add(NULL, 0) == 0);
    message = openlr_message_add(message, NULL, 0, NULL, 0);
    message = openlr_message_add(now.message, NULL, 0, portion_of(1), 1);
    EXPECT(is_part(openlr_message_reference(NULL, 0, 0), 0, 0) && is_part(openlr_message_reference(NULL, 0, UINT32_MAX), 0, 0));
}

/* A seven-bit number at a place of a received message, in its shortest form and of 32 bits. Gives how many bytes it has, 0 for any other. */
static uint32_t number_at(const uint8_t *message, size_t end, size_t at) {
    uint64_t number = 0;
    for (uint32_t count = 0; count < 5 && at + count < end; count++) {
        uint8_t byte = message[at + count];
        number += (uint64_t)(byte % 128) << 7 * count;
        if (byte < 128) return (count > 0 && byte == 0) || number > 4294967295 ? 0 : count + 1;
    }
    return 0;
}

/* How many bytes the front of a received message has. 0 where it cannot be read. */
static uint32_t front_bytes(const uint8_t *message, size_t end) {
    uint32_t count = number_at(message, end, 0), sum = count == 0 ? 0 : number_at(message, end, count);
    return sum == 0 ? 0 : count + sum;
}

/* The length at a place of a received message, and how many bytes it has itself: 1 to 127 in one byte, 128 to 459 in two, of which the second is 1 to 3. Gives
   0 for any other, which is a faulty number, 0, one over 459 or an early end. */
static uint32_t length_at(const uint8_t *message, size_t end, size_t at, uint32_t *itself) {
    *itself = 1;
    if (at >= end || message[at] < 128) return at >= end ? 0 : message[at];
    *itself = 2;
    uint32_t length = at + 1 >= end ? 0 : message[at] - 128u + 128u * message[at + 1];
    return length < 128 || length > 459 ? 0 : length;
}

/* What a received message must be taken for: reads it from its start, and then asks. Gives how many references there are. */
static uint32_t expect_received(const uint8_t *message, size_t length) {
    static struct openlr_part parts[MOST_PARTS];
    size_t end = length < 16384 ? length : 16384;
    uint32_t count = 0, stop = front_bytes(message, end), itself;
    while (stop != 0) {
        uint32_t byte_count = length_at(message, end, stop, &itself);
        if (byte_count == 0 || stop + itself + byte_count > end) break;
        parts[count].from = stop + itself;
        parts[count++].byte_count = byte_count;
        stop += itself + byte_count;
    }
    expect_list(message, length, parts, count, stop);
    return count;
}

/* A message with lengths of one byte and of two, cut at every byte, and with each byte changed to every value. */
static void cut_and_changed(void) {
    static const size_t lengths[] = {1, 127, 128, 3, 459, 2};
    begin(1000);
    for (size_t i = 0; i < COUNT_OF(lengths); i++) finish_one(lengths[i]);
    size_t whole = now.byte_count;
    EXPECT(whole == RIDGE_FRONT + 2 + 128 + 130 + 4 + 461 + 3);
    for (size_t cut = 0, listed = 0; cut <= whole; cut++) {
        if (listed < now.part_count && cut == now.parts[listed].from + now.parts[listed].byte_count) listed++;
        EXPECT(expect_received(before_fence(buffer, cut), cut) == listed);
    }
    uint8_t *received = before_fence(buffer, whole);
    for (size_t at = 0; at < whole; at++) {
        for (unsigned value = 0; value < 256; value++) {
            received[at] = (uint8_t)value;
            expect_received(received, whole);
        }
        received[at] = buffer[at];
    }
    EXPECT(expect_received(received, whole) == COUNT_OF(lengths));
}

/* Every first two bytes behind a front, and zeros, ones or top bits behind them. */
static void every_length(void) {
    static const uint8_t rest[] = {0x00, 0x01, 0x80, 0x81};
    uint8_t *received = fenced + FENCED_BYTES - RIDGE_FRONT - 470, *at = received + RIDGE_FRONT;
    memcpy(received, ridge_front, RIDGE_FRONT);
    for (size_t i = 0; i < sizeof rest; i++) {
        memset(at, rest[i], 470);
        for (unsigned first = 0; first < 256; first++)
            for (unsigned second = 0; second < 256; second++) {
                at[0] = (uint8_t)first;
                at[1] = (uint8_t)second;
                unsigned length = first < 128 ? first : second < 128 && first - 128 + 128 * second >= 128 ? first - 128 + 128 * second : 0;
                uint32_t expected = length > 459 ? 0 : length, itself = expected == 0 ? 0 : first < 128 ? 1 : 2;
                EXPECT(is_part(openlr_message_reference(received, RIDGE_FRONT + 470, 0), RIDGE_FRONT + itself, expected));
            }
    }
}

/* Every first two bytes of a message, and the same bytes behind them, to the end of a message of 1 to 12 bytes. */
static void every_front(void) {
    static const uint8_t rest[] = {0x00, 0x01, 0x02, 0x0F, 0x10, 0x80, 0xFF};
    for (size_t i = 0; i < sizeof rest; i++)
        for (size_t length = 2; length <= 12; length += 2) {
            uint8_t *received = fenced + FENCED_BYTES - length;
            memset(received, rest[i], length);
            for (unsigned both = 0; both < 65536; both++) {
                received[0] = (uint8_t)both;
                received[1] = (uint8_t)(both >> 8);
                expect_received(received, length);
            }
        }
}

/* A number of a front: its bytes, and whether it can be read. */
static const struct number {
    size_t count;
    uint8_t bytes[10];
    int readable;
} numbers[] = {
    {1, {0x00}, 1}, {1, {0x01}, 1}, {1, {0x7F}, 1}, {2, {0x80, 0x01}, 1}, {2, {0xFF, 0x7F}, 1}, {3, {0x80, 0x80, 0x01}, 1},
    {5, {0xFA, 0xFF, 0xFF, 0xFF, 0x0F}, 1}, {5, {0xFB, 0xFF, 0xFF, 0xFF, 0x0F}, 1},             /* 4,294,967,290 and 4,294,967,291, which is no sum */
    {5, {0xFF, 0xFF, 0xFF, 0xFF, 0x0F}, 1}, {5, {0x80, 0x80, 0x80, 0x80, 0x01}, 1},             /* 4,294,967,295 and 268,435,456 */
    {2, {0x80, 0x00}, 0}, {2, {0xD6, 0x00}, 0}, {2, {0xFF, 0x00}, 0}, {3, {0x80, 0x81, 0x00}, 0}, /* not in their shortest form */
    {4, {0xFF, 0xFF, 0xFF, 0x00}, 0}, {5, {0x81, 0x80, 0x80, 0x80, 0x00}, 0}, {6, {0xFF, 0xFF, 0xFF, 0xFF, 0x8F, 0x00}, 0},
    {5, {0x80, 0x80, 0x80, 0x80, 0x10}, 0}, {5, {0xD6, 0x80, 0x80, 0x80, 0x10}, 0},             /* more than 32 bits hold */
    {5, {0xFF, 0xFF, 0xFF, 0xFF, 0x1F}, 0}, {5, {0xFF, 0xFF, 0xFF, 0xFF, 0x7F}, 0}, {6, {0x81, 0x80, 0x80, 0x80, 0x80, 0x01}, 0},
    {10, {0xD6, 0x80, 0x80, 0x80, 0x80, 0x80, 0x80, 0x80, 0x80, 0x02}, 0},
};

/* Fronts of two such numbers, and references of one, two and three bytes behind them, cut at every byte. Where the front can be read, the list stops where what
   was cut starts; else it is empty and stops at 0. */
static void fronts_of_a_list(void) {
    static const uint8_t references[] = {1, 0xAA, 2, 0xBB, 0xBB, 3, 0xCC, 0xCC, 0xCC};
    static const uint32_t ends[] = {2, 5, 9};
    for (size_t i = 0; i < COUNT_OF(numbers) * COUNT_OF(numbers); i++) {
        const struct number *first = numbers + i % COUNT_OF(numbers), *second = numbers + i / COUNT_OF(numbers);
        uint8_t message[20 + sizeof references];
        const uint32_t front = (uint32_t)(first->count + second->count);
        memcpy(message, first->bytes, first->count);
        memcpy(message + first->count, second->bytes, second->count);
        memcpy(message + front, references, sizeof references);
        for (uint32_t cut = 0; cut <= front + sizeof references; cut++) {
            struct openlr_part parts[COUNT_OF(ends)];
            uint32_t count = 0;
            if (!first->readable || !second->readable || cut < front) {
                expect_list(before_fence(message, cut), cut, NULL, 0, 0);
                continue;
            }
            for (; count < COUNT_OF(ends) && cut >= front + ends[count]; count++) {
                parts[count].byte_count = count + 1;
                parts[count].from = front + ends[count] - parts[count].byte_count;
            }
            expect_list(before_fence(message, cut), cut, parts, count, front + (count == 0 ? 0 : ends[count - 1]));
        }
    }
}

/* Faulty lengths, 0, and lengths over 459, each behind a reference of one byte and before many more bytes. The list stops there. */
static void faulty_lengths(void) {
    static const uint8_t faulty[][12] = {
        {0x00, 0x01},                                                             /* 0 */
        {0x80, 0x00}, {0x81, 0x00}, {0xFF, 0x00}, {0x81, 0x80, 0x00},             /* not in their shortest form */
        {0xCC, 0x03}, {0x80, 0x04}, {0xFF, 0x7F}, {0x80, 0x80, 0x01},             /* 460, 512, 16,383, 16,384 */
        {0xFF, 0xFF, 0xFF, 0xFF, 0x0F},                                           /* 4,294,967,295 */
        {0x81, 0x80, 0x80, 0x80, 0x10}, {0x81, 0x80, 0x80, 0x80, 0x90, 0x00},     /* 1 more than what 32 bits hold, once not in its shortest form */
        {0x81, 0x80, 0x80, 0x80, 0x80, 0x01}, {0x81, 0x80, 0x80, 0x80, 0x80, 0x80, 0x80, 0x80, 0x80, 0x02}, /* 1 more than 35 bits and 64 bits hold */
    };
    for (size_t i = 0; i < COUNT_OF(faulty); i++) {
        uint8_t message[600];
        memset(message, 1, sizeof message);
        memcpy(message, ridge_front, RIDGE_FRONT);
        memcpy(message + RIDGE_FRONT + 2, faulty[i], sizeof faulty[i]);
        const struct openlr_part only = {RIDGE_FRONT + 1, 1};
        expect_list(before_fence(message, sizeof message), sizeof message, &only, 1, RIDGE_FRONT + 2);
    }
    memset(fenced, 0x80, FENCED_BYTES);
    expect_list(fenced, FENCED_BYTES, NULL, 0, 0);
}

/* A received message of more than 16,384 bytes is cut there. Its last reference ends with byte 16,383, or one or two later, which is an early end. */
static void received_past_the_longest(void) {
    for (size_t over = 0; over <= 2; over++) {
        put_longest_ones(LARGEST_ROOM);
        uint8_t *at = buffer + now.byte_count;
        memset(put_length(at, (uint32_t)(LEFT_OF_LONGEST - 2 + over)) + at, 1, LARGEST_ROOM - now.byte_count - 2);
        for (size_t length = 16380; length <= 16390; length++) {
            uint32_t listed = over == 0 && length >= 16384 ? LONGEST_ONES + 1 : LONGEST_ONES;
            EXPECT(expect_received(before_fence(buffer, length), length) == listed);
        }
    }
}

/* More bytes than 32 bits count, in the buffer, the portion or the received message. */
static void over_32_bits(void) {
    const size_t large = ((size_t)1 << 32) + 1;
    uint8_t *memory = mmap(NULL, large, PROT_READ | PROT_WRITE, MAP_PRIVATE | MAP_ANONYMOUS | MAP_NORESERVE, -1, 0), small[8] = {0};
    EXPECT(memory != MAP_FAILED);
    struct openlr_message message = openlr_message_start(memory, large, small, sizeof small);
    EXPECT(message.refusal == 3 && message.byte_count == 0 && small[0] == 0);
    memcpy(memory, ridge, sizeof ridge);
    message = openlr_message_start(memory, large, small, sizeof small);
    EXPECT(message.refusal == 2 && message.byte_count == 0 && small[0] == 0);
    message = openlr_message_open(openlr_message_start(ridge, sizeof ridge, small, sizeof small));
    EXPECT(message.refusal == 0 && message.byte_count == RIDGE_FRONT);
    message = openlr_message_add(message, small, sizeof small, memory, large);
    EXPECT(message.refusal == 28 && message.open == 1 && message.added == 0 && small[RIDGE_FRONT] == 0);
    message = openlr_message_add(message, small, sizeof small, memory, large - 1);
    EXPECT(message.refusal == 28 && message.open == 1 && message.added == 0 && small[RIDGE_FRONT] == 0);
    memset(memory, 0, sizeof ridge);
    message = openlr_message_start(ridge, sizeof ridge, memory, large - 1);
    EXPECT(message.refusal == 0 && message.byte_count == RIDGE_FRONT && memcmp(memory, ridge_front, RIDGE_FRONT) == 0 && memory[RIDGE_FRONT] == 0);
    message = openlr_message_add(openlr_message_open(message), memory, large - 1, portion_of(2), 2);
    EXPECT(message.refusal == 0 && message.open == 1 && message.added == 2 && memory[RIDGE_FRONT] == 2);
    EXPECT(is_part(openlr_message_reference(memory, large, 0), RIDGE_FRONT + 1, 2));
    EXPECT(is_part(openlr_message_reference(memory, large, 1), RIDGE_FRONT + 3, 0));
    EXPECT(munmap(memory, large) == 0);
}

/* A call with a message of made-up numbers: it returns, leaves what lies outside of the buffer, and leaves the finished bytes. */
static struct openlr_message add_to_made_up(struct openlr_message message, size_t count) {
    size_t finished = message.byte_count < now.room ? message.byte_count : now.room;
    memcpy(now.expected, now.memory, sizeof now.memory);
    struct openlr_message after = openlr_message_add(message, buffer, now.room, portion_of(count), count);
    EXPECT(memcmp(now.memory, now.expected, GUARD_BYTES + finished) == 0);
    EXPECT(memcmp(buffer + now.room, now.expected + GUARD_BYTES + now.room, GUARD_BYTES) == 0);
    return after;
}

/* Messages that no calls make, at the edges of every number, and what calls make of them. */
static void made_up(void) {
    static const uint32_t numbers[] = {0, 1, 2, 127, 128, 129, 458, 459, 460, 461, 16382, 16383, 16384, 16385, 65535, 65536,
                                       0x7FFFFFFF, 0x80000000, UINT32_MAX - 459, UINT32_MAX - 1, UINT32_MAX};
    static const uint32_t opens[] = {0, 1, 2, UINT32_MAX};
    static const size_t rooms[] = {0, 1, 2, 3, 129, 130, 461, 700, 16384, 16500}, counts[] = {0, 1, 2, 128, 459, 460};
    enum { NUMBERS = COUNT_OF(numbers), STATES = NUMBERS * NUMBERS * COUNT_OF(opens) };
    for (size_t i = 0; i < COUNT_OF(rooms); i++) {
        put_buffer(rooms[i]);
        for (size_t k = 0; k < STATES * COUNT_OF(counts); k++) {
            size_t state = k % STATES, count = counts[k / STATES];
            const struct openlr_message message = {0, numbers[state % NUMBERS], opens[state / NUMBERS / NUMBERS], numbers[state / NUMBERS % NUMBERS]};
            struct openlr_message after = add_to_made_up(message, count);
            add_to_made_up(openlr_message_open(openlr_message_close(after)), count);
            add_to_made_up(openlr_message_close(openlr_message_open(message)), count);
        }
    }
}

/* What the box received last. */
static uint8_t received[OPENLR_LONGEST_MESSAGE];
static size_t received_len;

static void send_to_box(const uint8_t *bytes, uint32_t count) {
    memcpy(received, bytes, count);
    received_len = count;
}

/* What the box drove along: the first lines, and how often it drove. How often it asked for the map. */
static uint8_t driven[64];
static uint32_t driven_lines, times_driven, times_asked;

static void drive_along(const uint8_t *line_buffer, uint32_t line_count) {
    for (uint32_t i = 0; i < line_count && driven_lines < sizeof driven; i++) driven[driven_lines++] = line_buffer[4 * i];
    times_driven++;
}

static void ask_for_the_map_of_the_office(void) {
    times_asked++;
}

/* What the header shows: the office's loop, here on the ridge .. */
static void office(const uint8_t *const *stretch, const size_t *stretch_len, size_t stretch_count) {
    const uint8_t *map = ridge;
    const size_t map_len = sizeof ridge;
    uint8_t buffer[OPENLR_LONGEST_MESSAGE], bytes[OPENLR_LONGEST_REFERENCE];
    struct openlr_message message = openlr_message_start(map, map_len, buffer, sizeof buffer);
    if (message.refusal != 0) return;
    for (size_t i = 0; i < stretch_count; i++) {
        struct openlr_written a = openlr_write(map, map_len, stretch[i], stretch_len[i], 0, 0, OPENLR_MOST_TESTS, bytes, sizeof bytes);
        if (a.refusal != 0) continue;
        message = openlr_message_open(message);
        message = openlr_message_add(message, buffer, sizeof buffer, bytes, a.byte_count);
        if (message.refusal != 0) break;
        message = openlr_message_close(message);
    }
    send_to_box(buffer, message.byte_count);
}

/* .. and the box's. */
static void box(const uint8_t *map, size_t map_len) {
    uint8_t line_buffer[4 * OPENLR_MOST_LINES];
    driven_lines = times_driven = times_asked = 0;
    for (uint32_t n = 0;; n++) {
        struct openlr_part part = openlr_message_reference(received, received_len, n);
        if (part.byte_count == 0) break;
        struct openlr_reading a = openlr_read_of_message(map, map_len, received, received_len, received + part.from, part.byte_count, line_buffer,
                                                         sizeof line_buffer);
        if (a.refusal == OPENLR_OTHER_MAP) {
            ask_for_the_map_of_the_office();
            break;
        }
        if (a.refusal == 0) drive_along(line_buffer, a.line_count);
    }
}

static void expect_driven(uint32_t times, const uint8_t *lines, uint32_t line_count) {
    box(ridge, sizeof ridge);
    EXPECT(times_asked == 0 && times_driven == times && driven_lines == line_count && memcmp(driven, lines, line_count) == 0);
}

/* Lines 0 and 1; 1 and 0, which do not join and are left out; 2 and 3; 0 alone. 23, 16 and 16 bytes (17, 10 and 10), behind the front. A box with another map,
   longer by a ban or with one length in place of another, drives nowhere and asks for the office's. Then without the status of the second, byte 31, which the
   box passes over. Then with another sum, with which it asks. */
static void morning(void) {
    static const uint8_t straight[] = {0, 0, 0, 0, 1, 0, 0, 0}, gap[] = {1, 0, 0, 0, 0, 0, 0, 0}, ridgeway[] = {2, 0, 0, 0, 3, 0, 0, 0}, lone[] = {0, 0, 0, 0};
    static const uint8_t *const stretch[] = {straight, gap, ridgeway, lone};
    static const size_t stretch_len[] = {sizeof straight, sizeof gap, sizeof ridgeway, sizeof lone};
    static const uint8_t expected[] = {0x56, 0xDC, 0xA9, 0xA1, 0x95, 0x03,
                                       0x17, 0x0B, 0, 0, 0, 0, 0, 0, 0x1B, 0x68, 0x01, 0x03, 0xE8, 0, 0, 0x1B, 0x68, 0x01, 0x03, 0xE8, 0, 0, 0x1B, 0x18,
                                       0x10, 0x0B, 0, 0x01, 0xD2, 0, 0, 0, 0x1B, 0x60, 0x01, 0x03, 0xE8, 0, 0, 0x1B, 0x18,
                                       0x10, 0x0B, 0, 0, 0, 0, 0, 0, 0x1B, 0x68, 0x01, 0x03, 0xE8, 0, 0, 0x1B, 0x18};
    static const uint8_t all[] = {0, 1, 2, 3, 0}, without_second[] = {0, 1, 0};
    uint8_t banned[BANNED_RIDGE_BYTES], longer[sizeof ridge];
    put_banned_ridge(banned, 0, 2);
    put_ridge_with_step(longer, LENGTH_2, 5001);
    office(stretch, stretch_len, COUNT_OF(stretch));
    EXPECT(received_len == sizeof expected && memcmp(received, expected, sizeof expected) == 0);
    expect_driven(3, all, sizeof all);
    box(banned, sizeof banned);
    EXPECT(times_asked == 1 && times_driven == 0);
    box(longer, sizeof longer);
    EXPECT(times_asked == 1 && times_driven == 0);
    received[31] = 0;
    expect_driven(2, without_second, sizeof without_second);
    received[1]++;
    box(ridge, sizeof ridge);
    EXPECT(times_asked == 1 && times_driven == 0);
    office(NULL, NULL, 0);
    EXPECT(received_len == RIDGE_FRONT && memcmp(received, ridge_front, RIDGE_FRONT) == 0);
    expect_driven(0, all, 0);
}

/* 1,000 times line 0, 17 bytes each: with the front 963 of them are 16,377 bytes, and one more would be 16,394. The office does not send what it opened in
   vain. */
static void long_morning(void) {
    static const uint8_t lone[] = {0, 0, 0, 0};
    const uint8_t *stretch[1000];
    size_t stretch_len[COUNT_OF(stretch)];
    for (size_t i = 0; i < COUNT_OF(stretch); i++) {
        stretch[i] = lone;
        stretch_len[i] = sizeof lone;
    }
    office(stretch, stretch_len, COUNT_OF(stretch));
    box(ridge, sizeof ridge);
    EXPECT(received_len == RIDGE_FRONT + 963 * 17 && times_driven == 963);
}

int main(void) {
    put_up_fence();
    every_order(6, 9);
    odd_numbers();
    starts();
    starts_on_refused_maps();
    starts_in_the_middle();
    any_calls();
    order_of_refusals();
    each_room(0);
    each_room(2);
    two_portions();
    bytes_at_128();
    longest_message();
    last_bytes_of_the_longest();
    most_references();
    null_slices();
    cut_and_changed();
    every_length();
    every_front();
    fronts_of_a_list();
    faulty_lengths();
    received_past_the_longest();
    over_32_bits();
    made_up();
    morning();
    long_morning();
    puts("messages: as a C program expects");
    return 0;
}
