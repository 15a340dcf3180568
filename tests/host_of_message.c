/* The readers of references out of a message as a C program sees them: whose map the front is, when that is asked, and that all else is as in the readers of
   references by themselves. What is expected is worked out from the papers. */
#define _DEFAULT_SOURCE
#include "front.h"

#include <sys/mman.h>

#define COUNT_OF(list) (sizeof(list) / sizeof(list)[0])

enum { UNTOUCHED = 0xEE, GUARD = 0x55, FENCED_BYTES = 20480, FENCES = 3, LINES_BYTES = 64, ANSWER_NUMBERS = 7 };

_Static_assert(sizeof(struct openlr_reading) == 4 * ANSWER_NUMBERS && sizeof(struct openlr_point) == 4 * ANSWER_NUMBERS, "each is its numbers alone");

/* Memory for the map, the message and the reference, with memory behind each that must not be touched. */
static uint8_t *fenced[FENCES];

static void put_up_fences(void) {
    for (int i = 0; i < FENCES; i++) {
        fenced[i] = mmap(NULL, 2 * FENCED_BYTES, PROT_READ | PROT_WRITE, MAP_PRIVATE | MAP_ANONYMOUS, -1, 0);
        EXPECT(fenced[i] != MAP_FAILED && mprotect(fenced[i] + FENCED_BYTES, FENCED_BYTES, PROT_NONE) == 0);
    }
}

struct bytes {
    const uint8_t *at;
    size_t count;
};

#define BYTES_OF(list) ((struct bytes){list, sizeof(list)})

static const struct bytes nothing = {NULL, 0}, whole_ridge = {ridge, sizeof ridge}, right_front = {ridge_front, sizeof ridge_front};

/* The bytes once more, right before a fence. */
static struct bytes before_fence(int fence, struct bytes given) {
    struct bytes copy = {fenced[fence] + FENCED_BYTES - given.count, given.count};
    EXPECT(given.count <= FENCED_BYTES);
    if (given.count > 0) memcpy(fenced[fence] + FENCED_BYTES - given.count, given.at, given.count);
    return copy;
}

/* Which reader: of stretches or of points. */
enum kind { STRETCH, POINT, KINDS };

/* What a reader answers: its numbers in the order in which they stand, the refusal and the place first; and all of the line buffer. */
struct answer {
    uint32_t numbers[ANSWER_NUMBERS];
    uint8_t lines[LINES_BYTES + 1];
};

static struct answer by_itself(enum kind kind, struct bytes map, struct bytes reference, size_t room) {
    struct answer a;
    memset(a.lines, UNTOUCHED, room);
    memset(a.lines + room, GUARD, sizeof a.lines - room);
    if (kind == STRETCH) {
        struct openlr_reading read = openlr_read(map.at, map.count, reference.at, reference.count, a.lines, room);
        memcpy(a.numbers, &read, sizeof a.numbers);
    } else {
        struct openlr_point read = openlr_read_point(map.at, map.count, reference.at, reference.count, a.lines, room);
        memcpy(a.numbers, &read, sizeof a.numbers);
    }
    return a;
}

static struct answer out_of(enum kind kind, struct bytes message, struct bytes map, struct bytes reference, size_t room) {
    struct answer a;
    memset(a.lines, UNTOUCHED, room);
    memset(a.lines + room, GUARD, sizeof a.lines - room);
    map = before_fence(0, map);
    message = before_fence(1, message);
    reference = before_fence(2, reference);
    if (kind == STRETCH) {
        struct openlr_reading read =
            openlr_read_of_message(map.at, map.count, message.at, message.count, reference.at, reference.count, a.lines, room);
        memcpy(a.numbers, &read, sizeof a.numbers);
    } else {
        struct openlr_point read =
            openlr_read_point_of_message(map.at, map.count, message.at, message.count, reference.at, reference.count, a.lines, room);
        memcpy(a.numbers, &read, sizeof a.numbers);
    }
    return a;
}

/* Refused with that number, without a place, and nothing is written. */
static int is_refused(struct answer a, uint32_t refusal, size_t room) {
    for (int i = 0; i < ANSWER_NUMBERS; i++)
        if (a.numbers[i] != (i == 0 ? refusal : 0)) return 0;
    for (size_t i = 0; i < sizeof a.lines; i++)
        if (a.lines[i] != (i < room ? UNTOUCHED : GUARD)) return 0;
    return 1;
}

static int is_same(struct answer a, struct answer b) {
    return memcmp(a.numbers, b.numbers, sizeof a.numbers) == 0 && memcmp(a.lines, b.lines, sizeof a.lines) == 0;
}

/* Whether a message with no reference is of that map: then 12 comes next. */
static int is_of_map(struct bytes message, struct bytes map) {
    struct answer a = out_of(STRETCH, message, map, nothing, 8), b = out_of(POINT, message, map, nothing, 8);
    EXPECT(a.numbers[0] == b.numbers[0] && (is_refused(a, 12, 8) || is_refused(a, 30, 8)) && is_same(a, b));
    return a.numbers[0] == 12;
}

/* Lines 0 and 1 with both offsets, of which 80 is 4981 to 5019 and 40 is 2481 to 2519 (tests/host_read.c); the hydrant of tests/host_point.c, with another
   orientation and side; and what is refused with 13 to 18. */
static const uint8_t both_offsets[] = {0x0B, 0, 0, 0, 0, 0, 0, 0x1B, 0x68, 0x01, 0x03, 0xE8, 0, 0, 0x1B, 0x68, 0x01, 0x03, 0xE8, 0, 0, 0x1B, 0x78, 0x80, 0x40};
static const uint8_t hydrant[] = {0x2B, 0, 0x01, 0xD2, 0, 0, 0, 0xDB, 0x60, 0, 0, 0, 0x03, 0xE8, 0x9B, 0x50, 0x3D};
static const struct {
    uint32_t refusal, place;
    uint8_t bytes[16];
} refused[] = {
    {13, 0, {0x0A, 0, 0, 0, 0, 0, 0, 0x1B, 0x68, 0x03, 0x07, 0xD0, 0, 0, 0x1B, 0x18}},
    {14, 0, {0x0B, 0, 0, 0, 0, 0, 0, 0x1B, 0x68, 0x03, 0x07, 0xD0, 0, 0, 0x1B, 0x98}},
    {15, 0, {0x0B, 0, 0, 0, 0, 0, 0, 0x1B, 0x68, 0x03, 0x07, 0xD0, 0, 0, 0x1B, 0x58}},
    {16, 1, {0x0B, 0, 0, 0, 0, 0, 0, 0x1B, 0x68, 0x03, 0x07, 0xD1, 0, 0, 0x1B, 0x18}},
    {17, 0, {0x0B, 0, 0, 0, 0, 0, 0, 0x1B, 0x68, 0x04, 0x07, 0xD0, 0, 0, 0x1B, 0x18}},
    {18, 0, {0x0B, 0, 0, 0, 0, 0, 0, 0x1B, 0x68, 0x03, 0x07, 0xD0, 0, 0, 0x1B, 0x18}},
};

/* Both readers refuse with that number, whatever the reference and the room are. */
static void expect_refused(struct bytes message, struct bytes map, uint32_t refusal) {
    static const size_t rooms[] = {0, 3, 8, LINES_BYTES};
    const struct bytes references[] = {nothing, BYTES_OF(both_offsets), BYTES_OF(hydrant), BYTES_OF(refused[0].bytes), BYTES_OF(refused[3].bytes),
                                       BYTES_OF(refused[5].bytes)};
    for (int kind = 0; kind < KINDS; kind++)
        for (size_t i = 0; i < COUNT_OF(references); i++)
            for (size_t k = 0; k < COUNT_OF(rooms); k++) EXPECT(is_refused(out_of(kind, message, map, references[i], rooms[k]), refusal, rooms[k]));
}

/* As many bytes of a message as are asked for: the ridge's front, and behind it what is no list. */
static struct bytes message_of(size_t count) {
    static uint8_t message[FENCED_BYTES];
    memset(message, 0x80, sizeof message);
    memcpy(message, ridge_front, sizeof ridge_front);
    return (struct bytes){message, count};
}

/* With the right front the answer and the buffer are those of the reader of a reference by itself, in buffers from none up: the front alone is enough, and what
   stands behind it does not matter, nor that the reference does not lie in the message. */
static void as_by_itself(void) {
    static const size_t counts[] = {RIDGE_FRONT, RIDGE_FRONT + 1, 100, 16384, 16385, FENCED_BYTES};
    static const struct answer expected[KINDS] = {{{0, 0, 2, 4981, 5019, 2481, 2519}, {0, 0, 0, 0, 1, 0, 0, 0}}, {{0, 0, 1, 1182, 1201, 3, 2}, {2, 0, 0, 0}}};
    for (int kind = 0; kind < KINDS; kind++)
        for (size_t i = 0; i < COUNT_OF(counts); i++)
            for (size_t room = 0; room <= 19; room++) {
                const struct bytes good = kind == STRETCH ? BYTES_OF(both_offsets) : BYTES_OF(hydrant);
                size_t lines = 4 * expected[kind].numbers[2];
                struct answer a = out_of(kind, message_of(counts[i]), whole_ridge, good, room);
                if (room < lines) {
                    EXPECT(is_refused(a, 20, room));
                } else {
                    EXPECT(memcmp(a.numbers, expected[kind].numbers, sizeof a.numbers) == 0 && memcmp(a.lines, expected[kind].lines, lines) == 0);
                    EXPECT(is_same(a, by_itself(kind, whole_ridge, good, room)));
                }
            }
}

/* Each refusal of a reference, with its place. The hydrant's bytes for the reader of stretches, and a stretch's for that of points. */
static void refused_references(void) {
    for (size_t i = 0; i < COUNT_OF(refused); i++) {
        uint8_t bytes[16];
        memcpy(bytes, refused[i].bytes, sizeof bytes);
        for (int kind = 0; kind < KINDS; kind++) {
            if (kind == POINT) bytes[0] = (uint8_t)(bytes[0] + 0x20);
            struct answer a = out_of(kind, right_front, whole_ridge, BYTES_OF(bytes), 16);
            EXPECT(a.numbers[0] == refused[i].refusal && a.numbers[1] == refused[i].place);
            EXPECT(is_same(a, by_itself(kind, whole_ridge, BYTES_OF(bytes), 16)));
        }
    }
    for (size_t count = 0; count <= sizeof both_offsets; count++) {
        const struct bytes cut = {both_offsets, count};
        for (int kind = 0; kind < KINDS; kind++)
            EXPECT(is_same(out_of(kind, right_front, whole_ridge, cut, 16), by_itself(kind, whole_ridge, cut, 16)));
    }
    EXPECT(is_refused(out_of(STRETCH, right_front, whole_ridge, nothing, 16), 12, 16));
    EXPECT(is_refused(out_of(POINT, right_front, whole_ridge, nothing, 16), 12, 16));
    EXPECT(is_refused(out_of(STRETCH, right_front, whole_ridge, BYTES_OF(hydrant), 16), 13, 16));
    EXPECT(is_refused(out_of(POINT, right_front, whole_ridge, BYTES_OF(both_offsets), 16), 12, 16));
}

/* On a ridge where the turn from line 0 into line 1 is banned, 22; and on a short line 0, of 100, 19 since no offset gives byte 1. The front must be theirs. */
static void refusals_on_other_maps(void) {
    static const uint8_t offset_1[] = {0x0B, 0, 0, 0, 0, 0, 0, 0x1B, 0x68, 0x00, 0x03, 0xE8, 0, 0, 0x1B, 0x58, 0x01};
    uint8_t banned[BANNED_RIDGE_BYTES], shorter[LONG_RIDGE_BYTES - 2], front[MOST_FRONT_BYTES];
    put_banned_ridge(banned, 0, 1);
    struct bytes message = {front, put_front(front, banned, sizeof banned)};
    EXPECT(is_refused(out_of(STRETCH, message, BYTES_OF(banned), BYTES_OF(both_offsets), 16), 22, 16));
    EXPECT(is_refused(out_of(STRETCH, right_front, BYTES_OF(banned), BYTES_OF(both_offsets), 16), 30, 16));
    memcpy(shorter, ridge, LENGTH_0);
    shorter[LENGTH_0] = 100;
    memcpy(shorter + LENGTH_0 + 1, ridge + LENGTH_0 + 2, sizeof ridge - LENGTH_0 - 2);
    message.count = put_front(front, shorter, sizeof shorter);
    EXPECT(is_refused(out_of(STRETCH, message, BYTES_OF(shorter), BYTES_OF(offset_1), 16), 19, 16));
    EXPECT(is_refused(out_of(STRETCH, right_front, BYTES_OF(shorter), BYTES_OF(offset_1), 16), 30, 16));
}

/* The map's own refusals come before 30, and 30 before all that is asked of the reference and of the line buffer. */
static void order_of_refusals(void) {
    static const uint8_t other_sum[] = {0x56, 0xDD, 0xA9, 0xA1, 0x95, 0x03}, unreadable[] = {0xD6, 0x00, 0xDC, 0xA9, 0xA1, 0x95, 0x03};
    const struct bytes messages[] = {nothing, right_front, BYTES_OF(other_sum), BYTES_OF(unreadable)};
    uint8_t faulty[MOST_FAULTY_BYTES], front[MOST_FRONT_BYTES];
    for (size_t fault = 0; fault < FAULTS; fault++) {
        struct bytes map = {faulty, put_faulty_ridge(faulty, fault)}, its_own = {front, put_front(front, map.at, map.count)};
        for (size_t i = 0; i < COUNT_OF(messages); i++) expect_refused(messages[i], map, faults[fault].refusal);
        expect_refused(its_own, map, faults[fault].refusal);
    }
    for (size_t i = 0; i < COUNT_OF(messages); i++) {
        expect_refused(messages[i], nothing, 2);
        if (messages[i].at != ridge_front) expect_refused(messages[i], whole_ridge, 30);
    }
}

/* The right front cut at every byte, with each byte changed to every value, and with the numbers in longer forms or the other way round. */
static void other_fronts(void) {
    static const uint8_t longer[][MOST_FRONT_BYTES] = {
        {0xD6, 0x00, 0xDC, 0xA9, 0xA1, 0x95, 0x03},       /* the count in two bytes */
        {0x56, 0xDC, 0xA9, 0xA1, 0x95, 0x83, 0x00},       /* the sum in six */
        {0xD6, 0x80, 0x80, 0x80, 0x10, 0xDC, 0xA9, 0xA1, 0x95, 0x03}, /* the count and 4,294,967,296 */
        {0x56, 0xDC, 0xA9, 0xA1, 0x95, 0x13},             /* the sum and 4,294,967,296 */
        {0xDC, 0xA9, 0xA1, 0x95, 0x03, 0x56},             /* the sum before the count */
        {0xD5, 0xD6, 0x01, 0xDC, 0xA9, 0xA1, 0x95, 0x03}, /* another number before both */
    };
    uint8_t message[RIDGE_FRONT + 8];
    for (size_t cut = 0; cut < RIDGE_FRONT; cut++) expect_refused((struct bytes){ridge_front, cut}, whole_ridge, 30);
    for (size_t i = 0; i < COUNT_OF(longer); i++) EXPECT(!is_of_map(BYTES_OF(longer[i]), whole_ridge));
    memset(message, 0x01, sizeof message);
    for (size_t at = 0; at < RIDGE_FRONT; at++)
        for (unsigned value = 0; value < 256; value++) {
            memcpy(message, ridge_front, RIDGE_FRONT);
            message[at] = (uint8_t)value;
            EXPECT(is_of_map(BYTES_OF(message), whole_ridge) == (value == ridge_front[at]));
        }
}

/* Each bit of the count and of the sum, and numbers next to them. On maps whose sum is 0 to 4, another sum with the same remainder can be told: it differs. */
static void other_numbers(void) {
    const uint32_t sum = sum_of(ridge, sizeof ridge);
    uint8_t front[MOST_FRONT_BYTES];
    struct bytes message = {front, 0};
    for (int bit = 0; bit < 32; bit++) {
        message.count = put_front_of(front, sizeof ridge ^ (uint32_t)1 << bit, sum);
        EXPECT(!is_of_map(message, whole_ridge));
        message.count = put_front_of(front, sizeof ridge, sum ^ (uint32_t)1 << bit);
        EXPECT(!is_of_map(message, whole_ridge));
    }
    for (int off = -3; off <= 3; off++) {
        message.count = put_front_of(front, (uint32_t)((int)sizeof ridge + off), sum);
        EXPECT(is_of_map(message, whole_ridge) == (off == 0));
        message.count = put_front_of(front, (uint32_t)((int)sizeof ridge + off), sum - (uint32_t)off);
        EXPECT(is_of_map(message, whole_ridge) == (off == 0));
        message.count = put_front_of(front, sizeof ridge, sum + (uint32_t)off);
        EXPECT(is_of_map(message, whole_ridge) == (off == 0));
    }
    for (size_t i = 0; i < EDGE_MAPS; i++) {
        const struct bytes map = {edge_maps[i].bytes, EDGE_MAP_BYTES};
        message.count = put_front_of(front, EDGE_MAP_BYTES, edge_maps[i].sum);
        EXPECT(is_of_map(message, map));
        for (size_t cut = 0; cut < message.count; cut++) EXPECT(!is_of_map((struct bytes){front, cut}, map));
        if (edge_maps[i].sum <= 4) {
            message.count = put_front_of(front, EDGE_MAP_BYTES, edge_maps[i].sum + 4294967291);
            EXPECT(message.count == 6 && !is_of_map(message, map));
        }
        for (size_t k = 0; k < EDGE_MAPS; k++) {
            message.count = put_front_of(front, EDGE_MAP_BYTES, edge_maps[k].sum);
            EXPECT(is_of_map(message, map) == (edge_maps[i].sum == edge_maps[k].sum));
        }
    }
}

/* Two maps of one length and one sum are not told apart. Then the reference is read on the map that there is: on the one, the only line; on the other no node
   stands where the reference starts. */
static void maps_of_one_front(void) {
    uint8_t front[MOST_FRONT_BYTES], bytes[OPENLR_LONGEST_REFERENCE];
    static const uint8_t lone[] = {0, 0, 0, 0};
    const struct bytes one = {edge_maps[FIRST_OF_SUM_0].bytes, EDGE_MAP_BYTES}, other = {edge_maps[OTHER_OF_SUM_0].bytes, EDGE_MAP_BYTES};
    struct bytes message = {front, put_front(front, one.at, one.count)}, reference = {bytes, 16};
    EXPECT(memcmp(one.at, other.at, EDGE_MAP_BYTES) != 0 && message.count == 2 && front[0] == EDGE_MAP_BYTES && front[1] == 0);
    struct openlr_written written = openlr_write(one.at, one.count, lone, sizeof lone, 0, 0, OPENLR_MOST_TESTS, bytes, sizeof bytes);
    EXPECT(written.refusal == 0 && written.byte_count == 16);
    struct answer a = out_of(STRETCH, message, one, reference, 8), b = out_of(STRETCH, message, other, reference, 8);
    EXPECT(a.numbers[0] == 0 && a.numbers[2] == 1 && b.numbers[0] == 16 && b.numbers[1] == 0);
    EXPECT(is_same(a, by_itself(STRETCH, one, reference, 8)) && is_same(b, by_itself(STRETCH, other, reference, 8)));
}

/* Whether a map is refused, and how: with no reference the reader gives 12 on any other. */
static uint32_t map_refusal(struct bytes map) {
    uint32_t refusal = openlr_read(map.at, map.count, NULL, 0, NULL, 0).refusal;
    return refusal == 12 ? 0 : refusal;
}

/* Each byte of the ridge changed to every other value. Some are maps: these and the ridge are always told apart, both ways, and each is its own. Others are
   refused as maps. None is read. */
static void every_changed_byte(void) {
    uint8_t changed[sizeof ridge], front[OPENLR_LONGEST_FRONT];
    uint32_t maps = 0, refused_maps = 0;
    const struct bytes map = BYTES_OF(changed);
    memcpy(changed, ridge, sizeof ridge);
    for (size_t at = 0; at < sizeof ridge; at++) {
        for (unsigned value = 0; value < 256; value++) {
            if (value == ridge[at]) continue;
            changed[at] = (uint8_t)value;
            uint32_t refusal = map_refusal(map);
            struct answer a = out_of(STRETCH, right_front, map, BYTES_OF(both_offsets), LINES_BYTES);
            struct answer b = out_of(POINT, right_front, map, BYTES_OF(hydrant), LINES_BYTES);
            EXPECT(is_refused(a, refusal == 0 ? 30 : refusal, LINES_BYTES) && is_refused(b, refusal == 0 ? 30 : refusal, LINES_BYTES));
            struct openlr_message message = openlr_message_start(changed, sizeof changed, front, sizeof front);
            EXPECT(message.refusal == refusal);
            if (refusal == 0) {
                const struct bytes its_own = {front, message.byte_count};
                EXPECT(is_of_map(its_own, map) && !is_of_map(its_own, whole_ridge));
                maps++;
            } else {
                refused_maps++;
            }
        }
        changed[at] = ridge[at];
    }
    EXPECT(maps > 5000 && refused_maps > 5000 && maps + refused_maps == 255 * sizeof ridge && is_of_map(right_front, map));
}

/* The ridge with two lengths exchanged. */
static void maps_of_one_length(void) {
    uint8_t lengths[sizeof ridge], front[MOST_FRONT_BYTES];
    memcpy(lengths, ridge, sizeof ridge);
    memcpy(lengths + LENGTH_0, ridge + LENGTH_2, 2);
    memcpy(lengths + LENGTH_2, ridge + LENGTH_0, 2);
    struct bytes message = {front, put_front(front, lengths, sizeof lengths)};
    expect_refused(right_front, BYTES_OF(lengths), 30);
    expect_refused(message, whole_ridge, 30);
    EXPECT(is_of_map(message, BYTES_OF(lengths)));
}

/* What is written and closed is read back out of the message, out of all that is finished so far and out of the front alone. A refused start in between makes
   no difference. Lines 0 and 1, the hydrant, lines 2 and 3. */
static void read_back(void) {
    static const uint8_t straight[] = {0, 0, 0, 0, 1, 0, 0, 0}, ridgeway[] = {2, 0, 0, 0, 3, 0, 0, 0};
    static const struct answer expected[] = {{{0, 0, 2, 4981, 5019, 0, 0}, {0, 0, 0, 0, 1, 0, 0, 0}}, {{0, 0, 1, 1182, 1201, 3, 2}, {2, 0, 0, 0}},
                                             {{0, 0, 2, 0, 0, 0, 0}, {2, 0, 0, 0, 3, 0, 0, 0}}};
    static uint8_t buffer[200], bytes[OPENLR_LONGEST_REFERENCE];
    uint32_t counts[3];
    struct openlr_message message = openlr_message_start(ridge, sizeof ridge, buffer, sizeof buffer);
    for (uint32_t finished = 0;; finished++) {
        for (uint32_t n = 0; n < finished; n++) {
            struct openlr_part part = openlr_message_reference(buffer, message.byte_count, n);
            const struct bytes whole = {buffer, message.byte_count}, front = {buffer, RIDGE_FRONT}, reference = {buffer + part.from, part.byte_count};
            EXPECT(part.byte_count == counts[n]);
            struct answer a = out_of(n == 1 ? POINT : STRETCH, whole, whole_ridge, reference, 16);
            EXPECT(memcmp(a.numbers, expected[n].numbers, sizeof a.numbers) == 0 && memcmp(a.lines, expected[n].lines, 4 * a.numbers[2]) == 0);
            EXPECT(is_same(a, out_of(n == 1 ? POINT : STRETCH, front, whole_ridge, reference, 16)));
        }
        if (finished == COUNT_OF(counts)) break;
        if (finished == 0) counts[0] = openlr_write(ridge, sizeof ridge, straight, sizeof straight, 5000, 0, OPENLR_MOST_TESTS, bytes, sizeof bytes).byte_count;
        else if (finished == 1) counts[1] = openlr_write_point(ridge, sizeof ridge, 2, 1200, 3, 2, bytes, sizeof bytes).bytes;
        else counts[2] = openlr_write(ridge, sizeof ridge, ridgeway, sizeof ridgeway, 0, 0, OPENLR_MOST_TESTS, bytes, sizeof bytes).byte_count;
        message = openlr_message_open(message);
        message = openlr_message_add(message, buffer, sizeof buffer, bytes, counts[finished]);
        EXPECT(openlr_message_start(ridge, sizeof ridge - 1, buffer, sizeof buffer).refusal == 2);
        message = openlr_message_close(message);
        EXPECT(message.refusal == 0 && message.open == 0);
    }
    EXPECT(counts[0] == 24 && counts[1] == 17 && counts[2] == 16 && message.byte_count == RIDGE_FRONT + 25 + 18 + 17);
}

/* A slice of no bytes may be NULL, whichever and however many are. The first that is missing decides. */
static void null_slices(void) {
    for (int missing = 0; missing < 16; missing++) {
        const struct bytes map = missing & 1 ? nothing : whole_ridge, message = missing & 2 ? nothing : right_front;
        const struct bytes stretch = missing & 4 ? nothing : BYTES_OF(both_offsets), mark = missing & 4 ? nothing : BYTES_OF(hydrant);
        uint8_t lines[8], *line_buffer = missing & 8 ? NULL : lines;
        size_t room = missing & 8 ? 0 : sizeof lines;
        uint32_t refusal = missing & 1 ? 2 : missing & 2 ? 30 : missing & 4 ? 12 : missing & 8 ? 20 : 0;
        EXPECT(openlr_read_of_message(map.at, map.count, message.at, message.count, stretch.at, stretch.count, line_buffer, room).refusal == refusal);
        EXPECT(openlr_read_point_of_message(map.at, map.count, message.at, message.count, mark.at, mark.count, line_buffer, room).refusal == refusal);
    }
}

/* Input slices may be the same bytes: a message that is the map, and a reference that is the message. */
static void same_slices(void) {
    uint8_t lines[8];
    EXPECT(openlr_read_of_message(ridge, sizeof ridge, ridge, sizeof ridge, ridge, sizeof ridge, lines, sizeof lines).refusal == 30);
    EXPECT(openlr_read_of_message(ridge, sizeof ridge, ridge_front, RIDGE_FRONT, ridge_front, RIDGE_FRONT, lines, sizeof lines).refusal == 12);
}

/* More bytes than 32 bits count, in the map, the message or the reference. */
static void over_32_bits(void) {
    const size_t large = ((size_t)1 << 32) + sizeof ridge;
    uint8_t *memory = mmap(NULL, large, PROT_READ | PROT_WRITE, MAP_PRIVATE | MAP_ANONYMOUS | MAP_NORESERVE, -1, 0), lines[8];
    EXPECT(memory != MAP_FAILED);
    memcpy(memory, ridge, sizeof ridge);
    EXPECT(openlr_read_of_message(memory, large, ridge_front, RIDGE_FRONT, both_offsets, sizeof both_offsets, lines, sizeof lines).refusal == 2);
    memcpy(memory, ridge_front, RIDGE_FRONT);
    EXPECT(openlr_read_of_message(ridge, sizeof ridge, memory, large, both_offsets, sizeof both_offsets, lines, sizeof lines).refusal == 0);
    EXPECT(openlr_read_point_of_message(ridge, sizeof ridge, memory, large, hydrant, sizeof hydrant, lines, sizeof lines).refusal == 0);
    memcpy(memory, both_offsets, sizeof both_offsets);
    EXPECT(openlr_read_of_message(ridge, sizeof ridge, ridge_front, RIDGE_FRONT, memory, ((size_t)1 << 32) + 25, lines, sizeof lines).refusal == 12);
    EXPECT(munmap(memory, large) == 0);
}

int main(void) {
    put_up_fences();
    as_by_itself();
    refused_references();
    refusals_on_other_maps();
    order_of_refusals();
    other_fronts();
    other_numbers();
    maps_of_one_front();
    every_changed_byte();
    maps_of_one_length();
    read_back();
    null_slices();
    same_slices();
    over_32_bits();
    puts("readers out of a message: as a C program expects");
    return 0;
}
