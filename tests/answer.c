/* Answers calls of the C functions, one a row of standard input, for oracle/check_host.py:

     read MAP REFERENCE ROOM                ROOM is the line buffer's count of bytes
     write MAP STRETCH POS NEG TESTS ROOM   STRETCH is the line numbers' bytes, ROOM the byte buffer's count of bytes
     read_point MAP REFERENCE ROOM
     write_point MAP LINE OFFSET ORIENTATION SIDE ROOM
     read_of_message MAP MESSAGE REFERENCE ROOM
     read_point_of_message MAP MESSAGE REFERENCE ROOM
     message ROOM CALL CALL ..              calls one after another, in a buffer of ROOM bytes of which byte i is i mod 251 before the first
     received MESSAGE N                     asks for reference N of a received message

   A CALL is start:MAP, open, add:BYTES, close or ask:N. Up to the first that is not refused all of them must be starts. Offsets and spans are in centimetres.
   Bytes are hexadecimal, and - where there are none.

   Messages are answered by an item for each call: done:BYTES:OPEN:ADDED or refused:NUMBER, with @FROM=BYTES behind it where the buffer changed, the bytes after
   the call from the first changed one to the last; or, for what is asked, part:FROM:COUNT.

   A call that changes the buffer where it must not is answered by "buffer", a writer's refusal with a number that must be 0 and is not by "refused" and all of
   its numbers, a reader's by "numbers", and a refusal that changes what is known of a message by "fields". None of them is ever expected. */
#include "openlr.h"

_Static_assert(OPENLR_UNITS_PER_METRE == 100, "lengths and offsets are in centimetres");

#include <stdio.h>
#include <stdlib.h>
#include <string.h>

enum { LONGEST_ROW = 1 << 20, LARGEST_BUFFER = 1 << 18, UNTOUCHED = 0xEE, BEHIND = 512 };

static size_t bytes_of(const char *text, uint8_t *bytes) {
    size_t count = 0;
    unsigned value;
    for (; text[0] != '-' && text[2 * count] != '\0'; count++) {
        if (sscanf(text + 2 * count, "%2x", &value) != 1) exit(2);
        bytes[count] = (uint8_t)value;
    }
    return count;
}

/* Whether the buffer of `room` bytes is as before from byte `from` on, and so is the byte after it. */
static int kept(const uint8_t *buffer, size_t from, size_t room) {
    for (size_t i = from; i <= room; i++)
        if (buffer[i] != UNTOUCHED) return 0;
    return 1;
}

static int has_place(uint32_t refusal) {
    return refusal >= OPENLR_NO_NODE && refusal <= OPENLR_SEVERAL_READINGS;
}

static void print_refusal(uint32_t refusal, uint32_t place) {
    printf("refused %u", (unsigned)refusal);
    if (has_place(refusal)) printf(" %u", (unsigned)place);
}

/* Whether an answer of a reader has a number that must be 0: a place, or any of the others of a refusal, `rest` being all their bits. */
static int wrong_numbers(uint32_t refusal, uint32_t place, uint32_t rest) {
    return (place != 0 && !has_place(refusal)) || (refusal != 0 && rest != 0);
}

static void print_lines(const uint8_t *line_buffer, size_t count) {
    for (size_t i = 0; i < count; i++) {
        const uint8_t *line = line_buffer + 4 * i;
        printf(" %lu", line[0] + 256ul * line[1] + 65536ul * line[2] + 16777216ul * line[3]);
    }
}

static void print_read(struct openlr_reading a, const uint8_t *line_buffer, size_t room) {
    if (wrong_numbers(a.refusal, a.place, a.line_count | a.pos_least | a.pos_greatest | a.neg_least | a.neg_greatest)) {
        printf("numbers");
    } else if (!kept(line_buffer, 4 * (size_t)a.line_count, room)) {
        printf("buffer");
    } else if (a.refusal != 0) {
        print_refusal(a.refusal, a.place);
    } else {
        printf("lines %u pos %u %u neg %u %u", (unsigned)a.line_count, (unsigned)a.pos_least, (unsigned)a.pos_greatest, (unsigned)a.neg_least,
               (unsigned)a.neg_greatest);
        print_lines(line_buffer, a.line_count);
    }
}

static void print_point(struct openlr_point a, const uint8_t *line_buffer, size_t room) {
    if (wrong_numbers(a.refusal, a.place, a.lines | a.least | a.greatest | a.orientation | a.side)) {
        printf("numbers");
    } else if (!kept(line_buffer, 4 * (size_t)a.lines, room)) {
        printf("buffer");
    } else if (a.refusal != 0) {
        print_refusal(a.refusal, a.place);
    } else {
        printf("lines %u offset %u %u orientation %u side %u", (unsigned)a.lines, (unsigned)a.least, (unsigned)a.greatest, (unsigned)a.orientation,
               (unsigned)a.side);
        print_lines(line_buffer, a.lines);
    }
}

static void print_bytes(const char *before, const uint8_t *bytes, size_t count) {
    printf("%s", before);
    for (size_t i = 0; i < count; i++) printf("%02X", bytes[i]);
}

static void print_written(struct openlr_written a, const uint8_t *byte_buffer, size_t room) {
    if (a.refusal != 0 && (a.byte_count != 0 || a.tests != 0 || a.excess != 0)) {
        printf("refused %u with bytes %u tests %u excess %u", (unsigned)a.refusal, (unsigned)a.byte_count, (unsigned)a.tests, (unsigned)a.excess);
    } else if (!kept(byte_buffer, a.byte_count, room)) {
        printf("buffer");
    } else if (a.refusal != 0) {
        print_refusal(a.refusal, 0);
    } else {
        printf("bytes %u tests %u excess %u", (unsigned)a.byte_count, (unsigned)a.tests, (unsigned)a.excess);
        print_bytes(" ", byte_buffer, a.byte_count);
    }
}

static void print_point_written(struct openlr_point_written a, const uint8_t *byte_buffer, size_t room) {
    if (a.refusal != 0 && a.bytes != 0) {
        printf("refused %u with bytes %u", (unsigned)a.refusal, (unsigned)a.bytes);
    } else if (!kept(byte_buffer, a.bytes, room)) {
        printf("buffer");
    } else if (a.refusal != 0) {
        print_refusal(a.refusal, 0);
    } else {
        printf("bytes %u", (unsigned)a.bytes);
        print_bytes(" ", byte_buffer, a.bytes);
    }
}

/* The next word of the row. */
static const char *word(void) {
    const char *text = strtok(NULL, " \n");
    if (text == NULL) exit(2);
    return text;
}

static uint32_t number(void) {
    return (uint32_t)strtoul(word(), NULL, 10);
}

static size_t room_of(void) {
    size_t room = strtoul(word(), NULL, 10);
    if (room > LARGEST_BUFFER) exit(2);
    return room;
}

static void print_part(struct openlr_part a) {
    printf("part:%u:%u", (unsigned)a.from, (unsigned)a.byte_count);
}

/* A buffer with a message, and the buffer as it was before the last call. The bytes behind the buffer's `room` must stay. */
static struct {
    size_t room;
    struct openlr_message message;
    uint8_t buffer[LARGEST_BUFFER + BEHIND], before[LARGEST_BUFFER + BEHIND];
} office;

/* A new buffer. What a message is before it is started does not count, so it is one that nobody has. */
static void new_buffer(size_t room) {
    static const struct openlr_message none = {UINT32_MAX, UINT32_MAX, UINT32_MAX, UINT32_MAX};
    office.room = room;
    office.message = none;
    for (size_t i = 0; i < room + BEHIND; i++) office.buffer[i] = (uint8_t)(i % 251);
}

/* Prints what the last call of start, open, add or close answered and changed. A refusal must leave the fields as they are in `given`. */
static void print_message(struct openlr_message a, struct openlr_message given) {
    size_t first = 0, end = office.room + BEHIND;
    while (first < end && office.buffer[first] == office.before[first]) first++;
    while (end > first && office.buffer[end - 1] == office.before[end - 1]) end--;
    if (end > office.room && first < end) {
        printf("buffer");
    } else if (a.refusal != 0 && (a.byte_count != given.byte_count || a.open != given.open || a.added != given.added)) {
        printf("fields");
    } else {
        if (a.refusal != 0) printf("refused:%u", (unsigned)a.refusal);
        else printf("done:%u:%u:%u", (unsigned)a.byte_count, (unsigned)a.open, (unsigned)a.added);
        if (first < end) {
            printf("@%zu", first);
            print_bytes("=", office.buffer + first, end - first);
        }
    }
}

/* Starts the message on a map. A start that is refused was given no message, so all of its fields are 0 then; the message under way goes on. */
static void call_start(const char *map_text) {
    static const struct openlr_message no_fields;
    static uint8_t map[LONGEST_ROW / 2];
    size_t map_len = bytes_of(map_text, map);
    struct openlr_message started = openlr_message_start(map, map_len, office.buffer, office.room);
    if (started.refusal == 0) office.message = started;
    print_message(started, no_fields);
}

/* Makes a call of the message. An open one is told by any number but 0: by the largest in every other call. */
static void call_message(const char *call, size_t index) {
    static uint8_t portion[LONGEST_ROW / 2];
    struct openlr_message given = office.message;
    if (given.open != 0 && index % 2 == 1) given.open = UINT32_MAX;
    memcpy(office.before, office.buffer, office.room + BEHIND);
    if (strncmp(call, "start:", 6) == 0) {
        call_start(call + 6);
        return;
    }
    if (strcmp(call, "open") == 0) {
        office.message = openlr_message_open(given);
    } else if (strcmp(call, "close") == 0) {
        office.message = openlr_message_close(given);
    } else if (strncmp(call, "add:", 4) == 0) {
        size_t portion_len = bytes_of(call + 4, portion);
        office.message = openlr_message_add(given, office.buffer, office.room, portion, portion_len);
    } else {
        exit(2);
    }
    print_message(office.message, given);
}

static void answer_history(void) {
    const char *call;
    new_buffer(room_of());
    for (size_t index = 0; (call = strtok(NULL, " \n")) != NULL; index++) {
        if (index > 0) printf(" ");
        if (strncmp(call, "ask:", 4) == 0)
            print_part(openlr_message_reference(office.buffer, office.message.byte_count, (uint32_t)strtoul(call + 4, NULL, 10)));
        else
            call_message(call, index);
    }
}

static void answer_received(void) {
    static uint8_t received[LONGEST_ROW / 2];
    size_t received_len = bytes_of(word(), received);
    print_part(openlr_message_reference(received, received_len, number()));
}

static void answer_of_message(int is_point) {
    static uint8_t map[LONGEST_ROW / 2], message[LONGEST_ROW / 2], reference[LONGEST_ROW / 2], buffer[LARGEST_BUFFER + 1];
    size_t map_len = bytes_of(word(), map), message_len = bytes_of(word(), message), reference_len = bytes_of(word(), reference), room = room_of();
    memset(buffer, UNTOUCHED, sizeof buffer);
    if (is_point) print_point(openlr_read_point_of_message(map, map_len, message, message_len, reference, reference_len, buffer, room), buffer, room);
    else print_read(openlr_read_of_message(map, map_len, message, message_len, reference, reference_len, buffer, room), buffer, room);
}

static void answer_on_map(const char *kind) {
    static uint8_t map[LONGEST_ROW / 2], given[LONGEST_ROW / 2], buffer[LARGEST_BUFFER + 1];
    size_t map_len = bytes_of(word(), map);
    int is_point = strcmp(kind, "write_point") == 0;
    size_t given_len = is_point ? 0 : bytes_of(word(), given);
    memset(buffer, UNTOUCHED, sizeof buffer);
    if (strcmp(kind, "read") == 0) {
        size_t room = room_of();
        print_read(openlr_read(map, map_len, given, given_len, buffer, room), buffer, room);
    } else if (strcmp(kind, "read_point") == 0) {
        size_t room = room_of();
        print_point(openlr_read_point(map, map_len, given, given_len, buffer, room), buffer, room);
    } else if (is_point) {
        uint32_t line = number(), offset = number(), orientation = number(), side = number();
        size_t room = room_of();
        print_point_written(openlr_write_point(map, map_len, line, offset, orientation, side, buffer, room), buffer, room);
    } else if (strcmp(kind, "write") == 0) {
        uint32_t pos = number(), neg = number(), tests = number();
        size_t room = room_of();
        print_written(openlr_write(map, map_len, given, given_len, pos, neg, tests, buffer, room), buffer, room);
    } else {
        exit(2);
    }
}

int main(void) {
    static char row[LONGEST_ROW];
    while (fgets(row, sizeof row, stdin) != NULL) {
        const char *kind = strtok(row, " \n");
        if (kind == NULL) return 2;
        if (strcmp(kind, "message") == 0) answer_history();
        else if (strcmp(kind, "received") == 0) answer_received();
        else if (strcmp(kind, "read_of_message") == 0) answer_of_message(0);
        else if (strcmp(kind, "read_point_of_message") == 0) answer_of_message(1);
        else answer_on_map(kind);
        printf("\n");
    }
    return 0;
}
