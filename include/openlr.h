/* OpenLR binary references to stretches of road and to points along a line, on a depot map, and messages of many references, for C and C++ on x86-64 Linux.
   Link with libopenlr.a.

   LENGTHS, OFFSETS AND SPANS ARE IN CENTIMETRES from version 8 on, in the map's bytes as in the calls. Up to version 7 they were in decimetres. Coming from
   there, multiply each length in a map and each offset by 10, but not a line's steps: they stay in decimetres. Nothing in the bytes marks the unit, and so a
   map or an offset in decimetres is taken for centimetres without a complaint. A host should have this line beside its include, in C++ with static_assert; then
   it does not build with a header of another unit:

     _Static_assert(OPENLR_UNITS_PER_METRE == 100, "lengths and offsets are in centimetres");

   docs/FORMAT.md has the bytes of a map and of a reference, and how a map in decimetres is converted.

   What the functions promise is proved, for all bytes that they can be given: they read no memory but their input slices, write none but the output buffer and
   the stack, and return. Nothing checks what the caller owes:

   - Each pointer is valid for the count of bytes beside it. Where the count is 0 it may be NULL. No alignment is asked.
   - An output buffer does not overlap another argument. Input slices may overlap each other.
   - OPENLR_LEAST_STACK bytes of stack, which is enough for the whole of a thread that does nothing else. The functions take no memory from the heap.

   The functions keep nothing between calls and may run in several threads at once, as long as no output buffer is shared.

   Lines and nodes of a map count from 0, and so do the points and the legs of a reference. A line number takes four bytes, low byte first. */
#ifndef OPENLR_H
#define OPENLR_H

#include <stddef.h>
#include <stdint.h>

#ifdef __cplusplus
extern "C" {
#endif

/* Goes up by 1 with each change that a host has to know of: of the map's bytes, of a refusal's number or condition, of a struct or a function, or of the unit.
   Version 1: lengths and offsets are in decimetres, in the map's bytes as in the calls, up to version 7. A version with another unit has another
   OPENLR_UNITS_PER_METRE too.
   Version 2: banned turns. Every map has a count of bans after its lines, and so a map of version 1 is refused with 2; refusals 21 to 23 are new.
   Version 3: longitude differences go round the globe, and so a stretch across the 180th meridian is written and read; before, it was refused with 10, and its
   bytes with 16. A stretch whose nodes lie less than 180 degrees of longitude apart, taken plainly, has the bytes of version 2.
   Version 4: bearings from the drawing. In place of its two bearings a line of the map has four steps, and so a map of version 3 is not read as it was meant:
   draw it anew. Refusal 24 is new. A reference has the bytes of version 3 wherever the steps lie in the sectors that the bearings had.

   What a map drawer delivers of a line: its two nodes, its length, class and form of way; and at each end the point 20 m along the line from there, as two
   steps in whole decimetres, east and north, each -250 to 250, not both 0. The steps out are seen from the start node, the steps back from the end node: a line
   that runs due east has the steps (200, 0) out and (-200, 0) back. Nothing asks that the point is 20 m off: only its direction counts.

   Version 5: points along a line, for single things such as signs and hydrants: openlr_write_point, openlr_read_point and refusal 25 are new. The rest is as
   in version 4.
   Version 6: an offset byte is the nearest 256th of its leg, an exact half upwards, and 255 where that gives 256; before, it was rounded down. So an offset may
   have another byte, and a byte another span, than in version 5; office and box must have the same version. Refusal 19 follows: on a leg of length
   up to 512 no offset gives byte 0.
   Version 7: openlr_write is given how many leg tests it may make. It answers how many it made, and by how many points at most the reference exceeds the
   fewest. Refusal 26 is new. With OPENLR_MOST_TESTS it writes and refuses as in version 6. Maps, references and the other functions are as in version 6.
   Version 8: lengths, offsets and spans are in centimetres. A line is 1 to 1,500,000 long, a leg at most 1,500,000, and D is the leg's length divided by 5,860.
   Steps are in decimetres as before. A map of version 7 is not refused, but each of its lines is then ten times too short: multiply the lengths by 10. On a map
   so converted the same stretch or point, its offsets tenfold, has the bytes of version 7, and what version 7 wrote is read as the same lines, with spans in
   centimetres. What it refused with 19 may be read now. Office and box must have the same version.
   Version 9: messages, many references in one buffer: openlr_message_open, openlr_message_add, openlr_message_close, openlr_message_reference and refusals 27
   and 28 are new. The rest is as in version 8.
   Version 10: a message starts with the map's byte count and a sum over the map's bytes. openlr_message_start is new and takes the place of an empty message:
   OPENLR_EMPTY_MESSAGE is gone. openlr_read_of_message, openlr_read_point_of_message and refusal 30 are new; 29 is not used. A message of version 9 is not
   refused by the list: its first two numbers are taken for its front. Office and box must have the same version. The rest is as in version 9. */
#define OPENLR_VERSION 10
#define OPENLR_UNITS_PER_METRE 100

/* The most that there can be: for buffers that are never too short, and for a test of every leg. */
#define OPENLR_LONGEST_MAP 23558     /* Bytes of a map that is not refused: 512 nodes of 8, 1,024 lines of 17, 512 bans of 4, and three counts of 2. */
#define OPENLR_LONGEST_REFERENCE 459 /* Bytes of a reference: 1 and a first point of 9, 63 middle points of 7, a last one of 6, and two offsets of 1. */
#define OPENLR_LONGEST_POINT 17      /* Bytes of a point along a line: 1 and a first point of 9, a last one of 6, and an offset of 1. */
#define OPENLR_MOST_LINES 1024       /* Lines that openlr_read and openlr_read_point hand back, each in four bytes. */
#define OPENLR_MOST_TESTS 2080       /* Leg tests that openlr_write makes: 64 * 65 / 2, one for each leg of the longest stretch. */
#define OPENLR_LONGEST_MESSAGE 16384 /* Bytes of a message: of a longer buffer no more are used. */
#define OPENLR_LONGEST_FRONT 8       /* Bytes of a message's front: 3 for the byte count of the longest map, 5 for a sum. */

/* Bytes of stack that a thread needs for a call of any of the functions: 104 KiB, of which a call takes up to 78. */
#define OPENLR_LEAST_STACK 106496

/* Why a call is refused. Each is given when its condition holds and none above it does; for 2 to 5 and 24 the first faulty number in the map decides instead.
   openlr_refusal_sentence below has the conditions, and docs/FORMAT.md an example of each. A later version may have further numbers. */
enum openlr_refusal {
    OPENLR_WORK_AREA_SHORT = 1, /* Never given by these functions, which have a work area of their own. */
    /* The map. */
    OPENLR_MAP_NUMBER = 2,
    OPENLR_MAP_COUNT = 3,
    OPENLR_MAP_COORDINATE = 4,
    OPENLR_MAP_LINE = 5,
    OPENLR_MAP_STEP = 24,
    OPENLR_EQUAL_CODES = 6,
    OPENLR_MAP_BAN = 23,
    /* The writer. */
    OPENLR_STRETCH_LINES = 7,
    OPENLR_STRETCH_GAP = 8,
    OPENLR_STRETCH_BAN = 21,
    OPENLR_STRETCH_OFFSETS = 9,
    OPENLR_POINT_MARKS = 25,
    OPENLR_UNFINISHED = 26, /* Of openlr_write only. More tests may find a reference. */
    OPENLR_NO_CHOICE = 10,
    OPENLR_BYTES_SHORT = 11,
    /* The reader. */
    OPENLR_REFERENCE_LENGTH = 12,
    OPENLR_REFERENCE_STATUS = 13,
    OPENLR_REFERENCE_BITS = 14,
    OPENLR_REFERENCE_FLAGS = 15,
    OPENLR_NO_NODE = 16,          /* `place` is the point. */
    OPENLR_NO_READING = 17,       /* `place` is the leg. */
    OPENLR_SEVERAL_READINGS = 18, /* `place` is the leg. */
    OPENLR_JOINED_BAN = 22,
    OPENLR_NO_OFFSET = 19,
    OPENLR_LINES_SHORT = 20,
    /* Messages. */
    OPENLR_MESSAGE_ORDER = 27,
    OPENLR_MESSAGE_FULL = 28,
    OPENLR_OTHER_MAP = 30 /* Of openlr_read_of_message and openlr_read_point_of_message only; after the map's own refusals and before 12. */
};

/* In what direction of the line a point along it counts, and on which side of the line it is: the white paper's values. The first point is the node where the
   line starts, the second the one where it ends. */
enum openlr_orientation {
    OPENLR_ORIENTATION_NONE = 0,            /* No sense of orientation, or unknown. */
    OPENLR_ORIENTATION_FIRST_TO_SECOND = 1, /* From the first point towards the second. */
    OPENLR_ORIENTATION_SECOND_TO_FIRST = 2, /* From the second point towards the first. */
    OPENLR_ORIENTATION_BOTH = 3             /* In both directions. */
};

enum openlr_side {
    OPENLR_SIDE_ON_ROAD = 0, /* Directly on the road, or unknown. */
    OPENLR_SIDE_RIGHT = 1,   /* On the right side of the line. */
    OPENLR_SIDE_LEFT = 2,    /* On its left side. */
    OPENLR_SIDE_BOTH = 3     /* On both sides. */
};

/* What openlr_read answers. */
struct openlr_reading {
    uint32_t refusal;      /* 0: the reference is read. Else the number of the refusal; then every field but `refusal` and `place` is 0. */
    uint32_t place;        /* For refusals 16 to 18 the first point or leg concerned. Else 0. */
    uint32_t line_count;   /* How many lines were read. Their numbers are the first 4 * line_count bytes of the line buffer. */
    uint32_t pos_least;    /* The positive offset's span: the least offset that its byte may stand for, in centimetres, .. */
    uint32_t pos_greatest; /* .. and the greatest. 0 and 0 where the reference has no positive offset. */
    uint32_t neg_least;    /* Likewise the negative offset's span. */
    uint32_t neg_greatest;
};

/* What openlr_write answers. */
struct openlr_written {
    uint32_t refusal;    /* 0: the reference is written. Else the number of the refusal; then every other field is 0. */
    uint32_t byte_count; /* How many bytes the reference has, 16 to 459. They are the first of the byte buffer. */
    uint32_t tests;      /* How many leg tests were made, 1 to 2,080. */
    uint32_t excess;     /* By how many points at most the reference exceeds the fewest. 0: no number of tests gives fewer. */
};

/* Reads the reference of `reference_len` bytes on the map of `map_len` bytes.

   The line buffer has room for line_buffer_len / 4 lines, rounded down, but for no more than OPENLR_MOST_LINES: a longer list is refused with 20, whatever
   the buffer. Where the reference is read, the line numbers stand first in the buffer and the bytes after them are as before. Where it is refused, all of the
   buffer is as before. */
struct openlr_reading openlr_read(const uint8_t *map, size_t map_len, const uint8_t *reference, size_t reference_len, uint8_t *line_buffer,
                                  size_t line_buffer_len);

/* Writes a reference for a stretch: the line numbers in the `stretch_len` bytes of `stretch`, each line ending where the next starts, less `pos` centimetres
   at its start and `neg` centimetres at its end. `tests` is how many leg tests it may make, any number. With OPENLR_MOST_TESTS, or more, every leg is tested.

   A byte buffer of OPENLR_LONGEST_REFERENCE bytes is long enough for every reference. Where the reference is written, it stands first in the buffer and the
   bytes after it are as before. Where it is refused, all of the buffer is as before.

   Whatever the number of tests: read back on the same map, the bytes give the same lines without those that an offset covers whole, and spans that contain what
   is left of the offsets; and nothing else fits the bytes. A span's ends differ by less than three 512ths of the length of its leg, the first for the positive
   offset and the last for the negative one.

   Legs are the parts of what is left of the stretch when the lines that an offset covers whole are dropped: of n lines there are n * (n + 1) / 2. A leg tests
   good if the differences between its ends fit 16 bits and it is the only reading of its own bytes. Legs are tested in the order of their start, then of their
   end: as many as `tests` says, or all if they are fewer. The reference has the fewest points of all whose legs are tested good. `excess` compares it with the
   fewest points that there would be if every untested leg were good, and is 0 once every leg is tested.

   More tests never give more points or bytes and never a greater excess, and what is written with some tests is not refused with more. They may give other
   bytes with as many points. Where the legs tested good allow no reference, it is refused: with 26 if one exists once untested legs count as good, so that more
   tests may find one, and with 10 if none exists even so. With 0 tests a stretch that is not refused before gets 26. Refusal 11 looks at the reference found
   with these tests: in a short buffer, more tests may write where fewer get 11.

   An office that wants something to send soon starts with a few tests, and sends again what is found with more if it is shorter. Each call makes all of its
   tests anew, and so their number is doubled:

     uint8_t bytes[OPENLR_LONGEST_REFERENCE];
     uint32_t sent = 0;
     for (uint32_t tests = 64;; tests *= 2) {
         struct openlr_written a = openlr_write(map, map_len, stretch, stretch_len, pos, neg, tests, bytes, sizeof bytes);
         if (a.refusal == OPENLR_UNFINISHED) continue;
         if (a.refusal != 0) break;
         if (sent == 0 || a.byte_count < sent) {
             send_to_box(bytes, a.byte_count);
             sent = a.byte_count;
         }
         if (a.excess == 0) break;
     }

   The loop ends: once the tests made no longer grow, at the latest with OPENLR_MOST_TESTS, every leg is tested, 26 is not given and the excess is 0. */
struct openlr_written openlr_write(const uint8_t *map, size_t map_len, const uint8_t *stretch, size_t stretch_len, uint32_t pos, uint32_t neg, uint32_t tests,
                                   uint8_t *byte_buffer, size_t byte_buffer_len);

/* What openlr_read_point answers. */
struct openlr_point {
    uint32_t refusal;     /* 0: the reference is read. Else the number of the refusal; then every field but `refusal` and `place` is 0. */
    uint32_t place;       /* For refusal 16 the point, 0 or 1. Else 0: there is one leg only. */
    uint32_t lines;       /* How many lines lie between the two points. Their numbers are the first 4 * lines bytes of the line buffer. */
    uint32_t least;       /* How far along them the point is: the least offset that the byte may stand for, in centimetres, .. */
    uint32_t greatest;    /* .. and the greatest. 0 and 0 where the reference has no offset. */
    uint32_t orientation; /* enum openlr_orientation */
    uint32_t side;        /* enum openlr_side */
};

/* What openlr_write_point answers. */
struct openlr_point_written {
    uint32_t refusal; /* 0: the reference is written. Else the number of the refusal. */
    uint32_t bytes;   /* How many bytes the reference has, 16 or 17. They are the first of the byte buffer. 0 where refused. */
};

/* Reads a point along a line from the reference of `reference_len` bytes on the map of `map_len` bytes. A reference to a stretch is refused with 12 or 13 here,
   and a point along a line by openlr_read with 13. The line buffer is as for openlr_read. */
struct openlr_point openlr_read_point(const uint8_t *map, size_t map_len, const uint8_t *reference, size_t reference_len, uint8_t *line_buffer,
                                      size_t line_buffer_len);

/* Writes a reference for a point along a line: `offset` centimetres from where the line starts, with its orientation and side.

   A byte buffer of OPENLR_LONGEST_POINT bytes is long enough. Where the reference is written, it stands first in the buffer and the bytes after it are as
   before. Where it is refused, all of the buffer is as before.

   Read back on the same map, with a line buffer of at least four bytes, the bytes give that one line, the orientation and the side, and a span that contains
   the offset. The span's ends differ by less than three 512ths of the line's length. */
struct openlr_point_written openlr_write_point(const uint8_t *map, size_t map_len, uint32_t line, uint32_t offset, uint32_t orientation, uint32_t side,
                                               uint8_t *byte_buffer, size_t byte_buffer_len);

/* A message holds references in a lent buffer. It starts with its front, two seven-bit numbers as in a map: the byte count of the map that it is written for,
   and a sum over that map's bytes. Behind it stand the references one after another, each behind its length: a seven-bit number too, one byte up to 127 and two
   from 128 on. At most the first OPENLR_LONGEST_MESSAGE bytes of the buffer are used.

   This is what is known of a message beside its buffer. It is returned by openlr_message_start, then handed to each call and returned by it, and the caller
   goes on with what is returned, also after a refusal of openlr_message_open, openlr_message_add and openlr_message_close. */
struct openlr_message {
    uint32_t refusal;    /* Of the call that returned it: 0, or the number of the refusal; then the other fields are as they were given. No call looks at it. */
    uint32_t byte_count; /* How many bytes the front and the finished references have, lengths counted. They are the first of the buffer. */
    uint32_t open;       /* 1: a reference is open. 0: none is. Another number given to a call means what 1 means. */
    uint32_t added;      /* How many bytes the open reference has so far. 0 where none is open. */
};

/* Starts a message for the map of `map_len` bytes: its front stands first in the buffer and behind it all of the buffer is as before. `byte_count` is then the
   front's count of bytes, at most OPENLR_LONGEST_FRONT. What stood in the buffer before does not count, and so starting again begins afresh, also while a
   reference is open.

   Refused with the map's own refusals, and then with 28 where the front is longer than the buffer. A refusal leaves all of the buffer as it was; every field
   but `refusal` is then 0, since no message was given: a message that was under way in that buffer goes on with what the call before returned, and so a host
   that may have one keeps it:

     struct openlr_message started = openlr_message_start(map, map_len, buffer, sizeof buffer);
     if (started.refusal == 0) message = started; */
struct openlr_message openlr_message_start(const uint8_t *map, size_t map_len, uint8_t *buffer, size_t buffer_len);

/* Opens a reference behind the last finished one. Nothing is written. Refused with 27 where one is open. */
struct openlr_message openlr_message_open(struct openlr_message message);

/* Adds the `portion_len` bytes of `portion` to the open reference: its length so far and its bytes stand right behind the last finished reference, and behind
   them all of the buffer is as before. The bytes themselves are not looked at. They must not lie in the buffer. With no bytes nothing changes, and it is not
   refused where a reference is open.

   Refused with 27 where none is open, and then with 28 where the message, lengths counted, would go past the buffer or OPENLR_LONGEST_MESSAGE bytes, or the
   reference past OPENLR_LONGEST_REFERENCE. A refusal leaves all of the buffer as it was, and the reference open with the bytes that it had. */
struct openlr_message openlr_message_add(struct openlr_message message, uint8_t *buffer, size_t buffer_len, const uint8_t *portion, size_t portion_len);

/* Closes the open reference. Nothing is written. `byte_count` is then the message's count of bytes: what is to be sent are so many, the first of the buffer.
   Refused with 27 where none is open or nothing was added to it; then it stays open. */
struct openlr_message openlr_message_close(struct openlr_message message);

/* Where reference `n` of a message stands, counted from 0: its bytes without its length are `byte_count` bytes from byte `from` of the message on. Where there
   is no reference `n`, `byte_count` is 0 and `from` is where the list of references stops: the count of bytes of a message that was received whole, and 0 where
   the front cannot be read. */
struct openlr_part {
    uint32_t from;
    uint32_t byte_count;
};

/* Asks for reference `n`: of a received message of `message_len` bytes; or of one that is being written, of which the first `byte_count` bytes of its buffer
   are given, at any time: any finished reference is there, and the open one is not there yet. Of a longer message only the first OPENLR_LONGEST_MESSAGE bytes
   count. Each call goes through the message from its start up to the reference, and copies nothing.

   A front of which a number ends early, is not in its shortest form or is over 4,294,967,295 makes the list empty. Which map the front tells of does not
   matter to the list. A length that is no number in its shortest form, a length of 0 or of over OPENLR_LONGEST_REFERENCE, or an early end stops the list. What
   was listed before it stays. So give the bytes that were sent and no more: what stands behind them may be taken for a reference.

   What these five functions promise over several calls is proved for any calls in any order, refused ones among them, that start with openlr_message_start not
   refused, each with what the call before returned and with the same buffer, as long as nothing else writes in it. The buffer holds the front, the finished
   references in the order in which they were closed, then the open one as far as it has come, and behind that what stood there at the start. Reference `n` is
   at all times the n-th that was closed, byte for byte. The first `byte_count` bytes, received, give the references that were closed, all of them and no
   others, and are never refused with 30 on the map that the message was started for. A message that does not come from these calls may be answered with any
   refusal or number, but each call returns, reads and writes nothing else than is said above, and openlr_message_open, openlr_message_add and
   openlr_message_close leave the buffer's first `byte_count` bytes as they were.

   An office puts the morning's stretches into a message and sends it:

     uint8_t buffer[OPENLR_LONGEST_MESSAGE], bytes[OPENLR_LONGEST_REFERENCE];
     struct openlr_message message = openlr_message_start(map, map_len, buffer, sizeof buffer);
     if (message.refusal != 0) return;
     for (size_t i = 0; i < stretch_count; i++) {
         struct openlr_written a = openlr_write(map, map_len, stretch[i], stretch_len[i], 0, 0, OPENLR_MOST_TESTS, bytes, sizeof bytes);
         if (a.refusal != 0) continue;
         message = openlr_message_open(message);
         message = openlr_message_add(message, buffer, sizeof buffer, bytes, a.byte_count);
         if (message.refusal != 0) break;
         message = openlr_message_close(message);
     }
     send_to_box(buffer, message.byte_count);

   A stretch that is refused is left out here, and so are all from the first on for which there is no more room: the open reference is not sent, since
   `byte_count` counts what is finished. A box reads what it received:

     for (uint32_t n = 0;; n++) {
         struct openlr_part part = openlr_message_reference(received, received_len, n);
         if (part.byte_count == 0) break;
         struct openlr_reading a = openlr_read_of_message(map, map_len, received, received_len, received + part.from, part.byte_count, line_buffer,
                                                          sizeof line_buffer);
         if (a.refusal == OPENLR_OTHER_MAP) {
             ask_for_the_map_of_the_office();
             break;
         }
         if (a.refusal == 0) drive_along(line_buffer, a.line_count);
     } */
struct openlr_part openlr_message_reference(const uint8_t *message, size_t message_len, uint32_t n);

/* Reads the reference of `reference_len` bytes out of the message of `message_len` bytes: as openlr_read, but refused with 30, after the map's own refusals and
   before the reference is looked at, where the message was written for another map: its front's byte count or sum is not that of this map, or the front cannot
   be read. Of the message only the front is looked at, and so nothing tests that the reference lies in it. openlr_read never gives 30.

   A message that was started for the same map bytes is never refused with 30. Maps of one length that differ in one byte are always told apart, and so are
   maps of different lengths. Other maps may agree in both numbers, though hardly by accident; so what is promised on reading back holds where office and box
   have the same map bytes. There it holds for every reference that openlr_write or openlr_write_point wrote and that was added to a message and closed,
   whatever was called before and after. */
struct openlr_reading openlr_read_of_message(const uint8_t *map, size_t map_len, const uint8_t *message, size_t message_len, const uint8_t *reference,
                                             size_t reference_len, uint8_t *line_buffer, size_t line_buffer_len);

/* Reads a point along a line out of a message: as openlr_read_point, and refused with 30 as openlr_read_of_message is. */
struct openlr_point openlr_read_point_of_message(const uint8_t *map, size_t map_len, const uint8_t *message, size_t message_len, const uint8_t *reference,
                                                 size_t reference_len, uint8_t *line_buffer, size_t line_buffer_len);

/* A refusal's condition, in a sentence. The text is static. 0 gives an empty text. */
static inline const char *openlr_refusal_sentence(uint32_t refusal) {
    switch (refusal) {
    case 0: return "";
    case OPENLR_WORK_AREA_SHORT: return "the work area is too short";
    case OPENLR_MAP_NUMBER: return "the map ends early, has a number too large or not in its shortest form, or has bytes left over";
    case OPENLR_MAP_COUNT: return "the map's count of nodes is not 2 to 512, its count of lines is not 1 to 1,024, or its count of bans is over 512";
    case OPENLR_MAP_COORDINATE: return "a coordinate of the map is outside its range";
    case OPENLR_MAP_LINE: return "a field of one of the map's lines is outside its range, or a line ends at the node where it starts";
    case OPENLR_MAP_STEP: return "a step of one of the map's lines is not -250 to 250 decimetres, or its steps at one end are both 0";
    case OPENLR_EQUAL_CODES: return "two nodes of the map have the same pair of codes";
    case OPENLR_MAP_BAN: return "a ban of the map names no line, or its second line does not start where its first ends";
    case OPENLR_STRETCH_LINES: return "the map has no such line; or the stretch has no line, over 64 lines or a count of bytes that is no multiple of four";
    case OPENLR_STRETCH_GAP: return "a line of the stretch does not end where the next one starts";
    case OPENLR_STRETCH_BAN: return "a line of the stretch is banned straight after the one before it";
    case OPENLR_STRETCH_OFFSETS: return "the offset, or the two together, are not below the length of the line or stretch";
    case OPENLR_POINT_MARKS: return "the orientation or the side is over 3";
    case OPENLR_UNFINISHED: return "the legs tested good allow no reference to the stretch, but more tests may find one";
    case OPENLR_NO_CHOICE: return "no choice of points is usable for the stretch, or the line of the point is not told by its two ends";
    case OPENLR_BYTES_SHORT: return "the byte buffer is shorter than the reference";
    case OPENLR_REFERENCE_LENGTH: return "the reference has under 16 bytes, over 459 (of a point over 17) or a count of bytes that no reference has";
    case OPENLR_REFERENCE_STATUS: return "the first byte of the reference is not 0B, or of a point's not 2B";
    case OPENLR_REFERENCE_BITS: return "a bit of the reference that must be zero is set";
    case OPENLR_REFERENCE_FLAGS: return "the length of the reference does not fit its offset flags";
    case OPENLR_NO_NODE: return "a point of the reference has no node on the map";
    case OPENLR_NO_READING: return "a leg of the reference has no reading on the map";
    case OPENLR_SEVERAL_READINGS: return "a leg of the reference has several readings on the map";
    case OPENLR_JOINED_BAN: return "two legs of the reference meet in a banned turn of the map";
    case OPENLR_NO_OFFSET: return "no offset gives a flagged offset byte, or the two least offsets reach the total length";
    case OPENLR_LINES_SHORT: return "the line buffer is shorter than the list of lines, or the list has over 1,024 lines";
    case OPENLR_MESSAGE_ORDER: return "a reference of the message is open already, or none is open, or nothing was added to the one that is to be closed";
    case OPENLR_MESSAGE_FULL: return "the message would go past its buffer or 16,384 bytes, or one of its references past 459";
    case OPENLR_OTHER_MAP: return "the message was written for another map, or the map's byte count and sum at its front cannot be read";
    default: return "unknown refusal";
    }
}

#ifdef __cplusplus
}
#endif

#endif
