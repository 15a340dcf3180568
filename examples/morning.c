/* An office and a box in one program. The office writes a morning's stretches into one message, and the message's bytes are printed. The box takes them as
   received, asks for each reference, reads it, and prints its lines.

     morning OFFICE_MAP BOX_MAP STRETCH ..

   The maps are names of files. A message starts with its front, the byte count and the sum of the office's map, which is printed by itself too. A box with
   another map is refused with 30 at the first reference, and reads no more. A STRETCH is line numbers with commas between them, such as 0,1. It has no offsets,
   and every leg of it is tested. A refused stretch is left out, and so are all from the first on for which the message has no more room. The status is 0 where
   the box reads as many as were given. */
#include "arguments.h"

#include <string.h>

static size_t put_stretch(char *text, uint8_t *stretch) {
    size_t count = 0;
    for (const char *part = strtok(text, ","); part != NULL; part = strtok(NULL, ",")) {
        if (count == OPENLR_MOST_LINES) {
            fprintf(stderr, "morning: a stretch has over %d lines\n", OPENLR_MOST_LINES);
            exit(2);
        }
        put_line("morning", part, stretch + 4 * count++);
    }
    return count;
}

static void print_lines(const uint8_t *lines, size_t count, const char *end) {
    printf("lines");
    for (size_t i = 0; i < count; i++) printf(" %u", (unsigned)line_at(lines + 4 * i));
    printf("%s", end);
}

/* Writes the stretches into the buffer. Gives how many of its bytes are the message, 0 where the map is refused. */
static uint32_t office(const char *map_name, char **stretches, int stretch_count, uint8_t *buffer, size_t buffer_len) {
    static uint8_t map[OPENLR_LONGEST_MAP], stretch[4 * OPENLR_MOST_LINES], reference[OPENLR_LONGEST_REFERENCE];
    size_t map_len = load_map("morning", map_name, map);
    struct openlr_message message = openlr_message_start(map, map_len, buffer, buffer_len);
    if (message.refusal != 0) {
        refused("message", message.refusal, 0);
        return 0;
    }
    print_bytes("front", buffer, message.byte_count);
    for (int i = 0; i < stretch_count; i++) {
        size_t count = put_stretch(stretches[i], stretch);
        struct openlr_written written = openlr_write(map, map_len, stretch, 4 * count, 0, 0, OPENLR_MOST_TESTS, reference, sizeof reference);
        if (written.refusal != 0) {
            print_lines(stretch, count, ": ");
            refused("writer", written.refusal, 0);
            continue;
        }
        message = openlr_message_open(message);
        message = openlr_message_add(message, buffer, buffer_len, reference, written.byte_count);
        if (message.refusal != 0) {
            print_lines(stretch, count, ": ");
            refused("message", message.refusal, 0);
            break;
        }
        message = openlr_message_close(message);
    }
    return message.byte_count;
}

/* Reads each reference of a received message. Gives how many are read. */
static int box(const char *map_name, const uint8_t *received, size_t received_len) {
    static uint8_t map[OPENLR_LONGEST_MAP], line_buffer[4 * OPENLR_MOST_LINES];
    size_t map_len = load_map("morning", map_name, map);
    int read_count = 0;
    for (uint32_t n = 0;; n++) {
        struct openlr_part part = openlr_message_reference(received, received_len, n);
        if (part.byte_count == 0) return read_count;
        printf("reference %u, %u bytes from byte %u: ", (unsigned)n, (unsigned)part.byte_count, (unsigned)part.from);
        struct openlr_reading read = openlr_read_of_message(map, map_len, received, received_len, received + part.from, part.byte_count, line_buffer,
                                                            sizeof line_buffer);
        if (read.refusal != 0) {
            refused("reader", read.refusal, read.place);
            if (read.refusal == OPENLR_OTHER_MAP) return read_count;
        } else {
            print_lines(line_buffer, read.line_count, "\n");
            read_count++;
        }
    }
}

int main(int argc, char **argv) {
    static uint8_t buffer[OPENLR_LONGEST_MESSAGE];
    if (argc < 3) {
        fprintf(stderr, "usage: morning OFFICE_MAP BOX_MAP STRETCH .., with commas between the line numbers of a STRETCH\n");
        return 2;
    }
    int stretch_count = argc - 3;
    uint32_t byte_count = office(argv[1], argv + 3, stretch_count, buffer, sizeof buffer);
    if (byte_count == 0) return 1;
    print_bytes("message", buffer, byte_count);
    return box(argv[2], buffer, byte_count) == stretch_count ? 0 : 1;
}
