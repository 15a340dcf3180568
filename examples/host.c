/* A host: writes a reference for a stretch of lines on a map, reads it back, and prints both. Lengths, offsets and spans are in centimetres.

     host MAP POS NEG LINE ..

   MAP is the name of a map's file, POS and NEG are the offsets, 100 for a metre, and the rest are line numbers. It tests every leg, which gives the fewest
   points. */
#include "arguments.h"

int main(int argc, char **argv) {
    static uint8_t map[OPENLR_LONGEST_MAP], stretch[4 * OPENLR_MOST_LINES], reference[OPENLR_LONGEST_REFERENCE], line_buffer[4 * OPENLR_MOST_LINES];
    uint32_t pos, neg;
    if (argc < 4 || argc - 4 > OPENLR_MOST_LINES || !number(argv[2], &pos) || !number(argv[3], &neg)) {
        fprintf(stderr, "usage: host MAP POS NEG LINE .., with POS and NEG in centimetres\n");
        return 2;
    }
    size_t map_len = load_map("host", argv[1], map), count = (size_t)argc - 4;
    for (size_t i = 0; i < count; i++) put_line("host", argv[4 + i], stretch + 4 * i);

    struct openlr_written written = openlr_write(map, map_len, stretch, 4 * count, pos, neg, OPENLR_MOST_TESTS, reference, sizeof reference);
    if (written.refusal != 0) return refused("writer", written.refusal, 0);
    print_bytes("reference", reference, written.byte_count);

    struct openlr_reading read = openlr_read(map, map_len, reference, written.byte_count, line_buffer, sizeof line_buffer);
    if (read.refusal != 0) return refused("reader", read.refusal, read.place);
    printf("lines %u pos %u %u neg %u %u\n", (unsigned)read.line_count, (unsigned)read.pos_least, (unsigned)read.pos_greatest,
           (unsigned)read.neg_least, (unsigned)read.neg_greatest);
    for (uint32_t i = 0; i < read.line_count; i++) printf("%u\n", (unsigned)line_at(line_buffer + 4 * i));
    return 0;
}
