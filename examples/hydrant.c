/* A host that marks a single thing, such as a hydrant: writes a reference for a point along a line of a map, reads it back, and prints both. Lengths, offsets
   and spans are in centimetres.

     hydrant MAP LINE OFFSET ORIENTATION SIDE

   MAP is the name of a map's file, OFFSET is counted from where the line starts, 100 for a metre, and ORIENTATION and SIDE are numbers of the header's
   enums. */
#include "arguments.h"

static const char *const orientations[] = {"none or unknown", "from the first point to the second", "from the second point to the first", "both directions"};
static const char *const sides[] = {"on the road or unknown", "right", "left", "both sides"};

int main(int argc, char **argv) {
    static uint8_t map[OPENLR_LONGEST_MAP], reference[OPENLR_LONGEST_POINT], line_buffer[4 * OPENLR_MOST_LINES];
    uint32_t line, offset, orientation, side;
    if (argc != 6 || !number(argv[2], &line) || !number(argv[3], &offset) || !number(argv[4], &orientation) || !number(argv[5], &side)) {
        fprintf(stderr, "usage: hydrant MAP LINE OFFSET ORIENTATION SIDE, with OFFSET in centimetres\n");
        return 2;
    }
    size_t map_len = load_map("hydrant", argv[1], map);

    struct openlr_point_written written = openlr_write_point(map, map_len, line, offset, orientation, side, reference, sizeof reference);
    if (written.refusal != 0) return refused("writer", written.refusal, 0);
    print_bytes("reference", reference, written.bytes);

    struct openlr_point point = openlr_read_point(map, map_len, reference, written.bytes, line_buffer, sizeof line_buffer);
    if (point.refusal != 0) return refused("reader", point.refusal, point.place);
    printf("lines %u offset %u %u\n", (unsigned)point.lines, (unsigned)point.least, (unsigned)point.greatest);
    for (uint32_t i = 0; i < point.lines; i++) printf("%u\n", (unsigned)line_at(line_buffer + 4 * i));
    printf("orientation: %s\nside: %s\n", orientations[point.orientation], sides[point.side]);
    return 0;
}
