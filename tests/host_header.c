/* The constants and the sentences of the header. */
#include "ridge.h"

/* The bytes of a number's shortest form, seven bits in each. */
#define NUMBER_BYTES(n) ((n) < 128 ? 1 : (n) < 16384 ? 2 : (n) < 2097152 ? 3 : (n) < 268435456 ? 4 : 5)

#ifdef OPENLR_EMPTY_MESSAGE
#error "a message starts with openlr_message_start"
#endif

enum {
    NODE_BYTES = NUMBER_BYTES(35999998) + NUMBER_BYTES(18000000),
    LINE_BYTES = 2 * NUMBER_BYTES(511) + NUMBER_BYTES(LONGEST_LINE) + 2 * NUMBER_BYTES(7) + 4 * NUMBER_BYTES(500),
    BAN_BYTES = 2 * NUMBER_BYTES(1023),
    MAP_BYTES = NUMBER_BYTES(512) + 512 * NODE_BYTES + NUMBER_BYTES(1024) + 1024 * LINE_BYTES + NUMBER_BYTES(512) + 512 * BAN_BYTES
};

_Static_assert(OPENLR_LONGEST_MAP == MAP_BYTES && MAP_BYTES == 23558, "every number as long as it can be");
_Static_assert(OPENLR_LONGEST_REFERENCE == 1 + 9 + 63 * 7 + 6 + 2 && OPENLR_LONGEST_REFERENCE == 459, "64 legs and both offsets");
_Static_assert(OPENLR_LONGEST_POINT == 1 + 9 + 6 + 1 && OPENLR_LONGEST_POINT == 17, "one leg and an offset");
_Static_assert(OPENLR_MOST_LINES == 1024, "the scope paper's, for a host");
_Static_assert(OPENLR_MOST_TESTS == 64 * (64 + 1) / 2 && OPENLR_MOST_TESTS == 2080, "a test for each leg of 64 lines");
_Static_assert(OPENLR_LONGEST_MESSAGE == 16384 && OPENLR_LONGEST_MESSAGE == 128 * 128, "the papers', for messages");
_Static_assert(OPENLR_LONGEST_FRONT == NUMBER_BYTES(MAP_BYTES) + NUMBER_BYTES(4294967290) && OPENLR_LONGEST_FRONT == 8, "a count and the largest sum");
_Static_assert(OPENLR_VERSION == 10 && OPENLR_UNITS_PER_METRE == 100, "messages with their map's numbers, in centimetres");
_Static_assert(OPENLR_LEAST_STACK == 104 * 1024, "in whole pages");
_Static_assert(OPENLR_WORK_AREA_SHORT == 1 && OPENLR_MAP_NUMBER == 2 && OPENLR_EQUAL_CODES == 6, "the table's numbers for maps");
_Static_assert(OPENLR_MAP_BAN == 23 && OPENLR_MAP_STEP == 24, "and the later ones");
_Static_assert(OPENLR_STRETCH_LINES == 7 && OPENLR_NO_CHOICE == 10 && OPENLR_BYTES_SHORT == 11 && OPENLR_STRETCH_BAN == 21, "for the writer");
_Static_assert(OPENLR_UNFINISHED == 26, "for its tests");
_Static_assert(OPENLR_POINT_MARKS == 25, "for that of points");
_Static_assert(OPENLR_REFERENCE_LENGTH == 12 && OPENLR_NO_NODE == 16 && OPENLR_LINES_SHORT == 20 && OPENLR_JOINED_BAN == 22, "for the reader");
_Static_assert(OPENLR_MESSAGE_ORDER == 27 && OPENLR_MESSAGE_FULL == 28 && OPENLR_OTHER_MAP == 30, "for messages");
_Static_assert(sizeof(struct openlr_message) == 16 && sizeof(struct openlr_part) == 8, "four numbers of 32 bits, and two");
_Static_assert(OPENLR_ORIENTATION_NONE == 0 && OPENLR_ORIENTATION_FIRST_TO_SECOND == 1, "the white paper's Table 20");
_Static_assert(OPENLR_ORIENTATION_SECOND_TO_FIRST == 2 && OPENLR_ORIENTATION_BOTH == 3, "the same");
_Static_assert(OPENLR_SIDE_ON_ROAD == 0 && OPENLR_SIDE_RIGHT == 1 && OPENLR_SIDE_LEFT == 2 && OPENLR_SIDE_BOTH == 3, "and Table 21");

int main(void) {
    const char *unknown = openlr_refusal_sentence(29);
    EXPECT(strcmp(openlr_refusal_sentence(0), "") == 0 && strcmp(unknown, "unknown refusal") == 0);
    EXPECT(strcmp(openlr_refusal_sentence(31), unknown) == 0 && strcmp(openlr_refusal_sentence(UINT32_MAX), unknown) == 0);
    for (uint32_t i = 1; i <= 30; i++) {
        const char *sentence = openlr_refusal_sentence(i);
        if (i == 29) continue;
        EXPECT(strlen(sentence) > 20 && strcmp(sentence, unknown) != 0);
        for (uint32_t j = 1; j < i; j++) EXPECT(strcmp(sentence, openlr_refusal_sentence(j)) != 0);
    }
    EXPECT(strstr(openlr_refusal_sentence(30), "another map") != NULL);
    puts("openlr.h: constants and sentences");
    return 0;
}
