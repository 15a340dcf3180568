/* What the example hosts share: their arguments, the line numbers that they give and take, and what they print of bytes and refusals. */
#ifndef ARGUMENTS_H
#define ARGUMENTS_H

#include "openlr.h"

/* The hosts take their offsets in centimetres, and do not build with a header of another unit. */
_Static_assert(OPENLR_UNITS_PER_METRE == 100, "lengths and offsets are in centimetres");

#include <errno.h>
#include <stdio.h>
#include <stdlib.h>

/* The bytes of a map's file. Where it cannot be read or is longer than a map can be, the host says so and ends. */
static inline size_t load_map(const char *host, const char *name, uint8_t *map) {
    FILE *file = fopen(name, "rb");
    if (file != NULL) {
        size_t count = fread(map, 1, OPENLR_LONGEST_MAP, file);
        int whole = !ferror(file) && fgetc(file) == EOF;
        fclose(file);
        if (whole) return count;
    }
    fprintf(stderr, "%s: cannot read the map %s\n", host, name);
    exit(2);
}

/* A decimal number of 32 bits. */
static inline int number(const char *text, uint32_t *value) {
    char *end;
    errno = 0;
    unsigned long long parsed = strtoull(text, &end, 10);
    if (errno != 0 || end == text || *end != '\0' || text[0] == '-' || parsed > UINT32_MAX) return 0;
    *value = (uint32_t)parsed;
    return 1;
}

/* Puts the line that is named by a text. Where it is no number, the host says so and ends. */
static inline void put_line(const char *host, const char *text, uint8_t *bytes) {
    uint32_t line;
    if (!number(text, &line)) {
        fprintf(stderr, "%s: %s is no line number\n", host, text);
        exit(2);
    }
    for (int i = 0; i < 4; i++) bytes[i] = (uint8_t)(line >> 8 * i);
}

static inline uint32_t line_at(const uint8_t *bytes) {
    uint32_t line = 0;
    for (int i = 0; i < 4; i++) line |= (uint32_t)bytes[i] << 8 * i;
    return line;
}

/* The bytes of a reference or of a message, up to 32 in a row. */
static inline void print_bytes(const char *what, const uint8_t *bytes, uint32_t count) {
    printf("%s", what);
    for (uint32_t i = 0; i < count; i++) printf("%s%02X", i == 0 || i % 32 != 0 ? " " : "\n    ", bytes[i]);
    printf("\n");
}

/* A refusal and its sentence, with the point or leg where it has one. Gives the status of a host that ends with it. */
static inline int refused(const char *who, uint32_t refusal, uint32_t place) {
    printf("%s: refused %u", who, (unsigned)refusal);
    if (refusal >= OPENLR_NO_NODE && refusal <= OPENLR_SEVERAL_READINGS) printf(" %u", (unsigned)place);
    printf(": %s\n", openlr_refusal_sentence(refusal));
    return 1;
}

#endif
