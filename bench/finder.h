/*
 * A search of a database that arrives in blocks (document 02, Ask 8) in plain C, one byte after the
 * other: pairs are joined, names compared, and the line is collected.
 */
#ifndef FINDER_H
#define FINDER_H

#include <stddef.h>
#include <stdint.h>

/* A line that has the name and over so many bytes is too long. */
enum { PLAIN_TEXT = 16384 };

struct plain_finder {
    const uint8_t *name;
    size_t name_len;
    /* Bytes of the present name that are as asked; over name_len where one differs. */
    size_t same;
    /* Bytes of the line so far, and of them those that are not blank. */
    size_t count, visible;
    int stage, held;
};

void plain_finder_open(const uint8_t *name, size_t name_len, struct plain_finder *finder);

/* The text has PLAIN_TEXT bytes. */
void plain_finder_feed(struct plain_finder *finder, const uint8_t *block, size_t block_len,
                       uint8_t *text);

/* The bytes of the line at the start of the text, or SIZE_MAX if there is none. */
size_t plain_finder_end(struct plain_finder *finder, uint8_t *text);

#endif
