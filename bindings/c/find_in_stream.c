/*
 * Finds a terminal in a stream of any length with less than 20 KB of memory, and prints its line and its
 * width. From this folder:
 *
 *   cc -std=c99 -Wall -Wextra -pedantic -o find_in_stream find_in_stream.c \
 *       ../../target/staticlib/libtermcap.a
 *   ./find_in_stream oven-panel < ../../data/sample.tc
 */
#include <stdio.h>
#include <string.h>

#include "termcap_proved.h"

/* All memory there is, besides some stack. A terminal with a longer line than this is refused with 9. */
static uint8_t text[TERMCAP_FINDER_TEXT_BYTES], block[1024], line[2048];
static struct termcap_finder finder;

typedef char less_than_20_KB[sizeof text + sizeof block + sizeof line + sizeof finder < 20000 ? 1 : -1];

static uint32_t find(const char *terminal, uint64_t *length)
{
    uint32_t result = termcap_finder_open((const uint8_t *)terminal, strlen(terminal), &finder);
    size_t count;
    /* Once the line is complete, the rest of the stream does not count. */
    while (result == TERMCAP_OK && finder.stage != TERMCAP_FINDER_COMPLETE &&
           (count = fread(block, 1, sizeof block, stdin)) > 0) {
        result = termcap_finder_feed(&finder, block, count, text, sizeof text);
    }
    if (result == TERMCAP_OK) {
        result = termcap_finder_end(&finder, text, sizeof text);
    }
    if (result == TERMCAP_OK) {
        result = termcap_finder_answer(&finder, text, sizeof text, line, sizeof line, length);
    }
    return result;
}

static void print_bytes(const uint8_t *bytes, uint64_t count)
{
    for (uint64_t i = 0; i < count; i++) {
        if (bytes[i] == '\\') {
            printf("\\\\");
        } else if (bytes[i] >= 32 && bytes[i] <= 126) {
            putchar(bytes[i]);
        } else {
            printf("\\x%02X", (unsigned)bytes[i]);
        }
    }
    putchar('\n');
}

static const char *why(uint32_t result)
{
    switch (result) {
    case TERMCAP_BAD_NAME: return "this is no name of a terminal";
    case TERMCAP_UNKNOWN_NAME: return "no terminal in the stream has this name";
    case TERMCAP_CHAIN_TOO_LARGE: return "the terminal's line has over 16,384 bytes";
    case TERMCAP_NO_ROOM: return "the terminal's line does not fit the buffer";
    default: return "unknown result";
    }
}

int main(int argc, char **argv)
{
    uint64_t length = 0, columns = 0;
    uint32_t result;
    if (argc != 2) {
        fprintf(stderr, "usage: find_in_stream TERMINAL < DATABASE\n");
        return 2;
    }
    /* Blocks are read where they are lent from. Nothing is printed before all is read, so that output
     * can use the same bytes. */
    setvbuf(stdin, NULL, _IONBF, 0);
    setvbuf(stdout, (char *)block, _IOFBF, sizeof block);
    result = find(argv[1], &length);
    if (ferror(stdin)) {
        perror("find_in_stream");
        return 2;
    }
    if (result != TERMCAP_OK) {
        printf("%s: refused, %u: %s\n", argv[1], (unsigned)result, why(result));
        return 1;
    }
    printf("%s: a line of %lu bytes\n", argv[1], (unsigned long)length);
    print_bytes(line, length);
    /* The line is a database of its own. A link in it leads out of it (5): it takes another finder. */
    result = termcap_number(line, (size_t)length, (const uint8_t *)argv[1], strlen(argv[1]),
                            (const uint8_t *)"co", 2, &columns);
    if (result == TERMCAP_OK) {
        printf("co: %lu columns\n", (unsigned long)columns);
    } else {
        printf("co: result %u\n", (unsigned)result);
    }
    return 0;
}
