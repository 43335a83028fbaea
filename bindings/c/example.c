/*
 * Asks a terminal for its width, clears its screen and moves its cursor, printing what would be
 * sent. From this folder:
 *
 *   cc -std=c99 -Wall -Wextra -pedantic -o example example.c ../../target/staticlib/libtermcap.a
 *   ./example ../../data/sample.tc vt100
 */
#include <stdio.h>
#include <string.h>

#include "termcap_proved.h"

enum { SPEED = 9600, PAD = 0 };

static const char *const refusals[] = {
    "",
    "the terminal's name is not 1 to 64 printable bytes without | : and \\",
    "the capability's id is not two printable bytes without : and \\, begins with a point, or is tc",
    "the database has more than 1,048,576 bytes",
    "no terminal in the database has this name",
    "a description links to a terminal that is not in the database",
    "a description of the terminal is malformed",
    "a description links back to one that was read before",
    "the terminal has more than 32 descriptions, or over 16,384 bytes of them",
    "the output does not fit the buffer",
    "the command has an unknown or unfinished percent sequence",
    "the command uses more parameters than there are",
    "a number is out of its range",
    "the command's padding has too many digits",
};

/* One byte over the library's limit, so that too large a file is refused by the library itself. */
static uint8_t db[1048576 + 1];
static size_t db_len;
static const uint8_t *name;
static size_t name_len;

static void print_bytes(const uint8_t *bytes, uint64_t count)
{
    for (uint64_t i = 0; i < count; i++) {
        if (bytes[i] == '\\') {
            printf("\\\\");
        } else if (bytes[i] >= 32 && bytes[i] <= 126) {
            putchar(bytes[i]);
        } else {
            printf("\\x%02X", (unsigned)bytes[i]);
        }
    }
    putchar('\n');
}

/* Prints any result but TERMCAP_OK; gives 1 for TERMCAP_OK and 0 otherwise. */
static int accepted(const char *what, uint32_t result)
{
    if (result == TERMCAP_OK) {
        return 1;
    }
    if (result == TERMCAP_ABSENT) {
        printf("%s: absent\n", what);
    } else if (result < sizeof refusals / sizeof refusals[0]) {
        printf("%s: refused, %u: %s\n", what, (unsigned)result, refusals[result]);
    } else {
        printf("%s: unknown result %u\n", what, (unsigned)result);
    }
    return 0;
}

static uint32_t ask_string(const char *id, uint8_t *out, size_t out_len, uint64_t *count)
{
    return termcap_string(db, db_len, name, name_len, (const uint8_t *)id, 2, out, out_len, count);
}

/*
 * A string that moves the cursor, without its padding: Send gives it so at speed 0. It may be
 * missing: absent leaves *count as it is, which is 0.
 */
static int ask_motion(const char *id, uint8_t *out, size_t out_len, uint64_t *count)
{
    static uint8_t motion[TERMCAP_STRING_BYTES];
    uint64_t motion_len = 0;
    uint32_t result = ask_string(id, motion, sizeof motion, &motion_len);
    if (result == TERMCAP_ABSENT) {
        return 1;
    }
    return accepted(id, result) &&
           accepted(id, termcap_send(motion, (size_t)motion_len, 1, 0, PAD, out, out_len, count));
}

static int show_width(void)
{
    uint64_t columns = 0;
    uint32_t result =
        termcap_number(db, db_len, name, name_len, (const uint8_t *)"co", 2, &columns);
    if (!accepted("co", result)) {
        return result == TERMCAP_ABSENT;
    }
    printf("co: %lu columns\n", (unsigned long)columns);
    return 1;
}

static int show_clear(void)
{
    static uint8_t command[TERMCAP_STRING_BYTES], out[65536];
    uint64_t command_len = 0, count = 0;
    uint32_t result = ask_string("cl", command, sizeof command, &command_len);
    if (!accepted("cl", result)) {
        return result == TERMCAP_ABSENT;
    }
    printf("cl: ");
    print_bytes(command, command_len);
    if (!accepted("cl sent", termcap_send(command, (size_t)command_len, 1, SPEED, PAD, out,
                                          sizeof out, &count))) {
        return 0;
    }
    printf("cl sent for one line at %d: ", SPEED);
    print_bytes(out, count);
    return 1;
}

static int show_move(uint64_t row, uint64_t column)
{
    static uint8_t command[TERMCAP_STRING_BYTES], back[TERMCAP_STRING_BYTES],
        up[TERMCAP_STRING_BYTES], out[65536];
    uint64_t command_len = 0, back_len = 0, up_len = 0, count = 0;
    uint32_t result = ask_string("cm", command, sizeof command, &command_len);
    if (!accepted("cm", result)) {
        return result == TERMCAP_ABSENT;
    }
    printf("cm: ");
    print_bytes(command, command_len);
    if (!ask_motion("le", back, sizeof back, &back_len) ||
        !ask_motion("up", up, sizeof up, &up_len)) {
        return 0;
    }
    if (!accepted("cm sent", termcap_send_at(command, (size_t)command_len, row, column, back,
                                             (size_t)back_len, up, (size_t)up_len, 1, SPEED, PAD,
                                             out, sizeof out, &count))) {
        return 0;
    }
    printf("cm sent for row %lu, column %lu: ", (unsigned long)row, (unsigned long)column);
    print_bytes(out, count);
    return 1;
}

static int read_database(const char *path)
{
    FILE *file = fopen(path, "rb");
    int good;
    if (file == NULL) {
        return 0;
    }
    db_len = fread(db, 1, sizeof db, file);
    good = !ferror(file);
    fclose(file);
    return good;
}

int main(int argc, char **argv)
{
    int good;
    if (argc != 3) {
        fprintf(stderr, "usage: example DATABASE TERMINAL\n");
        return 2;
    }
    if (!read_database(argv[1])) {
        perror(argv[1]);
        return 2;
    }
    name = (const uint8_t *)argv[2];
    name_len = strlen(argv[2]);

    good = show_width();
    good = show_clear() && good;
    good = show_move(9, 9) && good;
    return good ? 0 : 1;
}
