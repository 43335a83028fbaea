/*
 * No call needs more stack than termcap_proved.h says. Each is made by a thread whose stack was
 * filled with one byte before: the lowest byte that has changed tells how deep the call went. A
 * thread that makes no call is measured, too, and taken off.
 */
#define _GNU_SOURCE
#include <pthread.h>
#include <stdio.h>
#include <stdlib.h>
#include <string.h>

#include "termcap_proved.h"

enum { STACK = 1 << 20, PAINT = 0xA5 };
enum {
    SHOW, SEARCH, FLAG, NUMBER, STRING, LIST, FLAT, BATCH, REPAIR, FINDER,
    SEND, SEND_AT, FILL, PAD, CALLS
};
enum { NONE = CALLS };

static uint8_t stack[STACK] __attribute__((aligned(4096)));
static uint8_t db[1048576], mended[1048576], out[1 << 17], command[16384];
static uint8_t text[TERMCAP_FINDER_TEXT_BYTES];
static struct termcap_finder finder;
static size_t db_len, command_len;
static const char *name = "";

static const char *const calls[CALLS] = {"show",   "search",     "flag", "number",  "string",
                                         "list",   "flat",       "batch", "repair", "finder_...",
                                         "send",   "send_at",    "fill", "pad"};
static const size_t most[CALLS] = {TERMCAP_STACK_SHOW,     TERMCAP_STACK_SHOW,
                                   TERMCAP_STACK_QUESTION, TERMCAP_STACK_QUESTION,
                                   TERMCAP_STACK_QUESTION, TERMCAP_STACK_LIST,
                                   TERMCAP_STACK_LIST,     TERMCAP_STACK_BATCH,
                                   TERMCAP_STACK_REPAIR,   TERMCAP_STACK_FINDER,
                                   TERMCAP_STACK_SEND,     TERMCAP_STACK_SEND,
                                   TERMCAP_STACK_SEND,     TERMCAP_STACK_SEND};
static size_t measured[CALLS];

/* The library has no bytes between the numbers of a finder. */
typedef char finder_has_72_bytes[sizeof(struct termcap_finder) == 72 ? 1 : -1];

/* Single bytes, and the rest in one block; then the calls that are refused. */
static void find(const uint8_t *n, size_t n_len)
{
    const size_t single = db_len < 2000 ? db_len : 2000;
    uint64_t x;
    termcap_finder_open(n, n_len, &finder);
    for (size_t i = 0; i < single; i++) {
        termcap_finder_feed(&finder, db + i, 1, text, sizeof text);
    }
    termcap_finder_feed(&finder, db + single, db_len - single, text, sizeof text);
    for (int i = 0; i < 2; i++) {
        termcap_finder_answer(&finder, text, sizeof text, out, sizeof out, &x);
        termcap_finder_end(&finder, text, sizeof text);
    }
    termcap_finder_answer(&finder, text, sizeof text, out, 0, &x);
    termcap_finder_open(n, 0, &finder);
}

static void *call(void *which)
{
    static const uint8_t questions[] = "am\1\0co\2\0cm\3\0xx\1\0tc\1\0am\4";
    const uint8_t *n = (const uint8_t *)name, *id = (const uint8_t *)"cm";
    /* Seven empty files, and all of the database as the last one. */
    const size_t ends[TERMCAP_FILES] = {0, 0, 0, 0, 0, 0, 0, db_len};
    size_t n_len = strlen(name);
    uint64_t x, y, z;
    switch (*(int *)which) {
    case SHOW:
        termcap_show(db, db_len, n, n_len, &x, &y);
        termcap_show_files(db, db_len, ends, TERMCAP_FILES, n, n_len, &x, &y);
        break;
    case SEARCH:
        termcap_search(db, db_len, n, n_len, &x, &y);
        termcap_search_files(db, db_len, ends, TERMCAP_FILES, n, n_len, &x, &y);
        break;
    case FLAG:
        termcap_flag(db, db_len, n, n_len, id, 2, &x);
        termcap_flag_files(db, db_len, ends, TERMCAP_FILES, n, n_len, id, 2, &x);
        break;
    case NUMBER:
        termcap_number(db, db_len, n, n_len, id, 2, &x);
        termcap_number_files(db, db_len, ends, TERMCAP_FILES, n, n_len, id, 2, &x);
        break;
    case STRING:
        termcap_string(db, db_len, n, n_len, id, 2, out, sizeof out, &x);
        termcap_string_files(db, db_len, ends, TERMCAP_FILES, n, n_len, id, 2, out, sizeof out, &x);
        break;
    case LIST:
        termcap_list(db, db_len, n, n_len, out, sizeof out, &x);
        termcap_list_files(db, db_len, ends, TERMCAP_FILES, n, n_len, out, sizeof out, &x);
        break;
    case FLAT:
        termcap_flat(db, db_len, n, n_len, out, sizeof out, &x);
        termcap_flat_files(db, db_len, ends, TERMCAP_FILES, n, n_len, out, sizeof out, &x);
        break;
    case BATCH:
        termcap_batch(db, db_len, n, n_len, questions, sizeof questions, out, sizeof out, &x);
        termcap_batch_files(db, db_len, ends, TERMCAP_FILES, n, n_len, questions, sizeof questions,
                            out, sizeof out, &x);
        break;
    case REPAIR:
        termcap_repair(db, db_len, mended, sizeof mended, out, sizeof out, &x, &y);
        break;
    case FINDER: find(n, n_len); break;
    case SEND: termcap_send(command, command_len, 1, 9600, 0, out, sizeof out, &x); break;
    case SEND_AT:
        termcap_send_at(command, command_len, 9, 10, n, n_len, n, n_len, 1, 9600, 0, out, sizeof out,
                        &x);
        /* Lines that are out of range: the body is measured only. */
        termcap_send_at(command, command_len, 9, 10, n, n_len, n, n_len, 0, 9600, 0, out, sizeof out,
                        &x);
        break;
    case FILL:
        termcap_fill(command, command_len, 9, 10, n, n_len, n, n_len, out, sizeof out, &x, &y, &z);
        break;
    case PAD: termcap_pad(99999, 1, command, command_len, 1, 9600, 0, out, sizeof out, &x); break;
    }
    return NULL;
}

static size_t depth(int which)
{
    pthread_attr_t attributes;
    pthread_t thread;
    size_t i = 0;
    memset(stack, PAINT, STACK);
    if (pthread_attr_init(&attributes) != 0 ||
        pthread_attr_setstack(&attributes, stack, STACK) != 0 ||
        pthread_create(&thread, &attributes, call, &which) != 0 ||
        pthread_join(thread, NULL) != 0) {
        perror("tests/stack.c");
        exit(2);
    }
    while (i < STACK && stack[i] == PAINT) {
        i++;
    }
    return STACK - i;
}

static void measure(int from, int to)
{
    for (int which = from; which < to; which++) {
        size_t without = depth(NONE), with = depth(which);
        if (with > without && with - without > measured[which]) {
            measured[which] = with - without;
        }
    }
}

static void ask(const char *terminal)
{
    name = terminal;
    measure(SHOW, SEND);
}

static void add(const char *line)
{
    memcpy(db + db_len, line, strlen(line));
    db_len += strlen(line);
}

/* Other terminals, and then a chain of 32 with each kind of field. */
static void fill_database(size_t others)
{
    char line[200];
    db_len = 0;
    while (db_len < others) {
        sprintf(line, "t%zu|a terminal with a long name:am:\\\n\t:co#80:cl=5\\E[H:\n", db_len);
        add(line);
    }
    for (int i = 0; i < 31; i++) {
        sprintf(line, "c%d|chain:a%c:n%c#%d:s%c=\\E\\012^A:.x:\\\n\t:tc=c%d:\n", i, 'A' + i,
                'A' + i, i, 'A' + i, i + 1);
        add(line);
    }
    add("c31:am:co#80:cm=\\E[%i%d;%dH:xx@:\n");
    ask("c0");
    ask("c31");
    ask("nowhere");
}

/* 4,096 lines, each linking to the next, the last one to the first; every eighth has faults. */
static void fill_ring(void)
{
    char line[200];
    db_len = 0;
    for (int i = 0; i < 4096; i++) {
        sprintf(line, "k%d|terminal %d:am:%stc=k%d:\n", i, i, i % 8 == 0 ? "x:\\\n:li#:" : "",
                (i + 1) % 4096);
        add(line);
    }
    measure(REPAIR, SEND);
}

static void send_repeated(const char *part, size_t size)
{
    for (command_len = 0; command_len + strlen(part) <= size; command_len += strlen(part)) {
        memcpy(command + command_len, part, strlen(part));
    }
    measure(SEND, CALLS);
}

int main(void)
{
    static const char *const parts[] = {"A",     "%%",  "A%%",  "A%n",        "A%r",  "A%i%n",
                                        "A%>zz", "A%B", "A%D",  "A%.%+A",     "%d%d", "A%d%d%d",
                                        "A%x",   "A%3", "A%2A", "99.9*A%i%d", "A%"};
    int good = 1;
    depth(NONE);
    fill_database(0);
    fill_database(1000000);
    fill_ring();
    for (size_t i = 0; i < sizeof parts / sizeof parts[0]; i++) {
        send_repeated(parts[i], strlen(parts[i]));
        send_repeated(parts[i], sizeof command);
    }
    for (int which = 0; which < CALLS; which++) {
        printf("stack: termcap_%s %zu, at most %zu\n", calls[which], measured[which], most[which]);
        good = good && measured[which] <= most[which];
    }
    return good ? 0 : 1;
}
