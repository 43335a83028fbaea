/*
 * A search compares no byte of a name that has another length than the asked one. Each search is run
 * step by step, by the processor's trap flag, and the instructions on its way are summed up. The
 * asked name is one byte many times. Two databases differ only in names of other lengths: in one all
 * their bytes are that byte, so that each of them would equal whatever byte of the asked name it was
 * compared with, in the other none is. The way must be the same: no branch went by such a comparison.
 *
 * That the way shows a comparison is tried on names of the asked length: there it must differ.
 */
#define _GNU_SOURCE
#include <signal.h>
#include <stdio.h>
#include <stdlib.h>
#include <string.h>
#include <ucontext.h>

#include "termcap_proved.h"

enum { MOST = 4096, LONGEST = 64, TRAP_FLAG = 0x100 };

/* A database that is searched without the scan's lists, and one that is searched with them. */
enum { SHORT = 400, LISTED = 2100 };

static uint8_t db[MOST], asked[LONGEST];
static size_t db_len;

/* The instructions of a call: how many, and a sum of their places in order. */
struct way {
    uint64_t steps, sum;
};
static struct way walked;

static void on_step(int number, siginfo_t *info, void *context)
{
    const ucontext_t *at = context;
    (void)number;
    (void)info;
    walked.steps++;
    walked.sum = walked.sum * 1099511628211u + (uint64_t)at->uc_mcontext.gregs[REG_RIP];
}

/* Turns stepping on or off. The bytes under the stack pointer may be in use: the flags are pushed below
 * them. */
static inline void toggle_stepping(void)
{
    __asm__ volatile("leaq -128(%%rsp), %%rsp\n\tpushfq\n\txorq %0, (%%rsp)\n\tpopfq\n\t"
                     "leaq 128(%%rsp), %%rsp"
                     :
                     : "i"(TRAP_FLAG)
                     : "memory", "cc");
}

typedef uint32_t search(const uint8_t *, size_t, const uint8_t *, size_t, uint64_t *, uint64_t *);

/* The way of a search, which must find the name in the last line. */
static struct way way_of(search *call, size_t length)
{
    uint64_t x = 0, y = 0;
    walked.steps = walked.sum = 0;
    toggle_stepping();
    uint32_t result = call(db, db_len, asked, length, &x, &y);
    toggle_stepping();
    /* Show tells where the line starts, Search that the name is found. */
    if (result != TERMCAP_OK || x == 0 || walked.steps < db_len / 16) {
        printf("lengths: result %u after %llu steps\n", (unsigned)result,
               (unsigned long long)walked.steps);
        exit(1);
    }
    return walked;
}

static void put(const char *text)
{
    while (*text) db[db_len++] = (uint8_t)*text++;
}

static uint32_t next_number(uint32_t *seed, uint32_t below)
{
    *seed = *seed * 1664525u + 1013904223u;
    return (*seed >> 8) % below;
}

/* A name of `size` bytes, one `end` first and one last, and `inner` between. Some have a pair in them. */
static void put_name(size_t size, uint8_t end, uint8_t inner, uint32_t *seed)
{
    size_t pair = next_number(seed, 16) == 0 ? next_number(seed, (uint32_t)size + 1) : size + 1;
    for (size_t i = 0; i <= size; i++) {
        if (i == pair) put("\\\n");
        if (i < size) db[db_len++] = i == 0 || i + 1 == size ? end : inner;
    }
}

/* Lines up to `bytes`, with names of other lengths than `length`, or of that one, and the asked name last. */
static void fill(size_t bytes, size_t length, int others, uint8_t end, uint8_t inner)
{
    uint32_t seed = (uint32_t)(bytes + length);
    db_len = 0;
    while (db_len < bytes) {
        uint32_t names = 1 + next_number(&seed, 4);
        for (uint32_t i = 0; i < names; i++) {
            size_t size = 1 + next_number(&seed, (uint32_t)length + 5);
            if (size == length) size++;
            if (i > 0) put("|");
            put_name(others ? size : length, end, inner, &seed);
        }
        put(":am:bs:co#80:li#24:cl=\\E[H\\E[2J:\\\n\t:cm=\\E[%i%d;%dH:ce=\\E[K:cd=\\E[J:\n");
    }
    put("|");
    for (size_t i = 0; i < length; i++) db[db_len++] = asked[0];
    put(":am:\n");
}

/* Whether names of `end` bytes with `inner` ones between and names of `other` bytes make the way another. */
static int differs(search *call, size_t bytes, size_t length, int others, uint8_t end, uint8_t inner,
                   uint8_t other)
{
    fill(bytes, length, others, end, inner);
    struct way a = way_of(call, length);
    fill(bytes, length, others, other, other);
    struct way b = way_of(call, length);
    return a.steps != b.steps || a.sum != b.sum;
}

/* A search for `length` times `byte` in so many bytes. A name of letters is looked for by blocks, one with
 * a byte under 36 in all of them; one of over 32 bytes is measured by the last look at it alone. */
static const struct {
    search *call;
    const char *what;
    size_t bytes, length;
    uint8_t byte;
} cases[] = {
    {termcap_show, "Show", SHORT, 1, 'a'},   {termcap_show, "Show", SHORT, 5, 'a'},
    {termcap_show, "Show", SHORT, 12, '!'},  {termcap_show, "Show", SHORT, 33, 'a'},
    {termcap_show, "Show", LISTED, 5, 'a'},  {termcap_show, "Show", LISTED, 5, '!'},
    {termcap_show, "Show", LISTED, 12, 'a'}, {termcap_search, "Search", SHORT, 5, 'a'},
};

static int judge(size_t i)
{
    size_t bytes = cases[i].bytes, length = cases[i].length;
    uint8_t byte = cases[i].byte;
    int failed = 0;
    memset(asked, byte, sizeof asked);
    if (differs(cases[i].call, bytes, length, 1, byte, byte, byte + 1)) {
        printf("lengths: %s of %d times %c in %d bytes: a name of another length was compared\n",
               cases[i].what, (int)length, byte, (int)bytes);
        failed = 1;
    }
    /* A name of the asked length that is not equal: its first and its last byte are, or none is. */
    if (length == 5 && !differs(cases[i].call, bytes, length, 0, byte, byte + 1, byte + 1)) {
        printf("lengths: %s of %d times %c in %d bytes: no comparison is seen\n", cases[i].what,
               (int)length, byte, (int)bytes);
        failed = 1;
    }
    return failed;
}

int main(void)
{
    struct sigaction action;
    int failed = 0;
    memset(&action, 0, sizeof action);
    action.sa_sigaction = on_step;
    action.sa_flags = SA_SIGINFO;
    sigaction(SIGTRAP, &action, NULL);
    for (size_t i = 0; i < sizeof cases / sizeof *cases; i++) failed |= judge(i);
    if (!failed) puts("lengths: no byte of a name of another length is compared");
    return failed;
}
