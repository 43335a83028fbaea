#include "sending.h"

#include <string.h>

enum axis { ROW, COLUMN };

struct parameter {
    enum axis axis;
    int value;
};

/* What is written, and the axis of each step by which a byte was raised, in their order. */
struct filling {
    uint8_t *out;
    enum axis raised[4];
    int raised_count;
    int raises[2];
};

static int is_digit(uint8_t byte)
{
    return byte >= '0' && byte <= '9';
}

/* The padding prefix: its delay in tenths of a millisecond, and the place after it. */
static size_t read_prefix(const uint8_t *command, size_t length, unsigned line_count,
                          unsigned *delay)
{
    size_t i = 0;
    unsigned tenths = 0;

    while (i < length && is_digit(command[i]))
        tenths = 10 * tenths + (command[i++] - '0');
    tenths *= 10;
    if (i > 0 && i + 1 < length && command[i] == '.' && is_digit(command[i + 1])) {
        tenths += command[i + 1] - '0';
        i += 2;
    }
    if (i > 0 && i < length && command[i] == '*') {
        tenths *= line_count;
        i++;
    }
    *delay = tenths;
    return i;
}

static uint8_t *put_pads(uint8_t *out, unsigned delay, unsigned speed, uint8_t pad)
{
    size_t count = ((uint64_t)delay * speed + 99999) / 100000;

    memset(out, pad, count);
    return out + count;
}

static uint8_t *put_decimal(uint8_t *out, int value, int least)
{
    uint8_t digits[10];
    int count = 0;

    do {
        digits[count++] = '0' + value % 10;
        value /= 10;
    } while (value > 0 || count < least);
    while (count > 0)
        *out++ = digits[--count];
    return out;
}

static void put_byte(struct filling *to, struct parameter parameter, uint8_t byte)
{
    while ((byte == 0 || byte == 4 || byte == 9 || byte == 10) && to->raises[parameter.axis]) {
        byte++;
        to->raised[to->raised_count++] = parameter.axis;
    }
    *to->out++ = byte;
}

static void fill(struct filling *to, const uint8_t *at, const uint8_t *end, int row, int column)
{
    struct parameter parameters[2] = { { ROW, row }, { COLUMN, column } };
    struct parameter *next = parameters, *one, first;

    while (at < end) {
        if (*at != '%') {
            *to->out++ = *at++;
            continue;
        }
        at += 2;
        switch (at[-1]) {
        case '%':
            *to->out++ = '%';
            break;
        case 'd':
            to->out = put_decimal(to->out, (next++)->value, 1);
            break;
        case '2':
            to->out = put_decimal(to->out, (next++)->value, 2);
            break;
        case '3':
            to->out = put_decimal(to->out, (next++)->value, 3);
            break;
        case '.':
            put_byte(to, *next, next->value);
            next++;
            break;
        case '+':
            put_byte(to, *next, next->value + *at++);
            next++;
            break;
        case 'i':
            for (one = next; one < parameters + 2; one++)
                one->value++;
            break;
        case 'n':
            for (one = next; one < parameters + 2; one++)
                one->value ^= 96;
            break;
        case 'r':
            first = parameters[0];
            parameters[0] = parameters[1];
            parameters[1] = first;
            break;
        case '>':
            if (next->value > at[0])
                next->value += at[1];
            at += 2;
            break;
        case 'B':
            next->value = 16 * (next->value / 10) + next->value % 10;
            break;
        case 'D':
            next->value -= 2 * (next->value % 16);
            break;
        }
    }
}

static uint8_t *copy(uint8_t *out, const uint8_t *bytes, size_t count)
{
    memcpy(out, bytes, count);
    return out + count;
}

size_t plain_send(const uint8_t *command, size_t command_len, unsigned line_count, unsigned speed,
                  uint8_t pad, uint8_t *out)
{
    unsigned delay;
    size_t from = read_prefix(command, command_len, line_count, &delay);
    uint8_t *end = copy(out, command + from, command_len - from);

    return put_pads(end, delay, speed, pad) - out;
}

size_t plain_send_at(const uint8_t *command, size_t command_len, int row, int column,
                     const uint8_t *back, size_t back_len, const uint8_t *up, size_t up_len,
                     unsigned line_count, unsigned speed, uint8_t pad, uint8_t *out)
{
    unsigned delay;
    size_t from = read_prefix(command, command_len, line_count, &delay);
    struct filling to = { out, { ROW }, 0, { up_len > 0, up_len > 0 || back_len > 0 } };
    int i;

    fill(&to, command + from, command + command_len, row, column);
    for (i = 0; i < to.raised_count; i++) {
        if (to.raised[i] == ROW)
            to.out = copy(to.out, up, up_len);
        else if (back_len > 0)
            to.out = copy(to.out, back, back_len);
        else
            *to.out++ = 8;
    }
    return put_pads(to.out, delay, speed, pad) - out;
}
