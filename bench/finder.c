#include "finder.h"

enum { NAMES, HELD_BY_LINE, PASSED, COMPLETE };

void plain_finder_open(const uint8_t *name, size_t name_len, struct plain_finder *finder) {
    finder->name = name;
    finder->name_len = name_len;
    finder->same = finder->count = finder->visible = 0;
    finder->stage = NAMES;
    finder->held = 0;
}

static void end_line(struct plain_finder *f) {
    if (f->stage == COMPLETE)
        return;
    if (f->stage == HELD_BY_LINE || (f->stage == NAMES && f->visible && f->same == f->name_len)) {
        f->stage = COMPLETE;
        return;
    }
    f->stage = NAMES;
    f->same = f->count = f->visible = 0;
}

static void collect(struct plain_finder *f, uint8_t byte, uint8_t *text) {
    if (f->count < PLAIN_TEXT)
        text[f->count] = byte;
    f->count++;
}

static void in_names(struct plain_finder *f, uint8_t byte, uint8_t *text) {
    if (byte == '#' && f->count == 0) {
        f->stage = PASSED;
        return;
    }
    if (byte == ':' || byte == '|') {
        if (f->same == f->name_len)
            f->stage = HELD_BY_LINE;
        else if (byte == ':')
            f->stage = PASSED;
        f->same = 0;
    } else if (f->same < f->name_len && byte == f->name[f->same]) {
        f->same++;
    } else {
        f->same = f->name_len + 1;
    }
    f->visible += byte != ' ' && byte != '\t';
    collect(f, byte, text);
}

static void joined_byte(struct plain_finder *f, uint8_t byte, uint8_t *text) {
    if (byte == '\n')
        end_line(f);
    else if (f->stage == NAMES)
        in_names(f, byte, text);
    else if (f->stage == HELD_BY_LINE)
        collect(f, byte, text);
}

void plain_finder_feed(struct plain_finder *finder, const uint8_t *block, size_t block_len,
                       uint8_t *text) {
    for (size_t i = 0; i < block_len; i++) {
        uint8_t byte = block[i];
        if (finder->held) {
            finder->held = 0;
            if (byte == '\n')
                continue;
            joined_byte(finder, '\\', text);
        }
        if (byte == '\\')
            finder->held = 1;
        else
            joined_byte(finder, byte, text);
    }
}

size_t plain_finder_end(struct plain_finder *finder, uint8_t *text) {
    if (finder->held)
        joined_byte(finder, '\\', text);
    end_line(finder);
    return finder->stage == COMPLETE && finder->count <= PLAIN_TEXT ? finder->count : SIZE_MAX;
}
