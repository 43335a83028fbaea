#include "search.h"

#include <string.h>

/* The joined byte at *place, or -1 at the end of the database; *place moves behind it. */
static int next_joined(const uint8_t *db, size_t db_len, size_t *place) {
    while (*place + 1 < db_len && db[*place] == '\\' && db[*place + 1] == '\n')
        *place += 2;
    return *place < db_len ? db[(*place)++] : -1;
}

static int ends_line(int byte) { return byte < 0 || byte == '\n'; }

static int ends_name(int byte) { return ends_line(byte) || byte == ':' || byte == '|'; }

/* Whether the line at `start` is blank or a comment. */
static int is_ignored(const uint8_t *db, size_t db_len, size_t start) {
    size_t place = start;
    int byte = next_joined(db, db_len, &place);
    if (byte == '#')
        return 1;
    while (byte == ' ' || byte == '\t')
        byte = next_joined(db, db_len, &place);
    return ends_line(byte);
}

/* Whether the line at `start` holds the name. If not, *place is in that line or at its end. */
static int holds_name(const uint8_t *db, size_t db_len, size_t start, const uint8_t *name,
                      size_t name_len, size_t *place) {
    int byte = '|';
    *place = start;
    if (is_ignored(db, db_len, start))
        return 0;
    while (byte == '|') {
        size_t same = 0;
        byte = next_joined(db, db_len, place);
        while (same < name_len && byte == name[same]) {
            same++;
            byte = next_joined(db, db_len, place);
        }
        if (same == name_len && ends_name(byte))
            return 1;
        while (!ends_name(byte))
            byte = next_joined(db, db_len, place);
    }
    if (byte == '\n')
        *place -= 1;
    return 0;
}

/* A newline ends its line unless the byte before it is a backslash. */
static int is_line_end(const uint8_t *db, size_t place) {
    return db[place] == '\n' && (place == 0 || db[place - 1] != '\\');
}

size_t search_bytes(const uint8_t *db, size_t db_len, const uint8_t *name, size_t name_len) {
    size_t start = 0;
    while (start < db_len) {
        size_t place;
        if (holds_name(db, db_len, start, name, name_len, &place))
            return start;
        while (place < db_len && !is_line_end(db, place))
            place++;
        start = place + 1;
    }
    return SIZE_MAX;
}

/* The end of the line that `place` is in. */
static size_t line_end(const uint8_t *db, size_t db_len, size_t place) {
    while (place < db_len) {
        const uint8_t *newline = memchr(db + place, '\n', db_len - place);
        if (newline == NULL)
            break;
        place = (size_t)(newline - db);
        if (is_line_end(db, place))
            return place;
        place++;
    }
    return db_len;
}

size_t search_memchr(const uint8_t *db, size_t db_len, const uint8_t *name, size_t name_len) {
    size_t start = 0;
    while (start < db_len) {
        size_t place;
        if (holds_name(db, db_len, start, name, name_len, &place))
            return start;
        start = line_end(db, db_len, place) + 1;
    }
    return SIZE_MAX;
}

#if defined(__SSE2__)

#include <emmintrin.h>

int search_simd_is_vector(void) { return 1; }

/* The first byte of a name always has a newline or a bar before it, also where a backslash and a
 * newline vanish between them, unless it is the first byte of the database. */
static int may_start(const uint8_t *db, size_t place, uint8_t first) {
    return db[place] == first && (db[place - 1] == '\n' || db[place - 1] == '|');
}

/* may_start for 16 places at once. */
static __m128i may_start_16(const uint8_t *at, __m128i first) {
    __m128i here = _mm_loadu_si128((const __m128i *)at);
    __m128i before = _mm_loadu_si128((const __m128i *)(at - 1));
    __m128i newline = _mm_cmpeq_epi8(before, _mm_set1_epi8('\n'));
    __m128i bar = _mm_cmpeq_epi8(before, _mm_set1_epi8('|'));
    return _mm_and_si128(_mm_cmpeq_epi8(here, first), _mm_or_si128(newline, bar));
}

static uint64_t bits(__m128i bytes) { return (uint64_t)(unsigned)_mm_movemask_epi8(bytes); }

/* The first place from `place` on, which is not 0, where a name with this first byte may start. */
static size_t next_start(const uint8_t *db, size_t db_len, size_t place, uint8_t first) {
    __m128i firsts = _mm_set1_epi8((char)first);
    for (; place + 64 <= db_len; place += 64) {
        __m128i a = may_start_16(db + place, firsts);
        __m128i b = may_start_16(db + place + 16, firsts);
        __m128i c = may_start_16(db + place + 32, firsts);
        __m128i d = may_start_16(db + place + 48, firsts);
        if (bits(_mm_or_si128(_mm_or_si128(a, b), _mm_or_si128(c, d)))) {
            uint64_t found = bits(a) | bits(b) << 16 | bits(c) << 32 | bits(d) << 48;
            return place + (size_t)__builtin_ctzll(found);
        }
    }
    while (place < db_len && !may_start(db, place, first))
        place++;
    return place;
}

/* Whether this name, and no longer one, is spelled at `place`. */
static int is_spelled_at(const uint8_t *db, size_t db_len, size_t place, const uint8_t *name,
                         size_t name_len) {
    for (size_t i = 0; i < name_len; i++)
        if (next_joined(db, db_len, &place) != name[i])
            return 0;
    return ends_name(next_joined(db, db_len, &place));
}

static size_t line_start(const uint8_t *db, size_t place) {
    while (place > 0 && !is_line_end(db, place - 1))
        place--;
    return place;
}

size_t search_simd(const uint8_t *db, size_t db_len, const uint8_t *name, size_t name_len) {
    size_t place;
    if (holds_name(db, db_len, 0, name, name_len, &place))
        return 0;
    place = line_end(db, db_len, place) + 1;
    while ((place = next_start(db, db_len, place, name[0])) < db_len) {
        if (is_spelled_at(db, db_len, place, name, name_len)) {
            size_t start = line_start(db, place);
            if (holds_name(db, db_len, start, name, name_len, &place))
                return start;
            /* No line is looked at twice: it is a comment, or the name is in its fields. */
            place = line_end(db, db_len, place);
        }
        place++;
    }
    return SIZE_MAX;
}

#else

int search_simd_is_vector(void) { return 0; }

size_t search_simd(const uint8_t *db, size_t db_len, const uint8_t *name, size_t name_len) {
    return search_memchr(db, db_len, name, name_len);
}

#endif
