/*
 * The search for a name (document 01, "Lines and names") in plain C, three times. Each gives the
 * start of the first line that holds the name, or SIZE_MAX if none does.
 */
#ifndef SEARCH_H
#define SEARCH_H

#include <stddef.h>
#include <stdint.h>

/* One byte after the other. */
size_t search_bytes(const uint8_t *db, size_t db_len, const uint8_t *name, size_t name_len);

/* Line ends are found by memchr; names are read one byte after the other. */
size_t search_memchr(const uint8_t *db, size_t db_len, const uint8_t *name, size_t name_len);

/* The name's first byte behind a newline or a bar is sought 64 bytes at a time. */
size_t search_simd(const uint8_t *db, size_t db_len, const uint8_t *name, size_t name_len);

/* 1 if search_simd has vector instructions, 0 if it is search_memchr. */
int search_simd_is_vector(void);

#endif
