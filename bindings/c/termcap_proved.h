/*
 * termcap_proved.h: the C side of the static library libtermcap.a. Link the archive by its path:
 * -ltermcap is the name of another library on many systems.
 *
 * Slices. A slice passes as a pointer and a length in bytes. Pointers must be valid for that length
 * and must not be null; an empty slice, too, needs a pointer that is not null. Output buffers and
 * numbers must not overlap each other or any input. The library keeps no pointer after a call, and
 * names and ids need no closing zero byte.
 *
 * Results. Every function returns TERMCAP_OK (accepted, or present), TERMCAP_ABSENT, or a refusal
 * number. With any result but TERMCAP_OK no byte of an output buffer and none of the numbers changes;
 * the one exception is a finder that is refused when it is opened. With TERMCAP_OK the bytes of a buffer
 * past those reported stay as they were.
 *
 * Files. termcap_X takes one file, which fills `db`. termcap_X_files takes up to TERMCAP_FILES files,
 * one after the other in `db`, by their ends: the first starts at 0, each other where the one before
 * ends, and `ends` has the place after the last byte of each. Bytes after the last end are not read.
 * The asked name is searched from the first file on, and the name of a link from the file of its own
 * line on, never in an earlier one. Each file is joined by itself, and its end ends its last line. For
 * a private file before the common one, with both read into `db`:
 *
 *     size_t ends[2] = {private_len, private_len + common_len};
 *     result = termcap_number_files(db, ends[1], ends, 2, name, name_len, id, 2, &columns);
 *
 * Order of refusals: 16, 1, 2, 3, then the walk (4 to 8), then 9. At each step of the walk: find the line
 * (4 for the first, else 5), then 7, then the 33rd description (8), then 6, then the size (8), then
 * the next link. A batch: 16, 1, 3, 15, 9; what the walk refuses stands in its answers. Repair: 3, 14, 9.
 * Send: 13, 12, 9. Send at: 12 for row and column, 13, then faults from left to right through the body
 * (10 to 12), then 12 for lines and speed, then 9. Its first half: the same without lines and speed; its
 * second half: 12, 9. A finder: 1 when it is opened, 17 for a block or an end after its end, and for its
 * answer 17, 4, 8, 9.
 *
 * Threads. The library has no state of its own and allocates nothing: a function may be called from any
 * thread, and from several at once, if their buffers are apart. A finder's state is the caller's.
 *
 * Stack. TERMCAP_STACK_... below say how many bytes of stack a call needs at most, whatever its input.
 * They are measured, not proved.
 */
#ifndef TERMCAP_PROVED_H
#define TERMCAP_PROVED_H

#include <stddef.h>
#include <stdint.h>

#ifdef __cplusplus
extern "C" {
#endif

/* Accepted, or present. */
#define TERMCAP_OK 0u
/* The capability is absent: no refusal, and nothing is written. */
#define TERMCAP_ABSENT 255u

/* The asked name is not 1 to 64 bytes, or has a byte outside 32..126 or one of | : \ in it. */
#define TERMCAP_BAD_NAME 1u
/* The id is not two bytes 33..126, has a colon or a backslash, starts with a point, or is "tc". */
#define TERMCAP_BAD_ID 2u
/* The database is over 1,048,576 bytes: all of the buffer counts. */
#define TERMCAP_DATABASE_TOO_LARGE 3u
/* No description has the asked name. */
#define TERMCAP_UNKNOWN_NAME 4u
/* A link's name is found nowhere. */
#define TERMCAP_LOST_LINK 5u
/* A description in the chain is malformed. */
#define TERMCAP_MALFORMED 6u
/* A link leads to a line already in the chain. */
#define TERMCAP_CYCLE 7u
/* A 33rd description is reached, or the chain's size passes 16,384. Of a finder: the line that it found
 * has over 16,384 joined bytes. */
#define TERMCAP_CHAIN_TOO_LARGE 8u
/* The output doesn't fit the lent buffer; of a finder, also: the line doesn't fit its text. */
#define TERMCAP_NO_ROOM 9u
/* An unknown, or cut off, percent sequence. */
#define TERMCAP_UNKNOWN_SEQUENCE 10u
/* Too few unused parameters. */
#define TERMCAP_TOO_FEW_PARAMETERS 11u
/* A number out of its range. */
#define TERMCAP_OUT_OF_RANGE 12u
/* Padding with over 4 digits before the point, or over one after it. */
#define TERMCAP_BAD_PADDING 13u
/* Over 4,096 lines that aren't ignored are not repaired. */
#define TERMCAP_TOO_MANY_LINES 14u
/* A batch's questions are not a multiple of four bytes. */
#define TERMCAP_PARTIAL_QUESTION 15u
/* Ends that fall or pass the buffer, or over eight of them. Equal ends do not fall. */
#define TERMCAP_BAD_ENDS 16u
/* A finder is fed, or ended, after its end, or asked for its answer before it. */
#define TERMCAP_INVALID_STATE 17u

/* The most files in one buffer. */
#define TERMCAP_FILES 8u

/* Bytes of one record of termcap_list. */
#define TERMCAP_RECORD_BYTES 12u
/* With buffers of these sizes termcap_list, termcap_flat and termcap_string never give 9. This is
 * proved (crates/demands/specs/Room.antt). */
#define TERMCAP_LIST_BYTES 65520u
#define TERMCAP_FLAT_BYTES 16385u
#define TERMCAP_STRING_BYTES 16384u

/* Bytes of one question and of one answer of termcap_batch, and the first byte of an answer. */
#define TERMCAP_QUESTION_BYTES 4u
#define TERMCAP_ANSWER_BYTES 8u
#define TERMCAP_ANSWER_PRESENT 0u
#define TERMCAP_ANSWER_ABSENT 1u
#define TERMCAP_ANSWER_REFUSED 2u

/* Bytes of one record of termcap_repair, and the reasons in it. */
#define TERMCAP_REPAIR_RECORD_BYTES 16u
#define TERMCAP_REASON_NO_COLON 1u
#define TERMCAP_REASON_MALFORMED_FIELD 2u
#define TERMCAP_REASON_AFTER_LINK 3u
#define TERMCAP_REASON_LOST_LINK 4u
#define TERMCAP_REASON_CYCLE 5u
/* With an `out` of db_len bytes and `records` of this many termcap_repair never gives 9. This is
 * proved (crates/demands/specs/RepairRoom.antt). */
#define TERMCAP_REPAIR_RECORDS_BYTES(db_len) (8 * ((size_t)(db_len) + 1))

/* Bytes of a finder's text that are always enough: with them 9 is about the output alone. This is proved
 * (crates/demands/specs/Finder.antt). */
#define TERMCAP_FINDER_TEXT_BYTES 16384u
/* The stage of a finder whose line is complete. */
#define TERMCAP_FINDER_COMPLETE 4u

/* The stack a call needs, in bytes, with one file or several: of termcap_show and termcap_search; of
 * termcap_flag, termcap_number and termcap_string; of termcap_list and termcap_flat; of termcap_batch; of
 * termcap_repair; of termcap_finder_open, _feed, _end and _answer; of termcap_send, termcap_send_at,
 * termcap_fill and termcap_pad. */
#define TERMCAP_STACK_SHOW 5120u
#define TERMCAP_STACK_QUESTION 9216u
#define TERMCAP_STACK_LIST 12288u
#define TERMCAP_STACK_BATCH 71680u
#define TERMCAP_STACK_REPAIR 155648u
#define TERMCAP_STACK_FINDER 1024u
#define TERMCAP_STACK_SEND 4096u

/* The kinds in a record and in a question. */
#define TERMCAP_KIND_FLAG 1u
#define TERMCAP_KIND_NUMBER 2u
#define TERMCAP_KIND_STRING 3u

/*
 * Show: the part of the database that holds the first description with that name, unjoined, from
 * just after the newline that ends the line before it (or from its file's start), up to but not
 * including its closing newline (or to its file's end). It looks at names only, not at fields or links.
 *
 * TERMCAP_OK: *start is the place of the part in `db`, *length its bytes.
 * Refusals: 1, 3, 4; with ends also 16.
 */
uint32_t termcap_show(const uint8_t *db, size_t db_len, const uint8_t *name, size_t name_len,
                      uint64_t *start, uint64_t *length);
uint32_t termcap_show_files(const uint8_t *db, size_t db_len, const size_t *ends, size_t ends_len,
                            const uint8_t *name, size_t name_len, uint64_t *start,
                            uint64_t *length);

/*
 * Search, for measurements: whether a description has the name, and how many names were compared: those
 * as long as the asked one, in lines that aren't ignored, up to and with the first equal one, or all if
 * none is equal. It finds the names that Show finds, and is slower: Show passes
 * over most of the database without a look at single names. Show compares no byte of a name of another
 * length, either, but it may compare text that is no name, as a field or a comment, so this count is
 * not Show's.
 *
 * TERMCAP_OK: *found is 1 or 0, and *compared the number of names: both also where the name is not found,
 * which is no refusal here.
 * Refusals: 1, 3; with ends also 16.
 */
uint32_t termcap_search(const uint8_t *db, size_t db_len, const uint8_t *name, size_t name_len,
                        uint64_t *found, uint64_t *compared);
uint32_t termcap_search_files(const uint8_t *db, size_t db_len, const size_t *ends,
                              size_t ends_len, const uint8_t *name, size_t name_len,
                              uint64_t *found, uint64_t *compared);

/*
 * Flag: whether the terminal has the flag.
 *
 * TERMCAP_OK: present, *value is 1. TERMCAP_ABSENT: not present.
 * Refusals: 1 to 8; with ends also 16.
 */
uint32_t termcap_flag(const uint8_t *db, size_t db_len, const uint8_t *name, size_t name_len,
                      const uint8_t *id, size_t id_len, uint64_t *value);
uint32_t termcap_flag_files(const uint8_t *db, size_t db_len, const size_t *ends, size_t ends_len,
                            const uint8_t *name, size_t name_len, const uint8_t *id, size_t id_len,
                            uint64_t *value);

/*
 * Number: the terminal's number, at most 65,535. One that is written with two or more digits, the
 * first of them 0, is octal: li#030 is 24, and li#08 is malformed (6).
 *
 * TERMCAP_OK: present, *value is the number. TERMCAP_ABSENT: not present.
 * Refusals: 1 to 8; with ends also 16.
 */
uint32_t termcap_number(const uint8_t *db, size_t db_len, const uint8_t *name, size_t name_len,
                        const uint8_t *id, size_t id_len, uint64_t *value);
uint32_t termcap_number_files(const uint8_t *db, size_t db_len, const size_t *ends,
                              size_t ends_len, const uint8_t *name, size_t name_len,
                              const uint8_t *id, size_t id_len, uint64_t *value);

/*
 * String: the terminal's string, decoded. Its padding prefix, if any, is still in front; the decoded
 * bytes are the command that termcap_send and termcap_send_at take.
 *
 * TERMCAP_OK: present, the first *count bytes of `out` are the decoded bytes. TERMCAP_ABSENT: not
 * present, whatever the size of `out`.
 * Refusals: 1 to 9; with ends also 16.
 */
uint32_t termcap_string(const uint8_t *db, size_t db_len, const uint8_t *name, size_t name_len,
                        const uint8_t *id, size_t id_len, uint8_t *out, size_t out_len,
                        uint64_t *count);
uint32_t termcap_string_files(const uint8_t *db, size_t db_len, const size_t *ends,
                              size_t ends_len, const uint8_t *name, size_t name_len,
                              const uint8_t *id, size_t id_len, uint8_t *out, size_t out_len,
                              uint64_t *count);

/*
 * List: one record of TERMCAP_RECORD_BYTES for each live pair of name and kind, in the order of the
 * winning fields, without a header. A record is: two name bytes; kind; place of the description in
 * the chain from 0; a 32-bit value, high byte first (1, the number, or the decoded length); the number
 * of the description's file from 0; three zeros.
 *
 * TERMCAP_OK: *records is the number of records, written to the first TERMCAP_RECORD_BYTES * *records
 * bytes of `out`.
 * Refusals: 1, 3 to 9; with ends also 16.
 */
uint32_t termcap_list(const uint8_t *db, size_t db_len, const uint8_t *name, size_t name_len,
                      uint8_t *out, size_t out_len, uint64_t *records);
uint32_t termcap_list_files(const uint8_t *db, size_t db_len, const size_t *ends, size_t ends_len,
                            const uint8_t *name, size_t name_len, uint8_t *out, size_t out_len,
                            uint64_t *records);

/*
 * Flat: the resolved terminal as one line: the first line's names, a colon, then each winning field
 * as written (joined) with a colon, then a newline. As a single file of its own it gives the same
 * answers.
 *
 * TERMCAP_OK: the first *count bytes of `out` are the line, its newline included.
 * Refusals: 1, 3 to 9; with ends also 16.
 */
uint32_t termcap_flat(const uint8_t *db, size_t db_len, const uint8_t *name, size_t name_len,
                      uint8_t *out, size_t out_len, uint64_t *count);
uint32_t termcap_flat_files(const uint8_t *db, size_t db_len, const size_t *ends, size_t ends_len,
                            const uint8_t *name, size_t name_len, uint8_t *out, size_t out_len,
                            uint64_t *count);

/*
 * Batch: any number of questions about one terminal, in one walk. `questions` has TERMCAP_QUESTION_BYTES
 * for each: the two bytes of the id, the kind, a zero. `out` gets TERMCAP_ANSWER_BYTES for each, in the
 * same order: TERMCAP_ANSWER_PRESENT, _ABSENT or _REFUSED; the refusal number, 0 unless refused; two
 * zeros; and a 32-bit value, high byte first (1, the number, or the decoded length), 0 unless present.
 * An answer says what termcap_flag, termcap_number or termcap_string says to the same question, given
 * room for the string. This is proved (crates/demands/specs/Batch.antt). A bad id, kind or fourth byte
 * is refused with 2 in its own answer, before what the walk refuses (4 to 8) in each.
 *
 * TERMCAP_OK: *answers is the number of questions, and the first TERMCAP_ANSWER_BYTES * *answers bytes of
 * `out` are the answers.
 * Refusals: 16, 1, 3, 15, 9, in this order; an unknown name is none.
 */
uint32_t termcap_batch(const uint8_t *db, size_t db_len, const uint8_t *name, size_t name_len,
                       const uint8_t *questions, size_t questions_len, uint8_t *out, size_t out_len,
                       uint64_t *answers);
uint32_t termcap_batch_files(const uint8_t *db, size_t db_len, const size_t *ends, size_t ends_len,
                             const uint8_t *name, size_t name_len, const uint8_t *questions,
                             size_t questions_len, uint8_t *out, size_t out_len, uint64_t *answers);

/*
 * Repair: a single file as it was edited by hand, mended, and a record for each thing removed: a line
 * without a colon, a malformed field, a field after a line's first link, a link to a name that no line
 * has, and the link of the first line of each ring of links. A line that loses something is written
 * joined; every other line keeps all its bytes. Afterwards no name is refused with 5, 6 or 7; 8 may
 * remain. The mended database is never longer, and a database with nothing to remove comes back as it
 * is.
 *
 * A record is four 32-bit numbers, high byte first: the logical line from 0, ignored lines counted; the
 * byte place from 0 in that line, joined; the reason; and the joined bytes that went, a field's colon
 * counted, a line's newline not. Records are ordered by line, then place.
 *
 * TERMCAP_OK: the first *count bytes of `out` are the mended database, and the first
 * TERMCAP_REPAIR_RECORD_BYTES * *removed bytes of `records` are the records.
 * Refusals: 3, 14, 9, in this order; `out` and `records` then keep every byte.
 */
uint32_t termcap_repair(const uint8_t *db, size_t db_len, uint8_t *out, size_t out_len,
                        uint8_t *records, size_t records_len, uint64_t *count, uint64_t *removed);

/*
 * A finder, for a console that never holds a file: it is fed the file in blocks of whatever length, none
 * included, and collects the joined line of the first description with the asked name: names and fields,
 * without the newline that ends it. Fields aren't judged and links aren't followed. The file may have any
 * size, and lines that don't have the name any length. However the file is cut, the state, the text and
 * the answer are those of the whole file in one block; this is proved (crates/demands/specs/Finder.antt).
 *
 * You own the struct and the text. From opening to answer pass both to every call, and change neither in
 * between; they may be copied or moved. The text needs no first value.
 *
 *     static struct termcap_finder finder;
 *     static uint8_t text[TERMCAP_FINDER_TEXT_BYTES], block[512], line[2048];
 *     uint64_t length;
 *     size_t n;
 *
 *     result = termcap_finder_open(name, name_len, &finder);
 *     while (result == TERMCAP_OK && (n = fread(block, 1, sizeof block, file)) > 0)
 *         result = termcap_finder_feed(&finder, block, n, text, sizeof text);
 *     if (result == TERMCAP_OK)
 *         result = termcap_finder_end(&finder, text, sizeof text);
 *     if (result == TERMCAP_OK)
 *         result = termcap_finder_answer(&finder, text, sizeof text, line, sizeof line, &length);
 *
 * For the name "fan", and a file that arrives in these three blocks (NL and TAB are single bytes):
 *
 *     # hall NL ve             a comment, and a line begins: stage 1, count 2, the text is "ve"
 *     nt|fan:am:\              it has the name: stage 2, count 12; the backslash is held
 *     NL TAB :co#40: NL kiln   the pair vanishes, and the line is complete: stage 4, count 20
 *
 * The answer is "vent|fan:am:" TAB ":co#40:", 20 bytes.
 *
 * The numbers in the struct are for reading; any bytes in it are safe, and only lead to an answer without
 * meaning. Where `stage` is TERMCAP_FINDER_COMPLETE after a block no later byte counts, and the rest of the
 * file need not be fed.
 */
struct termcap_finder {
    /* 0: the line has only blanks so far. 1, and any other number: its names are being read. 2: it has
     * the name. 3: it cannot have it. 4: the line with the name is complete. */
    uint8_t stage;
    /* Length of the present name while it is a prefix of the asked one; otherwise 65. */
    uint8_t matched;
    /* Bytes of the line that were collected, at most 16,385. */
    uint16_t count;
    /* Not 0: the last byte was a backslash, which may vanish with the next. */
    uint8_t held;
    /* Not 0: the end was declared. */
    uint8_t ended;
    /* Bytes of the name. */
    uint16_t size;
    uint8_t name[64];
};

/*
 * Opens a finder for a name; whatever was in the struct before is lost.
 *
 * Refusals: 1. The struct is then that of a finder without a name that has ended: a caller who goes on
 * gets 17 for each block and end, and 4 as the answer.
 */
uint32_t termcap_finder_open(const uint8_t *name, size_t name_len, struct termcap_finder *finder);

/*
 * Feeds the next block. `text` holds the line so far: its names while one may still match, all of it once
 * one has. Bytes past its end are only counted; no byte past the first 16,385 is written.
 *
 * Refusals: 17 after the end; struct and text then keep every byte.
 */
uint32_t termcap_finder_feed(struct termcap_finder *finder, const uint8_t *block, size_t block_len,
                             uint8_t *text, size_t text_len);

/*
 * Declares the end of the file, which ends its last line, too.
 *
 * Refusals: 17 after the end; struct and text then keep every byte.
 */
uint32_t termcap_finder_end(struct termcap_finder *finder, uint8_t *text, size_t text_len);

/*
 * The answer, as often as it is asked for. It changes neither struct nor text.
 *
 * TERMCAP_OK: the first *count bytes of `out` are the joined line. They are also the first *count bytes of
 * `text`.
 * Refusals: 17 before the end, 4, 8 (the line has over 16,384 joined bytes), 9 (it doesn't fit `text` or
 * `out`), in this order.
 */
uint32_t termcap_finder_answer(const struct termcap_finder *finder, const uint8_t *text,
                               size_t text_len, uint8_t *out, size_t out_len, uint64_t *count);

/*
 * Send: the body of a decoded command and its padding. Percent signs are copied unchanged. The
 * padding prefix is digits, then maybe a point and a digit, then maybe a star; it is milliseconds,
 * times `line_count` if starred. At `speed` bits a second, ten bits a byte, that many bytes `pad` are
 * appended, rounded up.
 *
 * TERMCAP_OK: the first *count bytes of `out` are the body, then the pads.
 * Refusals: 13, 12 (`line_count` outside 1..1,000 or `speed` over 115,200), 9, in this order.
 */
uint32_t termcap_send(const uint8_t *command, size_t command_len, uint64_t line_count,
                      uint64_t speed, uint8_t pad, uint8_t *out, size_t out_len, uint64_t *count);

/*
 * Send at: as Send, with the position filled into the body. `row` and `column` count from 0, up to
 * 9,999. Where a byte of the position would be 0, 4, 9 or 10 it is raised until it is none of these,
 * and after the body follows for each step `back` for a column and `up` for a row, as they stand.
 * Both empty: nothing is raised. Only `back` empty: byte 8 stands for it. Only `up` empty: rows
 * aren't raised.
 *
 * A padding prefix of `back` or `up` would be sent, too, and show on the screen. So a string of the
 * terminal (`le`, `up`) goes through termcap_send first, for one line at speed 0, which gives it
 * without its prefix and with no pads.
 *
 * TERMCAP_OK: the first *count bytes of `out` are the body, the compensations, then the pads.
 * Refusals: 9 to 13.
 */
uint32_t termcap_send_at(const uint8_t *command, size_t command_len, uint64_t row, uint64_t column,
                         const uint8_t *back, size_t back_len, const uint8_t *up, size_t up_len,
                         uint64_t line_count, uint64_t speed, uint8_t pad, uint8_t *out,
                         size_t out_len, uint64_t *count);

/* Room that is always enough for termcap_fill: each of the two parameters is written once, from a
 * sequence of at least two bytes, as at most five digits or as a byte with at most two compensations.
 * This is proved (crates/demands/specs/Room.antt). */
#define TERMCAP_FILL_BYTES(command_len, back_len, up_len) \
    ((size_t)(command_len) + 2 * ((size_t)(back_len) + (size_t)(up_len)) + 8)

/* The longest delay that termcap_pad takes, in tenths of a millisecond; termcap_fill gives none that
 * is longer, which is proved (crates/demands/specs/Halves.antt). */
#define TERMCAP_LONGEST_DELAY 99999u

/*
 * Send at in two halves, for one position that goes out over lines of different speeds. In a row they
 * are termcap_send_at: they give the same result and the same bytes, if there is room between them.
 * This is proved (crates/demands/specs/Halves.antt).
 *
 * Fill, the first half: the position is filled in, as termcap_send_at does it, and nothing is padded.
 *
 * TERMCAP_OK: the first *count bytes of `out` are the body and the compensations; *delay is what the
 * padding prefix says, in tenths of a millisecond, and *star is 1 if it was starred, else 0. The delay
 * isn't multiplied yet.
 * Refusals: 9 to 13.
 */
uint32_t termcap_fill(const uint8_t *command, size_t command_len, uint64_t row, uint64_t column,
                      const uint8_t *back, size_t back_len, const uint8_t *up, size_t up_len,
                      uint8_t *out, size_t out_len, uint64_t *delay, uint64_t *star,
                      uint64_t *count);

/*
 * Pad, the second half, for each line: `bytes` as they stand, without reading a padding prefix in them,
 * and the pads for the delay. Any `star` but 0 is one. `bytes` are what termcap_fill wrote; `out` must
 * not overlap them.
 *
 * TERMCAP_OK: the first *count bytes of `out` are `bytes`, then the pads.
 * Refusals: 12 (`delay` over TERMCAP_LONGEST_DELAY, `line_count` outside 1..1,000 or `speed` over
 * 115,200), 9.
 */
uint32_t termcap_pad(uint64_t delay, uint64_t star, const uint8_t *bytes, size_t bytes_len,
                     uint64_t line_count, uint64_t speed, uint8_t pad, uint8_t *out, size_t out_len,
                     uint64_t *count);

#ifdef __cplusplus
}
#endif

#endif
