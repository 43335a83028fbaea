/*
 * Send and Send at in plain C, as tgoto and tputs do them: the percent sequences are filled in, then
 * the compensations are appended, then the pads. Nothing is tested: not the room, not the ranges, not
 * that a sequence is known or has a parameter left. Each gives the number of bytes that it wrote.
 */
#ifndef SENDING_H
#define SENDING_H

#include <stddef.h>
#include <stdint.h>

size_t plain_send(const uint8_t *command, size_t command_len, unsigned line_count, unsigned speed,
                  uint8_t pad, uint8_t *out);

size_t plain_send_at(const uint8_t *command, size_t command_len, int row, int column,
                     const uint8_t *back, size_t back_len, const uint8_t *up, size_t up_len,
                     unsigned line_count, unsigned speed, uint8_t pad, uint8_t *out);

#endif
