/* The operations of include/smaf.h once more, in plain C: written from the paper for speed, with no proof. What the proved ones are
 * measured against. Same arguments, same answers, same memory. Not for use by several threads at once: they share scratch memory. */
#ifndef BASELINE_H
#define BASELINE_H

#include "smaf.h"

uint16_t base_check_code(const uint8_t *bytes, size_t n);
struct smaf_read_reply base_read(const uint8_t *buffer, size_t buffer_length, size_t n, uint32_t *rows, size_t rows_length);
struct smaf_play_reply base_play(const uint8_t *buffer, size_t buffer_length, size_t n, size_t row, uint64_t *steps,
                                 size_t steps_length, uint32_t *words, size_t words_length);
struct smaf_flatten_reply base_flatten(const uint8_t *buffer, size_t buffer_length, size_t n, size_t row, uint8_t *room,
                                       size_t room_length);
struct smaf_items_reply base_items(const uint8_t *buffer, size_t buffer_length, size_t n, size_t row, uint32_t *items, size_t items_length);
struct smaf_entries_reply base_entries(const uint8_t *buffer, size_t buffer_length, size_t n, size_t row, uint32_t *entries,
                                       size_t entries_length, uint8_t *letters, size_t letters_length);
struct smaf_write_reply base_write(const uint32_t *numbers, size_t numbers_length, const uint8_t *bytes, size_t bytes_length, uint8_t *room,
                                   size_t room_length);

#endif
