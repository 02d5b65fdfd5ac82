/* A plain engine in C for four calls of document 01 and one of document 02, export: the yardstick that the benchmark holds the proved engine against.
 * Parameters, return values and what is written are those of the functions of the same names in ../include/peeriewick.h. */
#ifndef PLAIN_H
#define PLAIN_H

#include <stddef.h>
#include <stdint.h>

uint8_t plain_check(const uint8_t *map, size_t map_len,
                    size_t *numbers, size_t numbers_len);

uint8_t plain_evaluate(const uint8_t *map, size_t map_len,
                       const uint8_t *row, size_t row_len,
                       uint8_t *out, size_t out_len);

uint8_t plain_survey(const uint8_t *map, size_t map_len,
                     const uint8_t *configuration, size_t configuration_len,
                     uint8_t *out, size_t out_len,
                     size_t *numbers, size_t numbers_len);

uint8_t plain_run(const uint8_t *map, size_t map_len,
                  uint8_t *configuration, size_t configuration_len,
                  const uint8_t *tape, size_t tape_len,
                  uint8_t *work, size_t work_len,
                  uint8_t *answer, size_t answer_len,
                  size_t *numbers, size_t numbers_len);

uint8_t plain_export(const uint8_t *map, size_t map_len,
                     uint8_t *text, size_t text_len,
                     size_t *numbers, size_t numbers_len);

#endif
