/* The moves between a stored list and a radio list in plain C, with the port's checks, refusals and arguments. */
#ifndef LEB128_H
#define LEB128_H
#include <stddef.h>
#include <stdint.h>

uint8_t plain_list_to_radio(const uint8_t *bytes, uint64_t len, uint8_t *out, uint64_t out_len, uint64_t *written);
uint8_t plain_radio_to_list(const uint8_t *bytes, uint64_t len, uint8_t *out, uint64_t out_len, uint64_t *written);

#endif
