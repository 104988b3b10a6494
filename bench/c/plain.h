/* The same two calls in plain C. Both are inlined whole, as the proved ones are. */
#ifndef PLAIN_H
#define PLAIN_H

#include <stddef.h>
#include <stdint.h>

#ifdef __cplusplus
extern "C" {
#endif

uint32_t plain_apply(uint64_t base, uint16_t granules, uint8_t opcode, uint8_t size, uint64_t addr, uint8_t endian,
                     uint16_t be, const uint8_t lanes[16], uint64_t word, uint64_t *new_word, uint8_t reply_lanes[16],
                     uint8_t *has_lanes);
uint32_t plain_serve(uint64_t *words, size_t granules, uint64_t base, uint8_t opcode, uint8_t size, uint64_t addr,
                     uint8_t endian, uint16_t be, const uint8_t lanes[16], uint8_t reply_lanes[16], uint8_t *has_lanes);

#ifdef __cplusplus
}
#endif

#endif
