/* The clock of the bench by DPI, and a call that does nothing. */
#include <stdint.h>
#include <time.h>

#ifdef __cplusplus
extern "C" {
#endif

uint64_t dpi_now(void);
uint32_t empty_apply(uint64_t base, uint16_t granules, uint8_t opcode, uint8_t size, uint64_t addr, uint8_t endian,
                     uint16_t be, const uint8_t *lanes, uint64_t word, uint64_t *new_word, uint8_t *reply_lanes,
                     uint8_t *has_lanes);

uint64_t dpi_now(void) {
  struct timespec time;
  clock_gettime(CLOCK_MONOTONIC, &time);
  return (uint64_t)time.tv_sec * 1000000000 + (uint64_t)time.tv_nsec;
}

uint32_t empty_apply(uint64_t base, uint16_t granules, uint8_t opcode, uint8_t size, uint64_t addr, uint8_t endian,
                     uint16_t be, const uint8_t *lanes, uint64_t word, uint64_t *new_word, uint8_t *reply_lanes,
                     uint8_t *has_lanes) {
  (void)base, (void)granules, (void)opcode, (void)size, (void)addr, (void)endian, (void)be, (void)lanes, (void)word;
  (void)new_word, (void)reply_lanes, (void)has_lanes;
  return 0;
}

#ifdef __cplusplus
}
#endif
