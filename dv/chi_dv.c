/* The shim of the DPI package: a memory behind a handle, and names as strings. It is C and C++. */
#include <chi.h>
#include <stdlib.h>

#ifdef __cplusplus
extern "C" {
#endif

void *chi_dv_open(uint64_t base, uint16_t granules);
uint32_t chi_dv_serve(void *handle, uint8_t opcode, uint8_t size, uint64_t addr, uint8_t endian, uint16_t be,
                      const uint8_t lanes[16], uint8_t reply_lanes[16], uint8_t *has_lanes);
uint64_t chi_dv_word(const void *handle, uint32_t granule);
void chi_dv_close(void *handle);
const char *chi_dv_op_name(uint8_t opcode);
const char *chi_dv_result_name(uint32_t result);

struct memory {
  uint64_t base;
  size_t granules;
  uint64_t words[1]; /* as many as granules, and at least one */
};

/* A memory of zeros, or null where there is no room for it. Whether the region is one, chi_dv_serve says. */
void *chi_dv_open(uint64_t base, uint16_t granules) {
  struct memory *memory = (struct memory *)calloc(1, sizeof *memory + granules * sizeof memory->words[0]);
  if (memory) {
    memory->base = base;
    memory->granules = granules;
  }
  return memory;
}

uint32_t chi_dv_serve(void *handle, uint8_t opcode, uint8_t size, uint64_t addr, uint8_t endian, uint16_t be,
                      const uint8_t lanes[16], uint8_t reply_lanes[16], uint8_t *has_lanes) {
  struct memory *memory = (struct memory *)handle;
  return chi_serve(memory->words, memory->granules, memory->base, opcode, size, addr, endian, be, lanes, reply_lanes,
                   has_lanes);
}

/* The word of a granule, and 0 of one that is not in the region. */
uint64_t chi_dv_word(const void *handle, uint32_t granule) {
  const struct memory *memory = (const struct memory *)handle;
  return granule < memory->granules ? memory->words[granule] : 0;
}

void chi_dv_close(void *handle) { free(handle); }

/* A name that lasts until the next call of the same function. */
const char *chi_dv_op_name(uint8_t opcode) {
  static uint8_t name[CHI_NAME_ROOM];
  chi_op_name(opcode, name, sizeof name);
  return (const char *)name;
}

const char *chi_dv_result_name(uint32_t result) {
  static uint8_t name[CHI_NAME_ROOM];
  chi_result_name(result, name, sizeof name);
  return (const char *)name;
}

#ifdef __cplusplus
}
#endif
