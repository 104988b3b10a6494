/* Adds 1 to the eight bytes at 0x1000, twice, and prints what each request returns. */
#include <chi.h>
#include <stdio.h>

int main(void) {
  uint64_t words[8] = {0};
  const uint8_t lanes[16] = {1};
  uint8_t reply[16], has_lanes;
  for (int turn = 0; turn < 2; turn++) {
    uint32_t result =
        chi_serve(words, 8, 0x1000, CHI_ATOMIC_LOAD + CHI_ADD, 3, 0x1000, 0, 0x00ff, lanes, reply, &has_lanes);
    if (result != CHI_DONE)
      return (int)result;
    printf("returned lane 0: %u, word: %u\n", reply[0], (unsigned)words[0]);
  }
  return 0;
}
