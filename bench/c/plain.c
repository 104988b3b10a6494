/* The same two calls in plain C. Both are inlined whole, as the proved ones are. */
#include "plain.h"
#include <chi.h>
#include <string.h>

enum { MOST_GRANULES = 512 };

static const uint64_t addresses = (uint64_t)1 << 52;

static uint32_t region_fault(uint64_t base, size_t granules) {
  if (base % 64 != 0)
    return CHI_BASE_NOT_LINE_ALIGNED;
  if (granules < 1 || granules > MOST_GRANULES)
    return CHI_GRANULE_COUNT;
  if (base > addresses - 8 * granules)
    return CHI_END_PAST_ADDRESSES;
  return CHI_DONE;
}

static uint16_t enables_of(unsigned first, unsigned count) { return (uint16_t)(((1u << count) - 1) << first); }

/* The first refusal that the request meets; the operand's length where there is none. */
static inline __attribute__((always_inline)) uint32_t
refusal(uint64_t base, size_t granules, uint8_t opcode, uint8_t size, uint64_t addr, uint16_t be, unsigned *length) {
  int is_compare = opcode == CHI_ATOMIC_COMPARE;
  unsigned lane = addr % 16, len;
  uint16_t window;
  if (opcode != CHI_READ_NO_SNP && opcode != CHI_WRITE_NO_SNP_PTL &&
      !(opcode >= CHI_ATOMIC_STORE && opcode <= CHI_ATOMIC_COMPARE))
    return CHI_UNKNOWN_OPCODE;
  if (size >= 7)
    return CHI_RESERVED_SIZE;
  if (is_compare ? size < 1 || size > 4 : size > 3)
    return CHI_SIZE_OUT_OF_PROFILE;
  len = is_compare ? 1u << (size - 1) : 1u << size;
  if (addr & (len - 1))
    return CHI_MISALIGNED;
  if (addr < base || addr - base > 8 * granules - len)
    return CHI_OUT_OF_REGION;
  window = is_compare ? enables_of(lane & ~(2 * len - 1), 2 * len) : enables_of(lane, len);
  if (opcode == CHI_WRITE_NO_SNP_PTL ? be & ~window : opcode != CHI_READ_NO_SNP && be != window)
    return CHI_BAD_BYTE_ENABLE;
  *length = len;
  return CHI_DONE;
}

static uint64_t ones(unsigned len) { return ~(uint64_t)0 >> (64 - 8 * len); }

static uint64_t number(const uint8_t *lanes, unsigned lane, unsigned len) {
  uint64_t half;
  memcpy(&half, lanes + (lane & 8), 8);
  return half >> (8 * (lane & 7)) & ones(len);
}

static uint64_t turned(uint64_t value, unsigned len) { return __builtin_bswap64(value) >> (64 - 8 * len); }

static uint64_t combined(unsigned op, int big, unsigned len, uint64_t old, uint64_t sent) {
  uint64_t x = big ? turned(old, len) : old, y = big ? turned(sent, len) : sent;
  unsigned above = 64 - 8 * len;
  uint64_t sum;
  switch (op) {
  case CHI_ADD:
    sum = (x + y) & ones(len);
    return big ? turned(sum, len) : sum;
  case CHI_CLR:
    return old & ~sent;
  case CHI_EOR:
    return old ^ sent;
  case CHI_SET:
    return old | sent;
  case CHI_SMAX:
    return (int64_t)(x << above) < (int64_t)(y << above) ? sent : old;
  case CHI_SMIN:
    return (int64_t)(y << above) < (int64_t)(x << above) ? sent : old;
  case CHI_UMAX:
    return x < y ? sent : old;
  default:
    return y < x ? sent : old;
  }
}

/* All ones in each byte whose enable is 1: each bit to a byte of its own, and a byte that is not 0 to all ones. */
static uint64_t byte_mask(unsigned enables) {
  const uint64_t ones = 0x0101010101010101;
  uint64_t bits = enables * ones & 0x8040201008040201;
  return ((bits + 0x7f * ones) >> 7 & ones) * 0xff;
}

/* The word after an accepted request, and its answer. */
static inline __attribute__((always_inline)) uint64_t applied(uint8_t opcode, uint64_t addr, uint8_t endian,
                                                              uint16_t be, const uint8_t *lanes, unsigned len,
                                                              uint64_t word, uint8_t *reply_lanes, uint8_t *has_lanes) {
  unsigned lane = addr % 16, shift = 8 * (lane & 7);
  uint64_t mask = ones(len) << shift, old = (word & mask) >> shift, sent = number(lanes, lane, len), value = old;
  int has = opcode != CHI_WRITE_NO_SNP_PTL && !(opcode >= CHI_ATOMIC_STORE && opcode < CHI_ATOMIC_LOAD);
  uint64_t reply = has ? old << shift : 0, low = lane & 8 ? 0 : reply, high = reply ^ low;
  memcpy(reply_lanes, &low, 8);
  memcpy(reply_lanes + 8, &high, 8);
  *has_lanes = (uint8_t)has;
  if (opcode == CHI_WRITE_NO_SNP_PTL) {
    mask = byte_mask(be >> (lane & 8) & 0xff);
    return (word & ~mask) | (number(lanes, lane & 8, 8) & mask);
  }
  if (opcode == CHI_READ_NO_SNP)
    return word;
  if (opcode == CHI_ATOMIC_COMPARE) {
    if (old == sent)
      value = number(lanes, lane ^ len, len);
  } else if (opcode == CHI_ATOMIC_SWAP) {
    value = sent;
  } else {
    value = combined(opcode & 7, endian != 0, len, old, sent);
  }
  return (word & ~mask) | value << shift;
}

uint32_t plain_apply(uint64_t base, uint16_t granules, uint8_t opcode, uint8_t size, uint64_t addr, uint8_t endian,
                     uint16_t be, const uint8_t lanes[16], uint64_t word, uint64_t *new_word, uint8_t reply_lanes[16],
                     uint8_t *has_lanes) {
  unsigned len = 0;
  uint32_t result = region_fault(base, granules);
  if (!result)
    result = refusal(base, granules, opcode, size, addr, be, &len);
  if (!result)
    *new_word = applied(opcode, addr, endian, be, lanes, len, word, reply_lanes, has_lanes);
  return result;
}

uint32_t plain_serve(uint64_t *words, size_t granules, uint64_t base, uint8_t opcode, uint8_t size, uint64_t addr,
                     uint8_t endian, uint16_t be, const uint8_t lanes[16], uint8_t reply_lanes[16],
                     uint8_t *has_lanes) {
  unsigned len = 0;
  uint32_t result = region_fault(base, granules);
  if (!result)
    result = refusal(base, granules, opcode, size, addr, be, &len);
  if (!result) {
    uint64_t *word = &words[(addr - base) / 8];
    *word = applied(opcode, addr, endian, be, lanes, len, *word, reply_lanes, has_lanes);
  }
  return result;
}
