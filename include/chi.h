/*
 * Far atomics at a home node of AMBA 5 CHI, Issue B (Arm IHI 0050): the proved decode and the proved operations.
 * Link libchi_c.a or libchi.so.
 *
 * What C owes: every pointer is not null and aligned as its type asks, also where a count is 0; each points at as
 * much memory as its count or array says; an output overlaps nothing else that is handed in; and while one call works
 * with a piece of memory, no other thread touches it. There is no other condition: every request has an answer. What is
 * promised is the contract in crates/chi_c/src.
 *
 * chi_decode, chi_apply and chi_serve answer CHI_DONE, or a refusal or fault, and then they have written nothing.
 * chi_op_name, chi_result_name and chi_version answer a length.
 */
#ifndef CHI_H
#define CHI_H

#include <stddef.h>
#include <stdint.h>

#ifdef __cplusplus
extern "C" {
#endif

/* The version of this header; chi_version answers that of the library. */
#define CHI_VERSION "0.1.0"

/* Results. The region's fault comes first; of the refusals that a request meets, it is the first in this order. */
enum {
  CHI_DONE = 0,
  CHI_UNKNOWN_OPCODE = 1,         /* the opcode names no request */
  CHI_RESERVED_SIZE = 2,          /* the size is 7 or more */
  CHI_SIZE_OUT_OF_PROFILE = 3,    /* the size is not 0 to 3, or for AtomicCompare not 1 to 4 */
  CHI_MISALIGNED = 4,             /* the address is not a multiple of the operand's length */
  CHI_OUT_OF_REGION = 5,          /* some byte of the operand is outside the region */
  CHI_BAD_BYTE_ENABLE = 6,        /* an atomic's byte enables are not its window, or a write's have a bit outside it */
  CHI_BASE_NOT_LINE_ALIGNED = 17, /* the region's base is not a multiple of 64 */
  CHI_GRANULE_COUNT = 18,         /* the region has no granule, or too many */
  CHI_END_PAST_ADDRESSES = 19     /* the region's end is above 2^52 */
};

/* Opcodes. Those of AtomicStore and AtomicLoad are CHI_ATOMIC_STORE + operation and CHI_ATOMIC_LOAD + operation. */
enum {
  CHI_READ_NO_SNP = 0x04,
  CHI_WRITE_NO_SNP_PTL = 0x1c,
  CHI_ATOMIC_STORE = 0x28,
  CHI_ATOMIC_LOAD = 0x30,
  CHI_ATOMIC_SWAP = 0x38,
  CHI_ATOMIC_COMPARE = 0x39,
  /* operations of AtomicStore and AtomicLoad */
  CHI_ADD = 0,
  CHI_CLR = 1,
  CHI_EOR = 2,
  CHI_SET = 3,
  CHI_SMAX = 4,
  CHI_SMIN = 5,
  CHI_UMAX = 6,
  CHI_UMIN = 7,
  CHI_NO_OPERATION = 8 /* what chi_decode answers for the other kinds */
};

/* Kinds of request, as chi_decode answers them. */
enum {
  CHI_KIND_READ = 0,
  CHI_KIND_WRITE = 1,
  CHI_KIND_STORE = 2,
  CHI_KIND_LOAD = 3,
  CHI_KIND_SWAP = 4,
  CHI_KIND_COMPARE = 5
};

/* A buffer of so many bytes has room for every name and the 0 that ends it. */
#define CHI_NAME_ROOM 20

/*
 * In each call: the region is granules of eight bytes from base on. The operand has 2^size bytes from addr on, and for
 * AtomicCompare half as many. Data are big-endian where endian is not 0. Bit i of be enables lane i. lanes is the data
 * packet: the byte of address x stands in lane x mod 16. Byte k of a word is its bits 8k to 8k+7, and stands for the
 * granule's address plus k.
 *
 * On CHI_DONE, has_lanes becomes 1 where the answer has data, which then stand in reply_lanes with 0 in every lane
 * outside the operand; else it becomes 0, and so do the lanes.
 */

/* Executes one request on the word of its granule. */
uint32_t chi_apply(uint64_t base, uint16_t granules, uint8_t opcode, uint8_t size, uint64_t addr, uint8_t endian,
                   uint16_t be, const uint8_t lanes[16], uint64_t word, uint64_t *new_word, uint8_t reply_lanes[16],
                   uint8_t *has_lanes);

/* Serves one request on a region of as many granules as there are words; words[i] is that of base + 8 * i. */
uint32_t chi_serve(uint64_t *words, size_t granules, uint64_t base, uint8_t opcode, uint8_t size, uint64_t addr,
                   uint8_t endian, uint16_t be, const uint8_t lanes[16], uint8_t reply_lanes[16], uint8_t *has_lanes);

/* Decodes one request: its kind, its operation, the operand's length in bytes and its granule's number. */
uint32_t chi_decode(uint64_t base, uint16_t granules, uint8_t opcode, uint8_t size, uint64_t addr, uint16_t be,
                    uint8_t *kind, uint8_t *op, uint8_t *len, uint16_t *granule);

/*
 * The name of an opcode, as "AtomicLoad.ADD" ("Unknown" where it names no request), and of a result, as "Misaligned"
 * ("Done" of CHI_DONE, "" of a number that no call answers). They answer the name's length without the 0 that ends it,
 * and write both, only where room is greater than that.
 */
size_t chi_op_name(uint8_t opcode, uint8_t *buffer, size_t room);
size_t chi_result_name(uint32_t result, uint8_t *buffer, size_t room);

/* The version of the library, in the same way. */
size_t chi_version(uint8_t *buffer, size_t room);

#ifdef __cplusplus
}
#endif

#endif
