/* Executes the table of requests by chi_serve and chi_apply; then compares the header's numbers with the names. */
#include <chi.h>
#include <inttypes.h>
#include <stdio.h>
#include <stdlib.h>
#include <string.h>

enum { MOST_WORDS = 65536, LEFT = 0xee };

struct row {
  char name[64];
  uint64_t base;
  size_t granules;
  unsigned opcode, size;
  uint64_t addr;
  unsigned endian, be;
  char lanes[33];
  unsigned result;
  char reply[33];
  size_t granule;
  char bytes[17];
};

static uint64_t words[MOST_WORDS], before[MOST_WORDS];
static int failures, requests;

static void wants(int holds, const struct row *row, const char *what) {
  if (holds)
    return;
  failures++;
  fprintf(stderr, "rows: %s: opcode %02x at %" PRIx64 ": another %s\n", row->name, row->opcode, row->addr, what);
}

static void bytes_of(const char *digits, uint8_t *bytes, size_t count) {
  for (size_t i = 0; i < count; i++) {
    unsigned byte = 0;
    sscanf(digits + 2 * i, "%2x", &byte);
    bytes[i] = (uint8_t)byte;
  }
}

static uint64_t word_of(const char *digits) {
  uint8_t bytes[8];
  uint64_t word = 0;
  bytes_of(digits, bytes, 8);
  for (int k = 7; k >= 0; k--)
    word = word << 8 | bytes[k];
  return word;
}

/* What the row says of the lanes and of the flag. */
static void wanted_answer(const struct row *row, uint8_t lanes[16], uint8_t *has_lanes) {
  if (strcmp(row->reply, "-") == 0) {
    memset(lanes, LEFT, 16);
    *has_lanes = LEFT;
  } else if (strcmp(row->reply, "comp") == 0) {
    memset(lanes, 0, 16);
    *has_lanes = 0;
  } else {
    bytes_of(row->reply, lanes, 16);
    *has_lanes = 1;
  }
}

static void work(const struct row *row) {
  uint8_t lanes[16], wanted[16], reply[16], apply_reply[16];
  uint8_t wanted_flag, has_lanes = LEFT, apply_flag = LEFT;
  uint64_t next = LEFT, after = word_of(row->bytes);
  requests++;
  memcpy(before, words, sizeof words);
  bytes_of(row->lanes, lanes, 16);
  memset(reply, LEFT, 16);
  memset(apply_reply, LEFT, 16);
  wanted_answer(row, wanted, &wanted_flag);
  uint32_t applied =
      chi_apply(row->base, (uint16_t)row->granules, (uint8_t)row->opcode, (uint8_t)row->size, row->addr,
                (uint8_t)row->endian, (uint16_t)row->be, lanes, words[row->granule], &next, apply_reply, &apply_flag);
  uint32_t result = chi_serve(words, row->granules, row->base, (uint8_t)row->opcode, (uint8_t)row->size, row->addr,
                              (uint8_t)row->endian, (uint16_t)row->be, lanes, reply, &has_lanes);
  wants(result == row->result && applied == row->result, row, "result");
  wants(memcmp(reply, wanted, 16) == 0 && memcmp(apply_reply, wanted, 16) == 0, row, "answer");
  wants(has_lanes == wanted_flag && apply_flag == wanted_flag, row, "flag");
  wants(next == (row->result == CHI_DONE ? after : LEFT), row, "word from chi_apply");
  before[row->granule] = after;
  wants(memcmp(before, words, sizeof words) == 0, row, "memory");
}

static void wants_name(size_t length, const uint8_t *buffer, const char *name) {
  if (length == strlen(name) && length < CHI_NAME_ROOM && strcmp((const char *)buffer, name) == 0)
    return;
  failures++;
  fprintf(stderr, "rows: %s in place of %s\n", (const char *)buffer, name);
}

static void opcode_is(uint8_t opcode, const char *name) {
  uint8_t buffer[CHI_NAME_ROOM] = {0};
  size_t length = chi_op_name(opcode, buffer, sizeof buffer);
  wants_name(length, buffer, name);
}

static void result_is(uint32_t result, const char *name) {
  uint8_t buffer[CHI_NAME_ROOM] = {0};
  size_t length = chi_result_name(result, buffer, sizeof buffer);
  wants_name(length, buffer, name);
}

static void version_is(const char *version) {
  uint8_t buffer[CHI_NAME_ROOM] = {0};
  size_t length = chi_version(buffer, sizeof buffer);
  wants_name(length, buffer, version);
}

/* A kind and an operation as chi_decode answers them. */
static void decoded_is(uint8_t opcode, uint8_t kind, uint8_t op) {
  uint8_t found_kind = LEFT, found_op = LEFT, len = LEFT;
  uint16_t granule = LEFT;
  uint32_t result = chi_decode(0x1000, 8, opcode, 1, 0x100a, 0xc00, &found_kind, &found_op, &len, &granule);
  if (result == CHI_DONE && found_kind == kind && found_op == op && granule == 1 &&
      len == (kind == CHI_KIND_COMPARE ? 1 : 2))
    return;
  failures++;
  fprintf(stderr, "rows: opcode %02x is decoded as kind %u, operation %u\n", opcode, found_kind, found_op);
}

static void header(void) {
  static const char *const ops[] = {"ADD", "CLR", "EOR", "SET", "SMAX", "SMIN", "UMAX", "UMIN"};
  for (uint8_t op = CHI_ADD; op <= CHI_UMIN; op++) {
    char name[CHI_NAME_ROOM];
    snprintf(name, sizeof name, "AtomicStore.%s", ops[op]);
    opcode_is(CHI_ATOMIC_STORE + op, name);
    decoded_is(CHI_ATOMIC_STORE + op, CHI_KIND_STORE, op);
    snprintf(name, sizeof name, "AtomicLoad.%s", ops[op]);
    opcode_is(CHI_ATOMIC_LOAD + op, name);
    decoded_is(CHI_ATOMIC_LOAD + op, CHI_KIND_LOAD, op);
  }
  opcode_is(CHI_READ_NO_SNP, "ReadNoSnp");
  decoded_is(CHI_READ_NO_SNP, CHI_KIND_READ, CHI_NO_OPERATION);
  opcode_is(CHI_WRITE_NO_SNP_PTL, "WriteNoSnpPtl");
  decoded_is(CHI_WRITE_NO_SNP_PTL, CHI_KIND_WRITE, CHI_NO_OPERATION);
  opcode_is(CHI_ATOMIC_SWAP, "AtomicSwap");
  decoded_is(CHI_ATOMIC_SWAP, CHI_KIND_SWAP, CHI_NO_OPERATION);
  opcode_is(CHI_ATOMIC_COMPARE, "AtomicCompare");
  decoded_is(CHI_ATOMIC_COMPARE, CHI_KIND_COMPARE, CHI_NO_OPERATION);
  opcode_is(0x3a, "Unknown");
  version_is(CHI_VERSION);
  result_is(CHI_DONE, "Done");
  result_is(CHI_UNKNOWN_OPCODE, "UnknownOpcode");
  result_is(CHI_RESERVED_SIZE, "ReservedSize");
  result_is(CHI_SIZE_OUT_OF_PROFILE, "SizeOutOfProfile");
  result_is(CHI_MISALIGNED, "Misaligned");
  result_is(CHI_OUT_OF_REGION, "OutOfRegion");
  result_is(CHI_BAD_BYTE_ENABLE, "BadByteEnable");
  result_is(CHI_BASE_NOT_LINE_ALIGNED, "BaseNotLineAligned");
  result_is(CHI_GRANULE_COUNT, "GranuleCount");
  result_is(CHI_END_PAST_ADDRESSES, "EndPastAddresses");
}

int main(int count, char **arguments) {
  FILE *table = count == 2 ? fopen(arguments[1], "r") : NULL;
  char line[512], opened[64] = "";
  struct row row;
  if (!table) {
    fprintf(stderr, "rows: no table of requests\n");
    return 2;
  }
  while (fgets(line, sizeof line, table)) {
    if (line[0] == '#')
      continue;
    if (sscanf(line, "%63s %" SCNx64 " %zu %x %u %" SCNx64 " %u %x %32s %u %32s %zu %16s", row.name, &row.base,
               &row.granules, &row.opcode, &row.size, &row.addr, &row.endian, &row.be, row.lanes, &row.result,
               row.reply, &row.granule, row.bytes) != 13) {
      fprintf(stderr, "rows: not a row: %s", line);
      return 2;
    }
    if (strcmp(opened, row.name) != 0) {
      memset(words, 0, sizeof words);
      strcpy(opened, row.name);
    }
    work(&row);
  }
  fclose(table);
  header();
  if (failures || !requests) {
    fprintf(stderr, "rows: %d of %d requests or names fail\n", failures, requests);
    return 1;
  }
  printf("rows: %d requests and the header's numbers agree\n", requests);
  return 0;
}
