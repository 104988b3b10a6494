/* A million requests by chance agree with plain C; then the time of a call of each kind, beside plain C. */
#include "plain.h"
#include <chi.h>
#include <stdio.h>
#include <stdlib.h>
#include <string.h>
#include <time.h>

enum { REQUESTS = 1000000, SET = 256, ROUNDS = 400, TURNS = 20, GRANULES = 8 };

static const uint64_t base = 0x1000;

struct request {
  uint8_t opcode, size, endian;
  uint16_t be;
  uint64_t addr;
  uint8_t lanes[16];
};

typedef uint32_t served(uint64_t *, size_t, uint64_t, uint8_t, uint8_t, uint64_t, uint8_t, uint16_t, const uint8_t *,
                        uint8_t *, uint8_t *);
typedef uint32_t applied(uint64_t, uint16_t, uint8_t, uint8_t, uint64_t, uint8_t, uint16_t, const uint8_t *, uint64_t,
                         uint64_t *, uint8_t *, uint8_t *);

/* SplitMix64. */
static uint64_t any(void) {
  static uint64_t state = 1;
  uint64_t mixed = state += 0x9e3779b97f4a7c15;
  mixed = (mixed ^ mixed >> 30) * 0xbf58476d1ce4e5b9;
  mixed = (mixed ^ mixed >> 27) * 0x94d049bb133111eb;
  return mixed ^ mixed >> 31;
}

/* An accepted request of this opcode, of any size and byte order. */
static struct request accepted(uint8_t opcode) {
  struct request q;
  int is_compare = opcode == CHI_ATOMIC_COMPARE;
  unsigned count, len, first;
  q.opcode = opcode;
  q.size = (uint8_t)(any() % 4 + (is_compare ? 1 : 0));
  q.endian = any() & 1;
  count = 1u << q.size;
  len = is_compare ? count / 2 : count;
  q.addr = base + any() % (8 * GRANULES / len) * len;
  first = q.addr % 16 / count * count;
  q.be = (uint16_t)(((1u << count) - 1) << first);
  if (opcode == CHI_WRITE_NO_SNP_PTL)
    q.be &= (uint16_t)any();
  for (int i = 0; i < 16; i++)
    q.lanes[i] = any() % 4 ? (uint8_t) - (any() & 1) : (uint8_t)any();
  return q;
}

static uint8_t any_opcode(void) {
  static const uint8_t others[] = {CHI_READ_NO_SNP, CHI_WRITE_NO_SNP_PTL, CHI_ATOMIC_SWAP, CHI_ATOMIC_COMPARE};
  return any() & 1 ? (uint8_t)(CHI_ATOMIC_STORE + any() % 16) : others[any() % 4];
}

/* Half of the requests are accepted, and in the others one field or all of them are anything. */
static struct request any_request(void) {
  struct request q = accepted(any_opcode());
  uint64_t field = any() % 12;
  if (field == 0 || field == 5)
    q.opcode = (uint8_t)any();
  if (field == 1 || field == 5)
    q.size = (uint8_t)(any() % 10);
  if (field == 2 || field == 5)
    q.addr = any() & 1 ? base - 16 + any() % 96 : any();
  if (field == 3 || field == 5)
    q.be ^= (uint16_t)(1 << any() % 16);
  if (field == 4 || field == 5)
    q.be = (uint16_t)any();
  return q;
}

/* What a call leaves: the result, the word or 0, and the answer. */
struct outcome {
  uint32_t result;
  uint64_t word;
  uint8_t reply[16], flag;
};

static struct outcome by_apply(applied *apply, uint64_t region, size_t granules, const struct request *q,
                               uint64_t word) {
  struct outcome out = {0, 7, {7}, 7};
  out.result = apply(region, (uint16_t)granules, q->opcode, q->size, q->addr, q->endian, q->be, q->lanes, word,
                     &out.word, out.reply, &out.flag);
  return out;
}

static struct outcome by_serve(served *serve, uint64_t region, size_t granules, const struct request *q,
                               uint64_t *words) {
  struct outcome out = {0, 0, {7}, 7};
  out.result =
      serve(words, granules, region, q->opcode, q->size, q->addr, q->endian, q->be, q->lanes, out.reply, &out.flag);
  return out;
}

static void wants_same(int number, const char *call, struct outcome x, struct outcome y) {
  if (x.result == y.result && x.word == y.word && x.flag == y.flag && memcmp(x.reply, y.reply, 16) == 0)
    return;
  fprintf(stderr, "bench: request %d: %s does otherwise than plain C\n", number, call);
  exit(1);
}

/* Whether a million requests by chance, on one memory, have the same outcome. */
static void agree(void) {
  uint64_t words[GRANULES] = {0}, plain_words[GRANULES] = {0};
  unsigned counts[20] = {0};
  for (int i = 0; i < REQUESTS; i++) {
    struct request q = any_request();
    uint64_t region = any() % 64 ? base : any() & 1 ? base + any() % 128 : ((uint64_t)1 << 52) - 64 * (any() % 2);
    size_t granules = any() % 64 ? GRANULES : any() % (GRANULES + 1);
    uint64_t word = words[i % GRANULES];
    wants_same(i, "chi_apply", by_apply(chi_apply, region, granules, &q, word),
               by_apply(plain_apply, region, granules, &q, word));
    struct outcome out = by_serve(chi_serve, region, granules, &q, words);
    wants_same(i, "chi_serve", out, by_serve(plain_serve, region, granules, &q, plain_words));
    if (memcmp(words, plain_words, sizeof words) != 0) {
      fprintf(stderr, "bench: request %d: chi_serve leaves another memory than plain C\n", i);
      exit(1);
    }
    counts[out.result]++;
  }
  printf("%d requests agree with plain C: %u done", REQUESTS, counts[0]);
  for (int result = 1; result < 20; result++)
    if (counts[result])
      printf(", %u of result %d", counts[result], result);
  printf("\n\n");
}

static double now(void) {
  struct timespec time;
  clock_gettime(CLOCK_MONOTONIC, &time);
  return (double)time.tv_sec * 1e9 + (double)time.tv_nsec;
}

/* The sum of what came, so that no call is left out. */
static uint64_t kept;

static double served_round(served *serve, const struct request *set) {
  static uint64_t words[GRANULES];
  uint8_t reply[16], flag;
  double start = now();
  for (int turn = 0; turn < TURNS; turn++)
    for (int i = 0; i < SET; i++) {
      const struct request *q = &set[i];
      kept += serve(words, GRANULES, base, q->opcode, q->size, q->addr, q->endian, q->be, q->lanes, reply, &flag);
    }
  return (now() - start) / (TURNS * SET);
}

static double applied_round(applied *apply, const struct request *set) {
  uint64_t word = 0;
  uint8_t reply[16], flag;
  double start = now();
  for (int turn = 0; turn < TURNS; turn++)
    for (int i = 0; i < SET; i++) {
      const struct request *q = &set[i];
      kept += apply(base, GRANULES, q->opcode, q->size, q->addr, q->endian, q->be, q->lanes, word, &word, reply, &flag);
    }
  return (now() - start) / (TURNS * SET);
}

static double less(double x, double y) { return x < y ? x : y; }

/* The best rounds of the two calls and of plain C, in turn, over one set of requests. */
static void measure(const char *name, const struct request *set) {
  double apply = 1e9, plain_apply_best = 1e9, serve = 1e9, plain_serve_best = 1e9;
  for (int round = 0; round < ROUNDS; round++) {
    apply = less(apply, applied_round(chi_apply, set));
    plain_apply_best = less(plain_apply_best, applied_round(plain_apply, set));
    serve = less(serve, served_round(chi_serve, set));
    plain_serve_best = less(plain_serve_best, served_round(plain_serve, set));
  }
  printf("| %s | %.1f | %.1f | %.2f | %.1f | %.1f | %.2f |\n", name, apply, plain_apply_best, apply / plain_apply_best,
         serve, plain_serve_best, serve / plain_serve_best);
}

int main(void) {
  static const struct {
    const char *name;
    uint8_t opcode;
  } kinds[] = {{"ReadNoSnp", CHI_READ_NO_SNP},           {"WriteNoSnpPtl", CHI_WRITE_NO_SNP_PTL},
               {"AtomicStore ADD", CHI_ATOMIC_STORE},    {"AtomicLoad ADD", CHI_ATOMIC_LOAD},
               {"AtomicLoad CLR", CHI_ATOMIC_LOAD + 1},  {"AtomicLoad SMAX", CHI_ATOMIC_LOAD + 4},
               {"AtomicLoad UMIN", CHI_ATOMIC_LOAD + 7}, {"AtomicSwap", CHI_ATOMIC_SWAP},
               {"AtomicCompare", CHI_ATOMIC_COMPARE}};
  struct request set[SET];
  agree();
  printf("| Request | chi_apply | plain C | ratio | chi_serve | plain C | ratio |\n|---|---|---|---|---|---|---|\n");
  for (size_t kind = 0; kind < sizeof kinds / sizeof *kinds; kind++) {
    for (int i = 0; i < SET; i++)
      set[i] = accepted(kinds[kind].opcode);
    measure(kinds[kind].name, set);
  }
  for (int i = 0; i < SET; i++)
    set[i] = accepted(any_opcode());
  measure("all kinds by chance", set);
  for (int i = 0; i < SET; i++) {
    set[i] = accepted(any_opcode());
    set[i].addr += 8 * GRANULES;
  }
  measure("out of region", set);
  return kept == 1;
}
