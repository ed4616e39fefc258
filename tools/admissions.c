/* Tells helgrind what the library's admissions order: what a thread did before it ended an admission to a shard comes
 * before what the next one admitted there does. For a program with the library in it; tools/library-sanitizers loads it
 * into that (LD_PRELOAD). That admissions to a shard come one after another is what the library proves; what is looked
 * for is a body that is reached outside of them. */
#include <stdint.h>
#include <stdlib.h>
#include <valgrind/helgrind.h>
#include <valgrind/valgrind.h>

enum { SHARDS = 4096, PLACES = 1 << 16 };

/* Which shard a pass is admitted to, by the address of its handle. */
struct admission {
  void *pass;
  uint16_t shard;
};
static struct admission admissions[PLACES];
static char ends[SHARDS];

static struct admission *of(void *pass) {
  struct admission *place = &admissions[(uintptr_t)pass >> 3 & (PLACES - 1)];
  VALGRIND_HG_DISABLE_CHECKING(place, sizeof *place);
  return place;
}

#define ADMIT I_WRAP_SONAME_FNNAME_ZZ(NONE, durkenzo_admit)
#define ADMIT_WORD I_WRAP_SONAME_FNNAME_ZZ(NONE, durkenzo_admit_word)
#define FINISH I_WRAP_SONAME_FNNAME_ZZ(NONE, durkenzo_finish)

static uint64_t admitted(OrigFn original, void *pass, uint64_t shard, uint64_t from, uint64_t number, uint64_t told) {
  uint64_t code;
  CALL_FN_W_5W(code, original, pass, shard, from, number, told);
  if ((uint32_t)code == 0) {
    *of(pass) = (struct admission){pass, (uint16_t)shard};
    ANNOTATE_HAPPENS_AFTER(&ends[(uint16_t)shard]);
  }
  return code;
}

uint64_t ADMIT(void *pass, uint64_t shard, uint64_t from, uint64_t number, uint64_t read);
uint64_t ADMIT(void *pass, uint64_t shard, uint64_t from, uint64_t number, uint64_t read) {
  OrigFn original;
  VALGRIND_GET_ORIG_FN(original);
  return admitted(original, pass, shard, from, number, read);
}

uint64_t ADMIT_WORD(void *pass, uint64_t shard, uint64_t from, uint64_t number, uint64_t word);
uint64_t ADMIT_WORD(void *pass, uint64_t shard, uint64_t from, uint64_t number, uint64_t word) {
  OrigFn original;
  VALGRIND_GET_ORIG_FN(original);
  return admitted(original, pass, shard, from, number, word);
}

uint64_t FINISH(void *pass, uint64_t generation);
uint64_t FINISH(void *pass, uint64_t generation) {
  OrigFn original;
  uint64_t code;
  VALGRIND_GET_ORIG_FN(original);
  if (of(pass)->pass != pass) abort();
  ANNOTATE_HAPPENS_BEFORE(&ends[of(pass)->shard]);
  CALL_FN_W_WW(code, original, pass, generation);
  return code;
}
