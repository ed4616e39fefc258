/* Tells helgrind what the atomic instructions of a program order, which it doesn't know by itself. For a program that was built without
 * optimization, where each atomic instruction is a function of its own; it is loaded into it (LD_PRELOAD) by
 *   cc -shared -fPIC -o orders.so tools/orders.c
 *   LD_PRELOAD=./orders.so valgrind --tool=helgrind PROGRAM threads < SCRIPT
 * An atomic load comes after what was ordered before a store to the same word, and any other instruction is both. A compare-and-swap that
 * fails orders too here, which may hide a race and never finds a false one. */
#include <valgrind/helgrind.h>
#include <valgrind/valgrind.h>

#define NAME(function) I_WRAP_SONAME_FNNAME_ZZ(NONE, function)
#define WRAPPED(function, before)                                                        \
  unsigned long NAME(function)(void *word, unsigned long a, unsigned long b, unsigned long c); \
  unsigned long NAME(function)(void *word, unsigned long a, unsigned long b, unsigned long c) { \
    OrigFn original;                                                                     \
    unsigned long result;                                                                \
    VALGRIND_GET_ORIG_FN(original);                                                      \
    VALGRIND_HG_DISABLE_CHECKING(word, 8);                                               \
    if (before) ANNOTATE_HAPPENS_BEFORE(word);                                           \
    CALL_FN_W_WWWW(result, original, word, a, b, c);                                     \
    ANNOTATE_HAPPENS_AFTER(word);                                                        \
    return result;                                                                       \
  }

WRAPPED(coreZcZcatomicZcZcload, 0)
WRAPPED(coreZcZcraw_atomicZcZcloadZa, 0)
WRAPPED(coreZcZcatomicZcZcstore, 1)
WRAPPED(coreZcZcatomicZcZcadd, 1)
WRAPPED(coreZcZcatomicZcZcsub, 1)
WRAPPED(coreZcZcatomicZcZccas, 1)
WRAPPED(coreZcZcatomicZcZcseize_inZa, 1)
WRAPPED(coreZcZcraw_atomicZcZcstoreZa, 1)
WRAPPED(coreZcZcraw_atomicZcZcfetch_addZa, 1)
WRAPPED(coreZcZcraw_atomicZcZccasZa, 1)
WRAPPED(coreZcZcsyncZcZctry_acquireZa, 1)
WRAPPED(coreZcZcsyncZcZcofferZa, 1)
WRAPPED(coreZcZcsyncZcZcmarkZa, 1)
WRAPPED(coreZcZcsyncZcZcclearZa, 1)
WRAPPED(std_allocZcZcarcZcZcincrementZa, 1)
WRAPPED(std_allocZcZcarcZcZcdecrementZa, 1)
