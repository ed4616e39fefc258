/* Has a program that ends by _exit end by exit (LD_PRELOAD), which looks for leaks and writes statistics where the address sanitizer
 * is asked for them. Programs of tests with threads end so. */
#include <stdlib.h>

void _exit(int status) { exit(status); }
