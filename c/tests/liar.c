/* Preloaded under a test of the shared library, to see that the test fails: t1subset_check answers as the variable LIE
 * says, with another last byte ("text"), another number ("number"), a block that nobody frees ("block"), or a detail where
 * memory is wanted ("detail"). */
#define _GNU_SOURCE
#include "t1subset.h"

#include <dlfcn.h>
#include <stdlib.h>
#include <string.h>

typedef uint32_t check_call(const uint8_t *, size_t, t1subset_answer *);

uint32_t t1subset_check(const uint8_t *font, size_t size, t1subset_answer *answer) {
    check_call *real;
    *(void **) &real = dlsym(RTLD_NEXT, "t1subset_check");
    const uint32_t number = real(font, size, answer);
    const char *lie = getenv("LIE");
    t1subset_answer lost;
    if (!lie) return number;
    if (!strcmp(lie, "number") && number) return number + 1;
    if (!strcmp(lie, "text") && number == T1SUBSET_OK) ((uint8_t *) (uintptr_t) answer->bytes.data)[answer->bytes.size - 1] ^= 1;
    if (!strcmp(lie, "block")) real(font, size, &lost);
    if (!strcmp(lie, "detail") && number == T1SUBSET_MEMORY) answer->detail = 1;
    return number;
}
