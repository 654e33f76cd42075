/* Preloaded under a program: its growth number REFUSE_AT is refused, or every growth where that is "all", and the file
 * REFUSED_FLAG is made then. */
#define _GNU_SOURCE
#include <dlfcn.h>
#include <errno.h>
#include <fcntl.h>
#include <stdlib.h>
#include <limits.h>
#include <unistd.h>

#define ALL LONG_MAX

static int refused(void) {
    static long count, at = -1;
    if (at < 0) {
        const char *word = getenv("REFUSE_AT");
        at = !word ? 0 : *word == 'a' ? ALL : atol(word);
    }
    if (++count != at && at != ALL) return 0;
    const char *flag = getenv("REFUSED_FLAG");
    if (flag) close(open(flag, O_CREAT | O_WRONLY, 0600));
    errno = ENOMEM;
    return 1;
}

#define REAL(name) ((__typeof__(&name)) dlsym(RTLD_NEXT, #name))

void *malloc(size_t n) { return refused() ? NULL : REAL(malloc)(n); }
void *realloc(void *p, size_t n) { return refused() ? NULL : REAL(realloc)(p, n); }
int posix_memalign(void **p, size_t a, size_t n) { return refused() ? ENOMEM : REAL(posix_memalign)(p, a, n); }
