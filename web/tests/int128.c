/* Compares the functions of web/int128.c with this machine's own integers of 128 bits. */
#include <stdint.h>
#include <stdio.h>

#define __multi3 tested_multi3
#define __divti3 tested_divti3
#include "../int128.c"

static uint64_t state = 88172645463325252u;

static uint64_t random_bits(void) {
    state ^= state << 13;
    state ^= state >> 7;
    state ^= state << 17;
    return state;
}

/* A number of any size and sign. */
static wide_signed some(void) {
    const wide number = pair(random_bits(), random_bits()) >> (random_bits() % 128);
    return (wide_signed) (random_bits() & 1 ? -number : number);
}

int main(void) {
    for (int at = 0; at < 1000000; at++) {
        const wide_signed one = some(), other = some();
        if (tested_multi3(one, other) != (wide_signed) ((wide) one * (wide) other)) {
            puts("a product is wrong");
            return 1;
        }
        if (at % 10 == 0 && other && other != -1 && tested_divti3(one, other) != one / other) {
            puts("a quotient is wrong");
            return 1;
        }
    }
    puts("int128: products and quotients as this machine's own");
    return 0;
}
