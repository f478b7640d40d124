/* Calls komihash_rattle/komihash.h as sources for the C original do, also in C89. Ends with 1 if a
 * function gives something else than the library's own one. */
#include "komihash.h"
#ifndef KOMIHASH_RATTLE
#error "another komihash.h was found"
#endif
#include <stdio.h>
#include <stdlib.h>

#define CHECK(condition) \
    ((condition) ? (void)0 : (puts("does not hold: " #condition), exit(1)))

int main(void) {
    static const char message[300] = "The original has one version.";
    const uint64_t seed = 7;
    uint64_t seed1 = 1, seed2 = 2;
    komihash_v5_rand rand = komihash_v5_rand_init_words(seed1, seed2);
    komihash_stream_t stream;
    size_t length;
    komihash_stream_init(&stream, seed);
    for (length = 0; length < sizeof message; length++) {
        const uint64_t hash = komihash_v5(message, length, seed);
        CHECK(komihash(message, length, seed) == hash);
        CHECK(komihash_stream_oneshot(message, length, seed) == hash);
        CHECK(komihash_stream_final(&stream) == hash);
        CHECK(komirand(&seed1, &seed2) == komihash_v5_rand_next(&rand));
        komihash_stream_update(&stream, message + length, 1);
    }
    return 0;
}
