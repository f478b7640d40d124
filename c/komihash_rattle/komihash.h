/* SPDX-License-Identifier: MIT
 * Copyright (c) 2026 the authors of komihash_rattle
 *
 * The names of komihash.h, the C original, for sources that were written for it. The hashes are
 * meant to be those of version 5, and the outputs of `komirand` those since 5.34. What differs:
 * - Link with libkomihash_rattle: the calls are not inlined.
 * - A stream has other members. There is neither KOMIHASH_VER_STR nor KOMIHASH_BUFSIZE, and in C,
 *   <stdbool.h> is included.
 * komihash_rattle.h says what callers must see to. C89 has no `inline`, so this says `__inline`.
 */
#ifndef KOMIHASH_INCLUDED
#define KOMIHASH_INCLUDED
#define KOMIHASH_RATTLE /* It tells sources which komihash.h was found. */

#include "../komihash_rattle.h"
#include <string.h> /* which sources may expect here */

typedef komihash_v5_stream komihash_stream_t;

/* Returns the hash of a message. */
static __inline uint64_t komihash(const void *message, size_t length, uint64_t seed) {
    return komihash_v5(message, length, seed);
}

/* Returns the same. */
static __inline uint64_t
komihash_stream_oneshot(const void *message, size_t length, uint64_t seed) {
    return komihash_v5(message, length, seed);
}

/* Makes `ctx` the new stream of a seed. */
static __inline void komihash_stream_init(komihash_stream_t *ctx, uint64_t seed) {
    komihash_v5_init(ctx, seed);
}

/* Absorbs bytes. */
static __inline void
komihash_stream_update(komihash_stream_t *ctx, const void *message, size_t length) {
    komihash_v5_write(ctx, message, length);
}

/* Returns the hash of all bytes so far. The stream is unchanged, and may absorb more. */
static __inline uint64_t komihash_stream_final(const komihash_stream_t *ctx) {
    return komihash_v5_finish(ctx);
}

/* Takes a step of the generator that has the two words, and returns its output. */
static __inline uint64_t komirand(uint64_t *seed1, uint64_t *seed2) {
    komihash_v5_rand rand = komihash_v5_rand_init_words(*seed1, *seed2);
    const uint64_t output = komihash_v5_rand_next(&rand);
    *seed1 = rand.state[0];
    *seed2 = rand.state[1];
    return output;
}

#endif
