/* Loops of calls in C, which src/bin/hashes.rs times. */
#define KOMIHASH_RATTLE_PREFIX inlined_
#include <komihash_rattle_inline.h>
#include <wyhash/wyhash.h>

/* Declares a library, whose names have a prefix. */
#define LIBRARY(name, prefix) \
    uint64_t name(const void *, size_t, uint64_t) __asm__(prefix "komihash_v5"); \
    void name##_write(komihash_v5_stream *, const void *, size_t) \
        __asm__(prefix "komihash_v5_write");
LIBRARY(assembly, "")
LIBRARY(library, "library_")

/* Makes a call for each length. Of the message and the seed, the compiler knows nothing. */
#define LOOP(name, call) \
    static void name(const uint8_t *bytes, const uint32_t *lengths, uint32_t count) { \
        for (uint64_t seed = 0; count > 0; count--) { \
            size_t length = *lengths++; \
            __asm__ volatile("" : "+r"(bytes), "+r"(length), "+r"(seed) : : "memory"); \
            __asm__ volatile("" : : "r"(call)); \
        } \
    }
#define LOOPS(name, hash, write, stream) \
    LOOP(name##_hashes, hash(bytes, length, seed)) \
    LOOP(name##_writes, (write(&stream, bytes, length), 0))

static komihash_v5_stream stream;
LOOPS(assembly, assembly, assembly_write, stream)
LOOPS(library, library, library_write, stream)
LOOPS(inlined, komihash_v5, komihash_v5_write, stream)
LOOP(wyhash_hashes, wyhash(bytes, length, seed, _wyp))

/* At -O2, gcc doesn't unroll XXH3's loop for SSE2. Clang unrolls it, and skips the pragma. */
#ifndef __AVX2__
#pragma GCC optimize("O3")
#endif
#define XXH_INLINE_ALL
#include <xxhash.h>
static XXH3_state_t xxh3_stream;
LOOPS(xxh3, XXH3_64bits_withSeed, XXH3_64bits_update, xxh3_stream)

void (*const HASHES_AND_WRITES[])(const uint8_t *, const uint32_t *, uint32_t) = {
    assembly_hashes, library_hashes, inlined_hashes, xxh3_hashes, wyhash_hashes,
    assembly_writes, library_writes, inlined_writes, xxh3_writes};

__attribute__((constructor)) static void start(void) {
    stream = komihash_v5_start(0);
    XXH3_64bits_reset(&xxh3_stream);
}
