/* SPDX-License-Identifier: MIT
 * Copyright (c) 2026 the authors of komihash_rattle. The licence is at the end.
 *
 * komihash_rattle 1.6.0
 * A script made this file of a proved source. Do not edit it. Names with komi_ and KOMI_ are
 * private, and may change.
 *
 * Komihash, versions 4 and 5, a fast hash of 64 bits that is not cryptographic: all of the library
 * in one header, for C99 and C++11. Copy this file into your project and include it:
 *
 *     #include "komihash_rattle_inline.h"
 *     uint64_t hash = komihash_v5("port", 4, 7); // 0xa53b9c6b9eb8afe9
 *
 * All functions are `static inline` then, and nothing is to be linked. Use version 5 for new data;
 * version 4 is for hashes that exist already. Use neither where an attacker may choose the
 * messages: it is easy to find many that have one hash, and a secret seed gives no security.
 * Compilers other than gcc, clang and MSVC need their switch like -fno-strict-aliasing. gcc may
 * warn falsely (-Warray-bounds, -Wmaybe-uninitialized) of a short array whose length varies: let a
 * #pragma GCC diagnostic ignore that around the #include, or define KOMIHASH_RATTLE_EXTERN.
 *
 * Version 5 is meant to give the hashes of komihash.h 5 by Aleksey Vaneev. The hashes, saved
 * texts and outputs of a version never change.
 *
 * Definitions that go before the first #include, also before headers that include this one:
 * - KOMIHASH_RATTLE_IMPLEMENTATION in one source file makes a library of it there, of external
 *   functions. Other files define KOMIHASH_RATTLE_EXTERN, and get the declarations alone.
 * - KOMIHASH_RATTLE_PREFIX, as in -DKOMIHASH_RATTLE_PREFIX=my_, makes the symbol my_komihash_v5 of
 *   komihash_v5, which your code still calls. All files that share one library have the same one.
 * - KOMIHASH_RATTLE_HIDDEN in each file keeps the functions out of what a shared library exports.
 *   On Windows, link with -Wl,--exclude-all-symbols, or mark what your library exports.
 * - KOMIHASH_RATTLE_SMALL lets the compiler choose what it inlines, as in a library that is built
 *   with -Os. All functions together get smaller then, and on 32-bit processors also a
 *   single call, but elsewhere one or two may get larger. gcc's code takes several times as long.
 *
 * What a caller must see to, because no call checks it:
 * - `length` and `room` are the number of bytes at the pointer that precedes them in the arguments,
 *   or of words if it points to words. Each is at most PTRDIFF_MAX bytes. The writes to one stream
 *   may add up to more.
 * - A pointer may be null only if the length or room after it is 0. `stream` and `rand` are never
 *   null.
 * - A pointer to words, a stream or a generator is aligned to eight bytes, or to four on 32-bit x86
 *   but for Windows. One to bytes needs no alignment.
 * - The bytes that a call writes must not overlap anything else that it is passed. Room that it
 *   doesn't write may.
 * - If threads share a stream or a generator and one of them changes it, they need a lock. If a
 *   signal handler shares one, the signal must be blocked.
 *
 * What holds of every call:
 * - The same bytes, numbers and seeds give the same results on every system and processor.
 * - No jump and no address depends on a seed, on the bytes of a message, or on words made of them,
 *   except in `resume` and `unpad`. That does not promise equal times. It is shown of the builds
 *   that `make verify` reads, and likely of other optimized builds.
 * - It allocates no memory and doesn't set errno. The library has no global state, so threads and
 *   signal handlers may make calls at the same time.
 */
#ifndef KOMIHASH_RATTLE_INLINE_H
#define KOMIHASH_RATTLE_INLINE_H
#ifdef KOMIHASH_RATTLE_H
#error "include komihash_rattle_inline.h in place of komihash_rattle.h, or before it"
#endif
#define KOMIHASH_RATTLE_H

#include <stdbool.h>
#include <stddef.h>
#include <stdint.h>
#if defined(__GNUC__) || defined(__clang__)
#define KOMI_GNU
#define komi_copy_array(n, bytes, out) __builtin_memcpy(out, bytes, n) /* also if freestanding */
#define KOMI_ALIAS __attribute__((may_alias))
#ifndef __clang__
#define KOMI_GCC
#define KOMI_NEVER noinline, noclone /* a copy for a short array would be warned of */
#else
#define KOMI_NEVER noinline
#endif
#else
#include <string.h>
#define komi_copy_array(n, bytes, out) memcpy(out, bytes, n)
#define KOMI_ALIAS
#ifdef _MSC_VER
#include <intrin.h>
#endif
#endif

/* KOMI_API marks functions of the library, KOMI_INLINE those that are always inlined, but without
 * optimization, where that takes much stack, and KOMI_APART those that never are: they have a copy
 * for each version, in which the version is a constant. */
#if !defined(KOMIHASH_RATTLE_IMPLEMENTATION) && !defined(KOMIHASH_RATTLE_EXTERN)
#define KOMI_API static inline
#elif defined(KOMIHASH_RATTLE_HIDDEN) && defined(KOMI_GNU) && !defined(_WIN32)
#define KOMI_API __attribute__((visibility("hidden")))
#else
#define KOMI_API
#endif
#if defined(__OPTIMIZE_SIZE__) && defined(KOMIHASH_RATTLE_IMPLEMENTATION) && \
    !defined(KOMIHASH_RATTLE_SMALL)
#define KOMIHASH_RATTLE_SMALL
#endif
#if defined(KOMI_GNU) && defined(__OPTIMIZE__) && !defined(KOMIHASH_RATTLE_SMALL)
#define KOMI_INLINE __attribute__((always_inline)) static inline
#define KOMI_APART __attribute__((KOMI_NEVER, unused)) static
#elif defined(_MSC_VER) && !defined(KOMIHASH_RATTLE_SMALL)
#define KOMI_INLINE static __forceinline
#define KOMI_APART static __declspec(noinline)
#else
#define KOMI_INLINE static inline
#define KOMI_APART static inline
#endif
#define KOMI_COPY_OF(version, name, arguments) \
    ((version) == 4 ? name##_v4 arguments : name##_v5 arguments)
/* Hashes of short messages, which the compiler may inline where a caller knows the length. In the
 * library, gcc inlines them too, because a call of one would take it a jump more. */
#ifdef KOMIHASH_RATTLE_IMPLEMENTATION
#define KOMI_IMPLEMENTED
#endif
#if defined(KOMI_IMPLEMENTED) && !defined(KOMI_GCC)
#define KOMI_SHORT KOMI_APART
#else
#define KOMI_SHORT static inline
#endif

#ifdef KOMIHASH_RATTLE_PREFIX
#define KOMI_JOINED(prefix, name) prefix##name
#define KOMI_PREFIXED(prefix, name) KOMI_JOINED(prefix, name)
#define KOMI_NAME(name) KOMI_PREFIXED(KOMIHASH_RATTLE_PREFIX, name)
#define komihash_v4 KOMI_NAME(komihash_v4)
#define komihash_v4_finish KOMI_NAME(komihash_v4_finish)
#define komihash_v4_init KOMI_NAME(komihash_v4_init)
#define komihash_v4_pad KOMI_NAME(komihash_v4_pad)
#define komihash_v4_rand KOMI_NAME(komihash_v4_rand)
#define komihash_v4_rand_fill KOMI_NAME(komihash_v4_rand_fill)
#define komihash_v4_rand_init KOMI_NAME(komihash_v4_rand_init)
#define komihash_v4_rand_init_with_extra_seed KOMI_NAME(komihash_v4_rand_init_with_extra_seed)
#define komihash_v4_rand_init_words KOMI_NAME(komihash_v4_rand_init_words)
#define komihash_v4_rand_next KOMI_NAME(komihash_v4_rand_next)
#define komihash_v4_resume KOMI_NAME(komihash_v4_resume)
#define komihash_v4_save KOMI_NAME(komihash_v4_save)
#define komihash_v4_start KOMI_NAME(komihash_v4_start)
#define komihash_v4_stream KOMI_NAME(komihash_v4_stream)
#define komihash_v4_unpad KOMI_NAME(komihash_v4_unpad)
#define komihash_v4_write KOMI_NAME(komihash_v4_write)
#define komihash_v5 KOMI_NAME(komihash_v5)
#define komihash_v5_finish KOMI_NAME(komihash_v5_finish)
#define komihash_v5_init KOMI_NAME(komihash_v5_init)
#define komihash_v5_pad KOMI_NAME(komihash_v5_pad)
#define komihash_v5_rand KOMI_NAME(komihash_v5_rand)
#define komihash_v5_rand_fill KOMI_NAME(komihash_v5_rand_fill)
#define komihash_v5_rand_init KOMI_NAME(komihash_v5_rand_init)
#define komihash_v5_rand_init_with_extra_seed KOMI_NAME(komihash_v5_rand_init_with_extra_seed)
#define komihash_v5_rand_init_words KOMI_NAME(komihash_v5_rand_init_words)
#define komihash_v5_rand_next KOMI_NAME(komihash_v5_rand_next)
#define komihash_v5_resume KOMI_NAME(komihash_v5_resume)
#define komihash_v5_save KOMI_NAME(komihash_v5_save)
#define komihash_v5_start KOMI_NAME(komihash_v5_start)
#define komihash_v5_stream KOMI_NAME(komihash_v5_stream)
#define komihash_v5_unpad KOMI_NAME(komihash_v5_unpad)
#define komihash_v5_write KOMI_NAME(komihash_v5_write)
#endif

/* Bytes with their number, two words, and arrays by value. Streams and generators are declared as
 * words, and used as structs below. */
typedef struct { const uint8_t *at; size_t length; } komi_bytes;
typedef struct { uint64_t first, second; } komi_two;
typedef struct { uint8_t at[8]; } komi_eight;
typedef struct { uint64_t at[8]; } KOMI_ALIAS komi_block;
typedef struct { size_t at[8]; } komi_indices;

/* The pair (a, e), stored as `low`, which is a ^ e, and `e`.
 *
 * After a product, `low` is its low half, and `e` the word to which its high half was added. The
 * word a is computed only for a factor and as the hash, so the way from one product to the next is
 * one xor shorter. */
typedef struct {
    uint64_t low;
    uint64_t e;
} KOMI_ALIAS komi_pair;

/* The eight lanes as the code stores them: four pairs in a ring, one for each product of a block.
 *
 * s5 to s8 are the words `e` of the pairs. s1 to s4 are their words `low`, each xor the word `e` of
 * the pair before it. The fourth pair is the one before the first, so it stands there. */
typedef struct {
    komi_pair fourth;
    komi_pair first;
    komi_pair second;
    komi_pair third;
} KOMI_ALIAS komi_lanes;

/* Fewer than 64 bytes, stored in eight words, with zeros after the last byte. */
typedef struct {
    komi_block words;
    size_t len;
} KOMI_ALIAS komi_pending;

/* A stream: it takes a message in pieces, and returns the hash of all bytes so far at any time.
 *
 * The hash is that of the joined bytes, however they are cut. There is no limit to their number.
 * Pieces of a multiple of 64 bytes are best: as long as all are, none is copied. Otherwise a write
 * copies into the stream the bytes that continue a partial block, and those that begin a new one:
 * at most 63 of each.
 *
 * It is not for messages that an attacker may choose, whatever the seed is. */
typedef struct {
    /* This field is first, so that its words have the stream's address, which takes no register. */
    komi_pending pending;
    komi_lanes lanes;
    /* Whether a block was absorbed. */
    bool had_block;
    /* In version 4, whether the last byte of the last block is at least 128. */
    bool top_bit;
} KOMI_ALIAS komi_stream;

/* A pseudorandom generator, which is not cryptographic.
 *
 * The output of a step is the new first word. In one version, the same pair always gives the same
 * outputs.
 *
 * If low and high are the halves of the words' product, the new second word is `s2 + high +
 * 0xaaaaaaaaaaaaaaaa`. The new first word is the exclusive or of low and that word in version 4,
 * and `(low ^ high) + 0x5555555555555555` in version 5. These sums wrap around. Nothing is claimed
 * of how random its outputs are. */
typedef struct {
    uint64_t s1;
    uint64_t s2;
} KOMI_ALIAS komi_rand;

/* Marks of functions: the first argument is never null; the result says whether the call failed; in
 * C++, none throws. `__extension__` keeps `-pedantic` in C89 from warning of bool. */
#ifdef __GNUC__
#define KOMIHASH_NONNULL __extension__ __attribute__((nonnull(1)))
#define KOMIHASH_CHECK_RESULT __attribute__((warn_unused_result))
#else
#define KOMIHASH_NONNULL
#define KOMIHASH_CHECK_RESULT
#endif
#if defined(__cplusplus) && (__cplusplus >= 201103L || (defined(_MSC_VER) && !defined(__clang__)))
#define KOMIHASH_NOEXCEPT noexcept
#else
#define KOMIHASH_NOEXCEPT
#endif

#ifdef __cplusplus
extern "C" {
#endif

/* The version of this library, whose first number is that of the soname. */
#define KOMIHASH_RATTLE_VERSION "1.6.0"
#define KOMIHASH_RATTLE_VERSION_MAJOR 1
#define KOMIHASH_RATTLE_VERSION_MINOR 6
#define KOMIHASH_RATTLE_VERSION_PATCH 0

/* What `unpad` returns instead of a length. */
#define KOMIHASH_NONE SIZE_MAX

/* The room that `save` needs: the length of the longest saved text. */
#define KOMIHASH_LONGEST_TEXT 131

/* A stream of each version. Only `start`, `init` and `resume` make one: `= {0}` doesn't. It may be
 * copied by assignment, and each copy then goes on by itself. Only the calls below change a stream:
 * after any other change, they may return wrong hashes, access memory outside of it, or never
 * return. So store or send its saved text and not the stream itself: `resume` checks the text. */
typedef struct { uint64_t state[18]; } komihash_v4_stream;
typedef struct { uint64_t state[18]; } komihash_v5_stream;

/* A generator of each version, which a `rand_init` returns. It may be copied by assignment too. */
typedef struct { uint64_t state[2]; } komihash_v4_rand;
typedef struct { uint64_t state[2]; } komihash_v5_rand;

/* Returns the hash of a message. Any seed will do: use 0 unless you need several hashes of one
 * message. */
KOMI_API uint64_t komihash_v5(const void *bytes, size_t length, uint64_t seed) KOMIHASH_NOEXCEPT;
KOMI_API uint64_t komihash_v4(const void *bytes, size_t length, uint64_t seed) KOMIHASH_NOEXCEPT;

/* Returns the new stream of a seed. */
KOMI_API komihash_v5_stream komihash_v5_start(uint64_t seed) KOMIHASH_NOEXCEPT;
KOMI_API komihash_v4_stream komihash_v4_start(uint64_t seed) KOMIHASH_NOEXCEPT;

/* Does the same for `stream`, for languages whose functions can't return a struct. What `stream`
 * held is not read. */
KOMIHASH_NONNULL
KOMI_API void komihash_v5_init(komihash_v5_stream *stream, uint64_t seed) KOMIHASH_NOEXCEPT;
KOMIHASH_NONNULL
KOMI_API void komihash_v4_init(komihash_v4_stream *stream, uint64_t seed) KOMIHASH_NOEXCEPT;

/* Absorbs bytes. However a message is cut, its hash is the same. */
KOMIHASH_NONNULL
KOMI_API void komihash_v5_write(komihash_v5_stream *stream, const void *bytes, size_t length)
    KOMIHASH_NOEXCEPT;
KOMIHASH_NONNULL
KOMI_API void komihash_v4_write(komihash_v4_stream *stream, const void *bytes, size_t length)
    KOMIHASH_NOEXCEPT;

/* Returns the hash of all bytes so far. The stream is unchanged, and may absorb more. */
KOMIHASH_NONNULL
KOMI_API uint64_t komihash_v5_finish(const komihash_v5_stream *stream) KOMIHASH_NOEXCEPT;
KOMIHASH_NONNULL
KOMI_API uint64_t komihash_v4_finish(const komihash_v4_stream *stream) KOMIHASH_NOEXCEPT;

/* Writes the saved text of the stream to the front of `out`, and returns its length, 68 to 131
 * bytes. This text is binary, and can be stored and sent. It doesn't hold the number of bytes that
 * were absorbed. It has up to 63 bytes of the message as they are. Keep it as secret as the seed,
 * which can be calculated from it until 64 bytes were absorbed, and until 128 by whoever knows the
 * first 64. Returns 0, and writes nothing, if `room` is less than KOMIHASH_LONGEST_TEXT. */
KOMIHASH_NONNULL KOMIHASH_CHECK_RESULT
KOMI_API size_t komihash_v5_save(const komihash_v5_stream *stream, void *out, size_t room)
    KOMIHASH_NOEXCEPT;
KOMIHASH_NONNULL KOMIHASH_CHECK_RESULT
KOMI_API size_t komihash_v4_save(const komihash_v4_stream *stream, void *out, size_t room)
    KOMIHASH_NOEXCEPT;

/* Replaces the stream by the one that has this saved text, and returns true. What `stream` held is
 * not read. Returns false, and changes nothing, if no stream of this version has the text: those of
 * the other version are refused. The text has no checksum, so damage that makes it the text of
 * another stream is not noticed. The bool is one byte, which is 0 or 1. */
KOMIHASH_NONNULL KOMIHASH_CHECK_RESULT
KOMI_API bool komihash_v5_resume(komihash_v5_stream *stream, const void *text, size_t length)
    KOMIHASH_NOEXCEPT;
KOMIHASH_NONNULL KOMIHASH_CHECK_RESULT
KOMI_API bool komihash_v4_resume(komihash_v4_stream *stream, const void *text, size_t length)
    KOMIHASH_NOEXCEPT;

/* Returns the pseudorandom generator Komirand of a seed, which is not cryptographic. */
KOMI_API komihash_v5_rand komihash_v5_rand_init(uint64_t seed) KOMIHASH_NOEXCEPT;
KOMI_API komihash_v4_rand komihash_v4_rand_init(uint64_t seed) KOMIHASH_NOEXCEPT;

/* Returns the generator of two seeds. If they are equal, it is the generator of that one seed. */
KOMI_API komihash_v5_rand komihash_v5_rand_init_with_extra_seed(uint64_t seed, uint64_t extra_seed)
    KOMIHASH_NOEXCEPT;
KOMI_API komihash_v4_rand komihash_v4_rand_init_with_extra_seed(uint64_t seed, uint64_t extra_seed)
    KOMIHASH_NOEXCEPT;

/* Returns the generator that has the two words as its state. The first outputs of small words are
 * simple patterns; the calls above take four steps to get past them. A language whose functions
 * can't return a struct writes the two words into 16 bytes that are aligned to eight, and calls
 * `rand_next` four times. They then have the generator of the two seeds, or if both are the same,
 * of the one. */
KOMI_API komihash_v5_rand komihash_v5_rand_init_words(uint64_t s1, uint64_t s2) KOMIHASH_NOEXCEPT;
KOMI_API komihash_v4_rand komihash_v4_rand_init_words(uint64_t s1, uint64_t s2) KOMIHASH_NOEXCEPT;

/* Returns the next output. */
KOMIHASH_NONNULL
KOMI_API uint64_t komihash_v5_rand_next(komihash_v5_rand *rand) KOMIHASH_NOEXCEPT;
KOMIHASH_NONNULL
KOMI_API uint64_t komihash_v4_rand_next(komihash_v4_rand *rand) KOMIHASH_NOEXCEPT;

/* Fills `out` with the bytes of the next outputs, the lowest byte of each first. Takes an output
 * for each eight bytes, and one more for a remainder, which gets its lowest bytes; its other bytes
 * are dropped. */
KOMIHASH_NONNULL
KOMI_API void komihash_v5_rand_fill(komihash_v5_rand *rand, void *out, size_t length)
    KOMIHASH_NOEXCEPT;
KOMIHASH_NONNULL
KOMI_API void komihash_v4_rand_fill(komihash_v4_rand *rand, void *out, size_t length)
    KOMIHASH_NOEXCEPT;

/* Writes the padded words of a message to the front of `out`, and returns their number, which is
 * length / 8 + 1. They are the words that the hash reads: different messages have different ones.
 * Returns 0, and writes nothing, if `out` has no room for them. `length` counts bytes, and `room`
 * counts words. */
KOMIHASH_CHECK_RESULT
KOMI_API size_t komihash_v5_pad(const void *bytes, size_t length, uint64_t *out, size_t room)
    KOMIHASH_NOEXCEPT;
KOMIHASH_CHECK_RESULT
KOMI_API size_t komihash_v4_pad(const void *bytes, size_t length, uint64_t *out, size_t room)
    KOMIHASH_NOEXCEPT;

/* Writes the message that has these padded words to the front of `out`, and returns its length.
 * Returns KOMIHASH_NONE, and writes nothing, if no message has them, or if `out` has fewer than
 * eight bytes for each word. `length` counts words, and `room` counts bytes. */
KOMIHASH_CHECK_RESULT
KOMI_API size_t komihash_v5_unpad(const uint64_t *words, size_t length, void *out, size_t room)
    KOMIHASH_NOEXCEPT;
KOMIHASH_CHECK_RESULT
KOMI_API size_t komihash_v4_unpad(const uint64_t *words, size_t length, void *out, size_t room)
    KOMIHASH_NOEXCEPT;

#ifdef __cplusplus
}
#endif


typedef char komi_stream_fits[sizeof(komi_stream) <= sizeof(komihash_v5_stream) ? 1 : -1];
typedef char komi_rand_fits[sizeof(komi_rand) <= sizeof(komihash_v5_rand) ? 1 : -1];

#if !defined(KOMIHASH_RATTLE_EXTERN) || defined(KOMIHASH_RATTLE_IMPLEMENTATION)

/* Words in memory have the lowest byte first. */
#if defined(_MSC_VER) || (defined(__BYTE_ORDER__) && __BYTE_ORDER__ == __ORDER_LITTLE_ENDIAN__)
KOMI_INLINE uint64_t komi_half_word_at(const uint8_t *bytes, size_t at) {
    uint32_t word;
    komi_copy_array(4, bytes + at, &word);
    return word;
}

KOMI_INLINE uint64_t komi_read_word(const uint8_t *bytes) {
    uint64_t word;
    komi_copy_array(8, bytes, &word);
    return word;
}

KOMI_INLINE void komi_write_word(uint64_t word, uint8_t *out) {
    komi_copy_array(8, &word, out);
}
#else /* Compilers recognize the sums of shifted bytes. */
KOMI_INLINE uint64_t komi_half_word_at(const uint8_t *bytes, size_t at) {
    const uint8_t *four = bytes + at;
    return four[0] | (uint32_t)four[1] << 8 | (uint32_t)four[2] << 16 | (uint32_t)four[3] << 24;
}

KOMI_INLINE uint64_t komi_read_word(const uint8_t *bytes) {
    return komi_half_word_at(bytes, 0) | komi_half_word_at(bytes, 4) << 32;
}

KOMI_INLINE void komi_write_word(uint64_t word, uint8_t *out) {
    for (int i = 0; i < 8; i++) {
        out[i] = (uint8_t)(word >> (8 * i));
    }
}
#endif

KOMI_INLINE komi_eight komi_to_le_bytes(uint64_t word) {
    komi_eight bytes;
    komi_write_word(word, bytes.at);
    return bytes;
}

/* Returns the byte at index `at` of words, the lowest byte of each word first. */
KOMI_INLINE uint8_t komi_byte_at(const uint64_t *words, size_t at) {
    return (uint8_t)(words[at / 8] >> (8 * (at % 8)));
}

/* Returns one of two words, by a mask for gcc, which would make a jump that is hard to predict. */
KOMI_INLINE uint64_t komi_either(bool condition, uint64_t yes, uint64_t no) {
#ifdef KOMI_GCC
    return no ^ ((yes ^ no) & -(uint64_t)condition);
#else
    return condition ? yes : no;
#endif
}

KOMI_INLINE size_t komi_min(size_t x, size_t y) {
    return x < y ? x : y;
}

KOMI_INLINE uint64_t komi_rotate_left(uint64_t x, uint32_t bits) {
    return x << bits | x >> ((64 - bits) & 63);
}

/* Returns the index of the highest bit of x, which isn't 0. riscv64 may need libgcc for it. */
KOMI_INLINE uint32_t komi_ilog2(uint64_t x) {
#if defined(KOMI_GNU) && !defined(__riscv)
    return 63 - (uint32_t)__builtin_clzll(x);
#else
    uint32_t index = 0;
    while (x >>= 1) {
        index++;
    }
    return index;
#endif
}

/* Returns the bytes after a block, and hides from gcc by how much the length gets smaller. It would
 * count the blocks too, and read words before it has registers for them. */
KOMI_INLINE komi_bytes komi_bytes_after(const uint8_t *at, size_t length) {
    komi_bytes rest = {at, length};
#ifdef KOMI_GCC
    __asm__("" : "+r"(rest.length));
#endif
    return rest;
}

/* Returns the low and the high half of the product of two words. WebAssembly has no product of 128
 * bits: compilers would call a function. For x86-64, gcc is told the instruction, because it keeps
 * both halves of its own product together until both were used, and so on the stack. */
KOMI_INLINE komi_two komi_multiply128(uint64_t x, uint64_t y) {
    komi_two halves;
#if defined(KOMI_GCC) && defined(__x86_64__)
    if (!__builtin_constant_p(x) || !__builtin_constant_p(y)) {
#ifdef __BMI2__
        __asm__("mulx {%3, %0, %1|%1, %0, %3}"
            : "=r"(halves.first), "=r"(halves.second) : "d"(x), "rm"(y));
#else
        __asm__("mul{q} %3" : "=a"(halves.first), "=d"(halves.second) : "0"(x), "rm"(y) : "cc");
#endif
        return halves;
    }
#endif
#if defined(__SIZEOF_INT128__) && !defined(__wasm__)
    __extension__ typedef unsigned __int128 komi_u128;
    const komi_u128 product = (komi_u128)x * y;
    halves.first = (uint64_t)product;
    halves.second = (uint64_t)(product >> 64);
#elif defined(_MSC_VER) && defined(_M_X64)
    halves.first = _umul128(x, y, &halves.second);
#elif defined(_MSC_VER) && defined(_M_ARM64)
    halves.first = x * y;
    halves.second = __umulh(x, y);
#else
    const uint64_t low_x = (uint32_t)x, high_x = x >> 32, low_y = (uint32_t)y, high_y = y >> 32;
    const uint64_t lowest = low_x * low_y, middle = high_x * low_y + (lowest >> 32);
    const uint64_t other = low_x * high_y + (uint32_t)middle;
    halves.first = other << 32 | (uint32_t)lowest;
    halves.second = high_x * high_y + (middle >> 32) + (other >> 32);
#endif
    return halves;
}

/* --------------------------------------------------------------------------------------------- */
/* Words of eight bytes, the lowest byte first: read from bytes, written to bytes, multiplied. */

KOMI_INLINE uint64_t komi_word_at(const uint8_t *bytes, size_t at) {
    return komi_read_word(bytes + at);
}

/* Returns the word of the last eight bytes. */
KOMI_INLINE uint64_t komi_last_word(const uint8_t *bytes, size_t length) {
    return komi_read_word(bytes + length - 8);
}

/* Returns the word of at most seven bytes and the byte `end` after them.
 *
 * Reads four bytes or more in two pieces, which may overlap. `end` follows the second piece, of
 * which a shift removes the bytes that the first has too. Fewer bytes are read at three indices,
 * however many there are, since a choice between two values costs less than a jump. */
KOMI_INLINE uint64_t komi_read_partial_word(const uint8_t *bytes, size_t length, uint64_t end) {
    size_t n = length;
    if (n >= 4) {
        return komi_half_word_at(bytes, 0) |
            (komi_half_word_at(bytes, n - 4) | end << 32) >> (64 - 8 * n) << 32;
    } else if (n > 0) {
        uint64_t middle = (uint64_t)bytes[n / 2] << 8;
        uint64_t last = (uint64_t)bytes[n - 1] << 16;
        bool has_second = n > 1;
        bool has_third = n > 2;
        uint64_t second = komi_either(has_second, middle, 0);
        uint64_t third = komi_either(has_third, last, 0);
        return ((uint64_t)bytes[0] + second + third) | end << (8 * n);
    } else {
        return end;
    }
}

/* Fills `out`, of at most seven bytes, with the lowest bytes of a word. */
KOMI_INLINE void komi_write_partial_word(uint64_t word, uint8_t *out, size_t out_length) {
    komi_eight bytes = komi_to_le_bytes(word);
    size_t n = out_length;
    if (n >= 4) {
        komi_copy_array(4, bytes.at, out);
        komi_copy_array(4, bytes.at + (n - 4), out + (n - 4));
    } else if (n >= 2) {
        komi_copy_array(2, bytes.at, out);
        komi_copy_array(2, bytes.at + (n - 2), out + (n - 2));
    } else if (n == 1) {
        out[0] = bytes.at[0];
    }
}

/* Writes the whole words of `bytes` to the front of `out`. */
KOMI_INLINE void komi_read_whole_words(const uint8_t *bytes, size_t length, uint64_t *out) {
    for (size_t i = 0; i < length / 8; i++) {
        out[i] = komi_read_word(bytes + 8 * i);
    }
}

/* Fills `out`, of eight bytes for each word, with the bytes of words. */
KOMI_INLINE void komi_write_words(const uint64_t *words, size_t words_length, uint8_t *out) {
    for (size_t i = 0; i < words_length; i++) {
        komi_write_word(words[i], out + 8 * i);
    }
}

/* Writes the first `count` bytes of `words` to the front of `out`. */
KOMI_INLINE void komi_write_first_bytes(const uint64_t *words, size_t count, uint8_t *out) {
    size_t whole = count / 8;
    komi_write_words(words, whole, out);
    if (count % 8 > 0) {
        komi_write_partial_word(words[whole], out + 8 * whole, count - 8 * whole);
    }
}

/* --------------------------------------------------------------------------------------------- */
/* The steps of the hash: seeding, lanes, block rounds, joining, pair rounds, closing.
 *
 * Only which words are multiplied with each other depends on the version. */

/* The hash's eight constants: the first 512 bits of the fractional part of pi. */
#define KOMI_C1 UINT64_C(0x243f6a8885a308d3)
#define KOMI_C2 UINT64_C(0x13198a2e03707344)
#define KOMI_C3 UINT64_C(0xa4093822299f31d0)
#define KOMI_C4 UINT64_C(0x082efa98ec4e6c89)
#define KOMI_C5 UINT64_C(0x452821e638d01377)
#define KOMI_C6 UINT64_C(0xbe5466cf34e90c6c)
#define KOMI_C7 UINT64_C(0xc0ac29b7c97c50dd)
#define KOMI_C8 UINT64_C(0x3f84d5b5b5470917)

/* Mixes the product of `x` and `y` into the word `e`, and returns the pair. */
KOMI_INLINE komi_pair komi_mix(uint64_t x, uint64_t y, uint64_t e) {
    const komi_two low_and_high = komi_multiply128(x, y);
    uint64_t low = low_and_high.first;
    uint64_t high = low_and_high.second;
    const komi_pair result = {low, e + high};
    return result;
}

KOMI_INLINE komi_two komi_seed_words(uint64_t seed) {
    const komi_two result = {KOMI_C1 ^ (seed & UINT64_C(0x5555555555555555)),
        KOMI_C5 ^ (seed & UINT64_C(0xaaaaaaaaaaaaaaaa))};
    return result;
}

/* Returns the pair that a hash with the seed begins with. */
KOMI_INLINE komi_pair komi_seed_pair(uint64_t seed) {
    const komi_two a_and_e = komi_seed_words(seed);
    uint64_t a = a_and_e.first;
    uint64_t e = a_and_e.second;
    return komi_mix(a, e, e);
}

KOMI_INLINE komi_lanes komi_lanes_of(komi_pair pair) {
    const komi_lanes result = {{(KOMI_C4 ^ KOMI_C7) ^ pair.low, KOMI_C8 ^ pair.e},
        {KOMI_C8 ^ pair.low, pair.e}, {KOMI_C2 ^ pair.low, KOMI_C6 ^ pair.e},
        {(KOMI_C3 ^ KOMI_C6) ^ pair.low, KOMI_C7 ^ pair.e}};
    return result;
}

/* Returns the lanes in their order, s1 first. */
KOMI_INLINE komi_block komi_in_order(const komi_lanes *lanes) {
    komi_pair fourth = lanes->fourth;
    komi_pair first = lanes->first;
    komi_pair second = lanes->second;
    komi_pair third = lanes->third;
    const komi_block result = {{fourth.e ^ first.low, first.e ^ second.low, second.e ^ third.low,
        third.e ^ fourth.low, first.e, second.e, third.e, fourth.e}};
    return result;
}

/* Returns the lanes from their words in that order. */
KOMI_INLINE komi_lanes komi_from_order(const uint64_t *lanes) {
    const komi_lanes result = {{lanes[6] ^ lanes[3], lanes[7]}, {lanes[7] ^ lanes[0], lanes[4]},
        {lanes[4] ^ lanes[1], lanes[5]}, {lanes[5] ^ lanes[2], lanes[6]}};
    return result;
}

/* Returns which words of a block are multiplied with each other: two indices for each product. */
KOMI_INLINE komi_indices komi_places(uint8_t version) {
    if (version == 4) {
        const komi_indices result = {{0, 1, 2, 3, 4, 5, 6, 7}};
        return result;
    } else {
        const komi_indices result = {{0, 4, 1, 5, 2, 6, 3, 7}};
        return result;
    }
}

/* Absorbs a block of eight words, multiplied as the table `places` says. */
KOMI_INLINE void komi_block_round(komi_lanes *lanes, const uint64_t *words, komi_indices places) {
    komi_pair fourth = lanes->fourth;
    komi_pair first = lanes->first;
    komi_pair second = lanes->second;
    komi_pair third = lanes->third;
    /* These factors are made before the first product, so that each sum may overwrite its word e.
     * Each takes the low half of a product first, which is ready before the sum that follows. In
     * this order of products a block takes the fewest instructions. */
    uint64_t x2 = (words[places.at[2]] ^ second.low) ^ first.e;
    uint64_t x3 = (words[places.at[4]] ^ third.low) ^ second.e;
    uint64_t x1 = (words[places.at[0]] ^ first.low) ^ fourth.e;
    uint64_t x4 = (words[places.at[6]] ^ fourth.low) ^ third.e;
    lanes->second = komi_mix(words[places.at[3]] ^ second.e, x2, second.e);
    lanes->first = komi_mix(words[places.at[1]] ^ first.e, x1, first.e);
    lanes->third = komi_mix(words[places.at[5]] ^ third.e, x3, third.e);
    lanes->fourth = komi_mix(words[places.at[7]] ^ fourth.e, x4, fourth.e);
}

KOMI_INLINE komi_block komi_block_words(const uint8_t *block) {
    const komi_block result = {{komi_word_at(block, 0), komi_word_at(block, 8),
        komi_word_at(block, 16), komi_word_at(block, 24), komi_word_at(block, 32),
        komi_word_at(block, 40), komi_word_at(block, 48), komi_word_at(block, 56)}};
    return result;
}

/* Absorbs the first block, and returns the bytes after it. Absorbing these then gives the same
 * lanes and the same remainder as absorbing all of `bytes` at once. */
KOMI_INLINE komi_bytes komi_absorb_first_block(uint8_t version, komi_lanes *lanes,
    const uint8_t *bytes, size_t length) {
    komi_bytes rest = komi_bytes_after(bytes + 64, length - 64);
    komi_block words = komi_block_words(bytes);
    komi_block_round(lanes, words.at, komi_places(version));
    return rest;
}

/* Absorbs each whole block of the bytes, and returns the bytes after them, fewer than 64. */
KOMI_INLINE komi_bytes komi_absorb_blocks(uint8_t version, komi_lanes *lanes, const uint8_t *bytes,
    size_t length) {
    komi_bytes rest = {bytes, length};
    /* Two blocks per turn take fewer instructions than one. */
    if (rest.length / 64 % 2 == 1) {
        rest = komi_absorb_first_block(version, lanes, rest.at, rest.length);
    }
    while (rest.length >= 128) {
        komi_bytes after = komi_absorb_first_block(version, lanes, rest.at, rest.length);
        rest = komi_absorb_first_block(version, lanes, after.at, after.length);
    }
    return rest;
}

/* Returns the pair of the lanes: s1 to s4 xored and s5 to s8 xored if a block was absorbed,
 * otherwise s1 and s5. */
KOMI_INLINE komi_pair komi_join(const komi_lanes *lanes, bool had_block) {
    komi_pair fourth = lanes->fourth;
    komi_pair first = lanes->first;
    komi_pair second = lanes->second;
    komi_pair third = lanes->third;
    if (had_block) {
        const komi_pair result = {first.low ^ second.low ^ third.low ^ fourth.low,
            first.e ^ second.e ^ third.e ^ fourth.e};
        return result;
    } else {
        const komi_pair result = {fourth.e ^ first.low ^ first.e, first.e};
        return result;
    }
}

KOMI_INLINE komi_pair komi_pair_round(komi_pair pair, uint64_t w0, uint64_t w1) {
    return komi_mix((w0 ^ pair.low) ^ pair.e, w1 ^ pair.e, pair.e);
}

/* Returns the hash from the pair of the closing's first mix. */
KOMI_INLINE uint64_t komi_mix_again(komi_pair pair) {
    komi_pair last = komi_mix(pair.e ^ pair.low, pair.e, pair.e);
    return last.e ^ last.low;
}

/* Returns the hash from a pair and the two words that are left, or the one that is left and 0. */
KOMI_INLINE uint64_t komi_close(komi_pair pair, uint64_t first, uint64_t second) {
    return komi_mix_again(komi_pair_round(pair, first, second));
}

/* --------------------------------------------------------------------------------------------- */
/* The whole words of a message or a stream, the pair rounds on them, and for messages the closing,
 * which takes the word that may be left and the final word. */

/* Returns the last whole word of at least eight bytes. */
KOMI_INLINE uint64_t komi_last_whole_word(const uint8_t *bytes, size_t length) {
    return komi_read_word(bytes + 8 * (length / 8 - 1));
}

KOMI_INLINE size_t komi_bytes_count(size_t self_length) {
    return self_length / 8;
}

KOMI_INLINE uint64_t komi_bytes_word(const uint8_t *self, size_t at) {
    return komi_read_word(self + 8 * at);
}

/* Returns the pair after a round on the two words from index `at`. From it, the words after these
 * give the hash that all from `at` on give from the pair before. */
KOMI_INLINE komi_pair komi_round_at_bytes(komi_pair pair, const uint8_t *left, size_t at) {
    return komi_pair_round(pair, komi_bytes_word(left, at), komi_bytes_word(left, at + 1));
}

/* Returns the pair after a round on each two words. From this, the word that may remain gives the
 * hash that all words give from `pair`. */
KOMI_INLINE komi_pair komi_round_each_bytes(komi_pair pair, const uint8_t *left,
    size_t left_length) {
    if (komi_bytes_count(left_length) < 2) {
        return pair;
    }
    pair = komi_round_at_bytes(pair, left, 0);
    if (komi_bytes_count(left_length) < 4) {
        return pair;
    }
    pair = komi_round_at_bytes(pair, left, 2);
    if (komi_bytes_count(left_length) < 6) {
        return pair;
    }
    return komi_round_at_bytes(pair, left, 4);
}

/* Returns the hash from a pair, the whole words of fewer than 64 bytes, and the final word. The
 * last whole word is any word if there are none. */
KOMI_INLINE uint64_t komi_hash_from_pair(komi_pair pair, const uint8_t *left, size_t left_length,
    uint64_t last_whole_word, uint64_t final_word) {
    pair = komi_round_each_bytes(pair, left, left_length);
    /* The closing of one word is that of two, the second of which is 0. So it needs no jump. */
    uint64_t first = komi_either(left_length / 8 % 2 == 1, last_whole_word, final_word);
    uint64_t second = komi_either(left_length / 8 % 2 == 1, final_word, 0);
    return komi_close(pair, first, second);
}

/* --------------------------------------------------------------------------------------------- */
/* The padding of a message: its padding byte, its final word, its padded words, and the message
 * whose padded words are given. */

/* Returns whether the version has the padding byte 2. */
KOMI_INLINE bool komi_has_two(uint8_t version) {
    return version == 4;
}

/* Returns whether the padding byte after `byte` is 2: if the version has it, and the byte's top bit
 * is set. */
KOMI_INLINE bool komi_pads_with_two(uint8_t version, uint8_t byte) {
    return komi_has_two(version) && byte >= 128;
}

/* Returns the padding byte: 2 if `komi_pads_with_two` holds for the last byte, otherwise 1. */
KOMI_INLINE uint64_t komi_padding_after(bool top_bit) {
    return 1 + (uint64_t)top_bit;
}

/* Returns the padding byte of a message that isn't empty. */
KOMI_INLINE uint64_t komi_padding_byte(uint8_t version, const uint8_t *message,
    size_t message_length) {
    /* Version 5 reads no byte for it. */
    if (komi_has_two(version)) {
        return komi_padding_after(komi_pads_with_two(version, message[message_length - 1]));
    } else {
        return 1;
    }
}

/* Returns the final word of eight or more bytes: the bytes after the last whole word, and `end`.
 *
 * Reads the last eight bytes, and shifts out those of the last whole word. If no byte comes after
 * that word, the shift is by 64, which `>>` doesn't allow. So it shifts twice. A branch would be
 * faster for whole words, but a processor can't guess it where lengths vary. */
KOMI_INLINE uint64_t komi_final_word_of_many(const uint8_t *bytes, size_t length, uint64_t end) {
    uint64_t eight = komi_last_word(bytes, length);
    size_t shift = 8 * (length % 8);
    return (eight >> 1) >> (63 - shift) | end << shift;
}

/* Writes the padded words of a message in the version, and returns how many they are. */
KOMI_INLINE size_t komi_pad(uint8_t version, const uint8_t *bytes, size_t length, uint64_t *out) {
    size_t whole = length / 8;
    uint64_t final_word;
    if (whole > 0) {
        final_word = komi_final_word_of_many(bytes, length,
            komi_padding_byte(version, bytes, length));
    } else if (length == 0) {
        final_word = 0;
    } else {
        final_word = komi_read_partial_word(bytes, length,
            komi_padding_byte(version, bytes, length));
    }
    komi_read_whole_words(bytes, length, out);
    out[whole] = final_word;
    return whole + 1;
}

/* Returns the index of a word's highest byte that is not 0. */
KOMI_INLINE size_t komi_highest_place(uint64_t word) {
    return (size_t)(komi_ilog2(word) / 8);
}

/* Returns whether `byte` is the padding byte of the first `count` bytes of words. */
KOMI_INLINE bool komi_is_padding_byte(uint8_t version, uint64_t byte, const uint64_t *words,
    size_t count) {
    return byte == komi_padding_after(komi_pads_with_two(version, komi_byte_at(words, count - 1)));
}

/* Returns the length in bytes of the message that has these padded words in the version, or
 * KOMIHASH_NONE if no message has them.
 *
 * The padding byte can only be the last word's highest byte that is not 0. The byte before it
 * decides whether it is. */
KOMI_INLINE size_t komi_message_length(uint8_t version, const uint64_t *words,
    size_t words_length) {
    size_t count = words_length;
    if (count == 0) {
        return KOMIHASH_NONE;
    }
    uint64_t last = words[count - 1];
    if (last == 0) {
        return count == 1 ? 0 : KOMIHASH_NONE;
    }
    size_t place = komi_highest_place(last);
    size_t length = 8 * (count - 1) + place;
    if (length == 0) {
        return KOMIHASH_NONE;
    }
    if (komi_is_padding_byte(version, last >> (8 * place), words, length)) {
        return length;
    } else {
        return KOMIHASH_NONE;
    }
}

/* Writes the message that has these padded words in the version to the front of `out`, and returns
 * its length in bytes. Returns KOMIHASH_NONE, with `out` unchanged, if no message has these
 * words. */
KOMI_INLINE size_t komi_unpad(uint8_t version, const uint64_t *words, size_t words_length,
    uint8_t *out) {
    size_t count = komi_message_length(version, words, words_length);
    if (count == KOMIHASH_NONE) {
        return KOMIHASH_NONE;
    }
    komi_write_first_bytes(words, count, out);
    return count;
}

/* --------------------------------------------------------------------------------------------- */
/* The hash of a whole message, which is read without a copy.
 *
 * Each range of lengths has a function of its own, except the empty message, so that messages take
 * few jumps. Those below 64 bytes may be inlined, since a caller may know the length. */

KOMI_INLINE uint64_t komi_hash_of_partial_word(uint8_t version, const uint8_t *bytes, size_t length,
    uint64_t seed) {
    komi_pair pair = komi_seed_pair(seed);
    uint64_t final_word = komi_read_partial_word(bytes, length,
        komi_padding_byte(version, bytes, length));
    return komi_close(pair, final_word, 0);
}

KOMI_SHORT uint64_t komi_hash_of_partial_word_v4(const uint8_t *bytes, size_t length,
    uint64_t seed) {
    return komi_hash_of_partial_word(4, bytes, length, seed);
}

KOMI_SHORT uint64_t komi_hash_of_partial_word_v5(const uint8_t *bytes, size_t length,
    uint64_t seed) {
    return komi_hash_of_partial_word(5, bytes, length, seed);
}

/* The final word comes first, so that its shift doesn't take registers that the products need. */
KOMI_INLINE uint64_t komi_hash_of_one_word(uint8_t version, const uint8_t *bytes, size_t length,
    uint64_t seed) {
    uint64_t final_word = komi_final_word_of_many(bytes, length,
        komi_padding_byte(version, bytes, length));
    komi_pair pair = komi_seed_pair(seed);
    return komi_close(pair, komi_read_word(bytes), final_word);
}

KOMI_SHORT uint64_t komi_hash_of_one_word_v4(const uint8_t *bytes, size_t length, uint64_t seed) {
    return komi_hash_of_one_word(4, bytes, length, seed);
}

KOMI_SHORT uint64_t komi_hash_of_one_word_v5(const uint8_t *bytes, size_t length, uint64_t seed) {
    return komi_hash_of_one_word(5, bytes, length, seed);
}

/* This function is apart from the next one, because keys often have 16 bytes. */
KOMI_INLINE uint64_t komi_hash_of_16_bytes(uint8_t version, const uint8_t *bytes, size_t length,
    uint64_t seed) {
    komi_pair pair = komi_seed_pair(seed);
    pair = komi_pair_round(pair, komi_read_word(bytes), komi_word_at(bytes, 8));
    return komi_close(pair, komi_padding_byte(version, bytes, length), 0);
}

KOMI_SHORT uint64_t komi_hash_of_16_bytes_v4(const uint8_t *bytes, size_t length, uint64_t seed) {
    return komi_hash_of_16_bytes(4, bytes, length, seed);
}

KOMI_SHORT uint64_t komi_hash_of_16_bytes_v5(const uint8_t *bytes, size_t length, uint64_t seed) {
    return komi_hash_of_16_bytes(5, bytes, length, seed);
}

KOMI_INLINE uint64_t komi_hash_of_words(uint8_t version, const uint8_t *bytes, size_t length,
    uint64_t seed) {
    komi_pair pair = komi_seed_pair(seed);
    uint64_t final_word = komi_final_word_of_many(bytes, length,
        komi_padding_byte(version, bytes, length));
    return komi_hash_from_pair(pair, bytes, length, komi_last_whole_word(bytes, length),
        final_word);
}

KOMI_SHORT uint64_t komi_hash_of_words_v4(const uint8_t *bytes, size_t length, uint64_t seed) {
    return komi_hash_of_words(4, bytes, length, seed);
}

KOMI_SHORT uint64_t komi_hash_of_words_v5(const uint8_t *bytes, size_t length, uint64_t seed) {
    return komi_hash_of_words(5, bytes, length, seed);
}

/* One block needs no loop. Functions that read blocks aren't inlined: callers would get long. */
KOMI_INLINE uint64_t komi_hash_of_one_block(uint8_t version, const uint8_t *bytes, size_t length,
    uint64_t seed) {
    komi_lanes lanes = komi_lanes_of(komi_seed_pair(seed));
    komi_bytes rest = komi_absorb_first_block(version, &lanes, bytes, length);
    komi_pair pair = komi_join(&lanes, true);
    /* Keys may have just 64 bytes, and their final word is the padding byte alone. */
    if (rest.length == 0) {
        return komi_close(pair, komi_padding_byte(version, bytes, length), 0);
    }
    uint64_t final_word = komi_final_word_of_many(bytes, length,
        komi_padding_byte(version, bytes, length));
    /* `rest` may have no whole word. If it has one, its last is that of all bytes. */
    return komi_hash_from_pair(pair, rest.at, rest.length, komi_last_whole_word(bytes, length),
        final_word);
}

KOMI_APART uint64_t komi_hash_of_one_block_v4(const uint8_t *bytes, size_t length, uint64_t seed) {
    return komi_hash_of_one_block(4, bytes, length, seed);
}

KOMI_APART uint64_t komi_hash_of_one_block_v5(const uint8_t *bytes, size_t length, uint64_t seed) {
    return komi_hash_of_one_block(5, bytes, length, seed);
}

KOMI_INLINE uint64_t komi_hash_of_blocks(uint8_t version, const uint8_t *bytes, size_t length,
    uint64_t seed) {
    komi_pair pair = komi_seed_pair(seed);
    uint64_t final_word = komi_final_word_of_many(bytes, length,
        komi_padding_byte(version, bytes, length));
    komi_lanes lanes = komi_lanes_of(pair);
    /* Two blocks need no loop either. */
    komi_bytes rest;
    if (length < 192) {
        komi_bytes after = komi_absorb_first_block(version, &lanes, bytes, length);
        rest = komi_absorb_first_block(version, &lanes, after.at, after.length);
    } else {
        rest = komi_absorb_blocks(version, &lanes, bytes, length);
    }
    pair = komi_join(&lanes, true);
    /* This test pays after several blocks, but not after one. */
    if (rest.length < 8) {
        return komi_close(pair, final_word, 0);
    }
    return komi_hash_from_pair(pair, rest.at, rest.length,
        komi_last_whole_word(rest.at, rest.length), final_word);
}

KOMI_APART uint64_t komi_hash_of_blocks_v4(const uint8_t *bytes, size_t length, uint64_t seed) {
    return komi_hash_of_blocks(4, bytes, length, seed);
}

KOMI_APART uint64_t komi_hash_of_blocks_v5(const uint8_t *bytes, size_t length, uint64_t seed) {
    return komi_hash_of_blocks(5, bytes, length, seed);
}

/* Returns the hash of a message with a seed in the version.
 *
 * The tests of the length are inlined into the caller, and vanish where it knows the length. */
KOMI_INLINE uint64_t komi_hash_message(uint8_t version, const uint8_t *bytes, size_t length,
    uint64_t seed) {
    if (length >= 8) {
        if (length >= 64) {
            if (length >= 128) {
                return KOMI_COPY_OF(version, komi_hash_of_blocks, (bytes, length, seed));
            } else {
                return KOMI_COPY_OF(version, komi_hash_of_one_block, (bytes, length, seed));
            }
        } else if (length < 16) {
            return KOMI_COPY_OF(version, komi_hash_of_one_word, (bytes, length, seed));
        } else if (length > 16) {
            return KOMI_COPY_OF(version, komi_hash_of_words, (bytes, length, seed));
        } else {
            return KOMI_COPY_OF(version, komi_hash_of_16_bytes, (bytes, length, seed));
        }
    } else if (length == 0) {
        return komi_close(komi_seed_pair(seed), 0, 0);
    } else {
        return KOMI_COPY_OF(version, komi_hash_of_partial_word, (bytes, length, seed));
    }
}

/* --------------------------------------------------------------------------------------------- */
/* The pending bytes of a stream: those after its last whole block. */

/* Returns the index of the word that has the byte after the first `len`. */
KOMI_INLINE size_t komi_word_index(size_t len) {
    return len / 8 % 8;
}

/* Appends fewer than eight bytes. If all fit in the partial word, 0 goes to the next word, which
 * after the last is the first. */
KOMI_INLINE void komi_append_below_eight(uint64_t *words, size_t len, const uint8_t *bytes,
    size_t length) {
    uint64_t word = komi_read_partial_word(bytes, length, 0);
    size_t bits = 8 * (len % 8);
    words[komi_word_index(len)] |= word << bits;
    /* The rotation is the shifted word plus what the shift drops, moved to the lowest bytes, where
     * the next word begins. A shift to the right would be by 64 where the partial word is empty. */
    words[(len + 8) / 8 % 8] |= komi_rotate_left(word, (uint32_t)bits) - (word << bits);
}

/* Appends those of eight or more bytes that complete the partial word. */
KOMI_INLINE void komi_append_within_word(uint64_t *words, size_t len, const uint8_t *bytes) {
    words[komi_word_index(len)] |= komi_read_word(bytes) << (8 * (len % 8));
}

/* Stores two of the chunks as words, those from index `at` on. */
KOMI_INLINE void komi_store_two_chunks(uint64_t *words, const uint8_t *chunks, size_t at) {
    const uint8_t *two = chunks + 8 * at;
    uint64_t first = komi_read_word(two);
    uint64_t second = komi_read_word(two + 8);
    uint64_t *out = words + at;
    out[0] = first;
    out[1] = second;
}

/* Stores two to seven chunks as words, two at a time from both ends, and some twice, which saves
 * jumps. */
KOMI_INLINE void komi_store_chunks(uint64_t *words, const uint8_t *chunks, size_t chunks_length) {
    size_t count = chunks_length / 8;
    /* In this order, a stream of one write takes fewer instructions than in others. */
    komi_store_two_chunks(words, chunks, count - 2);
    komi_store_two_chunks(words, chunks, 0);
    if (count >= 4) {
        komi_store_two_chunks(words, chunks, count - 4);
        komi_store_two_chunks(words, chunks, 2);
    }
}

/* Of eight bytes or more, appends those that end up in whole words. */
KOMI_INLINE void komi_append_whole_words(uint64_t *words, size_t len, const uint8_t *bytes,
    size_t length) {
    komi_append_within_word(words, len, bytes);
    size_t next = komi_word_index(len) + 1;
    size_t next_at = 8 - len % 8;
    /* The words after the partial word that are whole with the bytes. */
    const uint8_t *chunks = bytes + next_at;
    if ((length - next_at) / 8 >= 2) {
        komi_store_chunks(words + next, chunks, length - next_at);
    } else {
        /* If the next word isn't whole, `komi_append_eight_or_more` overwrites what this stores. A
         * test whether it is would cost a jump. */
        words[next % 8] = komi_word_at(bytes, komi_min(next_at, length - 8));
    }
}

/* Appends eight bytes or more: those of whole words, and then those that are left. */
KOMI_INLINE void komi_append_eight_or_more(uint64_t *words, size_t len, const uint8_t *bytes,
    size_t length) {
    komi_append_whole_words(words, len, bytes, length);
    size_t end = len + length;
    /* The shift by 8 comes last, because LLVM would otherwise read seven bytes in three pieces. */
    words[komi_word_index(end)] = komi_last_word(bytes, length) >> (56 - 8 * (end % 8)) >> 8;
}

/* Appends bytes that do not complete the block. */
KOMI_INLINE void komi_append_to_block(uint64_t *words, size_t len, const uint8_t *bytes,
    size_t length) {
    if (length < 8) {
        komi_append_below_eight(words, len, bytes, length);
    } else {
        komi_append_eight_or_more(words, len, bytes, length);
    }
}

/* Stores the whole words of eight bytes or more where none is pending. */
KOMI_INLINE void komi_store_whole_words(uint64_t *words, const uint8_t *bytes, size_t length) {
    if (length / 8 >= 2) {
        komi_store_chunks(words, bytes, length);
    } else {
        words[0] = komi_read_word(bytes);
    }
}

/* Stores bytes where none is pending. A stream of one write takes fewer instructions than if
 * `komi_append_to_block` stored them. */
KOMI_INLINE void komi_store_bytes(uint64_t *words, const uint8_t *bytes, size_t length) {
    if (length < 8) {
        words[0] = komi_read_partial_word(bytes, length, 0);
    } else {
        komi_store_whole_words(words, bytes, length);
        /* The shift by 8 comes last, as above. */
        words[komi_word_index(length)] =
            komi_last_word(bytes, length) >> (56 - 8 * (length % 8)) >> 8;
    }
}

/* Stores the 16 bytes from index `start` on as two words, from index `at` on. */
KOMI_INLINE void komi_store_two_words(uint64_t *words, size_t at, const uint8_t *bytes,
    size_t start) {
    uint64_t first = komi_word_at(bytes, start);
    uint64_t second = komi_word_at(bytes, start + 8);
    words[at] = first;
    words[at + 1] = second;
}

/* Stores the bytes that complete the block, some words twice, first from the front and then from
 * the back. */
KOMI_INLINE void komi_complete_block(uint64_t *words, size_t len, const uint8_t *bytes,
    size_t length) {
    if (length < 8) {
        words[7] |= komi_read_partial_word(bytes, length, 0) << (8 * (len % 8));
        return;
    }
    komi_append_within_word(words, len, bytes);
    size_t next_at = 8 - len % 8;
    bool over_32 = length > 32;
    bool over_16 = length > 16;
    if (over_32) {
        size_t next = len / 8 % 4 + 1;
        const uint8_t *back = bytes + length - 32;
        komi_store_two_words(words, next, bytes, next_at);
        words[next + 2] = komi_word_at(bytes, next_at + 16);
        komi_store_two_words(words, 4, back, 0);
        komi_store_two_words(words, 6, back, 16);
    } else if (over_16) {
        const uint8_t *back = bytes + length - 16;
        words[len / 8 % 2 + 5] = komi_word_at(bytes, next_at);
        komi_store_two_words(words, 6, back, 0);
    } else {
        words[7] = komi_last_word(bytes, length);
    }
}

/* Puts bytes after the pending ones, as no other function does. `none` says that none is pending,
 * `full` that the bytes complete the block. */
KOMI_INLINE void komi_put(bool none, bool full, uint64_t *words, size_t len, const uint8_t *bytes,
    size_t length) {
    if (full) {
        komi_complete_block(words, len, bytes, length);
    } else if (none) {
        komi_store_bytes(words, bytes, length);
    } else {
        komi_append_to_block(words, len, bytes, length);
    }
}

KOMI_INLINE komi_pending komi_pending_new(void) {
    const komi_pending result = {{{0}}, 0};
    return result;
}

KOMI_INLINE size_t komi_pending_len(const komi_pending *self) {
    return self->len;
}

/* Appends bytes that do not complete a block. */
KOMI_INLINE void komi_pending_append(komi_pending *self, const uint8_t *bytes, size_t length) {
    size_t len = self->len;
    self->len = len + length;
    komi_put(false, false, self->words.at, len, bytes, length);
}

/* Appends bytes where none is pending. Does what `komi_pending_append` does, but the compiler knows
 * that the length was 0. */
KOMI_INLINE void komi_pending_append_to_none(komi_pending *self, const uint8_t *bytes,
    size_t length) {
    /* Often there are no bytes. */
    if (length % 64 != 0) {
        komi_put(true, false, self->words.at, 0, bytes, length % 64);
        self->len = length % 64;
    }
}

/* Returns the words of the block that the bytes complete, and leaves no byte pending. */
KOMI_INLINE komi_block komi_pending_complete(komi_pending *self, const uint8_t *bytes,
    size_t length) {
    komi_put(false, true, self->words.at, self->len, bytes, length);
    komi_block block = self->words;
    const komi_block value = {{0}};
    self->words = value;
    self->len = 0;
    return block;
}

/* Returns the padding byte of at least one byte. */
KOMI_INLINE uint64_t komi_pending_padding_byte(uint8_t version, const komi_pending *self) {
    size_t last = self->len - 1;
    uint8_t last_byte = (uint8_t)(self->words.at[komi_word_index(last)] >> (8 * (last % 8)) & 0xff);
    return komi_padding_after(komi_pads_with_two(version, last_byte));
}

/* Returns the last two words of at least one byte: the last whole word and the final word, or if
 * the whole words are even in number the final word and 0.
 *
 * They are two of the eight words, the first at an even index, and one of them has the padding
 * byte. This takes fewer instructions than to choose between words. */
KOMI_INLINE komi_two komi_pending_last_two(uint8_t version, const komi_pending *self) {
    uint64_t padding = komi_pending_padding_byte(version, self) << (8 * (self->len % 8));
    uint64_t in_first = komi_either(self->len / 8 % 2 == 1, 0, padding);
    /* In this way LLVM reads the words at an index that one instruction makes of the length. */
    const uint64_t *two = self->words.at + 2 * (self->len / 16 % 4);
    const komi_two result = {two[0] | in_first, two[1] | (padding - in_first)};
    return result;
}

/* Writes the bytes to the front of `out`. The rest of `out` is unchanged. */
KOMI_INLINE void komi_pending_write_to(const komi_pending *self, uint8_t *out) {
    komi_write_first_bytes(self->words.at, self->len, out);
}

KOMI_INLINE size_t komi_pending_count(const komi_pending *self) {
    return self->len / 8;
}

KOMI_INLINE uint64_t komi_pending_word(const komi_pending *self, size_t at) {
    return self->words.at[at];
}

/* Returns the pair after a round on the two words from index `at`. From it, the words after these
 * give the hash that all from `at` on give from the pair before. */
KOMI_INLINE komi_pair komi_round_at_pending(komi_pair pair, const komi_pending *left, size_t at) {
    return komi_pair_round(pair, komi_pending_word(left, at), komi_pending_word(left, at + 1));
}

/* Returns the pair after a round on each two words. From this, the word that may remain gives the
 * hash that all words give from `pair`. */
KOMI_INLINE komi_pair komi_round_each_pending(komi_pair pair, const komi_pending *left) {
    if (komi_pending_count(left) < 2) {
        return pair;
    }
    pair = komi_round_at_pending(pair, left, 0);
    if (komi_pending_count(left) < 4) {
        return pair;
    }
    pair = komi_round_at_pending(pair, left, 2);
    if (komi_pending_count(left) < 6) {
        return pair;
    }
    return komi_round_at_pending(pair, left, 4);
}

/* --------------------------------------------------------------------------------------------- */
/* The saved text of a stream, part by part: four bytes that describe it, the eight lanes in their
 * order, and the pending bytes. */

#define KOMI_LANES_AT 4
#define KOMI_PENDING_AT 68

/* Writes the first four bytes: the version, the two flags, and the number of pending bytes. */
KOMI_INLINE void komi_write_head(uint8_t version, bool had_block, bool top_bit, size_t pending_len,
    uint8_t *out) {
    out[0] = version;
    out[1] = (uint8_t)had_block;
    out[2] = (uint8_t)top_bit;
    out[3] = (uint8_t)pending_len;
}

/* Writes the lanes after the first four bytes. */
KOMI_INLINE void komi_write_lanes(const komi_lanes *lanes, uint8_t *out) {
    komi_block words = komi_in_order(lanes);
    komi_write_words(words.at, 8, out + KOMI_LANES_AT);
}

/* Writes the pending bytes after the lanes, and returns where they end. */
KOMI_INLINE size_t komi_write_pending(const komi_pending *pending, uint8_t *out) {
    size_t end = KOMI_PENDING_AT + komi_pending_len(pending);
    komi_pending_write_to(pending, out + KOMI_PENDING_AT);
    return end;
}

/* Returns whether the first four bytes may begin a text of the version. */
KOMI_INLINE bool komi_is_head(uint8_t version, const uint8_t *bytes) {
    return bytes[0] == version && bytes[1] < 2 &&
        bytes[2] <= (komi_has_two(version) ? bytes[1] : 0) && bytes[3] < 64;
}

/* Returns whether bytes are the text of a state of the version. */
KOMI_INLINE bool komi_is_text(uint8_t version, const uint8_t *bytes, size_t length) {
    return length >= KOMI_PENDING_AT && komi_is_head(version, bytes) &&
        length == KOMI_PENDING_AT + (size_t)bytes[3];
}

KOMI_INLINE komi_lanes komi_read_lanes(const uint8_t *bytes) {
    komi_block lanes = {{0}};
    komi_read_whole_words(bytes + KOMI_LANES_AT, KOMI_PENDING_AT - KOMI_LANES_AT, lanes.at);
    return komi_from_order(lanes.at);
}

KOMI_INLINE komi_pending komi_read_pending(const uint8_t *bytes, size_t length) {
    komi_pending pending = komi_pending_new();
    /* Here this takes fewer instructions than `komi_pending_append_to_none`. */
    komi_pending_append(&pending, bytes + KOMI_PENDING_AT, length - KOMI_PENDING_AT);
    return pending;
}

/* --------------------------------------------------------------------------------------------- */
/* The stream of both versions. */

/* Returns the new stream of a seed. */
KOMI_INLINE void komi_stream_begin(uint64_t seed, komi_stream *result) {
    result->pending = komi_pending_new();
    result->lanes = komi_lanes_of(komi_seed_pair(seed));
    result->had_block = false;
    result->top_bit = false;
}

/* Absorbs bytes that complete a block or more. Copies those that complete the partial block, if
 * there is one, and those after the last block. It stays out of callers, which would get long. */
KOMI_INLINE void komi_stream_complete_blocks(uint8_t version, komi_stream *self,
    const uint8_t *bytes, size_t length) {
    size_t pending_len = komi_pending_len(&self->pending);
    size_t blocks_end = length - (pending_len + length) % 64;
    /* The first test keeps version 5 from computing an index and reading a byte. */
    self->top_bit = komi_has_two(version) && komi_pads_with_two(version, bytes[blocks_end - 1]);
    self->had_block = true;
    komi_lanes lanes;
    komi_bytes rest = {bytes, length};
    if (pending_len == 0) {
        lanes = self->lanes;
    } else {
        komi_bytes after = {bytes + (64 - pending_len), length - (64 - pending_len)};
        rest = after;
        komi_block block = komi_pending_complete(&self->pending, bytes, 64 - pending_len);
        /* The lanes are read after `komi_pending_complete`, which needs the registers itself. */
        lanes = self->lanes;
        komi_block_round(&lanes, block.at, komi_places(version));
    }
    komi_bytes left = komi_absorb_blocks(version, &lanes, rest.at, rest.length);
    self->lanes = lanes;
    komi_pending_append_to_none(&self->pending, left.at, left.length);
}

KOMI_APART void komi_stream_complete_blocks_v4(komi_stream *self, const uint8_t *bytes,
    size_t length) {
    komi_stream_complete_blocks(4, self, bytes, length);
}

KOMI_APART void komi_stream_complete_blocks_v5(komi_stream *self, const uint8_t *bytes,
    size_t length) {
    komi_stream_complete_blocks(5, self, bytes, length);
}

KOMI_INLINE void komi_stream_absorb(uint8_t version, komi_stream *self, const uint8_t *bytes,
    size_t length) {
    if (komi_pending_len(&self->pending) + length < 64) {
        komi_pending_append(&self->pending, bytes, length);
    } else {
        KOMI_COPY_OF(version, komi_stream_complete_blocks, (self, bytes, length));
    }
}

KOMI_INLINE uint64_t komi_stream_answer(uint8_t version, const komi_stream *self) {
    komi_pair pair = komi_join(&self->lanes, self->had_block);
    if (komi_pending_len(&self->pending) == 0) {
        /* The padding byte of the last block, or 0 if no block was absorbed. */
        uint64_t end = self->had_block ? komi_padding_after(self->top_bit) : 0;
        return komi_close(pair, end, 0);
    }
    /* The rounds come first, because they need the registers that the last two words take. */
    pair = komi_round_each_pending(pair, &self->pending);
    const komi_two first_and_second = komi_pending_last_two(version, &self->pending);
    uint64_t first = first_and_second.first;
    uint64_t second = first_and_second.second;
    return komi_close(pair, first, second);
}

KOMI_INLINE size_t komi_stream_store(uint8_t version, const komi_stream *self, uint8_t *out) {
    komi_write_head(version, self->had_block, self->top_bit, komi_pending_len(&self->pending), out);
    komi_write_lanes(&self->lanes, out);
    return komi_write_pending(&self->pending, out);
}

KOMI_INLINE bool komi_stream_restore(uint8_t version, const uint8_t *bytes, size_t length,
    komi_stream *result) {
    if (!komi_is_text(version, bytes, length)) {
        return false;
    }
    bool had_block = bytes[1] == 1;
    bool top_bit = bytes[2] == 1;
    result->pending = komi_read_pending(bytes, length);
    result->lanes = komi_read_lanes(bytes);
    result->had_block = had_block;
    result->top_bit = top_bit;
    return true;
}

/* --------------------------------------------------------------------------------------------- */
/* The pseudorandom generator of both versions. */

/* Returns the generator of a pair of words, without a step.
 *
 * Any words are allowed. The first outputs of small ones are simple patterns: in version 5, that of
 * zeros is 0x5555555555555555. `komi_rand_init_with_extra_seed` takes four steps to get past
 * them. */
KOMI_INLINE komi_rand komi_rand_new(uint64_t s1, uint64_t s2) {
    const komi_rand result = {s1, s2};
    return result;
}

/* Takes one step, and returns its output. */
KOMI_INLINE uint64_t komi_rand_step(uint8_t version, komi_rand *self) {
    const komi_two low_and_high = komi_multiply128(self->s1, self->s2);
    uint64_t low = low_and_high.first;
    uint64_t high = low_and_high.second;
    uint64_t sum = self->s2 + high;
    uint64_t s2 = sum + UINT64_C(0xaaaaaaaaaaaaaaaa);
    self->s1 = version == 4 ? low ^ s2 : (low ^ high) + UINT64_C(0x5555555555555555);
    self->s2 = s2;
    return self->s1;
}

/* Returns the generator of two seeds after four steps. */
KOMI_INLINE komi_rand komi_rand_init_with_extra_seed(uint8_t version, uint64_t s1, uint64_t s2) {
    komi_rand generator = komi_rand_new(s1, s2);
    komi_rand_step(version, &generator);
    komi_rand_step(version, &generator);
    komi_rand_step(version, &generator);
    komi_rand_step(version, &generator);
    return generator;
}

/* Fills the buffer with the bytes of the next outputs, the lowest byte of each first.
 *
 * Takes one step for each eight bytes, and one more for a remainder, which gets the lowest bytes of
 * its output; its other bytes are dropped. Takes no step if the buffer is empty. */
KOMI_INLINE void komi_rand_fill_bytes(uint8_t version, komi_rand *self, uint8_t *buffer,
    size_t buffer_length) {
    /* A copy stays in registers, also from the last whole word to the remainder. */
    komi_rand generator = komi_rand_new(self->s1, self->s2);
    size_t whole = buffer_length / 8;
    for (size_t i = 0; i < whole; i++) {
        uint64_t word = komi_rand_step(version, &generator);
        komi_write_word(word, buffer + 8 * i);
    }
    if (buffer_length % 8 > 0) {
        uint64_t output = komi_rand_step(version, &generator);
        komi_write_partial_word(output, buffer + 8 * whole, buffer_length - 8 * whole);
    }
    *self = generator;
}

/* --------------------------------------------------------------------------------------------- */
/* The calls of each version. */

KOMI_API uint64_t komihash_v5(const void *bytes, size_t length, uint64_t seed) KOMIHASH_NOEXCEPT {
    return komi_hash_message(5, (const uint8_t *)bytes, length, seed);
}

KOMI_API komihash_v5_stream komihash_v5_start(uint64_t seed) KOMIHASH_NOEXCEPT {
    komihash_v5_stream stream;
    komi_stream_begin(seed, (komi_stream *)&stream);
    return stream;
}

KOMI_API void komihash_v5_init(komihash_v5_stream *stream, uint64_t seed) KOMIHASH_NOEXCEPT {
    komi_stream_begin(seed, (komi_stream *)stream);
}

KOMI_API void komihash_v5_write(komihash_v5_stream *stream, const void *bytes, size_t length)
    KOMIHASH_NOEXCEPT {
    komi_stream_absorb(5, (komi_stream *)stream, (const uint8_t *)bytes, length);
}

KOMI_API uint64_t komihash_v5_finish(const komihash_v5_stream *stream) KOMIHASH_NOEXCEPT {
    return komi_stream_answer(5, (const komi_stream *)stream);
}

KOMI_API size_t komihash_v5_save(const komihash_v5_stream *stream, void *out, size_t room)
    KOMIHASH_NOEXCEPT {
    return room < KOMIHASH_LONGEST_TEXT ? 0 :
        komi_stream_store(5, (const komi_stream *)stream, (uint8_t *)out);
}

KOMI_API bool komihash_v5_resume(komihash_v5_stream *stream, const void *text, size_t length)
    KOMIHASH_NOEXCEPT {
    return komi_stream_restore(5, (const uint8_t *)text, length, (komi_stream *)stream);
}

KOMI_API komihash_v5_rand komihash_v5_rand_init(uint64_t seed) KOMIHASH_NOEXCEPT {
    return komihash_v5_rand_init_with_extra_seed(seed, seed);
}

KOMI_API komihash_v5_rand komihash_v5_rand_init_with_extra_seed(uint64_t seed, uint64_t extra_seed)
    KOMIHASH_NOEXCEPT {
    komihash_v5_rand rand;
    *(komi_rand *)&rand = komi_rand_init_with_extra_seed(5, seed, extra_seed);
    return rand;
}

KOMI_API komihash_v5_rand komihash_v5_rand_init_words(uint64_t s1, uint64_t s2) KOMIHASH_NOEXCEPT {
    const komihash_v5_rand rand = {{s1, s2}};
    return rand;
}

KOMI_API uint64_t komihash_v5_rand_next(komihash_v5_rand *rand) KOMIHASH_NOEXCEPT {
    return komi_rand_step(5, (komi_rand *)rand);
}

KOMI_API void komihash_v5_rand_fill(komihash_v5_rand *rand, void *out, size_t length)
    KOMIHASH_NOEXCEPT {
    komi_rand_fill_bytes(5, (komi_rand *)rand, (uint8_t *)out, length);
}

KOMI_API size_t komihash_v5_pad(const void *bytes, size_t length, uint64_t *out, size_t room)
    KOMIHASH_NOEXCEPT {
    return room <= length / 8 ? 0 : komi_pad(5, (const uint8_t *)bytes, length, out);
}

KOMI_API size_t komihash_v5_unpad(const uint64_t *words, size_t length, void *out, size_t room)
    KOMIHASH_NOEXCEPT {
    return length > room / 8 ? KOMIHASH_NONE : komi_unpad(5, words, length, (uint8_t *)out);
}

KOMI_API uint64_t komihash_v4(const void *bytes, size_t length, uint64_t seed) KOMIHASH_NOEXCEPT {
    return komi_hash_message(4, (const uint8_t *)bytes, length, seed);
}

KOMI_API komihash_v4_stream komihash_v4_start(uint64_t seed) KOMIHASH_NOEXCEPT {
    komihash_v4_stream stream;
    komi_stream_begin(seed, (komi_stream *)&stream);
    return stream;
}

KOMI_API void komihash_v4_init(komihash_v4_stream *stream, uint64_t seed) KOMIHASH_NOEXCEPT {
    komi_stream_begin(seed, (komi_stream *)stream);
}

KOMI_API void komihash_v4_write(komihash_v4_stream *stream, const void *bytes, size_t length)
    KOMIHASH_NOEXCEPT {
    komi_stream_absorb(4, (komi_stream *)stream, (const uint8_t *)bytes, length);
}

KOMI_API uint64_t komihash_v4_finish(const komihash_v4_stream *stream) KOMIHASH_NOEXCEPT {
    return komi_stream_answer(4, (const komi_stream *)stream);
}

KOMI_API size_t komihash_v4_save(const komihash_v4_stream *stream, void *out, size_t room)
    KOMIHASH_NOEXCEPT {
    return room < KOMIHASH_LONGEST_TEXT ? 0 :
        komi_stream_store(4, (const komi_stream *)stream, (uint8_t *)out);
}

KOMI_API bool komihash_v4_resume(komihash_v4_stream *stream, const void *text, size_t length)
    KOMIHASH_NOEXCEPT {
    return komi_stream_restore(4, (const uint8_t *)text, length, (komi_stream *)stream);
}

KOMI_API komihash_v4_rand komihash_v4_rand_init(uint64_t seed) KOMIHASH_NOEXCEPT {
    return komihash_v4_rand_init_with_extra_seed(seed, seed);
}

KOMI_API komihash_v4_rand komihash_v4_rand_init_with_extra_seed(uint64_t seed, uint64_t extra_seed)
    KOMIHASH_NOEXCEPT {
    komihash_v4_rand rand;
    *(komi_rand *)&rand = komi_rand_init_with_extra_seed(4, seed, extra_seed);
    return rand;
}

KOMI_API komihash_v4_rand komihash_v4_rand_init_words(uint64_t s1, uint64_t s2) KOMIHASH_NOEXCEPT {
    const komihash_v4_rand rand = {{s1, s2}};
    return rand;
}

KOMI_API uint64_t komihash_v4_rand_next(komihash_v4_rand *rand) KOMIHASH_NOEXCEPT {
    return komi_rand_step(4, (komi_rand *)rand);
}

KOMI_API void komihash_v4_rand_fill(komihash_v4_rand *rand, void *out, size_t length)
    KOMIHASH_NOEXCEPT {
    komi_rand_fill_bytes(4, (komi_rand *)rand, (uint8_t *)out, length);
}

KOMI_API size_t komihash_v4_pad(const void *bytes, size_t length, uint64_t *out, size_t room)
    KOMIHASH_NOEXCEPT {
    return room <= length / 8 ? 0 : komi_pad(4, (const uint8_t *)bytes, length, out);
}

KOMI_API size_t komihash_v4_unpad(const uint64_t *words, size_t length, void *out, size_t room)
    KOMIHASH_NOEXCEPT {
    return length > room / 8 ? KOMIHASH_NONE : komi_unpad(4, words, length, (uint8_t *)out);
}

#endif /* the definitions */

#elif defined(KOMIHASH_RATTLE_IMPLEMENTATION) && !defined(KOMI_IMPLEMENTED)
#error "define KOMIHASH_RATTLE_IMPLEMENTATION before the first #include of this header"
#endif /* KOMIHASH_RATTLE_INLINE_H */

/*
 * MIT License
 *
 * Copyright (c) 2026 the authors of komihash_rattle
 *
 * Permission is hereby granted, free of charge, to any person obtaining a copy
 * of this software and associated documentation files (the "Software"), to deal
 * in the Software without restriction, including without limitation the rights
 * to use, copy, modify, merge, publish, distribute, sublicense, and/or sell
 * copies of the Software, and to permit persons to whom the Software is
 * furnished to do so, subject to the following conditions:
 *
 * The above copyright notice and this permission notice shall be included in all
 * copies or substantial portions of the Software.
 *
 * THE SOFTWARE IS PROVIDED "AS IS", WITHOUT WARRANTY OF ANY KIND, EXPRESS OR
 * IMPLIED, INCLUDING BUT NOT LIMITED TO THE WARRANTIES OF MERCHANTABILITY,
 * FITNESS FOR A PARTICULAR PURPOSE AND NONINFRINGEMENT. IN NO EVENT SHALL THE
 * AUTHORS OR COPYRIGHT HOLDERS BE LIABLE FOR ANY CLAIM, DAMAGES OR OTHER
 * LIABILITY, WHETHER IN AN ACTION OF CONTRACT, TORT OR OTHERWISE, ARISING FROM,
 * OUT OF OR IN CONNECTION WITH THE SOFTWARE OR THE USE OR OTHER DEALINGS IN THE
 * SOFTWARE.
 */
