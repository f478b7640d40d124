/* SPDX-License-Identifier: MIT
 * Copyright (c) 2026 the authors of komihash_rattle
 *
 * Komihash, versions 4 and 5, a fast hash of 64 bits that is not cryptographic. Link with
 * libkomihash_rattle. Use version 5 for new data; version 4 is for hashes that exist already. Use
 * neither where an attacker may choose the messages: it is easy to find many that have one hash,
 * and a secret seed gives no security.
 *
 * What a caller must see to, because no call checks it:
 * - `length` and `room` are the number of bytes at the pointer that precedes them in the arguments,
 *   or of words if it points to words. Each is at most PTRDIFF_MAX bytes. The writes to one stream
 *   may add up to more.
 * - A pointer may be null only if the length or room after it is 0. `stream` and `rand` are never
 *   null.
 * - A pointer to words, a stream or a generator is aligned to eight bytes, or to four on 32-bit x86
 *   but for Windows. One to bytes needs no alignment.
 * - The bytes that a call writes must not overlap anything else that it is passed. Room that it
 *   doesn't write may.
 * - If threads share a stream or a generator and one of them changes it, they need a lock. If a
 *   signal handler shares one, the signal must be blocked.
 *
 * What holds of every call:
 * - The same bytes, numbers and seeds give the same results on every system and processor.
 * - No jump and no address depends on a seed, on the bytes of a message, or on words made of them,
 *   except in `resume` and `unpad`. That does not promise equal times. It is shown of the builds
 *   that `make verify` reads, and likely of other optimized builds.
 * - It allocates no memory and doesn't set errno. The library has no global state, so threads and
 *   signal handlers may make calls at the same time.
 */
#ifndef KOMIHASH_RATTLE_H
#define KOMIHASH_RATTLE_H

#include <stdbool.h>
#include <stddef.h>
#include <stdint.h>

/* The assembly for these processors is for one order of bytes and one width of pointers. */
#if defined(__x86_64__) || defined(__aarch64__)
#if defined(__BYTE_ORDER__) && __BYTE_ORDER__ != __ORDER_LITTLE_ENDIAN__
#error "komihash_rattle has no big-endian build for ARM64: use komihash_rattle_inline.h there"
#endif
#if UINTPTR_MAX != UINT64_MAX
#error "komihash_rattle needs 64-bit pointers here: without them, use komihash_rattle_inline.h"
#endif
#endif

/* Marks of functions: the first argument is never null; the result says whether the call failed; in
 * C++, none throws. `__extension__` keeps `-pedantic` in C89 from warning of bool. */
#ifdef __GNUC__
#define KOMIHASH_NONNULL __extension__ __attribute__((nonnull(1)))
#define KOMIHASH_CHECK_RESULT __attribute__((warn_unused_result))
#else
#define KOMIHASH_NONNULL
#define KOMIHASH_CHECK_RESULT
#endif
#if defined(__cplusplus) && (__cplusplus >= 201103L || (defined(_MSC_VER) && !defined(__clang__)))
#define KOMIHASH_NOEXCEPT noexcept
#else
#define KOMIHASH_NOEXCEPT
#endif

#ifdef __cplusplus
extern "C" {
#endif

/* The version of this library, whose first number is that of the soname. */
#define KOMIHASH_RATTLE_VERSION "1.6.0"
#define KOMIHASH_RATTLE_VERSION_MAJOR 1
#define KOMIHASH_RATTLE_VERSION_MINOR 6
#define KOMIHASH_RATTLE_VERSION_PATCH 0

/* What `unpad` returns instead of a length. */
#define KOMIHASH_NONE SIZE_MAX

/* The room that `save` needs: the length of the longest saved text. */
#define KOMIHASH_LONGEST_TEXT 131

/* A stream of each version. Only `start`, `init` and `resume` make one: `= {0}` doesn't. It may be
 * copied by assignment, and each copy then goes on by itself. Only the calls below change a stream:
 * after any other change, they may return wrong hashes, access memory outside of it, or never
 * return. So store or send its saved text and not the stream itself: `resume` checks the text. */
typedef struct { uint64_t state[18]; } komihash_v4_stream;
typedef struct { uint64_t state[18]; } komihash_v5_stream;

/* A generator of each version, which a `rand_init` returns. It may be copied by assignment too. */
typedef struct { uint64_t state[2]; } komihash_v4_rand;
typedef struct { uint64_t state[2]; } komihash_v5_rand;

/* Returns the hash of a message. Any seed will do: use 0 unless you need several hashes of one
 * message. */
uint64_t komihash_v5(const void *bytes, size_t length, uint64_t seed) KOMIHASH_NOEXCEPT;
uint64_t komihash_v4(const void *bytes, size_t length, uint64_t seed) KOMIHASH_NOEXCEPT;

/* Returns the new stream of a seed. */
komihash_v5_stream komihash_v5_start(uint64_t seed) KOMIHASH_NOEXCEPT;
komihash_v4_stream komihash_v4_start(uint64_t seed) KOMIHASH_NOEXCEPT;

/* Does the same for `stream`, for languages whose functions can't return a struct. What `stream`
 * held is not read. */
KOMIHASH_NONNULL void komihash_v5_init(komihash_v5_stream *stream, uint64_t seed) KOMIHASH_NOEXCEPT;
KOMIHASH_NONNULL void komihash_v4_init(komihash_v4_stream *stream, uint64_t seed) KOMIHASH_NOEXCEPT;

/* Absorbs bytes. However a message is cut, its hash is the same. */
KOMIHASH_NONNULL
void komihash_v5_write(komihash_v5_stream *stream, const void *bytes, size_t length)
    KOMIHASH_NOEXCEPT;
KOMIHASH_NONNULL
void komihash_v4_write(komihash_v4_stream *stream, const void *bytes, size_t length)
    KOMIHASH_NOEXCEPT;

/* Returns the hash of all bytes so far. The stream is unchanged, and may absorb more. */
KOMIHASH_NONNULL uint64_t komihash_v5_finish(const komihash_v5_stream *stream) KOMIHASH_NOEXCEPT;
KOMIHASH_NONNULL uint64_t komihash_v4_finish(const komihash_v4_stream *stream) KOMIHASH_NOEXCEPT;

/* Writes the saved text of the stream to the front of `out`, and returns its length, 68 to 131
 * bytes. This text is binary, and can be stored and sent. It doesn't hold the number of bytes that
 * were absorbed. It has up to 63 bytes of the message as they are. Keep it as secret as the seed,
 * which can be calculated from it until 64 bytes were absorbed, and until 128 by whoever knows the
 * first 64. Returns 0, and writes nothing, if `room` is less than KOMIHASH_LONGEST_TEXT. */
KOMIHASH_NONNULL KOMIHASH_CHECK_RESULT
size_t komihash_v5_save(const komihash_v5_stream *stream, void *out, size_t room) KOMIHASH_NOEXCEPT;
KOMIHASH_NONNULL KOMIHASH_CHECK_RESULT
size_t komihash_v4_save(const komihash_v4_stream *stream, void *out, size_t room) KOMIHASH_NOEXCEPT;

/* Replaces the stream by the one that has this saved text, and returns true. What `stream` held is
 * not read. Returns false, and changes nothing, if no stream of this version has the text: those of
 * the other version are refused. The text has no checksum, so damage that makes it the text of
 * another stream is not noticed. The bool is one byte, which is 0 or 1. */
KOMIHASH_NONNULL KOMIHASH_CHECK_RESULT
bool komihash_v5_resume(komihash_v5_stream *stream, const void *text, size_t length)
    KOMIHASH_NOEXCEPT;
KOMIHASH_NONNULL KOMIHASH_CHECK_RESULT
bool komihash_v4_resume(komihash_v4_stream *stream, const void *text, size_t length)
    KOMIHASH_NOEXCEPT;

/* Returns the pseudorandom generator Komirand of a seed, which is not cryptographic. */
komihash_v5_rand komihash_v5_rand_init(uint64_t seed) KOMIHASH_NOEXCEPT;
komihash_v4_rand komihash_v4_rand_init(uint64_t seed) KOMIHASH_NOEXCEPT;

/* Returns the generator of two seeds. If they are equal, it is the generator of that one seed. */
komihash_v5_rand komihash_v5_rand_init_with_extra_seed(uint64_t seed, uint64_t extra_seed)
    KOMIHASH_NOEXCEPT;
komihash_v4_rand komihash_v4_rand_init_with_extra_seed(uint64_t seed, uint64_t extra_seed)
    KOMIHASH_NOEXCEPT;

/* Returns the generator that has the two words as its state. The first outputs of small words are
 * simple patterns; the calls above take four steps to get past them. A language whose functions
 * can't return a struct writes the two words into 16 bytes that are aligned to eight, and calls
 * `rand_next` four times. They then have the generator of the two seeds, or if both are the same,
 * of the one. */
komihash_v5_rand komihash_v5_rand_init_words(uint64_t s1, uint64_t s2) KOMIHASH_NOEXCEPT;
komihash_v4_rand komihash_v4_rand_init_words(uint64_t s1, uint64_t s2) KOMIHASH_NOEXCEPT;

/* Returns the next output. */
KOMIHASH_NONNULL uint64_t komihash_v5_rand_next(komihash_v5_rand *rand) KOMIHASH_NOEXCEPT;
KOMIHASH_NONNULL uint64_t komihash_v4_rand_next(komihash_v4_rand *rand) KOMIHASH_NOEXCEPT;

/* Fills `out` with the bytes of the next outputs, the lowest byte of each first. Takes an output
 * for each eight bytes, and one more for a remainder, which gets its lowest bytes; its other bytes
 * are dropped. */
KOMIHASH_NONNULL
void komihash_v5_rand_fill(komihash_v5_rand *rand, void *out, size_t length) KOMIHASH_NOEXCEPT;
KOMIHASH_NONNULL
void komihash_v4_rand_fill(komihash_v4_rand *rand, void *out, size_t length) KOMIHASH_NOEXCEPT;

/* Writes the padded words of a message to the front of `out`, and returns their number, which is
 * length / 8 + 1. They are the words that the hash reads: different messages have different ones.
 * Returns 0, and writes nothing, if `out` has no room for them. `length` counts bytes, and `room`
 * counts words. */
KOMIHASH_CHECK_RESULT
size_t komihash_v5_pad(const void *bytes, size_t length, uint64_t *out, size_t room)
    KOMIHASH_NOEXCEPT;
KOMIHASH_CHECK_RESULT
size_t komihash_v4_pad(const void *bytes, size_t length, uint64_t *out, size_t room)
    KOMIHASH_NOEXCEPT;

/* Writes the message that has these padded words to the front of `out`, and returns its length.
 * Returns KOMIHASH_NONE, and writes nothing, if no message has them, or if `out` has fewer than
 * eight bytes for each word. `length` counts words, and `room` counts bytes. */
KOMIHASH_CHECK_RESULT
size_t komihash_v5_unpad(const uint64_t *words, size_t length, void *out, size_t room)
    KOMIHASH_NOEXCEPT;
KOMIHASH_CHECK_RESULT
size_t komihash_v4_unpad(const uint64_t *words, size_t length, void *out, size_t room)
    KOMIHASH_NOEXCEPT;

#ifdef __cplusplus
}
#endif

#endif
