/* Calls every function of komihash_rattle.h in the version VERSION, which is 4 or 5. Reads rows of
 * vectors.tsv and values.tsv of this version, and prints each with the value of the library. If
 * another function does what it must not, prints that and ends. Each array that is passed ends at
 * the end of a page, after which nothing can be accessed. */
#define _DEFAULT_SOURCE
#include <komihash_rattle.h>
#include <inttypes.h>
#include <stdio.h>
#include <stdlib.h>
#include <string.h>
#ifndef _WIN32
#include <sys/mman.h>
#endif

#define JOINED(version, rest) komihash_v##version##rest
#define NAMED(version, rest) JOINED(version, rest)
#define KOMIHASH(rest) NAMED(VERSION, rest)
#define CHECK(condition) \
    ((condition) ? (void)0 : (puts("does not hold: " #condition), exit(1)))

typedef KOMIHASH(_stream) Stream;
typedef KOMIHASH(_rand) Rand;
enum { ROOM = KOMIHASH_LONGEST_TEXT, PAGES = 65536 };
/* What exports.rs and verify take for granted. */
typedef char sizes[sizeof(Stream) == 144 && sizeof(Rand) == 16 && ROOM == 131 ? 1 : -1];

static uint8_t *message_end, *out_end, *copy_end;

/* Returns the end of some pages. On Windows, what follows them may be accessible. */
static uint8_t *end_of_memory(void) {
#ifdef _WIN32
    return (uint8_t *)calloc(PAGES, 1) + PAGES;
#else
    const int flags = MAP_PRIVATE | MAP_ANONYMOUS;
    uint8_t *pages = mmap(NULL, 2 * PAGES, PROT_READ | PROT_WRITE, flags, -1, 0);
    CHECK(pages != MAP_FAILED && mprotect(pages + PAGES, PAGES, PROT_NONE) == 0);
    return pages + PAGES;
#endif
}

/* Returns the hash of a message by a stream, which is saved and resumed after some of it. */
static uint64_t streamed(const uint8_t *bytes, size_t length, size_t cut, uint64_t seed) {
    Stream stream = KOMIHASH(_start)(seed), begun, resumed;
    memset(&begun, 0xee, sizeof begun);
    KOMIHASH(_init)(&begun, seed);
    KOMIHASH(_write)(&begun, bytes, length);
    KOMIHASH(_write)(&stream, bytes, cut);
    CHECK(KOMIHASH(_save)(&stream, out_end - ROOM + 1, ROOM - 1) == 0);
    size_t saved = KOMIHASH(_save)(&stream, out_end - ROOM, ROOM);
    uint8_t *text = memmove(out_end - saved, out_end - ROOM, saved);
    CHECK(!KOMIHASH(_resume)(&resumed, text, saved - 1));
    CHECK(KOMIHASH(_resume)(&resumed, text, saved));
    KOMIHASH(_write)(&resumed, bytes + cut, length - cut);
    CHECK(KOMIHASH(_finish)(&stream) == KOMIHASH()(bytes, cut, seed));
    CHECK(KOMIHASH(_finish)(&begun) == KOMIHASH(_finish)(&resumed));
    return KOMIHASH(_finish)(&resumed);
}

static void pad_and_unpad(const uint8_t *bytes, size_t length) {
    const size_t count = length / 8 + 1;
    uint64_t *words = (uint64_t *)out_end - count;
    uint8_t *copy = copy_end - 8 * count;
    CHECK(KOMIHASH(_pad)(bytes, length, words, count - 1) == 0);
    CHECK(KOMIHASH(_pad)(bytes, length, words, count) == count);
    CHECK(KOMIHASH(_unpad)(words, count, copy, 8 * count - 1) == KOMIHASH_NONE);
    CHECK(KOMIHASH(_unpad)(words, count, copy, 8 * count) == length);
    CHECK(memcmp(copy, bytes, length) == 0);
}

/* Stores the bytes of a field so that they end at `end`, and returns how many they are. */
static size_t stored_before(uint8_t *end, const char *digits) {
    const size_t length = strlen(digits) / 2;
    for (uint8_t *at = end - length; at < end; at++, digits += 2)
        *at = (uint8_t)strtoul((char[3]){digits[0], digits[1]}, NULL, 16);
    return length;
}

static uint64_t number(const char *digits) { return strtoull(digits, NULL, 16); }

static void print_bytes(const uint8_t *bytes, size_t length) {
    for (size_t i = 0; i < length; i++)
        printf("%02x", bytes[i]);
}

/* Each of these prints the value of a call with the fields from `given` to `end`. */
static void print_fills(bool is_new, bool has_two, char **given, char **end) {
    const uint64_t x = number(*given++), y = has_two ? number(*given++) : x;
    Rand rand = is_new    ? KOMIHASH(_rand_init_words)(x, y)
                : has_two ? KOMIHASH(_rand_init_with_extra_seed)(x, y)
                          : KOMIHASH(_rand_init)(x), by_words = {{x, y}};
    for (int i = 0; i < 4 && !is_new; i++)
        KOMIHASH(_rand_next)(&by_words);
    KOMIHASH(_rand_fill)(&by_words, NULL, 0);
    CHECK(memcmp(&by_words, &rand, sizeof rand) == 0);
    for (; given < end; given++) {
        const size_t length = strtoul(*given, NULL, 10);
        if (length != 8)
            KOMIHASH(_rand_fill)(&rand, out_end - length, length);
        else
            for (uint64_t i = 8, output = KOMIHASH(_rand_next)(&rand); i; i--, output >>= 8)
                out_end[-(int)i] = (uint8_t)output;
        print_bytes(out_end - length, length);
    }
}

static void print_hash(char **given, char **end) {
    uint64_t hash = number(*given);
    while (++given < end) {
        const size_t length = stored_before(message_end, *given);
        const uint8_t *bytes = message_end - length;
        const uint64_t streams = streamed(bytes, length, length / 3, hash);
        hash = KOMIHASH()(length ? bytes : NULL, length, hash);
        CHECK(streams == hash);
        pad_and_unpad(bytes, length);
    }
    printf("%016" PRIx64, hash);
}

static void print_text(uint64_t seed, size_t length) {
    Stream stream = KOMIHASH(_start)(seed);
    KOMIHASH(_write)(&stream, message_end - length, length);
    print_bytes(out_end - ROOM, KOMIHASH(_save)(&stream, out_end - ROOM, ROOM));
}

static void print_answer(size_t length) {
    Stream stream;
    if (KOMIHASH(_resume)(&stream, message_end - length, length))
        printf("%016" PRIx64, KOMIHASH(_finish)(&stream));
    else
        printf("none");
}

static void print_message(char **given, char **end) {
    const size_t room = 8 * (size_t)(end - given);
    uint64_t *word = (uint64_t *)(out_end - room);
    while (given < end)
        *word++ = number(*given++);
    const size_t length =
        KOMIHASH(_unpad)((uint64_t *)(out_end - room), room / 8, copy_end - room, room);
    if (length == KOMIHASH_NONE)
        printf("none");
    else
        print_bytes(copy_end - room, length);
}

/* Prints the value of a row, whose first field is missing if the call is `komihash`. */
static void print_value(char **fields, char **end) {
    switch (fields[0][0]) {
    case 's': print_text(number(fields[2]), stored_before(message_end, fields[3])); break;
    case 'r': print_answer(stored_before(message_end, fields[2])); break;
    case 'u': print_message(fields + 2, end); break;
    case 'n': print_fills(true, true, fields + 2, end); break;
    case 'i': print_fills(false, strlen(fields[0]) > 4, fields + 2, end); break;
    default: print_hash(fields + (fields[0][1] ? 2 : 1), end);
    }
}

int main(void) {
    char row[1024], *fields[16];
    message_end = end_of_memory();
    out_end = end_of_memory();
    copy_end = end_of_memory();
    while (fgets(row, sizeof row, stdin) != NULL) {
        char **end = fields;
        for (char *at = row, *tab; (tab = strchr(at, '\t')) != NULL; at = tab + 1) {
            *tab = '\0';
            printf("%s\t", *end++ = at);
        }
        print_value(fields, end);
        puts("");
    }
    return 0;
}
