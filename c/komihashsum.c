/* SPDX-License-Identifier: MIT
 * Copyright (c) 2026 the authors of komihash_rattle
 * Prints hashes of files, or checks them, with the habits of sha256sum. */
#define _FILE_OFFSET_BITS 64
#define _POSIX_C_SOURCE 200809L
#include <errno.h>
#include <fcntl.h>
#include <getopt.h>
#include <inttypes.h>
#include <komihash_rattle.h>
#include <limits.h>
#include <locale.h>
#include <stdio.h>
#include <stdlib.h>
#include <string.h>
#include <sys/stat.h>
#include <time.h>
#include <unistd.h>
#include <wchar.h>
#include <wctype.h>

static const char HELP[] =
    "Usage: komihashsum [OPTION]... [FILE]...\n"
    "Print or check hashes by komihash. They have 64 bits and aren't cryptographic.\n\n"
    "Without FILE, or if FILE is -, standard input is read.\n\n"
    "  -4                    hash by version 4 of komihash, in place of version 5;\n"
    "                        use 5 for new lists. The two agree on files of fewer\n"
    "                        than 64 bytes whose last is below 128, and few others\n"
    "  -s, --seed=SEED       hash with this seed, in place of 0: a number below\n"
    "                        2^64, in decimal digits, or in hexadecimal after 0x\n"
    "      --tag             print lines that tell the version, and the seed if it\n"
    "                        isn't 0, so that --check needs neither option\n"
    "  -b, --binary          print an asterisk in place of the second space\n"
    "  -t, --text            print two spaces, as without these options\n"
    "  -z, --zero            end lines with a zero byte, and escape no name; --check\n"
    "                        doesn't read such lines\n"
    "  -c, --check           read lines from each FILE, and check the files that\n"
    "                        they name. Lines of --tag tell their version and seed;\n"
    "                        for others, give the -4 and --seed they were made with\n"
    "      --progress        show on a terminal how much was read\n"
    "      --help            print this help and exit\n"
    "      --version         print the version of the library and exit\n\n"
    "The following options are only for --check:\n\n"
    "      --ignore-missing  skip missing files; fail if no file was verified\n"
    "      --quiet           don't print OK for files that have their hash\n"
    "      --status          print no results; the exit status tells them\n"
    "      --strict          fail also if there are improperly formatted lines\n"
    "  -w, --warn            print the number of each improperly formatted line\n\n"
    "A line has 16 hexadecimal digits, two spaces and a name. With --tag, it is\n"
    "KOMIHASH5 (NAME) = DIGITS, or with KOMIHASH5-10 for --seed=16: the seed is then\n"
    "hexadecimal, without 0x. If a line begins with a backslash, the name has \\\\, \\n\n"
    "and \\r for backslash, newline and carriage return. --check skips empty lines,\n"
    "and those that begin with #.\n";

/* What is told of a check: the last of these options counts. */
enum { ALL, QUIET, STATUS, WARN };
static int check, ignore_missing, progress, strict, tag, told;
static struct kind { int version; uint64_t seed, hash; bool is_tagged, is_regular; } given = {
    .version = 5};
static char mark, line_end = '\n'; /* what stands before a name, if asked for, and after a line */
static unsigned char bytes[131072];
static const struct option OPTIONS[] = {
    {"binary", no_argument, NULL, 'b'},
    {"check", no_argument, &check, 1},
    {"help", no_argument, NULL, 'h'},
    {"ignore-missing", no_argument, &ignore_missing, 1},
    {"progress", no_argument, &progress, 1},
    {"quiet", no_argument, &told, QUIET},
    {"seed", required_argument, NULL, 's'},
    {"status", no_argument, &told, STATUS},
    {"strict", no_argument, &strict, 1},
    {"tag", no_argument, NULL, 'T'},
    {"text", no_argument, NULL, 't'},
    {"version", no_argument, NULL, 'v'},
    {"warn", no_argument, &told, WARN},
    {"zero", no_argument, NULL, 'z'},
    {0},
};

/* Returns how many bytes of a name are its first character, or 0 if that one must be escaped. */
static size_t printing(const char *name) {
#ifdef _WIN32 /* whose names are UTF-8, of which its library knows nothing */
    return (unsigned char)*name >= ' ' && *name != 127;
#else
    mbstate_t state = {0};
    wchar_t wide;
    const size_t length = mbrtowc(&wide, name, strnlen(name, MB_LEN_MAX), &state);
    return length <= MB_LEN_MAX && iswprint(wide) && *name != '\\' ? length : 0;
#endif
}

#ifdef _WIN32 /* whose consoles are prepared to be written to, and restored */
#include <windows.h>
static void use_console(int output);
static void restore(void);
#else
#define STD_ERROR_HANDLE 2
static void use_console(int output) { (void)output; }
static void restore(void) {}
#endif

/* Prints a name and a problem to standard error. In place of each byte that doesn't print, which
 * might command a terminal, the name has its number in octal digits, and in place of a backslash
 * two, except on Windows, where they separate folders. */
static void show(const char *before, const char *name, const char *after, const char *problem) {
    use_console(STD_ERROR_HANDLE);
    fputs(before, stderr);
    for (size_t length; *name; name += length ? length : 1)
        if ((length = printing(name)))
            fwrite(name, 1, length, stderr);
        else
            fprintf(stderr, *name == '\\' ? "\\%c" : "\\%03o", (unsigned char)*name);
    fprintf(stderr, after, problem);
    fflush(stderr);
}

#define CLEAR "\r\033[K"
static bool has_row; /* whether a row of --progress stands */
static void clear_row(void) {
    if (has_row)
        fputs(CLEAR, stderr), fflush(stderr);
    has_row = false;
}

/* Reports a problem with a file, and returns false. Quotes show where a name begins and ends that is
 * empty or has a space there. */
static bool fail(const char *name, const char *problem) {
    const bool is_quoted = !*name || *name == ' ' || name[strlen(name) - 1] == ' ';
    clear_row();
    show(is_quoted ? "komihashsum: '" : "komihashsum: ", name, is_quoted ? "': %s\n" : ": %s\n",
        problem);
    return false;
}

/* Reports what the system refused, and ends the program. */
static void stop(const char *what) {
    fail(what, strerror(errno));
    restore();
    _exit(1);
}

/* Writes what was printed, and returns 0. Ends the program if that fails. */
static int flush(void) {
    if (fflush(stdout) != 0 || ferror(stdout)) /* which an earlier write may have set */
        stop("write error");
    return 0;
}

/* Opens a file, and returns its number, which is 0 for standard input, or -1. */
static int open_file(const char *name);

/* Shows once a second, in one row in the place of the last, how much of a file was read, and of all
 * files so far. */
static void show_progress(const char *name, uint64_t size, uint64_t length, uint64_t all) {
    static time_t last;
    if (!progress || time(NULL) == last)
        return;
    last = time(NULL), has_row = true;
    fprintf(stderr, CLEAR "\033[?7l%" PRIu64, length >> 20);
    if (size)
        fprintf(stderr, " of %" PRIu64, size >> 20);
    fprintf(stderr, " MiB, %" PRIu64 " in all", all >> 20);
    while (strlen(name) > 50 || (*name & 0xC0) == 0x80) /* within a character of UTF-8 */
        name++;
    show("  ", name, "%s", "\033[?7h");
}

/* Sets the hash to that of a file, and whether it can be read again, as a pipe can't, and returns
 * 0. If the file can't be read, returns why. */
static int hash_file(const char *name, struct kind *kind) {
    komihash_v4_stream stream_4 = komihash_v4_start(kind->seed);
    komihash_v5_stream stream_5 = komihash_v5_start(kind->seed);
    const int file = open_file(name);
    static uint64_t all;
    uint64_t total = 0;
    struct stat about = {0};
    int length = file;
    kind->is_regular = file >= 0 && fstat(file, &about) == 0 && file && S_ISREG(about.st_mode);
    while (file >= 0 && (length = read(file, bytes, sizeof bytes)) > 0) {
        if (kind->version == 4)
            komihash_v4_write(&stream_4, bytes, length);
        else
            komihash_v5_write(&stream_5, bytes, length);
        show_progress(name, about.st_size, total += length, all += length);
    }
    const int error = length < 0 ? errno : 0;
    if (file > 0)
        close(file);
    kind->hash = kind->version == 4 ? komihash_v4_finish(&stream_4) : komihash_v5_finish(&stream_5);
    return error;
}

/* The characters of names that lines don't have, and what they have after a backslash instead. */
static const char SPECIAL[] = "\\\n\r", LETTERS[] = "\\nr";

/* Prints a line with a name, whose special characters may be escaped, and returns true. */
static bool print(bool is_escaped, const char *before, const char *name, const char *after) {
    struct stat out;
    if (has_row && !(fstat(1, &out) == 0 && S_ISREG(out.st_mode)))
        clear_row(); /* where the line may get to the same terminal, as through `tee` */
    printf("%s%s", is_escaped ? "\\" : "", before);
    for (; *name; name++) {
        const char *found = is_escaped ? strchr(SPECIAL, *name) : NULL;
        if (found)
            putchar('\\');
        putchar(found ? LETTERS[found - SPECIAL] : *name);
    }
    printf("%s%c", after, line_end);
    return flush() == 0;
}

/* Puts the special characters back in a name, and returns whether it was well formed. */
static bool unescape(char *name, const char *last) {
    char *end = name;
    for (; name < last; name++) {
        const char *found = *name != '\\' ? name : *++name ? strchr(LETTERS, *name) : NULL;
        if (!found)
            return false;
        *end++ = found == name ? *name : SPECIAL[found - LETTERS];
    }
    *end = 0;
    return true;
}

/* Prints the hash of a file, and returns whether it could be read. */
static bool print_hash(const char *name) {
    struct kind kind = given;
    char before[32], after[24] = "";
    const int error = hash_file(name, &kind);
    if (error)
        return fail(name, strerror(error));
    if (tag) {
        const int end = snprintf(before, sizeof before, "KOMIHASH%d", kind.version);
        if (kind.seed)
            snprintf(before + end, sizeof before - end, "-%" PRIx64, kind.seed);
        strcat(before, " (");
        snprintf(after, sizeof after, ") = %016" PRIx64, kind.hash);
    } else
        snprintf(before, sizeof before, "%016" PRIx64 " %c", kind.hash, mark ? mark : ' ');
    return print(line_end && strpbrk(name, SPECIAL), before, name, after);
}

/* Reads a line without its end, which may be that of Windows, and sets its length. Returns NULL
 * after the last line. */
static char *read_line(FILE *list, size_t *length) {
    static char *line;
    static size_t room;
    size_t count = 0;
    int byte;
    while ((byte = getc(list)) != EOF && byte != '\n') {
        if (count + 1 >= room && !(line = realloc(line, room = 2 * room + 256)))
            stop("a line");
        line[count++] = byte;
    }
    *length = count - (count && line[count - 1] == '\r');
    if (count == 0)
        return byte == EOF ? NULL : "";
    line[*length] = 0;
    return line;
}

#define BLANKS " \t"
#define DIGITS "0123456789abcdefABCDEF"

/* Returns the name in the rest of a line of --tag, which ends at `last`, and sets its kind. Returns
 * NULL if the line has another form. */
static char *parse_tag(char *line, char *last, bool is_escaped, struct kind *kind) {
    kind->version = *line++ - '0';
    kind->seed = 0;
    if (*line == '-') {
        const size_t count = strspn(++line, DIGITS);
        if (count < 1 || count > 16)
            return NULL;
        kind->seed = strtoull(line, NULL, 16);
        line += count;
    }
    char *const name = line + (*line == ' ') + 1, *end = last;
    if (name[-1] != '(')
        return NULL;
    while (end > line && *end != ')')
        end--;
    const char *digits = end + 1 + strspn(end + 1, BLANKS);
    if (end < name || (is_escaped && !unescape(name, end)) || *digits++ != '=')
        return NULL;
    *end = 0;
    digits += strspn(digits, BLANKS);
    kind->hash = strtoull(digits, NULL, 16);
    return strspn(digits, DIGITS) == 16 && !digits[16] ? name : NULL;
}

/* Returns the name in a line that ends at `last`, and sets what it tells of the kind. Returns NULL
 * if the line has another form. */
static char *parse_line(char *line, char *last, struct kind *kind) {
    line += strspn(line, BLANKS);
    const bool is_escaped = *line == '\\';
    line += is_escaped;
    kind->is_tagged = strncmp(line, "KOMIHASH4", 9) == 0 || strncmp(line, "KOMIHASH5", 9) == 0;
    if (kind->is_tagged)
        return parse_tag(line + 8, last, is_escaped, kind);
    if (strspn(line, DIGITS) != 16 || (line[16] != ' ' && line[16] != '\t') ||
        (line[17] != ' ' && line[17] != '*') || line + 18 == last ||
        (is_escaped && !unescape(line + 18, last)))
        return NULL;
    kind->hash = strtoull(line, NULL, 16);
    return line + 18;
}

/* What is counted for each list: what came of its lines, how many of those without a tag differ,
 * and whether one of these has the hash of the other version. The first three have texts. */
enum { MATCHES, DIFFERS, UNREADABLE, MISSING, MALFORMED, WIDE, ZERO, UNTAGGED, OTHER, COUNTS };
static const char *const TEXTS[] = {": OK", ": FAILED", ": FAILED open or read"};

/* Checks a file, and returns and prints the result. */
static int check_file(const char *name, struct kind kind, unsigned long *counts) {
    const uint64_t wanted = kind.hash;
    const int error = hash_file(name, &kind);
    if (error == ENOENT && ignore_missing)
        return MISSING;
    if (error)
        fail(name, strerror(error));
    const int result = error ? UNREADABLE : kind.hash == wanted ? MATCHES : DIFFERS;
    if (told != STATUS && !(told == QUIET && result == MATCHES))
        print(strchr(name, '\n'), "", name, TEXTS[result]);
    /* At most the first three are read again, so that a check of large files isn't doubled. */
    if (!kind.is_tagged && result == DIFFERS && counts[UNTAGGED]++ < 3 && !counts[OTHER] &&
        kind.is_regular && told != STATUS) {
        kind.version = kind.version == 4 ? 5 : 4;
        counts[OTHER] = hash_file(name, &kind) == 0 && kind.hash == wanted;
    }
    return result;
}

static void warn_of_line(const char *name, unsigned long number) {
    char problem[80];
    snprintf(problem, sizeof problem, "%lu: improperly formatted KOMIHASH checksum line", number);
    fail(name, problem);
}

static void warn_of(unsigned long count, const char *one, const char *more, const char *what) {
    clear_row();
    if (count && told != STATUS)
        fprintf(stderr, "komihashsum: WARNING: %lu %s %s\n", count, count > 1 ? more : one, what);
    fflush(stderr);
}

/* Reports the results of a list, and returns whether there is nothing wrong with it. */
static bool report(const char *name, const unsigned long *counts) {
    if (counts[ZERO])
        return fail(name, counts[WIDE] ? "this list is in UTF-16: save it as UTF-8" : "this file "
            "has a zero byte: it is no list, or one made with --zero, which can't be checked");
    if (!counts[MATCHES] && !counts[DIFFERS] && !counts[UNREADABLE] && !counts[MISSING])
        return fail(name, "no properly formatted checksum lines found");
    warn_of(counts[MALFORMED], "line is", "lines are", "improperly formatted");
    warn_of(counts[UNREADABLE], "listed file", "listed files", "could not be read");
    warn_of(counts[DIFFERS], "computed checksum", "computed checksums", "did NOT match");
    if (counts[OTHER])
        fail(name, given.version == 4 ?
            "a line that failed has the hash of version 5: was the list made without -4?" :
            "a line that failed has the hash of version 4: was the list made with -4?");
    else if (told != STATUS && counts[UNTAGGED] > 1 && counts[UNTAGGED] > counts[MATCHES])
        fail(name, "most lines failed, and they tell no version or seed: give the -4 and --seed of "
            "the list, if it had any");
    if (ignore_missing && !counts[MATCHES] && told != STATUS)
        fail(name, "no file was verified");
    return counts[MATCHES] && !counts[DIFFERS] && !counts[UNREADABLE] &&
        !(strict && counts[MALFORMED]);
}

/* Checks the files that a list names, and returns whether all have their hashes. */
static bool check_list(const char *name) {
    const int number = open_file(name);
    FILE *list = number < 0 ? NULL : number ? fdopen(number, "rb") : stdin;
    if (!list)
        return fail(name, strerror(errno));
    unsigned long counts[COUNTS] = {0}, lines = 0;
    size_t length;
    name = number ? name : "standard input";
    for (char *line; (line = read_line(list, &length)); lines++) {
        struct kind kind = given;
        if (lines == 0) /* whether it begins as UTF-16 does */
            counts[WIDE] = (length > 1 && !line[0] != !line[1]) ||
                strncmp(line, "\xFF\xFE", 2) == 0 || strncmp(line, "\xFE\xFF", 2) == 0;
        if (lines == 0 && strncmp(line, "\xEF\xBB\xBF", 3) == 0) /* which may mark UTF-8 */
            line += 3, length -= 3;
        const char *zero = memchr(line, 0, length);
        counts[ZERO] += zero != NULL;
        const char *file = zero ? NULL : parse_line(line, line + length, &kind);
        if (file && (number || strcmp(file, "-")))
            counts[check_file(file, kind, counts)]++;
        else if (length && *line != '#') {
            counts[MALFORMED]++;
            if (told == WARN)
                warn_of_line(name, lines + 1);
        }
    }
    const bool holds = ferror(list) ? fail(name, strerror(errno)) : report(name, counts);
    if (number)
        fclose(list);
    return holds;
}

/* Returns whether the options go together. */
static bool are_allowed(void) {
    const char *only = ignore_missing ? "--ignore-missing" : told == QUIET ? "--quiet" :
        told == STATUS ? "--status" : told == WARN ? "--warn" : strict ? "--strict" : NULL;
    const char *never = tag ? "--tag" : !line_end ? "--zero" : mark == '*' ? "--binary" :
        mark ? "--text" : NULL;
    if (check)
        return !never || fail(never, "this option is not for --check");
    if (only)
        return fail(only, "this option is only for --check");
    return !tag || mark != ' ' || fail("--text", "this option is not for --tag");
}

static bool set_seed(const char *text) {
    char *end;
    errno = 0;
    given.seed = strtoull(text, &end, *text && (text[1] | ' ') == 'x' ? 16 : 10);
    if (text[0] >= '0' && text[0] <= '9' && !*end && errno == 0)
        return true;
    show("komihashsum: --seed=", text, " must be %s\n",
        "decimal digits, or hexadecimal ones after 0x, and below 2^64");
    return false;
}

static int run(int count, char **arguments) {
    static char errors[8192]; /* so that a message or a row of --progress is one write */
    setvbuf(stderr, errors, _IOFBF, sizeof errors);
    arguments[0] = "komihashsum"; /* which getopt_long prints */
    setlocale(LC_CTYPE, "");
    int option = 0;
    while (option != '?' && option != -1) {
        switch (option = getopt_long(count, arguments, "4bcs:twz", OPTIONS, NULL)) {
        case '4': given.version = 4; break;
        case 'b': mark = '*'; break;
        case 'c': check = 1; break;
        case 'h': fputs(HELP, stdout); return flush();
        case 'T': tag = 1, mark = 0; break;
        case 't': mark = ' '; break;
        case 'v': puts("komihashsum " KOMIHASH_RATTLE_VERSION); return flush();
        case 'w': told = WARN; break;
        case 'z': line_end = 0; break;
        case 's': option = set_seed(optarg) ? 's' : '?';
        }
    }
    if (option == '?' || !are_allowed())
        return fputs("Try 'komihashsum --help' for more information.\n", stderr), 2;
    if ((progress = progress && isatty(2)))
        use_console(STD_ERROR_HANDLE);
    if (optind == count)
        arguments[--optind] = "-";
    bool holds = true;
    for (; optind < count; optind++)
        holds = (check ? check_list : print_hash)(arguments[optind]) && holds;
    clear_row();
    return fflush(stderr) != 0 || ferror(stderr) || !holds;
}

#ifdef _WIN32 /* Names are UTF-8 in this program, and UTF-16 for the system. */
int __wgetmainargs(int *, wchar_t ***, wchar_t ***, int, int *); /* which is documented alone */

static int open_file(const char *name) {
    static wchar_t wide[32768], path[32768];
    wide[MultiByteToWideChar(CP_UTF8, 0, name, -1, wide, 32767)] = 0;
    if (strcmp(name, "-") == 0)
        return 0;
    /* Only with this prefix, Windows opens a path of MAX_PATH characters or more. */
    const DWORD length = GetFullPathNameW(wide, 32750, path + 8, NULL);
    const bool is_share = path[8] == L'\\';
    const bool is_long = length >= MAX_PATH && length < 32750 &&
        !(is_share && wcschr(L".?", path[10])); /* which begins a prefix */
    wchar_t *const opened = !is_long ? wide : is_share ? path + 2 : path + 4;
    if (is_long)
        wmemcpy(opened, is_share ? L"\\\\?\\UNC" : L"\\\\?\\", is_share ? 7 : 4);
    const int file = _wopen(opened, _O_RDONLY | _O_BINARY);
    const DWORD about = GetFileAttributesW(opened);
    if (file < 0 && errno == EINVAL)
        errno = ENOENT; /* No file may have this name. */
    if (file < 0 && about != INVALID_FILE_ATTRIBUTES && about & FILE_ATTRIBUTE_DIRECTORY)
        errno = EISDIR;
    return file;
}

static UINT page; /* of the console, and its mode, before this program */
static DWORD mode;
static void restore(void) {
    if (page)
        SetConsoleOutputCP(page);
    if (mode)
        SetConsoleMode(GetStdHandle(STD_ERROR_HANDLE), mode);
}
/* Other programs share the console, so it reads UTF-8 only if this one writes to it. */
static void use_console(int output) {
    DWORD old;
    if (!GetConsoleMode(GetStdHandle(output), &old))
        return;
    if (!page && (page = GetConsoleOutputCP()))
        SetConsoleOutputCP(CP_UTF8);
    if (progress && !mode)
        SetConsoleMode(GetStdHandle(output), (mode = old) | 7); /* 7 lets it read CLEAR. */
}
static BOOL WINAPI interrupted(DWORD event) {
    (void)event;
    restore();
    return FALSE; /* The next handler ends the program. */
}

int main(void) {
    int count, new_mode = 0;
    wchar_t **wide, **environment;
    __wgetmainargs(&count, &wide, &environment, 1, &new_mode); /* 1 expands `*`. */
    char **names = calloc(count + 1, sizeof *names);
    for (int k = 0; names && k < count; k++)
        if ((names[k] = calloc(wcslen(wide[k]) + 1, 3)))
            WideCharToMultiByte(CP_UTF8, 0, wide[k], -1, names[k], 3 * wcslen(wide[k]) + 1, 0, 0);
    for (int file = 0; file < 3; file++)
        _setmode(file, _O_BINARY);
    use_console(STD_OUTPUT_HANDLE);
    atexit(restore);
    SetConsoleCtrlHandler(interrupted, TRUE);
    static char out[8192]; /* so that a console gets whole characters */
    setvbuf(stdout, out, _IOFBF, sizeof out);
    __argv[0] = "komihashsum"; /* which getopt_long prints */
    return names ? run(count, names) : 1;
}
#else
static int open_file(const char *name) {
    if (strcmp(name, "-") == 0)
        return 0;
    int file = open(name, O_RDONLY);
    if (file == 0) { /* the number of standard input, which is closed */
        file = dup(0);
        close(0);
    }
    return file;
}
int main(int count, char **arguments) { return run(count, arguments); }
#endif
