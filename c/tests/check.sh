#!/bin/sh
# Tests the library for C; `make check` runs it, and passes what it builds with. Installs the
# library below a folder whose name a shell must quote, and compiles and runs programs with it.
set -u
cd "$(dirname "$0")/.." || exit 1
. ./tests/cases.sh

alone="make check${CROSS:+ CROSS=$CROSS}${RUN:+ RUN='$RUN'}${FROM:+ FROM=$FROM}"
prefix="$scratch/a & 'b'"
lib="$prefix/lib"
archive="$lib/libkomihash_rattle.a"
linked="$lib/$soname"
machine=$($CC -dumpmachine)
clang=clang
[ ! "$CROSS" ] || clang="clang --target=$machine -Qunused-arguments"
case $system in
Windows)
    exe=.exe
    linked="$lib/libkomihash_rattle.dll.a" soname=$dll
    clang="$clang -L$(dirname "$($CC -print-libgcc-file-name)")" # which old versions don't find
    ;;
Darwin) linked="$lib/$dylib" soname=$dylib ;;
esac
case $CC in *clang*) clang= ;; esac
program=$scratch/program${exe=}
loaded=${LD_LIBRARY_PATH:+:$LD_LIBRARY_PATH} # Tools such as fakeroot need it.
loads_from() { export LD_LIBRARY_PATH="$1/lib$loaded" WINEPATH="Z:$1/bin"; }
loads_from "$prefix"
export PKG_CONFIG_PATH="$lib/pkgconfig" DYLD_LIBRARY_PATH="$lib"
unset MAKEFLAGS BUILD_SHARED BUILD_STATIC DESTDIR PREFIX BINDIR LIBDIR INCLUDEDIR DOCDIR MANDIR \
    bindir libdir includedir docdir mandir

# Runs make with what this script was given, but not with the paths that its caller may have set.
build() {
    $MAKE --no-print-directory "OUT=$OUT" "ASSEMBLY=$ASSEMBLY" "CROSS=$CROSS" "CC=$CC" "$@"
}

# Whether a command prints a text. Lines end otherwise on Windows, and may be repeated.
prints() {
    echo "$1" > "$scratch/text"
    shift
    "$@" > "$scratch/printed" && tr -d '\r' < "$scratch/printed" | uniq | diff "$scratch/text" -
}

# Whether a command fails, and prints a text.
fails() {
    text=$1
    shift
    ! "$@" > "$scratch/printed" 2>&1 && grep "$text" "$scratch/printed"
}

# Whether a library has just the functions of the header, and needs nothing else, but what compilers
# use to read a table that the linker makes, for stack protectors, and where README.md says so.
complete() {
    case ${1##*/} in *.dll.a) kinds=T ;; *) kinds='[TU]' ;; esac
    case ${1##*/} in *.a) flag= ;; *) flag=-D ;; esac
    case $from in
    c)
        other='^(_GLOBAL_OFFSET_TABLE_ U|\.TOC\. U|__x86\.get_pc_thunk|__stack_chk_)'
        case ${CFLAGS:--O2},$machine in
        -O2,x86_64* | -O2,aarch64* | -O2,s390x* | -O2,i686*) ;;
        *) other="$other|^(mem(cpy|set)|__\w*) U|^mem(cpy|set)@" ;;
        esac
        ;;
    *) other=^$ ;;
    esac
    "$NM" -P $flag "$1" | grep -vE "$other" |
        awk -v "kinds=$kinds" '$2 ~ kinds { print $1 }' | sort |
        diff "$scratch/declared" -
}
calls_each() {
    for number in 4 5; do
        $CC -I. -D "VERSION=$number" -c -o "$scratch/calls.o" tests/calls.c &&
            "$NM" -P "$scratch/calls.o" | grep -oE '^_?komihash_v[^ ]* U' || return
    done | sed 's/^_//; s/ U$//' | sort | diff "$scratch/declared" -
}
# Whether a library is marked for IBT and SHSTK, or for BTI: by a note, and at the start of each
# function of the header.
marked() {
    "${CROSS}readelf" -n "$1" | grep -E 'feature: (IBT, SHSTK|BTI)$' &&
        test "$("${CROSS}objdump" -d "$1" | grep -A 1 '<komihash_v.*>:$' |
            grep -cE 'endbr64|bti.c')" = "$(wc -l < "$scratch/declared")"
}
without_libraries() { ! "${CROSS}objdump" -p "$OUT/$dll" | grep 'DLL Name'; }
# Opens the DLL, as other languages do, and looks for a function, and for an unwind table.
opened_on_windows() {
    cat << 'END' | $CC -x c -o "$program" - && $RUN "$program" "Z:$prefix/bin/$dll"
#include <windows.h>
#include <stdint.h>
#include <stdio.h>
int main(int count, char **arguments) {
    HMODULE dll = LoadLibraryA(arguments[count - 1]);
    uint64_t (*hash)(const void *, size_t, uint64_t) = (void *)GetProcAddress(dll, "komihash_v5");
    uint64_t pad = (uintptr_t)GetProcAddress(dll, "komihash_v5_pad"), base;
    if (RtlLookupFunctionEntry(pad + 1, &base, NULL))
        printf("%016I64x\n", hash("port", 4, 7));
}
END
}
# Compiles calls for the ABI of MSVC, without its libc, and links them with each library.
for_msvc() {
    cat > "$scratch/msvc.c" << END
#include <komihash_rattle.h>
int start(void) {
    komihash_v5_stream stream = komihash_v5_start(7), begun;
    komihash_v5_rand rand = komihash_v5_rand_init_words(1, 2);
    komihash_v5_init(&begun, 7);
    komihash_v5_write(&begun, "port", 4);
    komihash_v5_write(&stream, "port", 4);
    return komihash_v5("port", 4, 7) != 0x$hash || komihash_v5_finish(&stream) != 0x$hash ||
        komihash_v5_finish(&begun) != 0x$hash || rand.state[0] != 1 || rand.state[1] != 2;
}
END
    "${CROSS}dlltool" -d "$lib/${dll%.dll}.def" -l "$scratch/made.lib" &&
        clang --target=x86_64-pc-windows-msvc -ffreestanding -I "$prefix/include" -c \
            -o "$scratch/msvc.obj" "$scratch/msvc.c" || return
    for file in "$archive" "$linked" "$scratch/made.lib"; do
        lld-link -entry:start -subsystem:console -nodefaultlib "-out:$program" \
            "$scratch/msvc.obj" "$file" && $RUN "$program" || return
    done
}
# Builds the library in a copy of this folder, and seconds later in another, to the same bytes, but
# for what gcc writes for LTO, which has random names.
same_elsewhere() {
    for copy in here elsewhere; do
        [ $copy = here ] || sleep 2
        options="-g -ffile-prefix-map=$scratch/$copy=." linking=
        case $compiler in *clang*) options="$options -fdebug-compilation-dir=." ;; esac
        # Other compilers may not know what is meant for $CC.
        [ "$compiler" != "$CC" ] || options="${CFLAGS--O2} $options" linking=${LDFLAGS-}
        rm -rf "$scratch/$copy" && mkdir "$scratch/$copy" &&
            cp -R Makefile *.[ch] assembly "$scratch/$copy" &&
            chmod -R u+w "$scratch/$copy" &&
            build all -C "$scratch/$copy" OUT=made "CC=$compiler" "CFLAGS=$options" \
                "LDFLAGS=$linking" || return
    done
    for file in $libraries $programs; do
        case "$file ${CFLAGS-}" in *.a\ *-flto*)
            for copy in here elsewhere; do
                "${CROSS}objcopy" -D -R '.gnu.lto_*' -R '.gnu.debuglto_*' \
                    "$scratch/$copy/made/$file" || return
            done
        esac
        cmp "$scratch/here/made/$file" "$scratch/elsewhere/made/$file" || return
    done
    rm -r "$scratch/here" "$scratch/elsewhere"
}

# Compiles a program by $compiler, and runs it.
runs() { $compiler "$@" -Wall -Wextra -Wpedantic -Werror -o "$program" && $RUN "$program"; }
runs_by_package() { # MODULE ARGUMENT..
    eval "shift; runs \"\$@\" $(pkg-config --cflags --libs "$1")" &&
        "${CROSS}objdump" -p "$program" | grep -F "$soname" > "$scratch/case"
}
tab=$(printf '\t')
rows() { grep -hE "^([a-z_]+$tab)?$1$tab" "$crate"/tests/*.tsv; }
calls() { # LIBRARY
    for number in 4 5; do
        rows $number | runs -std=c11 -D "VERSION=$number" -I "$prefix/include" tests/calls.c "$1" ||
            return
    done
}
# Compiles calls that were written for the C original, with these options.
original() { runs "$@" -I "$prefix/include/komihash_rattle" tests/original.c -x none "$archive"; }
# Compiles them beside a copy of the original's header.
beside_a_copy() {
    mkdir "$scratch/copy" && : > "$scratch/copy/komihash.h" &&
        cp tests/original.c "$scratch/copy" &&
        $CC -fsyntax-only -I "$prefix/include/komihash_rattle" "$scratch/copy/original.c"
}

# Whether gdb finds its way from each instruction of these versions in a library to main.
unwinds() { # LIBRARY NUMBER..
    library=$1
    shift
    for number; do
        $CC -g -I. -D "VERSION=$number" -o "$program" tests/calls.c "$library" &&
            rows $number | tail -n 13 > "$scratch/rows" &&
            gdb -q -nx -batch -ex "set args < $scratch/rows > /dev/null" -x tests/unwind.py \
                "$program" || return
    done
}

refused_header() { # TARGET:REASON
    fails "${1#*:}" clang "--target=${1%:*}" -x c -ffreestanding -fsyntax-only komihash_rattle.h &&
        [ "$(grep -c 'error:' "$scratch/printed")" = 1 ]
}

# Whether C++ knows that no call throws.
no_exceptions() {
    cat > "$scratch/throws.cpp" << 'END'
#include "komihash_rattle.h"
template <class R, class... A> constexpr bool throws(R (*)(A...)) { return true; }
template <class R, class... A> constexpr bool throws(R (*)(A...) noexcept) { return false; }
END
    sed 's/.*/static_assert(!throws(&));/' "$scratch/declared" >> "$scratch/throws.cpp" &&
        $compiler -std=c++17 -I. -fsyntax-only "$scratch/throws.cpp"
}

# Compiles calls that ignore a result, and that pass no stream.
careless() {
    cat komihash_rattle.h - << 'END' | $CC -x c -Wall -S -o "$program" - 2>&1 |
void resume(komihash_v5_stream *stream) { komihash_v5_resume(stream, "", 0); }
uint64_t finish(void) { return komihash_v5_finish(NULL); }
END
        grep -o '\[-W[^]=]*' | sort
}

# Builds a folder by CMake with these definitions, and runs komihashsum as that installs it.
by_cmake="$scratch/by 'CMake'"
by_cmake() {
    rm -rf "$scratch/c 'make'" "$by_cmake"
    CC="$CC" cmake -B "$scratch/c 'make'" -D "KOMIHASH_RATTLE_FROM=$FROM" \
        ${CROSS:+${exe:+-D CMAKE_SYSTEM_NAME=Windows}} -D "CMAKE_INSTALL_PREFIX=$by_cmake" \
        -S "$@" >&2 && cmake --build "$scratch/c 'make'" >&2 &&
        cmake --install "$scratch/c 'make'" >&2 && printf a | $RUN "$by_cmake/bin/komihashsum$exe"
}
fetched_by_cmake() { by_cmake examples -D "PACKAGE=$scratch/libkomihash_rattle-$version.tar.gz"; }
# A shared library has the static one for x86-64-v3, where there is one, and the original's names.
in_a_project() {
    mkdir "$scratch/project" && cat > "$scratch/project/CMakeLists.txt" << END
cmake_minimum_required(VERSION 3.14)
project(uses C)
add_subdirectory("$PWD" library)
set(library static)
if(TARGET komihash_rattle::static_v3)
  set(library static_v3)
endif()
add_library(uses SHARED "$PWD/tests/original.c")
target_link_libraries(uses komihash_rattle::komihash_h komihash_rattle::\${library})
add_executable(komihashsum "$PWD/komihashsum.c")
target_link_libraries(komihashsum komihash_rattle::komihash_rattle)
install(TARGETS komihashsum)
END
    by_cmake "$scratch/project"
}
# Whether make installs no file of this name by this option, and what it installs is found by CMake
# in another folder.
one_kind() { # MAKE_OPTION NAME
    moved="$scratch/a new folder"
    rm -rf "$moved" && build install "PREFIX=$scratch/one" "$1" &&
        mv "$scratch/one" "$moved" || return
    ! find "$moved" | grep -F "/$2" || return
    loads_from "$moved"
    prints "$hash_of_a" by_cmake examples -D "CMAKE_PREFIX_PATH=$moved" &&
        build uninstall "PREFIX=$moved" && gone "$moved"
}

# Whether CMake finds the library for each VERSION:1 or RANGE:1, but not for those with 0 or by
# pointers of another width, and links the static one, also with the names of the C original.
requested() {
    mkdir "$scratch/requested" && cat > "$scratch/requested/CMakeLists.txt" << END
cmake_minimum_required(VERSION 3.19)
project(requested C)
foreach(request $* 1:0)
  if(request STREQUAL "1:0")
    math(EXPR CMAKE_SIZEOF_VOID_P "12 - \${CMAKE_SIZEOF_VOID_P}")
  endif()
  string(REGEX MATCHALL "[^,:]+" arguments \${request})
  list(POP_BACK arguments wanted)
  unset(komihash_rattle_DIR CACHE)
  find_package(komihash_rattle \${arguments} QUIET)
  if(NOT komihash_rattle_FOUND EQUAL wanted)
    message(SEND_ERROR \${request})
  endif()
endforeach()
add_executable(komihashsum "$PWD/komihashsum.c")
target_link_libraries(komihashsum komihash_rattle::static)
add_executable(original "$PWD/tests/original.c")
target_link_libraries(original komihash_rattle::komihash_h komihash_rattle::static)
install(TARGETS komihashsum original)
install(IMPORTED_RUNTIME_ARTIFACTS komihash_rattle::komihash_rattle)
END
    by_cmake "$scratch/requested" -D "CMAKE_PREFIX_PATH=$prefix" &&
        ! "${CROSS}objdump" -p "$by_cmake/bin/komihashsum$exe" | grep -F "$soname" &&
        cat "$by_cmake"/*/"$soname" > "$scratch/library" && $RUN "$by_cmake/bin/original$exe"
}
cmake_for_arm() {
    CFLAGS='' CPPFLAGS='' LDFLAGS='' cmake -B "$scratch/for arm" -D CMAKE_C_COMPILER=clang \
        -D CMAKE_SYSTEM_NAME=Linux -D CMAKE_C_COMPILER_TARGET=aarch64-linux-gnu &&
        cmake --build "$scratch/for arm"
}
in_place() {
    mkdir "$scratch/place" && cp CMakeLists.txt "$scratch/place" &&
        fails 'in another folder' cmake -S "$scratch/place" -B "$scratch/place"
}
other_source() {
    fails "FROM may be c, .* and is 'rust'" build all FROM=rust &&
        FROM=rust fails 'FROM may be c' by_cmake .
}
other_machine() {
    OUT=$scratch/other && build all && echo sun4-linux > "$OUT/machine" &&
        fails 'was built for sun4-linux' build install "PREFIX=$OUT" &&
        build all > "$scratch/made" && grep -E -- '-o [^ ]+\.o ' "$scratch/made" &&
        echo "$machine" | sed 's/-/-vendor-/' > "$OUT/machine" && build install "PREFIX=$OUT/as"
}
older_build() {
    build install "PREFIX=$scratch/older" && build install "PREFIX=$scratch/older" v3= &&
        ! (cd "$scratch/older" && find . -type f | grep v3) &&
        build install "PREFIX=$scratch/older" BUILD_SHARED=no | grep ' stays '
}
only_the_program() {
    build install "PREFIX=$scratch/only program" BUILD_SHARED=no BUILD_STATIC=no &&
        prints "$(printf '%s\n' LICENSE "komihashsum$exe" komihashsum.1 | sort)" \
            eval 'find "$scratch/only program" -type f | sed "s|.*/||" | sort'
}

manual_is_made() {
    build manual "MANUAL=$scratch/manual" && diff komihashsum.1 "$scratch/manual"
}

# Whether of what was installed only folders are left that other packages share.
gone() { test -z "$(find "$1" ! -type d -o -name komihash_rattle)"; }

# Installs by the variables of the environment, builds an example with that, and uninstalls it.
staged() {
    export DESTDIR="$scratch/staged" PREFIX='/a|"#\b' LIBDIR='/a|"#\b/lib/c' includedir=/d/include
    export PKG_CONFIG_SYSROOT_DIR="$DESTDIR" PKG_CONFIG_PATH="$DESTDIR$LIBDIR/pkgconfig" DOCDIR=/e
    (umask 077 && build install) && test -f "$DESTDIR/e/LICENSE" &&
        test -z "$(find "$DESTDIR" ! -type l ! -perm 755 ! '(' -type f -perm 644 ')')" &&
        { ! command -v pkg-config ||
            runs_by_package komihash_rattle -std=c11 "$scratch/example.c"; } &&
        build uninstall && gone "$DESTDIR"
}
# Tests what is installed, and that again with another header.
checked() {
    export DESTDIR="$scratch/checked" PREFIX=/usr
    build install && build installcheck && echo '#error spoiled' >> \
        "$DESTDIR/usr/include/komihash_rattle.h" && fails spoiled build installcheck
}
with_shared() {
    build all "OUT=$scratch/linked" && build all LINK_SHARED=yes "OUT=$scratch/linked" &&
        printf a | prints "$hash_of_a" $RUN "$scratch/linked/komihashsum$exe" &&
        "${CROSS}objdump" -p "$scratch/linked/komihashsum$exe" | grep -F "$soname"
}
uninstalled() { build uninstall "PREFIX=$prefix" BUILD_SHARED=no && gone "$prefix"; }

always run_case 'the library is installed' build install "PREFIX=$prefix"
run_case "programs for $machine run here, or in the emulator that RUN names" \
    $RUN "$OUT/komihashsum$exe" < /dev/null
[ "$failed" = 0 ] || { counted; exit 1; }
run_case 'the numbers in the header are those of its version' test "$version" = \
    "$(sed -n 's/.*_VERSION_[A-Z]* //p' komihash_rattle.h | paste -s -d .)"
grep -o 'komihash_v[a-z0-9_]*(' komihash_rattle.h | tr -d '(' | sort > "$scratch/declared"
run_case 'calls.c calls each function of the header' calls_each
find "$prefix" -type f -name 'lib*' ! -name '*.dll' > "$scratch/libraries"
values=$(rows 4 && rows 5) compiler=$CC
while read -r file; do
    name=${file#"$prefix/"}
    run_case "$name has the functions of the header alone" complete "$file"
    [ "$from$system" = assemblyLinux ] || continue
    run_case "$name is marked for IBT and SHSTK, or BTI" marked "$file"
done < "$scratch/libraries"

hash=a53b9c6b9eb8afe9 hash_of_a='5117f5064cfd0faa  -'
. ./tests/inline.sh
if [ "$system" = Windows ]; then
    run_case "$dll needs no other library" without_libraries
    run_case "$dll, by LoadLibrary" prints $hash opened_on_windows
    needs 'clang lld-link' 'calls for the ABI of MSVC, by clang' for_msvc
    needs 'clang lld-link' 'the header alone for the ABI of MSVC, by clang' made_for_msvc
fi
sed -n '/^```c$/,/^```$/{/^```/!p;}' README.md > "$scratch/inline/example.c"
sed 's|"komihash_rattle_inline.h"|<komihash_rattle.h>|' "$scratch/inline/example.c" \
    > "$scratch/example.c"
for compiler in "$CC" ${clang:+"$clang"}; do
    tool=${compiler%% *} name=${compiler%% -Q*}
    command -v "$tool" > "$scratch/case" ||
        { skip 'calls.c and the example in C' "$tool"; continue; }
    run_case "all files are the same in whichever folder they are built, by $name" same_elsewhere
    run_case "calls.c, by $name" prints "$values" calls "$archive"
    run_case "calls.c, by $name, shared library" prints "$values" calls "$linked"
    run_case "the names of the C original in C89, by $name" original -std=c89
    needs pkg-config "the names of the C original, by $name and pkg-config" \
        runs_by_package komihash_rattle_komihash_h tests/original.c
    run_case "the example in C, by $name" prints $hash runs "$scratch/example.c" \
        -std=c11 -I "$prefix/include" "$archive"
    needs pkg-config "the example in C, by $name and pkg-config" \
        prints $hash runs_by_package komihash_rattle -std=c11 "$scratch/example.c"
    [ "$FROM" ] || inlined_cases "$name" # which need no library
done
if [ ! "$CROSS" ]; then
    for compiler in "$CXX" clang++; do
        needs "${compiler%% *}" "the example in C++, by $compiler" prints $hash \
            runs examples/example.cpp -std=c++17 -I "$prefix/include" "$archive"
        needs "${compiler%% *}" "the names of the C original, by $compiler" \
            original -x c++ -std=c++11
        needs "${compiler%% *}" "no call throws, by $compiler" no_exceptions
        [ "$FROM" ] || needs "${compiler%% *}" \
            "the example in C++ with the header alone, by $compiler" prints $hash inlined_in_cpp
    done
    needs 'cmake clang aarch64-linux-gnu-gcc' 'a target of clang, by CMake' cmake_for_arm
    needs 'clang aarch64-linux-gnu-gcc' 'a target of clang' build all "OUT=$scratch/arm" \
        'CC=clang --target=aarch64-linux-gnu' CFLAGS=-Werror CPPFLAGS= LDFLAGS= FROM=
    compiler='musl-gcc -static'
    needs musl-gcc 'calls.c with musl' prints "$values" calls "$archive"
    [ "$from" != assembly ] ||
        needs gdb 'gdb finds main from each instruction of the library' unwinds "$archive" 4 5
fi
compiler=$CC
for target in aarch64_be:big-endian x86_64-linux-gnux32:64-bit; do
    needs clang "the header refuses ${target%:*}, by one error" refused_header $target
done
run_case 'a copy of komihash.h beside the source is noticed' \
    fails 'another komihash.h was found' beside_a_copy
run_case 'warnings for an ignored result and a null stream' \
    prints "$(printf '[-W%s\n' nonnull unused-result)" careless

if tar --version | grep GNU > "$scratch/case" && type python3 > "$scratch/case"; then
    always run_case 'the package' build dist "OUT=$scratch"
    needs cmake 'komihashsum, by CMake, with the package' prints "$hash_of_a" fetched_by_cmake
else
    skip 'the package, and CMake with it' 'GNU tar and Python'
fi
needs cmake 'a project of CMake with the library in it' prints "$hash_of_a" in_a_project
needs cmake 'what CMake may ask for, and the static library' requested \
    1:1 1.0:1 "$version:1" "$version,EXACT:1" 1.0...2:1 '1...<2:1' "0.9...$version:1" \
    0.9:0 2:0 99.0:0 1.0,EXACT:0 "1.0...<$version:0" 2...3:0 1,COMPONENTS,nosuch:0 \
    1,COMPONENTS,static,OPTIONAL_COMPONENTS,nosuch:1
needs cmake 'the shared libraries alone' one_kind BUILD_STATIC=no libkomihash_rattle.a
needs cmake 'the static libraries alone' one_kind BUILD_SHARED=no "${linked##*/}"
run_case 'komihashsum alone is installed' only_the_program
run_case 'komihashsum with the shared library' with_shared
run_case 'what was built for another machine' other_machine
run_case 'an older build for AVX2 does not stay, and a shared library is named' older_build
needs cmake 'another source than C' other_source
needs cmake 'a build by CMake beside the Makefile' in_place

. ./tests/komihashsum.sh
run_case 'the paths of the environment' staged
run_case 'what is installed is tested' checked
run_case 'make -n check' sh -c '! CASE=none "$0" -n check | grep passed' $MAKE
run_case 'an empty PREFIX' fails "not ''" build install PREFIX=
run_case 'a relative PREFIX' fails "not 'here'" build install PREFIX=here
[ "$from" != assembly ] || run_case 'verify without a compiler of Rust' \
    fails "no Rust compiler 'none'" build verify FROM=rust RUSTC=none "OUT=$scratch/none"
case $machine in x86_64*) narrow=-m32 ;; *) narrow=-mabi=ilp32 ;; esac
[ "$from" != assembly ] ||
    run_case '32-bit pointers' fails 'no 64-bit pointers' build "CFLAGS=$narrow"
run_case 'an OUT with spaces' fails 'no spaces' build OUT='a b'
run_case 'a missing compiler' fails "'none -dumpmachine' names no machine" build CC=none
run_case 'a compiler other than gcc and clang' fails 'CC must be gcc or clang' build CC=true
run_case 'the library is uninstalled' uninstalled
counted
