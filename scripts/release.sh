#!/usr/bin/env bash
# Makes packages, each in a folder of its name, and in FOLDER a page and SHA256SUMS of all files:
# release.sh FOLDER [NAME..], where a name is one of those below, and without any, all are made.
# PYTHON, by default the system's, has setuptools and wheel. The same files and compilers give the
# same bytes.
set -euo pipefail
umask 022
folder=$(realpath -m "$1")
shift
python=${PYTHON:-/usr/bin/python3}
[ $# -gt 0 ] || set c rust python js page windows
cd "$(dirname "$0")/.."
scratch=$(mktemp -d)
trap 'rm -r "$scratch"' EXIT
tar --create --exclude=out --exclude=target --exclude='*.egg-info' --mode=a+rX,u+w,go-w \
    LICENSE c docs/CLAIMS.md docs/DEFINITIONS.md js python rust | tar --extract --directory="$scratch"
links=$PWD/scripts/links.py
version=$(sed -n 's/.*RATTLE_VERSION "\(.*\)"/\1/p' c/komihash_rattle.h)
for name; do
    mkdir -p "$folder/$name"
    case $name in
    c)
        make -C c dist "OUT=$scratch/packed"
        cp "$scratch"/packed/*.tar.gz "$folder/c"
        ;;
    rust)
        cp -R "$scratch/docs" "$scratch/rust"
        python3 -B "$links" "$scratch/rust" rust
        cargo package --manifest-path "$scratch/rust/Cargo.toml" --target-dir "$scratch" \
            --offline --allow-dirty
        cp "$scratch"/package/*.crate "$folder/rust"
        ;;
    python)
        (
            cd "$scratch/python"
            "$python" -B setup.py sdist --keep-temp
            package=$(echo komihash_rattle-*)
            python3 -B "$links" "$package" python
            tar --create --sort=name --mtime='2020-02-02 UTC' --format=ustar --owner=0 --group=0 \
                --numeric-owner -I 'gzip -9n' --file="$folder/python/$package.tar.gz" "$package"
            cd "$package"
            # The tag promises that glibc 2.17 suffices, which is older than the compiler's.
            SOURCE_DATE_EPOCH=1580601600 CFLAGS=-g0 "$python" -B setup.py bdist_wheel \
                --plat-name "manylinux_2_17_$(uname -m)" --dist-dir "$folder/python"
            { objdump -T build/lib*/*/*.so | grep -o 'GLIBC_[0-9.]*' | sort -V
                echo GLIBC_2.17; } | sort -VC
        )
        ;;
    js)
        cp -R "$scratch/docs" "$scratch/js"
        python3 -B "$links" "$scratch/js" js
        made=$(cd "$scratch/js" && npm pack --silent --pack-destination "$folder/js")
        mv "$folder/js/$made" "$folder/js/${made/-/-js-}" # Python's has the same name.
        ;;
    page) cp js/komihash.html "$folder/page" ;;
    windows)
        package=komihash_rattle-$version-windows-x86_64
        unpacked=$scratch/windows/$package
        make -C "$scratch/c" install CROSS=x86_64-w64-mingw32- LDFLAGS=-s "PREFIX=/$package" \
            "DOCDIR=/$package" "DESTDIR=$scratch/windows"
        rm -r "$unpacked/share"
        sed -i 's|^prefix=.*|prefix=${pcfiledir}/../..|' "$unpacked"/lib/pkgconfig/*.pc
        groff -man -Tascii -rHY=0 -P-cbou c/komihashsum.1 > "$unpacked/komihashsum.txt"
        cp -R "$scratch/docs" c/CHANGES.md "$unpacked"
        { sed 1q c/README.md && cat && sed 1d c/README.md; } > "$unpacked/README.md" << 'END'

**This is the library, built for Windows.** In cmd, `bin\komihashsum.exe --tag FILE > LIST` lists
hashes, and `bin\komihashsum.exe --check LIST` checks them. To use the library, add `include` to the
folders in which your compiler looks for headers, and link `lib\libkomihash_rattle.a`. To link the
DLL in `bin`, which programs need beside them, give MinGW-w64 `-L lib -lkomihash_rattle`; for MSVC,
[Processors](#processors) says how. For `find_package`, give CMake `-D CMAKE_PREFIX_PATH=FOLDER`,
the path of this folder. The files aren't signed. Commands with `make` are for the package for C.
END
        # Its runtime is in the program.
        cp /usr/share/doc/mingw-w64-x86-64-dev/copyright "$unpacked/LICENSE.mingw-w64"
        python3 -B "$links" "$unpacked" c
        find "$scratch/windows" -exec touch --date='2020-02-02 UTC' {} +
        (cd "$scratch/windows" && TZ=UTC "$python" -m zipfile --create \
            "$folder/windows/$package.zip" "$package")
        ;;
    esac
done
cd "$folder"
# A row has no file, but its pattern, if the package wasn't made.
grep -v '^| [a-z]*/[*]' > README.md << END
# komihash_rattle

This is the fast 64-bit hash komihash, versions 4 and 5, made from a source that is proved right.
Use it for hash tables, sharding, sketches, and to find changed files. It isn't cryptographic: don't
use it where an attacker may choose the messages. In all packages, version 5 gives a53b9c6b9eb8afe9
for \`port\` with seed 7, as does version 4, since they agree on most short texts.

Each package but the page has a README, where to begin, in the wheel as METADATA. All are under the
MIT licence, but for the runtime of MinGW-w64 in the program for Windows, whose notices are beside
it.

Neither the prover nor the repository that pages name is published yet. In all packages but the
wheel and the page, docs/CLAIMS.md says under "Trusted" what you must trust. In the one for C,
\`make verify\` checks the machine code of its shared libraries for Linux without the prover.

The library for C has version $version. It is made of the crate for Rust, and is in all other
packages but that crate, for JavaScript as WebAssembly. Those for Python, JavaScript and Rust have
versions of their own, in their names. CHANGES.md in a package says what is new.

| File | What it is |
|---|---|
| $(echo c/*) | the library for C and C++, also as one header, a check of its machine code, \
and \`komihashsum\`, a program like \`sha256sum\` |
| $(echo windows/*) | the same, built for Windows on x86-64, without the check |
| $(echo rust/*) | the crate for Rust 1.88 and newer, which \`tar -xf\` unpacks |
| $(echo python/*.gz) | the package for CPython 3.9 and newer, not on Windows, as source |
| $(echo python/*.whl) | the same, built for CPython 3.11 and newer on Linux with glibc 2.17 \
or newer, for $(uname -m) |
| $(echo js/*) | the package for JavaScript, in Node 20 and newer, and browsers |
| $(echo page/*) | a page that hashes files in a browser, such as Chromium 123 or newer; it is \
also in the package for JavaScript |

\`sha256sum --check SHA256SUMS\` finds files that were damaged in transit. The sums aren't signed.
Report defects to whomever you have these files from: no address of the project is known here.
END
find -type f ! -name SHA256SUMS -printf '%P\n' | LC_ALL=C sort | xargs sha256sum > SHA256SUMS
