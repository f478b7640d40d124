#!/usr/bin/env bash
# Makes anew what scripts make of sources: v4.rt, the crate for Rust, the header that is all of
# the library for C, versions in the packages for JavaScript and Python, the page that hashes
# files, and, if c/assembly.sh or more of the header than comments changed, its assembly and
# WebAssembly, by Debian's packages clang-19 and lld. With the argument `module` or `page`, only
# prints that module or page.
set -euo pipefail
cd "$(dirname "$0")/.."
version=$(sed -n 's/.*"version": "\(.*\)",/\1/p' js/package.json)
library=$(sed -n 's/.*RATTLE_VERSION "\(.*\)"/\1/p' c/komihash_rattle.h)

# The last line of the module is the functions that it calls, as WebAssembly, and names their
# compiler and the SHA-256 that c/assembly.sh has.
module() (
    scratch=$(mktemp -d)
    trap 'rm -r "$scratch"' EXIT
    bash c/assembly.sh "$scratch/module.wasm" $(grep -oE 'komihash_v[a-z0-9_]+\(' \
        c/komihash_rattle.h | tr -d '(' | grep -vE '_(init|pad|unpad)$')
    sed '$d' js/komihash_rattle.js
    echo "function webAssembly() { return '$(base64 < "$scratch/module.wasm" | tr -d '\n')'; }" \
        "// $(clang-19 --version | head -n 1), SHA-256 $(bash c/assembly.sh)"
)
# The page gets the licence, the module and the versions. Its first line comes first, because
# browsers look for the encoding in 1,024 bytes.
page() (
    cd js
    sed 1q page.html
    sed -n '1s|^/\*!\(.*\)\*/$|<!--\1\n|p' komihash_rattle.js
    cat LICENSE
    echo '-->'
    sed -e 1d -e '/^import /,$d' page.html |
        sed "s/<!--version-->/$version with version $library of its library for C/"
    sed -e '1c const { v4, v5 } = (() => {' -e 's/^export //' \
        -e '$a return { v4, v5 }; })();' komihash_rattle.js
    sed '1,/^import /d' page.html
)
case ${1-} in module | page) "$1"; exit ;; esac

python3 -B scripts/twins.py
python3 -B rust/erase.py crates/komihash/src rust/src
make -C c inline
made_of=$(bash c/assembly.sh)
if [ "$(grep -LF "SHA-256 $made_of" c/assembly/*.S js/komihash_rattle.js)" ]; then
    make -C c assembly
    module > js/new
    mv js/new js/komihash_rattle.js
fi
sed -i "1s/ [0-9.]*,/ $version,/" js/komihash_rattle.js
sed -i "s/version [0-9]*\.[0-9.]* of /version $library of /" js/README.md python/README.md
page > js/komihash.html
