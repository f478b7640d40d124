#!/usr/bin/env bash
# Tests the packages for Python and JavaScript, and what all packages share: their pages, and that
# the same files make the same bytes.
. "$(dirname "$0")/parts.sh"

# Whether packages have the pages that say what the hash is, and what must be trusted, and each link
# of a page leads to a file of its package.
has_pages() {
    local at
    for at in "$scratch"/{libkomihash_rattle-*,rust,'s dist',js/node_modules/komihash_rattle}; do
        ls "$at"/docs/{CLAIMS,DEFINITIONS}.md && python3 -B scripts/links.py "$at" || return
    done
}
made_of_web() { bash scripts/remake.sh module | cmp - js/komihash_rattle.js; }
# Writes 100,000 random calls, with the values that the crate for Rust gives. Another 80,000 are of
# what only Rust has.
random_rows() {
    cargo run --manifest-path rust/Cargo.toml --offline --release --example random_rows 1 180000 |
        grep -vE '^(stream|hash_one|order|next)' > "$scratch/rows.tsv"
}
all_rows() { cat rust/tests/*.tsv "$scratch/rows.tsv"; }
# Whether tests fail, and print so many lines: fails COUNT COMMAND..
fails() { ! "${@:2}" > "$scratch/failure" 2>&1 && [ "$(wc -l < "$scratch/failure")" = "$1" ]; }

# Makes the package for Python, installs it by Debian's tools, and runs the tests that are in it.
installed=$scratch/python
debian_python() { PYTHONPATH=$installed /usr/bin/python3 -B "$@"; }
install_python() {
    TMPDIR="$scratch/s dist" debian_python -m pip install --no-index --no-build-isolation \
        --target "$installed" "$scratch/s dist"
}
python_package() {
    release python && mkdir "$scratch/s dist" &&
        tar -xzf "$packed"/python/*.tar.gz -C "$scratch/s dist" --strip-components=1 &&
        KOMIHASH_RATTLE_FROM=c installed=$scratch/from_c install_python &&
        installed=$scratch/from_c debian_python "$scratch/s dist/tests.py" "$scratch/rows.tsv" &&
        KOMIHASH_RATTLE_SYSTEM=0 FROM=alpine BUILD_SHARED=ON CROSS=none- install_python &&
        debian_python -W error "$scratch/s dist/tests.py" "$scratch/rows.tsv" &&
        debian_python -m pip install --no-index --target "$scratch/wheel" "$packed"/python/*.whl &&
        installed=$scratch/wheel debian_python -W error python/tests.py &&
        debian_python python/tests.py -k errors 2>&1 | grep '^Ran 1 test ' &&
        fails 1 debian_python python/tests.py "$scratch/none.tsv" &&
        debian_python -m doctest python/README.md &&
        mkdir "$scratch/alone" && cp python/setup.py "$scratch/alone" &&
        fails 1 debian_python "$scratch/alone/setup.py" build &&
        KOMIHASH_RATTLE_SYSTEM=yes fails 1 debian_python python/setup.py --name &&
        KOMIHASH_RATTLE_FROM=rust fails 1 debian_python python/setup.py --name &&
        ! grep -F '](' python/README.md && # which METADATA has, without the files beside it
        ! grep -F '/*' "$packed/README.md"
}
# Links an installed library for C, without which the modules can't be imported.
python_of_system() {
    local system=$scratch/system installed=$scratch/linked
    in_package install "PREFIX=$system" && KOMIHASH_RATTLE_SYSTEM=1 CFLAGS=-I$system/include \
        LDFLAGS=-L$system/lib install_python && ! debian_python -c 'import komihash_rattle' &&
        LD_LIBRARY_PATH=$system/lib debian_python "$scratch/s dist/tests.py"
}

# Makes the package for JavaScript, and installs it in a folder that has nothing else but tests,
# beside the crate for Rust, which has the tables.
js_package() {
    release js && mkdir "$scratch/js" && cp js/{*.mjs,tests.html} "$scratch/js" &&
        sed -n '/^```js$/,/^```$/{/^```/!p;}' js/README.md > "$scratch/js/page.mjs" &&
        cd "$scratch/js" && npm install --offline "$packed"/js/*.tgz
}
# Whether a copy with other times makes packages of the same bytes, and nothing is left in it.
made_again() {
    release page windows && mkdir "$scratch/copy" &&
        tar --create --exclude={out,target} {LICENSE,SECURITY.md} c crates docs js python rust \
            scripts |
        tar --extract --touch --directory="$scratch/copy" &&
        (cd "$scratch/copy" && find . | sort > "$scratch/files" &&
            bash scripts/release.sh "$scratch/again" &&
            (cd "$packed" && sha256sum --strict --quiet --check SHA256SUMS) &&
            [ "$(wc -l < "$packed/SHA256SUMS")" = 8 ] && diff -r "$packed" "$scratch/again" &&
            find . | sort | diff "$scratch/files" -)
}
all_right() { diff <(echo "$(all_rows | grep -cvE '^(#|unpad)') rows, 0 failures") -; }
as_on_page() { diff <(sed -n 's|.*; // ||p' "$scratch/js/page.mjs") -; }
js_in_node() {
    node "$scratch/js/tests.mjs" "$scratch/rows.tsv" | all_right &&
        node js/tests.mjs && fails 1 node js/tests.mjs "$scratch/none" &&
        fails 2 node js/tests.mjs <(echo $'5\t0\t\tno hash') &&
        node "$scratch/js/page.mjs" | as_on_page
}
js_in_chromium() {
    all_rows | cat js/tests.html - > "$scratch/js/rows.html"
    timeout 600 node "$scratch/js/tests_in_chromium.mjs" "$scratch/of_rows" | all_right
}
page_is_made() {
    [ "$(wc -l < js/page.html)" -le 220 ] && bash scripts/remake.sh page | cmp - js/komihash.html
}
page_in_chromium() {
    in_package out/komihashsum && mkdir "$scratch/hashed" &&
        PATH=$(echo "$scratch"/libkomihash_rattle-*/out):$PATH \
            timeout 600 node "$scratch/js/tests_of_page.mjs" "$scratch/hashed" |
        tee "$scratch/shown" && grep -xE '[1-9][0-9]* steps, 0 failures' "$scratch/shown"
}
js_required() {
    cd "$scratch/js" && cp page.mjs page.cts && tsc --target es2022 --module node16 page.cts &&
        node page.cjs | as_on_page
}

prepare unpack
always needs cargo 'the crate for Rust is packed, and builds as it is unpacked' unpack_crate
always needs cargo 'random calls have values' random_rows
always needs '/usr/bin/pip3 /usr/bin/python3-config' 'the package for Python' python_package
needs '/usr/bin/pip3 /usr/bin/python3-config' \
    'the package for Python, with an installed library' python_of_system
MYPY_CACHE_DIR=$scratch/mypy needs /usr/bin/mypy 'the types of the package for Python' \
    debian_python -m mypy.stubtest komihash_rattle
always needs npm 'the package for JavaScript is packed and installed' js_package
needs 'cargo npm /usr/bin/pip3' 'pages of packages have all that they link to' has_pages
needs 'npm x86_64-w64-mingw32-gcc groff' 'another copy makes the same packages' made_again
needs node 'the package for JavaScript, in Node' js_in_node
needs 'chromium node' 'the package for JavaScript, in Chromium' js_in_chromium
run_case 'the page has the module in it' page_is_made
needs 'chromium node cc' 'the page of the package for JavaScript, in Chromium' page_in_chromium
needs tsc 'the types of the package for JavaScript' tsc --noEmit --allowJs --checkJs \
    --target es2022 --module es2022 --moduleResolution node16 "$scratch/js/tests.mjs"
needs 'node tsc' 'the types of the package for JavaScript, by require' js_required
by_its_compiler clang-19 js/komihash_rattle.js wasm-ld \
    'the WebAssembly in it is made of the header alone' made_of_web
finished 'cargo, Python 3.9 with pip, Node, Chromium, TypeScript and mypy'
