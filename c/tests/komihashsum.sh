# Tests komihashsum; check.sh sources this file. In the cases beside sha256sum, what it prints, and
# its status, must differ from those of sha256sum in the hashes, the name, and in how messages quote
# names alone.
tree=$scratch/tree
built=$(realpath "$OUT")/komihashsum$exe
komihashsum() { $RUN "$built" "$@"; }
newline='
'

# Makes files with odd names, and what can't be read.
plant() {
    mkdir -p "$tree/folder" && cd "$tree" || return
    for name in plain ' space ' 'a  b' '*' '#' '\' 'back\slash' '\n' "new${newline}line" \
        "$newline" "carriage$(printf '\r')" "tab$tab" -dash --help "quote'\"" 'ünïcode' \
        "$(printf 'no UTF-8\377\300')" folder/file; do
        printf '%s' "$name" > "./$name" || return
    done
    yes line | head -c 1000001 > large
    ln -s folder/file link && ln -s folder folder_link && ln -s nothing dangling &&
        ln -s loop loop && touch unreadable && chmod 0 unreadable
}

hints='that failed|most lines' # of which sha256sum has none

# Runs a script in the tree by each program, which it calls $sum, and compares what comes of it.
beside() {
    for name in sha256sum komihashsum; do
        (cd "$tree" && sum=$name list=$scratch/$name && eval "$1"; echo "status $?") \
            2> "$scratch/errors" > "$scratch/lines"
        grep -vE "$hints" "$scratch/errors" | cat - "$scratch/lines" |
            sed -E 's/(sha256|komihash)sum/SUM/g
                s/read error/Is a directory/; s/(write error): .*/\1/
                s/^SUM: .*(: (No such|Is a|Too many|Permission))/SUM\1/
                s/^SUM: .standard input./SUM: standard input/
                s/^(\\?)([0-9a-f]{64}|[0-9a-f]{16}) /\1HASH /
                s/SHA256|KOMIHASH5?/NAME/; s/ = ([0-9a-f]{64}|[0-9a-f]{16})$/ = HASH/' \
            > "$scratch/$name.seen"
    done
    diff "$scratch/sha256sum.seen" "$scratch/komihashsum.seen"
}
# Makes a list with lines of every kind.
mixed='{ $sum plain large; echo "# comment"; echo; echo nonsense; $sum large | sed s/large/none/
    $sum large | sed s/large/plain/; printf " \t"; $sum large; $sum plain | sed "s/^[^ ]*/\U&/"
    $sum plain | sed "s/  / */"; $sum plain | sed "s/$/\r/"; $sum plain | sed "s/plain//"
    $sum plain | sed "s/^/\\\\/; s/plain/a\\\\q/"; $sum plain | sed s/^.//; printf ". "; $sum plain
    $sum plain | sed "s/^/0/"; $sum plain | sed s/plain/folder/; $sum folder link; $sum - < plain
    $sum large | sed "s|large|.$(printf %3000s | tr " " /)large|"; printf "\r\n"; } > $list 2>&1'
# Draws lists from a seed: lines of both forms, in some of which up to two characters are others. In
# place of the name of the hash and of the hashes of three files stand N and <1> to <3>.
draw() {
    awk -v "seed=$1" 'BEGIN {
        srand(seed)
        names = split("plain,a  b,back\\\\slash", name, ",")
        odd = " *\\\n\r()=\tA0x#-"
        print "<1>  plain"
        for (k = 0; k < 1500; k++) {
            at = 1 + int(rand() * names)
            line = rand() < .5 ? "<" at ">  " name[at] : "N (" name[at] ") = <" at ">"
            line = (at == 3 ? "\\" : "") line
            for (edits = int(rand() * 3); edits > 0; edits--) {
                at = 1 + int(rand() * (length(line) + 1))
                line = substr(line, 1, at - 1) substr(odd, 1 + int(rand() * length(odd)), 1) \
                    substr(line, at + int(rand() * 2))
            }
            print line
        }
    }'
}
compared() {
    run_case 'komihashsum beside sha256sum, odd names' beside '$sum -- *'
    run_case 'komihashsum beside sha256sum, standard input' \
        beside 'cat large | $sum; cat large | $sum - link; $sum < folder; $sum -c < folder'
    run_case 'komihashsum beside sha256sum, a closed standard input' \
        beside 'exec 2> /dev/null; $sum <&-; echo $?; $sum plain - link <&-; echo $?
            $sum plain - < plain > $list; $sum -c $list <&-; echo $?; $sum -c - <&-
            $sum /dev/stdin <&-; echo $?'
    run_case 'komihashsum beside sha256sum, more files than can be open' beside 'ulimit -n 16
        $sum plain plain plain plain plain plain plain plain plain plain plain plain plain plain'
    run_case 'komihashsum beside sha256sum, what fails' beside '$sum none plain; echo $?
        $sum /proc/self/mem; echo $?; $sum plain > /dev/full; echo $?; $sum plain >&-'
    run_case 'komihashsum beside sha256sum, a list of odd names' \
        beside '$sum -- * > $list 2>&1; $sum --check $list; $sum -c - < $list'
    run_case 'komihashsum beside sha256sum, lines with asterisks' \
        beside 'for marks in -b --binary -t --text -bt -tb "-t --tag" "--text --tag -b"; do
            $sum $marks plain - < large; done'
    run_case 'komihashsum beside sha256sum, lines of --tag' beside '$sum --tag -- * > $list 2>&1
        cat $list; for file in plain *slash; do $sum $file; done |
        cat $list - > $list.1; $sum -c $list.1; echo $?; $sum -cw - < $list.1'
    run_case 'komihashsum beside sha256sum, zero bytes after lines' beside '{ $sum -z -- *
        $sum --zero --tag -- *slash "$newline"; } 2> $list | tr "\0" "\n"; cat $list'
    draw 7 > "$scratch/drawn"
    run_case 'komihashsum beside sha256sum, random lists' beside 'k=0 edits=
        case $sum in sha*) name=SHA256 ;; *) name=KOMIHASH5 ;; esac
        for file in plain "a  b" *slash; do
            k=$((k + 1)) edits="$edits; s/<$k>/$($sum < "$file" | sed "s/ .*//")/"
        done
        sed "s/^\(.\?\)N/\1$name/$edits" "$scratch/drawn" > $list
        split -l 10 -d -a 3 $list $list. && head -n 1 $list > $list.first
        for part in $list.[0-9]*; do cat $list.first $part | $sum -cw; echo $?; done'
    for option in '' --quiet --status --strict --ignore-missing '--quiet --strict' \
        '--ignore-missing --status' -w '--warn --quiet' '--status --warn --strict'; do
        run_case "komihashsum beside sha256sum, a list with lines of every kind $option" \
            beside "$mixed; \$sum $option -c \$list < plain; echo \$?
                \$sum $option -c < \$list; echo \$?; grep none \$list | \$sum $option -c; echo \$?
                grep 'link$' \$list | \$sum $option -c; echo \$?
                grep -E 'folder|link$' \$list | \$sum $option -c; echo \$?
                sed \"s/^[0-9a-f]\{4\}/0000/\" \$list > \$list.1; \$sum -c $option \$list.1 \$list"
    done
    run_case 'komihashsum beside sha256sum, lists that are none' beside '$sum -c none; echo $?
        $sum -c folder; echo $?; $sum -c /dev/null; echo $?; $sum plain | $sum -c - large'
    run_case 'komihashsum beside sha256sum, a full output at the end of a buffer' \
        beside 'for length in 4 4077 4091 4094; do name=.$(printf %${length}s /large | tr " " /)
            $sum $name > $list; $sum -c $list > /dev/full; echo $?; $sum $name > /dev/full
            echo $?; echo odd >> $list; $sum -c $list 2> /dev/full; echo $?; done'
}

# Whether the hash of the empty message is the one of these rows, by their versions and seeds.
seeded() {
    grep "$tab$tab" "$crate/tests/vectors.tsv" > "$scratch/rows" && while read -r number seed hash; do
        case $number in 4) options=-4s0X ;; *) options=--seed=0x ;; esac
        prints "$hash  -" komihashsum "$options$seed" < /dev/null || return
    done < "$scratch/rows"
}
ends() { # STATUS ARGUMENT..
    status=$1
    shift
    komihashsum "$@" < /dev/null
    [ $? = "$status" ]
}
refuses() {
    for wrong; do ends 2 "$wrong" README.md || return; done
    komihashsum "--seed=$((1 << 31))" README.md && ends 2 --tag --text README.md &&
        fails '^komihashsum: --seed=ff must be decimal digits, or' komihashsum -s ff || return
    for option in ignore-missing quiet status strict warn; do
        fails "^komihashsum: --$option: .* only for --check" komihashsum "--$option" || return
    done
    for option in tag zero binary text; do
        fails "^komihashsum: --$option: .* not for --check" komihashsum -c "--$option" || return
    done
}
# What a terminal gets, between carriage returns: of a long name, characters in the last 50 bytes,
# and of many small files, few rows, the last of which stands until a message or the end. A result
# takes the place of a row, also if it gets to the terminal through a pipe while more is read.
shows_progress() (
    export LC_ALL=C.UTF-8 clear="$(printf '\033[K')"
    end=$(printf %21s | sed 's/ /ü/g').large odd=$scratch/üüüü$end$(printf '\033')
    one="$RUN '$built' --progress '$odd'"
    ln -s tree/large "$odd" && script -qec "$one; sleep 1 | $one - | cat" /dev/null \
        < /dev/null | tr '\r' '\n' > "$scratch/shown"
    printf "\033[?7l0 of 0 MiB, 0 in all  %s\\\\033\033[?7h" "$end" > "$scratch/row"
    grep -Fx "$clear$(cat "$scratch/row")" "$scratch/shown" &&
        [ "$(grep -Fc "$clear$(komihashsum "$odd")" "$scratch/shown")" = 2 ] &&
        ! komihashsum --progress "$odd" 2>&1 | grep -F "$clear" || return
    many="$RUN '$built' --progress $(yes tests/komihashsum.sh | head -n 99 | tr '\n' ' ')"
    script -qec "($many none; $many) > '$scratch/lines'" /dev/null < /dev/null | tr '\r' '\n' \
        > "$scratch/shown" && [ "$(grep -Fc "$clear" "$scratch/shown")" -lt 99 ] &&
        grep -F "${clear}komihashsum: none: " "$scratch/shown" && grep -Fx "$clear" "$scratch/shown"
)
sanitizes() {
    echo 'int main(void) { return 0; }' | $CC -fsanitize=address,undefined -x c \
        -o "$scratch/sanitized" - && "$scratch/sanitized"
}
# Whether lists whose lines fill the memory for them are read within it.
within_memory() {
    $CC -g -fsanitize=address,undefined -I. -o "$scratch/sanitized" komihashsum.c "$archive" &&
        for line in KOMIHASH5 KOMIHASH5- KOMIHASH4-4d 'KOMIHASH5 (' 'KOMIHASH5 ()' \\ ''; do
            printf "%$((255 - ${#line}))s%s\n" '' "$line" > "$scratch/list"
            ASAN_OPTIONS=exitcode=9 "$scratch/sanitized" --check "$scratch/list"
            [ $? = 1 ] || return
        done
}
# Whether a message quotes a name of which it would not be seen where it begins and ends.
quotes() {
    for name in '' ' ' ' a' 'a '; do
        fails "^komihashsum: '$name': No such" komihashsum "$name" || return
    done
}
byte_order_mark() { printf a > "$scratch/a" && (cd "$scratch" && komihashsum a |
    sed "1s/^/$(printf '\357\273\277')/" | komihashsum --check --strict); }
one_space() { (cd "$tree" && komihashsum plain | sed 's/  / /' | komihashsum --check); }
odd_on_windows() (
    export LC_ALL=C.UTF-8
    mkdir "$scratch/names" && cd "$scratch/names" && printf a > 'жå𝄞.txt' && printf a > b.txt &&
        komihashsum '*.txt' > list && printf '%s\n' "${hash_of_a%-}b.txt" "${hash_of_a%-}жå𝄞.txt" |
        diff - list && sed 's/$/\r/' list > lines &&
        [ -z "$(komihashsum --quiet --check lines 2>&1)" ] &&
        echo "${hash_of_a%-}a?b" | fails 'no file was verified' komihashsum -c --ignore-missing &&
        mkdir folder && fails '^komihashsum: folder: Is a directory' komihashsum folder &&
        fails '^komihashsum: unknown option' komihashsum --no &&
        long=$(printf %140s | tr ' ' x) && mkdir "$long" && printf a > "$long/$long" &&
        prints "${hash_of_a%-}$long/$long" komihashsum "$long/$long"
)

# A list in which each line tells its version and its seed.
tagged() (
    cd "$scratch" && printf a > a && {
        for kind in '' -4 '-s 0x4d' '-4s 18446744073709551615'; do komihashsum $kind --tag a; done
        komihashsum a a; } > tags &&
        prints "KOMIHASH4-4d (a) = 238674fd3b1b6344" komihashsum -4s077 --tag a &&
        grep '^KOMIHASH4-ffffffffffffffff (a)' tags && komihashsum -c tags &&
        head -n 4 tags | komihashsum -4s9 -cw --status &&
        sed 1,3d tags > some && fails 'most lines failed, and they tell' komihashsum -cs9 some &&
        [ -z "$(komihashsum -cs9 --status some 2>&1)" ] &&
        ! { sed 's/= ..../= 0000/' tags | komihashsum -c; komihashsum -cs9 tags; } 2>&1 |
            grep -E "$hints"
)

# Whether lists with zero bytes, of which sha256sum checks some lines, fail with their own message.
zero_bytes() (
    cd "$scratch" && printf a > a && komihashsum -z a a > z && komihashsum a > comment &&
        printf '# \0\n' >> comment && printf '\37\213\10\0' > gzip && printf '\0\0' > icon ||
        return
    for list in z comment gzip icon; do
        fails "^komihashsum: $list: this file has a zero byte" komihashsum --check $list || return
    done
    for begin in '\377\376\n\0' '\376\377\0' '\0' 'K\0'; do
        printf "${begin}K\n\0" > wide
        fails '^komihashsum: wide: this list is in UTF-16' komihashsum -c --status wide || return
    done
)
# Whether a list by the other version is told from one of files that changed, though most files of
# fewer than 64 bytes match in both versions, and a list by another seed, by which none matches. Of
# each list, the first three files that fail are read again.
by_other_version() (
    cd "$scratch" && printf a > a && seq 30 > b && seq 40 > c && komihashsum -4 c a a > list &&
        fails ' a line that failed has the hash of version 4: .* with -4' komihashsum -c list &&
        fails 'most lines failed' komihashsum -4cs1 list &&
        { komihashsum a a b b b && head -n 1 list; } > last && sed 6d last > first &&
        fails ' a line that failed has .* version 5: .* without -4' komihashsum -4c first &&
        echo >> b && sed 2q last | fails '^komihashsum: last: most lines' komihashsum -c - last &&
        sed 5d last | fails ' a line that failed has .* version 4' komihashsum -c last - &&
        ! sed 5d first | komihashsum -c 2>&1 | grep -E "$hints" &&
        ! sed -n 5p last | komihashsum -c 2>&1 | grep -E "$hints"
)
# Whether FAILED is printed before the file is read again, which changes while a pipe is full.
tells_at_once() (
    cd "$scratch" && seq 40 > c && komihashsum -4 c > list && {
        head -c "$((16 * $(getconf PAGESIZE)))" /dev/zero; komihashsum -c list 2>&1; } |
        { sleep 1; echo > c; tr -d '\0'; } > told
    grep '^c: FAILED' told && ! grep -E "$hints" told
)

# Whether files about as long as a read, and a far longer one, have the hashes that the Rust crate
# komihash 0.5.0 gives, by name and in a pipe that is written in uneven pieces.
hashes_long_files() (
    cd "$scratch" && sizes='131071 131072 131073 1000001' || return
    for size in $sizes; do seq 160000 | head -c "$size" > "$size"; done
    for kind in -4 -4s7 -s0 -s7; do
        komihashsum "$kind" --tag $sizes
        for size in $sizes; do
            { dd bs=1 count=1; dd bs=70001 count=1; cat; } < "$size" |
                komihashsum "$kind" --tag | sed "s/(-)/($size)/"
        done
    done | sort | uniq -d > long && diff - long << END
KOMIHASH4 (1000001) = f62564efc06d9851
KOMIHASH4 (131071) = d8567d4ffa83537d
KOMIHASH4 (131072) = 6721cab209948047
KOMIHASH4 (131073) = e19c8c80ca241638
KOMIHASH4-7 (1000001) = 169a01f84ba6ecb1
KOMIHASH4-7 (131071) = 1cfa9d738e438149
KOMIHASH4-7 (131072) = 289bc4ba3843c9e8
KOMIHASH4-7 (131073) = 1ad7e311e3b07f7a
KOMIHASH5 (1000001) = 89a4257ae0663274
KOMIHASH5 (131071) = a2dd7aa6e8a8984a
KOMIHASH5 (131072) = 4f74dce21a19bb1d
KOMIHASH5 (131073) = dc3d77b42f1503c2
KOMIHASH5-7 (1000001) = 8b1216e507dc460b
KOMIHASH5-7 (131071) = eacdd27e8ec61b10
KOMIHASH5-7 (131072) = e21a9da53ccbff17
KOMIHASH5-7 (131073) = 2090234bf4d17c45
END
)

run_case 'komihashsum, versions and seeds' seeded
run_case 'komihashsum, long files, by name and through pipes' hashes_long_files
run_case 'komihashsum, lines that tell version and seed' tagged
run_case 'komihashsum, lists with zero bytes' zero_bytes
run_case 'komihashsum, a list by another version' by_other_version
run_case 'komihashsum, a result is printed before a second read' tells_at_once
run_case 'komihashsum, a list that begins with a byte order mark' prints 'a: OK' byte_order_mark
run_case 'komihashsum, names of which the ends are not seen' quotes
run_case 'komihashsum, arguments that are wrong' refuses -x --check=1 --seed= --seed=-1 --seed=7x \
    --seed=0x --seed=0x1g --seed=1x1 --seed=+7 --seed=18446744073709551616 --strict
run_case 'komihashsum, help' prints 'Usage: komihashsum [OPTION]... [FILE]...' eval \
    'komihashsum --help > "$scratch/help" && grep -E "^Usage|.{80}" "$scratch/help"'
run_case 'komihashsum, bytes that end lines elsewhere' \
    prints '41788abed31c8f17  -' eval "printf 'a\r\n\032b' | komihashsum"
run_case 'komihashsum, a full output' fails 'write error' eval 'komihashsum README.md > /dev/full'
run_case 'komihashsum, its version' prints "komihashsum $version" komihashsum --version
if [ "$system" = Windows ]; then
    run_case 'komihashsum, names that Windows alone has, and lines without \r' odd_on_windows
else
    always run_case 'files with odd names' plant
    if sha256sum --version 2> "$scratch/case" | grep GNU > "$scratch/case"; then compared; else
        skip 'komihashsum beside sha256sum' "GNU's sha256sum"
    fi
    run_case 'komihashsum, one space before a name' fails 'no properly formatted' one_space
    run_case 'komihashsum, its name in messages' fails "^komihashsum: .* '--no'" komihashsum --no
    run_case 'komihashsum, bytes of names that do not print, and backslashes' \
        fails '^komihashsum: a b\\303\\033\\\\0: ' komihashsum "$(printf 'a b\303\033\\0')"
    needs timeout 'komihashsum, a name of 4 MB' fails 'name too long' eval \
        'printf "%s%4000000s\n" "${hash_of_a%-}" x | timeout 60 $RUN "$built" --check'
    # An emulator may lack the locale.
    [ "$CROSS" ] || needs script 'komihashsum, progress on a terminal alone' shows_progress
fi
name='komihashsum, lines that fill the memory for them'
if [ ! "$CROSS" ]; then
    if sanitizes 2> "$scratch/case"; then run_case "$name" within_memory; else
        skip "$name" 'libasan and libubsan'
    fi
fi
[ "$CROSS" ] || needs help2man 'the manual is made of what komihashsum prints' manual_is_made
needs mandoc 'the manual has no warnings' mandoc -Tlint -W warning komihashsum.1
