#!/usr/bin/env bash
# Checks that each product and each kept byte is counted in the tally that a call is passed, and
# that no other crate can raise a tally, write a stream that promises less, or hash in a version 3.
# Each attack in attacks.txt is a module of a crate above `komihash`, or a file of that crate's
# proofs. `tally_raised_by_hand` has the handwritten proof of `Tally::raise`, but where this uses
# the key of tallies, it says that nothing changes. `stream_of_version_three` is an example that
# says so, `stream_not_counted` one whose answer isn't counted, and `stream_with_weaker_contract`
# has a contract that doesn't ask for that.
set -u
cd "$(dirname "$0")" || exit 1
. ../c/tests/cases.sh

# Prints each line of code that multiplies, but by 8, raises a tally, makes one, calls what makes
# one, or has the words that store the bytes of writes, after the name of its function. No contract
# sees these, but in the tally that a call is passed.
uses_of_tallies() {
    find ../crates/komihash/src -name '*.rt' ! -path '*/src/tests/*' | sort | xargs awk '
        /^ *(ghost|requires|ensures) / { in_clause = 1 }
        in_clause { in_clause = !/[};]$/; next }
        /^ *\/\/|^(pub(\(crate\))? )?struct |^impl / { next }
        match($0, /fn [a-z_0-9]+/) { name = substr($0, RSTART + 3, RLENGTH - 3) }
        {
            code = $0
            gsub(/([^a-z_0-9.]|\.\.)8 \* | \* 8([^a-z_0-9.]|$)/, " ", code)
            gsub(/tally: &mut Tally|^use crate::tally::Tally;|fn [a-z_0-9]+/, "", code)
        }
        code ~ / \*( |$)|[])a-z_0-9]\*|\*=|mul([^t]|$)|pow|product[:(]|macro_rules|raise|Tally/ ||
        code ~ /(komihash(::<.>)?|finish|write|with_seed|next|fill_bytes|read_pending)\(/ ||
        code ~ /(Streamed[^ ]*|Self)::(new|default)\(|init[a-z_]*\(|re(store|sume)\(/ ||
        code ~ /[a-z]\.words([^a-z_(]|$)|Pending \{/ {
            print name ":" $0
        }' | tr -s ' '
}
known_uses() {
    diff <(uses_of_tallies) - << 'END'
init: Komirand::init_with_extra_seed(seed, seed)
init_with_extra_seed: generator.next();
init_with_extra_seed: generator.next();
init_with_extra_seed: generator.next();
init_with_extra_seed: generator.next();
next: self.step(&mut Tally::new())
fill_bytes: let word = generator.step(&mut Tally::new());
fill_bytes: let output = generator.step(&mut Tally::new());
komihash: hash_message::<V>(bytes, seed, &mut Tally::new())
write: self.number = hash_message::<V>(bytes, self.number, &mut Tally::new());
put: tally.raise(0, bytes.len());
new: Pending {
append: put::<false, false>(&mut self.words, len, bytes, tally);
append_to_none: put::<true, false>(&mut self.words, 0, bytes, tally);
complete: put::<false, true>(&mut self.words, self.len, bytes, tally);
complete: let block = self.words;
complete: self.words = [0; 8];
padding_byte: let last_byte = (self.words[word_index(last)] >> (8 * (last % 8)) & 0xff) as u8;
last_two: let pairs = self.words.as_chunks::<2>().0;
write_to: write_first_bytes(&self.words, self.len, out);
word: self.words[at]
read_pending: pending.append(&bytes[PENDING_AT..], &mut Tally::new());
new: StreamedKomihash::new_with_seed(0)
new_with_seed: StreamedKomihash::begin(seed, &mut Tally::new())
write: self.absorb(bytes, &mut Tally::new());
finish: self.answer(&mut Tally::new())
resume: StreamedKomihash::restore(bytes)
default: StreamedKomihash::new()
restore: pending: saved::read_pending(bytes),
new: pub fn new() -> Tally
new: Tally {
raise:const _: () = prove!(size_of::<Tally>() == 0);
multiply128: tally.raise(1, 0);
multiply128: let product = x as u128 * y as u128;
komihash: hash::komihash::<4>(bytes, seed)
komihash: hash::komihash::<5>(bytes, seed)
END
}
run_case 'each product and kept byte is counted in the tally that a call is passed' known_uses

above=$scratch/crates/above
by_hand=$above/proofs/tally_raised_by_hand/raised
mkdir -p "$above/src" "$by_hand"
cp -r ../crates/komihash "$scratch/crates"
printf 'komihash:\nabove: komihash\n' > "$scratch/crates.txt"
awk -v "above=$above" '
    /^\/\/ [a-z_]+$/ { file = above "/src/" $2 ".rt" }
    /^-- [a-z_]+$/ { file = above "/proofs/" $2 ".antt" }
    file { print > file }' attacks.txt
own=../crates/examples/src/own_streams.rt
sed -e 's/= 5;/= 3;/; s/{ 5 }/{ 3 }/; s/^    ghost versions.*/& \/\/ refused: versions/' $own \
    > "$above/src/stream_of_version_three.rt"
sed -e 's/, tally: \(.*\) -> u64 {/, _tally: \1 -> u64 { \/\/ refused: costs/' \
    -e 's/answer(tally)/finish()/' $own > "$above/src/stream_not_counted.rt"
sed -e '1a ghost use Rattle.komihash.specs.Stream.{Answered};' \
    -e 's/^impl KomiStream.*/& \/\/ refused: answer-tells/' \
    -e 's/ -> u64 .*costs/ -> u64 ensures { Answered 5 self.now.0.state result } {/' \
    "$above/src/stream_not_counted.rt" > "$above/src/stream_with_weaker_contract.rt"
sed -Ez '
    s/Rattle\.komihash([.a-z]*)\.tally\.Tally\.raise/Rattle.above\1.tally_raised_by_hand.raised/g
    s/raise_spec/raised_spec/g
    s/use Rattle\.komihash\.proofs\.TallyProofs[^\n]*/use base.Logic.{id⊢}/
    s/\(tally_changed [^$]*\) \$/(id⊢ 𝓤 _) $ -- refused: Sealed.owned_by_tally/' \
    ../crates/komihash/proofs/tally/Tally/raise/Proof.antt > "$by_hand/Proof.antt"
cd "$above" || exit

# Checks the crate, whose modules are the files that are there.
check() {
    rm -f src/lib.rt proofs/Lib.antt
    { echo '#![tactic(auto)]'; ls src | sed 's/^\(.*\)\.rt$/mod \1;/'; } > lib.rt
    ls proofs | sed -n 's/^\(.*\)\.antt$/mod \1/p' > Lib.antt
    mv lib.rt src && mv Lib.antt proofs && rt check 2>&1
}
attacks() { grep -rl 'refused: ' src proofs | sort; }
# Whether each marked line of a file has an error with its name.
refused() {
    grep -n 'refused: ' "$1" | while IFS=: read -r line text; do
        grep -E "^(note: )?(\./)?$1:$line:.*\b${text##*refused: }\b" <<< "$output" || exit
    done
}

# Errors in names hide those in bounds, these hide those in methods, and all hide those in proofs,
# so what a check refuses is taken out before the next.
all=$(attacks)
for errors_in in names bounds methods proofs; do
    output=$(check | sed -z 's/\n  / /g')
    for file in $(attacks); do
        attack=$(cut -d / -f 2 <<< "${file%.*}")
        ! refused "$file" > "$scratch/case" || rm -rf {src,proofs}/"$attack"{,.*}
    done
done
gone() { test ! -e "$1" || { grep "$1" <<< "$output"; false; }; }
for file in $all; do run_case "$file is refused" gone "$file"; done
run_case 'the controls are accepted' check
counted
