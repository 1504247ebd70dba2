# Scripts, played by the independent implementation, by the proved player, and over the C calls through the proved archive and through
# the plain C of the benchmark: the outputs must be the same.
need cargo cargo
build play tests/play/*.c "$archive"
build play-plain tests/play/*.c benchmark/plain/log_gate.c
cargo build --quiet --release --offline --manifest-path second/Cargo.toml
second=second/target/release/second

# Every script is kept under the name by which it is spoken of; $scripts is the list of them.
rm -rf $built/scripts
mkdir $built/scripts
scripts=
played=0
compared=0

# same SCRIPT: all play it, and say the same.
same() {
    $second play "$1" >$built/expected
    for player in "$proved" $built/play $built/play-plain; do
        $RUN_X86 "$player" <"$1" >$built/played || fail "$1 is not played to its end by $player"
        cmp -s $built/expected $built/played || { $second compare $built/expected $built/played; fail "$1, played by $player"; }
    done
    scripts="$scripts $1"
    played=$((played + 1))
    compared=$((compared + $(wc -c <"$1") + $(wc -c <$built/expected)))
}

# Nothing of a line that cannot be read is carried out, nothing after it, and standard error has the line's number.
unread() {
    printf '# a script with a line that cannot be read\nM 0 1\n\n%s\nM 1 1\n' "$1" >$built/script
    if $second play $built/script >$built/expected 2>/dev/null; then fail "the independent implementation reads '$1'"; fi
    $RUN_X86 "$proved" <$built/script >$built/played 2>$built/complained
    cmp $built/expected $built/played || fail "a script with the line '$1'"
    grep -q '^line 4: .' $built/complained || fail "what is wrong with the line '$1' is not said"
}

cp tests/case_14.script $built/scripts/case_14
same $built/scripts/case_14

# $seeds scripts of 1,000 operations from the seed $first on
seed=$first
last=$((first + seeds))
while [ $seed -lt $last ]; do
    $second make $seed 1000 >$built/scripts/seed_$seed
    same $built/scripts/seed_$seed
    seed=$((seed + 1))
done

# The kept script, the longest, comes last in the list. What the gate's own run of the player is held to is still what the independent
# implementation answers.
$second play crates/play/stdin | cmp - crates/play/stdout || fail "crates/play/stdout is not the independent implementation's answer"
cp crates/play/stdin $built/scripts/kept_script
same $built/scripts/kept_script

lines=0
while IFS= read -r line; do
    unread "$line"
    lines=$((lines + 1))
done <tests/bad_lines
echo "scripts: $lines lines that cannot be read, each refused by its number"
echo "scripts: case 14, $seeds random ones of 1,000 operations (seeds $first to $((last - 1))) and the kept one: no difference"

# Every pair that can be reached is, and no other. Some 50 random scripts are enough for that.
$second cover $scripts || fail "the scripts reach too little or too much"
