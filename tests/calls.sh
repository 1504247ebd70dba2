# The smoke test and the fuzzing loop. The loop is run against the plain C too, with the same seed: both must give the same digest of
# all answers, states and memory.
build smoke tests/smoke/*.c "$archive"
build fuzz tests/fuzz/*.c "$archive"
build fuzz-plain tests/fuzz/*.c benchmark/plain/log_gate.c

$RUN_X86 $built/smoke || fail "the smoke test fails"
$RUN_X86 $built/fuzz >$built/fuzz.out || { tail -n 1 $built/fuzz.out; fail "the fuzzing loop fails"; }
cat $built/fuzz.out
$RUN_X86 $built/fuzz-plain >$built/fuzz-plain.out
cmp $built/fuzz.out $built/fuzz-plain.out || fail "the archive and the plain C differ"
echo "fuzz: the plain C gives the same"
