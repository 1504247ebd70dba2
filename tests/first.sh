# The first run on a new machine, in a copy of the house with a prover and a package manager that only speak.
house=$built/first
rm -rf $house
mkdir -p $house/tools $house/crates/log_gate_c $house/bin
cp run crates.txt $house
cp tools/machine.sh $house/tools

# A prover that says of two crates that they are proved, and of each what nobody wants to read; with `wrong` beside it, it refuses.
cat >$house/bin/rt <<'END'
#!/bin/sh
echo "rt: chose --jobs 2 for document"
echo "statements std: modules loaded=21 checked=0"
echo "crate document: modules loaded=0 checked=48"
echo "logic=proved functions=0"
echo "crate bytes_fields: modules loaded=61 checked=0"
[ ! -e ../../wrong ] || { echo "logic=not-proved"; exit 1; }
echo "logic=proved functions=3"
mkdir -p out
: >out/liblog_gate_c.a
END
chmod +x $house/bin/rt

(cd $house && PATH=$PWD/bin:$PATH ./run library) >$built/said 2>$built/complained || fail "./run with a prover that proves"
crates=$(grep -c '^run: crate ' $built/complained || true)
[ "$crates" -eq 2 ] && grep -q '^run: crate 2 of at most [0-9]* is proved: bytes_fields$' $built/complained || fail "./run says how far the proofs are"
grep -q 'crates: some [0-9]* minutes' $built/complained || fail "./run says how long the proofs take"
if grep -qv '^run: ' $built/complained; then fail "./run lets the prover speak"; fi
[ -r $house/target/staticlib/liblog_gate.a ] || fail "./run puts the archive where its users look for it"
rm -r $house/target $house/crates/log_gate_c/out
: >$house/wrong
if (cd $house && PATH=$PWD/bin:$PATH ./run library) >$built/said 2>$built/complained; then fail "./run with a prover that refuses"; fi
grep -q '^logic=not-proved' $built/complained || fail "./run shows why the prover refuses"

# A package manager whose lock another holds for two tries, and which brings a command then.
cat >$house/bin/apt-get <<'END'
#!/bin/sh
echo try >>tries
[ "$(wc -l <tries)" -gt 2 ] || { echo "E: Could not get lock /var/lib/apt/lists/lock. It is held by process 7" >&2; exit 100; }
cp bin/rt bin/brought_just_now
END
printf '#!/bin/sh\n' >$house/bin/sleep
chmod +x $house/bin/apt-get $house/bin/sleep
(cd $house && PATH=$PWD/bin:$PATH && . tools/machine.sh && need brought_just_now some_package) 2>$built/complained || fail "what is missing waits for the lock"
rm $house/bin/brought_just_now
printf '#!/bin/sh\necho "E: Unable to locate package" >&2\nexit 100\n' >$house/bin/apt-get
if (cd $house && PATH=$PWD/bin:$PATH && . tools/machine.sh && need brought_just_now some_package) 2>$built/complained; then fail "nothing was brought"; fi
[ "$(wc -l <$built/complained)" -eq 2 ] || fail "what is missing is said with a sentence"
rm -rf $house
echo "first: progress by crates, the prover's words where it refuses, and the lock of the package manager is waited for"
