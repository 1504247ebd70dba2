#!/bin/sh
# tests/run.sh ARCHIVE PLAYER [FIRST SEEDS]: all tests of an archive with the calls of include/log_gate.h and of the player of scripts,
# with so many random scripts from a first seed on.
set -eu
[ $# -eq 2 ] || [ $# -eq 4 ] || { echo "tests/run.sh: say which archive and which player to test" >&2; exit 2; }
for file in "$1" "$2"; do
    [ -r "$file" ] || { echo "tests/run.sh: $file cannot be read" >&2; exit 2; }
done
archive=$(realpath "$1")
proved=$(realpath "$2")
first=${3-1}
seeds=${4-200}
cd "$(dirname "$0")/.."
. tools/machine.sh

built=target/tests
mkdir -p $built

# build NAME FILES..: a program for x86-64
build() {
    name=$1
    shift
    $CC_X86 $CFLAGS_X86 -o "$built/$name" "$@"
}

fail() {
    echo "tests/run.sh: $1" >&2
    exit 1
}

# part NAME: the tests of tests/NAME.sh, which use what is above and what the parts before them left.
part() {
    began=$(date +%s)
    . "tests/$1.sh"
    times="$times, $1 $(($(date +%s) - began)) s"
}

times=
part usage
part first
part header
part calls
part scripts
part wrong
part port
part session
part peers
echo "tests/run.sh: compared $compared bytes of $played scripts and their answers: second/, the proved player, the archive and the plain C give the same"
echo "tests/run.sh: compared the fuzzing loop's answers, states and memory: the archive and the plain C give the same"
echo "tests/run.sh: all passed (${times#, })"
