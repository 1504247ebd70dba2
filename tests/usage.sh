# Wrong usage of ./run, ./bench and ./test gets one plain sentence on standard error, nothing on standard output, and a status that is not 0.
refuses() {
    if "$@" >$built/said 2>$built/complained; then fail "'$*' is taken"; fi
    [ ! -s $built/said ] || fail "'$*' is refused and prints all the same"
    [ "$(wc -l <$built/complained)" -eq 1 ] || fail "'$*' is refused with other than one line"
}
refuses ./run fly
refuses ./run ""
refuses ./run gate
refuses ./run staples now
refuses ./run --help me
refuses ./run play
refuses ./run play $built/no-such-file
refuses ./run play tests
refuses ./run play crates/play/stdin crates/play/stdin
refuses ./run names $built/no-such-port
refuses ./run names ""
refuses ./run names tests
refuses ./run names README.md
refuses ./run names /dev/null /dev/null
refuses ./run --baud 19200
refuses ./run --station
refuses ./run --station five
refuses ./run --station 5 now
refuses ./bench $built/no-such-archive
refuses ./bench one two
refuses tests/run.sh
refuses ./test fly
refuses ./test long times
refuses ./test times fly
refuses ./test times line fly
refuses ./test times 'l.ne'
refuses ./test times ""
refuses ./test times long
refuses ./test mutants fly
refuses ./test mutants 7x
refuses ./test mutants 7 --seed
refuses ./test mutants 7 --fast
for word in 'names ' 'names PATH ' 'play FILE '; do
    ./run --help | grep -q "^\./run $word" || fail "./run --help does not list what it can do"
done
echo "usage: wrong words are refused with a sentence"
