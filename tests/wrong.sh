# The test of the tests: each wrong variant of the independent implementation has to be told apart by one of the scripts.
need rustc rustc
rm -rf $built/wrong
$second wrong second/wrong.txt second/src $built/wrong $scripts || fail "the scripts do not tell every wrong variant apart"
rm -rf $built/wrong
