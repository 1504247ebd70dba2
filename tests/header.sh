# The header by itself, in every language it is for; and the archive by its symbols: the header's calls, nothing writable, and memset alone from
# outside.
need g++ g++
for dialect in c99 c11 c17 c++98 c++11 c++17; do
    case $dialect in
    c++*) compiler="g++ -x c++" ;;
    *) compiler="$CC_X86 -x c" ;;
    esac
    $compiler -std=$dialect -pedantic -Wall -Wextra -Werror -fsyntax-only include/log_gate.h 2>$built/complained ||
        { cat $built/complained; fail "the header as $dialect"; }
done

sed -n 's/^log_gate_[a-z_]* \(log_gate_[a-z_]*\)(.*/\1/p' include/log_gate.h | sort >$built/declared
$NM_X86 --defined-only -g "$archive" | awk 'NF == 3 { print $3 }' | sort >$built/defined
cmp $built/declared $built/defined || fail "the archive's calls are not the header's"
[ "$($NM_X86 -u "$archive" | awk '$1 == "U" { print $2 }' | sort -u | xargs)" = "memset" ] || fail "the archive needs other than memset"
[ "$($SIZE_X86 "$archive" | awk 'NR > 1 { writable += $2 + $3 } END { print writable }')" = 0 ] || fail "the archive has writable data"
sed -n 's/^CALL(\([a-z_]*\),.*/log_gate_\1/p' tests/reachable.h | sort | cmp - $built/declared || fail "tests/reachable.h lists other calls than the header"
echo "header: six dialects; the archive has its $(wc -l <$built/declared) calls, needs memset alone, and has nothing writable"
