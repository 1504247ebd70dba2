# The virtual gate over the archive: its scene, a technician at its service port, and its variables by name.
build virtual_gate gate/*.c "$archive"
build list_names gate/tools/list_names.c gate/tools/line.c "$archive"
build port_test tests/port_test.c gate/tools/line.c "$archive"
build scene_test tests/scene_test.c gate/scene.c gate/self_test.c
$RUN_X86 $built/scene_test || fail "the scene"
build gate_test tests/gate_test.c gate/frames.c gate/gate.c gate/names.c gate/panel.c gate/scene.c gate/self_test.c "$archive"
$RUN_X86 $built/gate_test || fail "the virtual gate without its ports"

# The tool that lists names, at tables such as the virtual gate has none of; and what it refuses, with a sentence.
build names_line gate/tools/list_names.c tests/names_line.c "$archive"
$RUN_X86 $built/names_line tables >$built/names || fail "the names of other tables"
cmp tests/names_line.txt $built/names || fail "the names of other tables"
[ "$($RUN_X86 $built/names_line none | wc -l)" -eq 1 ] || fail "a gate without tables has names"
if $RUN_X86 $built/names_line nowhere >$built/names 2>$built/complained; then fail "a name that begins nowhere is taken"; fi
[ "$(wc -l <$built/names)" -eq 2 ] || fail "what stands before a name that begins nowhere is not listed"
refuses $RUN_X86 $built/names_line old
refuses $RUN_X86 $built/list_names
refuses $RUN_X86 $built/list_names /dev/null
for words in "--station 0" "--station 248" "--silence x" "--silence" "--baud 19200"; do
    refuses $RUN_X86 $built/virtual_gate $words
done

# start_gate SAID [WORDS..]: a virtual gate whose words go to this file; its ports are $port and $second_port. It ends by itself after a
# minute of ticks, whatever becomes of this script.
start_gate() {
    said=$1
    shift
    : >"$said"
    $RUN_X86 $built/virtual_gate --ticks 60000 "$@" >"$said" &
    gate=$!
    trap 'kill $gate 2>/dev/null || true' EXIT
    second_port=
    for _ in 1 2 3 4 5 6 7 8 9 10 11 12 13 14 15 16 17 18 19 20; do
        second_port=$(sed -n 's/^The second port is //p' "$said")
        [ -z "$second_port" ] || break
        sleep 0.5
    done
    [ -n "$second_port" ] || fail "the virtual gate opened no ports"
    port=$(sed -n 's/^The service port is //p' "$said")
}

end_gate() {
    kill -INT $gate
    wait $gate || fail "the virtual gate did not end well"
    trap - EXIT
}

start_gate $built/gate.out
build names_due tests/names_due.c
$RUN_X86 $built/names_due >$built/names_due.out
$RUN_X86 $built/list_names "$port" >$built/names || fail "the list of names at the port"
cmp $built/names_due.out $built/names || fail "the names at the port are not those of gate/map.h"
echo "names: $(($(wc -l <$built/names) - 1)) variables at the port, as gate/map.h has them"

$RUN_X86 $built/port_test "$port" || fail "the technician at the port"
end_gate
tail -n 2 $built/gate.out

# ./run takes the proved archive. Where that is the one under test, the gate that it starts gives the same list.
if [ "$archive" -ef target/staticlib/liblog_gate.a ]; then
    ./run names >$built/names 2>$built/complained || { cat $built/complained; fail "./run names"; }
    cmp $built/names_due.out $built/names || fail "./run names lists other names"
    ./run --station 5 --silence 9 --seed 3 --ticks 300 >$built/gate.out 2>$built/complained || { cat $built/complained; fail "./run with options"; }
    grep -q 'station 5,' $built/gate.out && grep -q '^The gate is closed: 300 ticks' $built/gate.out || fail "./run hands its options on"
fi
