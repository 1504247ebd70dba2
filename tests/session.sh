# The virtual gate as a new user has it: a hundred times the lines that it prints are run as they are printed, at five gates side by side.
# A reading in air has the sum byte 0x2B, which is doubled on the wire, once in 32, so a round without one is followed by another.
build session_test tests/session_test.c gate/tools/line.c "$archive"
sessions="1 2 3 4 5"
doubled=0 rounds=0
while [ $doubled -eq 0 ]; do
    rounds=$((rounds + 1))
    [ $rounds -le 5 ] || fail "no reading has a doubled byte"
    for session in $sessions; do
        start_gate $built/session_$session.out --seed $session
        eval "gate_$session=$gate"
        $RUN_X86 $built/session_test $built/session_$session.out 20 >$built/session_$session.count &
        eval "user_$session=$!"
    done
    for session in $sessions; do
        eval "user=\$user_$session gate=\$gate_$session"
        wait $user || { cat $built/session_$session.count; fail "the lines that the virtual gate prints"; }
        doubled=$((doubled + $(cat $built/session_$session.count)))
        end_gate
    done
done
echo "session: $((rounds * 100)) readings by the printed line, $doubled of them with a doubled byte, and the other lines: one answer each"
