# Masters that others wrote, at the virtual gate's second port: mbpoll, libmodbus and pymodbus, each from its Debian package and native.
need mbpoll mbpoll
need gcc gcc libc6-dev
need /usr/bin/python3 python3

# brought PACKAGE TEST..: a package that brings no command is installed unless the test holds.
brought() {
    package=$1
    shift
    "$@" 2>/dev/null && return
    echo "tests/run.sh: installing $package" >&2
    { apt update && apt install -y "$package"; } || true
    "$@" 2>/dev/null || fail "the Debian package $package is missing and could not be installed"
}
brought libmodbus-dev [ -e /usr/include/modbus/modbus.h ]
brought python3-pymodbus /usr/bin/python3 -c 'import pymodbus'

# A gate of their own, so that nobody else has written its registers.
start_gate $built/peers_gate.out

# poll WORDS..: what mbpoll says of registers and of refusals, without what it says of itself.
poll() {
    echo "mbpoll $*"
    mbpoll -m rtu -b 19200 -P none -a 1 -o 3 -0 -1 -q "$@" 2>&1 | sed -n 's/\t//; /^\[\|^Written\|failed:/p'
}

# Registers 200 on, an input register, and one that cannot be written; the port's path stands before what is written.
{
    poll -r 200 "$second_port" 7 8 9
    poll -r 200 -c 3 "$second_port"
    poll -r 201 "$second_port" 4660
    poll -r 200 -c 3 "$second_port"
    poll -r 200 -t 3 "$second_port"
    poll -r 8192 "$second_port"
    poll -r 4096 "$second_port" 1
    poll -r 4095 "$second_port" 1 2
} | sed "s|$second_port|PORT|" >$built/mbpoll
cmp tests/peers/mbpoll.txt $built/mbpoll || { cat $built/mbpoll; fail "mbpoll at the second port"; }

gcc -std=c11 -Wall -Wextra -Werror -O2 -I/usr/include/modbus -o $built/client tests/peers/client.c -lmodbus
$built/client "$second_port" >$built/client.out || fail "libmodbus at the second port"
cmp tests/peers/expected.txt $built/client.out || { cat $built/client.out; fail "libmodbus at the second port"; }
/usr/bin/python3 tests/peers/client.py "$second_port" >$built/client.out || fail "pymodbus at the second port"
cmp tests/peers/expected.txt $built/client.out || { cat $built/client.out; fail "pymodbus at the second port"; }

# The lines for a shell that the gate prints of this port.
sed -n 's/^ *\(mbpoll .*\)/\1/p' $built/peers_gate.out >$built/printed
[ "$(wc -l <$built/printed)" -eq 2 ] || fail "the virtual gate prints other than two lines with mbpoll"
sh -e $built/printed >$built/mbpoll || { cat $built/mbpoll; fail "a line that the virtual gate prints"; }
[ "$(grep -c '^\[' $built/mbpoll)" -eq 4 ] && grep -q '^Written 1 ' $built/mbpoll || fail "a line that the virtual gate prints"

end_gate
echo "peers: mbpoll, libmodbus and pymodbus read and write registers, and get the exceptions that are due"
tail -n 1 $built/peers_gate.out
