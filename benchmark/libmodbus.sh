# Sourced by ./bench, and uses what stands there: the second port's cases beside libmodbus, which is built from Debian's sources with its
# transport cut off (libmodbus.c). Where the sources cannot be had, it says so and nothing else is missing.
fetched=$built/libmodbus

fetch_libmodbus() {
    [ ! -e $fetched/src/modbus.c ] || return 0
    mkdir -p $fetched/lists
    suite=$(sed -n 's/^VERSION_CODENAME=//p' /etc/os-release)
    echo "deb-src http://deb.debian.org/debian $suite main" >$fetched/list
    own="-o Dir::Etc::sourcelist=$PWD/$fetched/list -o Dir::Etc::sourceparts=- -o Dir::State::lists=$PWD/$fetched/lists"
    (
        cd $fetched
        apt-get $own update && apt-get $own source --download-only libmodbus && tar -x -f libmodbus_*.orig.tar.* --strip-components=1
    ) >$fetched/said 2>&1
}

# Its version and what its configuration finds out do not matter to these cases.
build_libmodbus() {
    : >$fetched/src/config.h
    sed 's/@[A-Z_]*@/0/' $fetched/src/modbus-version.h.in >$fetched/src/modbus-version.h
    (
        cd $fetched/src
        $CC_X86 -O2 -w -static -D_GNU_SOURCE -I. -o ../program ../../../../benchmark/libmodbus.c modbus.c modbus-data.c modbus-rtu.c
    )
}

echo
if fetch_libmodbus && build_libmodbus; then
    echo "| instructions                             |   proved |    plain | libmodbus |"
    echo "|------------------------------------------|---------:|---------:|----------:|"
    $RUN_X86 $built/proved cases | grep '^modbus-' | while read -r name calls what; do
        proved=$(count $built/proved "$name" "$calls")
        plain=$(count $built/plain.program "$name" "$calls")
        other=$(count $fetched/program "$name" "$calls")
        awk -v w="$what" -v p="$proved" -v c="$plain" -v o="$other" 'BEGIN {
            printf "| %-40s | %8.1f | %8.1f | %9.1f |\n", w, p / 10, c / 10, o / 10
        }' </dev/null
    done
else
    echo "libmodbus could not be built from Debian's sources, so nothing stands beside the second port"
fi
