# Sourced by the scripts, from the repository's root. The proved archive and programs are x86-64: on another machine a cross compiler
# links them and qemu runs them. It sets CC_X86 and CFLAGS_X86 (compiler), SIZE_X86 (code sizes), NM_X86 (symbols) and RUN_X86 (what runs
# a program).

# apt WORDS..: what apt-get does. While another holds its lock it is tried again, for some ten minutes.
apt() {
    apt_tries=0
    until apt_said=$(LC_ALL=C apt-get -o DPkg::Lock::Timeout=10 "$@" 2>&1); do
        case $apt_said in
        *"get lock"* | *"nable to lock"*) ;;
        *) return 1 ;;
        esac
        [ $apt_tries -gt 0 ] || echo "$(basename "$0"): another program installs packages, and is waited for" >&2
        apt_tries=$((apt_tries + 1))
        [ $apt_tries -lt 30 ] || return 1
        sleep 10
    done
}

# need COMMAND PACKAGE..: installs what is missing, or says plainly what is lacking.
need() {
    command -v "$1" >/dev/null && return
    wanted=$1
    shift
    echo "$(basename "$0"): installing $*" >&2
    { apt update && apt install -y "$@"; } || true
    command -v "$wanted" >/dev/null && return
    echo "$(basename "$0"): the command $wanted (Debian: $*) is missing and could not be installed" >&2
    exit 1
}

case $(uname -m) in
x86_64)
    CC_X86=gcc SIZE_X86=size NM_X86=nm RUN_X86=
    need gcc gcc libc6-dev
    ;;
*)
    CC_X86=x86_64-linux-gnu-gcc SIZE_X86=x86_64-linux-gnu-size NM_X86=x86_64-linux-gnu-nm RUN_X86="qemu-x86_64 -L /usr/x86_64-linux-gnu"
    need x86_64-linux-gnu-gcc gcc-x86-64-linux-gnu libc6-dev-amd64-cross
    need qemu-x86_64 qemu-user
    ;;
esac

CFLAGS_X86="-std=c11 -Wall -Wextra -Werror -O2"
