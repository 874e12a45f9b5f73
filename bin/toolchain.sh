# toolchain.sh, for sh to source: where the Rattle toolchain stands, how an x86-64 program is run with it, how a Debian package is had.
# It is RATTLE_HOME where that is set, which rt itself does not read, else the folder above the one that the real file of rt stands in.

toolchain=${RATTLE_HOME:-}
if [ -z "$toolchain" ]; then
    toolchain=$(command -v rt) || {
        echo 'no rt on the path: the Rattle toolchain is needed' >&2
        exit 2
    }
    toolchain=$(readlink -f "$toolchain")
    toolchain=${toolchain%/bin/*}
fi
tools=$toolchain/toolchain
# Today's toolchain is for x86-64 alone and has none; where one comes with it, it is used.
emulator=$tools/bin/qemu-x86_64
[ -x "$emulator" ] || emulator=

# A command before those below, as one that gives up rights; none as long as a script sets none.
before=

# Runs an x86-64 program that needs nothing beside itself: under the toolchain's emulator where the machine is no x86-64.
emulated() { # PROGRAM [WORD..]
    $before ${emulator:+"$emulator"} "$@"
}

# Runs a program that rt linked, with the loader and the C library that it was linked against, so that the machine's own do not matter.
linked() { # PROGRAM [WORD..]
    emulated "$tools/lib/ld-linux-x86-64.so.2" --library-path "$tools/lib" "$@"
}

# Installs packages where a command is missing; what that says is shown only if it fails.
need() { # COMMAND PACKAGE..
    command -v "$1" >/dev/null && return
    shift
    echo "installing the package${2:+s} $*" >&2
    root=
    [ "$(id -u)" -eq 0 ] || root=sudo
    said=$({ $root apt-get update -qq && DEBIAN_FRONTEND=noninteractive $root apt-get install -y -qq --no-install-recommends "$@"; } 2>&1) || {
        echo "$said"
        echo "cannot be installed: $*"
        return 1
    }
}
