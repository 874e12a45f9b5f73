# install.sh, for tests/lab to source: bin/install, what it puts under a prefix, hosts in C and C++ over that, and the example host of the
# clone. Uses `counts`, `$work` and what bin/toolchain.sh has; the current directory is the repository's top.

prefix="$work/a prefix"
kits=$prefix/share/doc/yulbravi/examples
warnings='-Wall -Wextra -Wpedantic -Werror'
clone=$PWD
case $(uname -m) in
x86_64)
    c_compiler=cc c_package=gcc c_library=libc6-dev
    cxx_compiler=c++ cxx_package=g++
    ;;
*)
    c_compiler='x86_64-linux-gnu-gcc -static' c_package=gcc-x86-64-linux-gnu c_library=libc6-dev-amd64-cross
    cxx_compiler='x86_64-linux-gnu-g++ -static' cxx_package=g++-x86-64-linux-gnu
    ;;
esac

# Counts whether a command ends with this status and writes these lines to standard output, byte for byte.
install_gives() { # LABEL STATUS LINES-FILE COMMAND..
    wanted_label=$1 wanted_status=$2 wanted_lines=$3
    shift 3
    "$@" >"$work/said" 2>"$work/complaint"
    gave=$?
    [ "$gave" -eq "$wanted_status" ] && cmp -s "$wanted_lines" "$work/said"
    counts $? "$wanted_label: status $gave, $(cat "$work/said" "$work/complaint" | head -n 4)"
}

# Counts whether the last command of `install_gives` said this on standard error.
install_says() { # LABEL WORDS
    grep -qF -- "$2" "$work/complaint"
    counts $? "$1 does not say: $2"
}

# Runs a command from another directory, with no variable of the environment, without rt on the path.
install_apart() { # COMMAND..
    (cd / && $before env -i PATH=/usr/bin:/bin "$@")
}

install_full() { # COMMAND..
    "$@" >/dev/full
}

install_input() { # FILE COMMAND..
    input=$1
    shift
    "$@" <"$input"
}

install_shut() { # COMMAND..
    "$@" >&-
}

# A kit whose properties, `s0 until s1` and `next s1`, two cycles settle.
install_kit() {
    mkdir -p "$work/all settled" &&
        printf '\1\0\3\0\4\0\2\0\20\0\40\0\44\0\0\0\3\0\0\0\3\1\0\0\47\0\1\0\42\1\0\0\2\0\3\0' >"$work/all settled/table.bin" &&
        printf '\1\0\3\0\2\0\0\0\14\0\0\0\1\0\0\0\3\0\0\0' >"$work/all settled/trace.bin" &&
        printf 'cycles 2\n0 settled 2\n1 settled 2\n' >"$work/all settled/verdicts.txt"
    counts $? 'no settled kit'
    : >"$work/nothing"
    echo 'refused 1 0' >"$work/refused 1"
    echo 'refused 15 0' >"$work/refused 15"
}

# Used wrongly, or where nothing can be put: 2, told, and nothing is written to standard output.
install_not() { # WORDS WORD..
    words=$1
    shift
    install_gives "bin/install $*" 2 "$work/nothing" bin/install "$@"
    install_says "bin/install $*" "$words"
}

install_cases() {
    bin/install --help >"$work/said" && grep -q '^usage: ' "$work/said"
    counts $? 'bin/install --help'
    install_not 'one PREFIX'
    install_not 'one PREFIX' "$work/one" "$work/two"
    install_not 'empty' ''
    install_not 'no option' --prefix=/usr
    install_not 'cannot be written' /dev/null/within
    install_not 'the clone itself' "$clone"
    install_not 'pkg-config' "$work/a\$b"
    (umask 077 && bin/install "$prefix") >"$work/told"
    counts $? 'bin/install with a umask'
    [ -z "$(find "$prefix" ! -type l ! -perm -444)" ] && [ -z "$(find "$prefix" -type d ! -perm -555)" ]
    counts $? 'bin/install: closed to others'
    for line in "export PATH='$prefix/bin':" "export PKG_CONFIG_PATH='$prefix/lib/pkgconfig'" "export MANPATH='$prefix/share/man':"; do
        grep -qF "$line" "$work/told"
        counts $? "bin/install does not tell: $line"
    done
    ln -s "$clone/bin/install" "$work/by link" && (cd "$work" && CDPATH=/ './by link' 'a prefix' >/dev/null)
    counts $? 'bin/install again, by a link, CDPATH set, relative'
    [ -z "$(find "$prefix" -name '*.new.*')" ] && ! grep -rlF "$clone" "$prefix"
    counts $? 'bin/install: something half written, or of the clone'
    DESTDIR="$work/stage" bin/install /opt/yulbravi >/dev/null && [ -x "$work/stage/opt/yulbravi/bin/judge" ] &&
        grep -qx 'prefix=/opt/yulbravi' "$work/stage/opt/yulbravi/lib/pkgconfig/yulbravi.pc"
    counts $? 'bin/install with DESTDIR'
    install_gives 'bin/install >/dev/full' 2 "$work/nothing" install_full bin/install "$prefix"
    grep -qx '.so man1/yulbravi.1' "$prefix/share/man/man1/judge.1" && cmp -s docs/yulbravi.1 "$prefix/share/man/man1/yulbravi.1"
    counts $? 'the manual pages'
}

# The installed commands, without the clone; as root, by somebody else.
install_commands() {
    chmod -R go+rX "$work"
    [ "$(id -u)" -ne 0 ] || before='setpriv --reuid=65534 --regid=65534 --clear-groups'
    for pair in too-late:1 stops-short:3 unwired:4; do
        dir=$kits/handshake/${pair%:*}
        set -- "${pair#*:}" "$dir/verdicts.txt" install_apart
        install_gives "installed judge, ${pair%:*}" "$@" "$prefix/bin/judge" "$dir"
        install_gives "installed yulbravi, ${pair%:*}" "$@" "$prefix/bin/yulbravi" judge "$dir/table.bin" "$dir/trace.bin"
    done
    install_gives 'installed judge, settled' 0 "$work/all settled/verdicts.txt" install_apart "$prefix/bin/judge" "$work/all settled"
    install_gives 'installed judge, no trace' 2 "$work/refused 15" install_apart "$prefix/bin/judge" "$kits/handshake/table.bin" "$work/not there"
    install_gives 'installed judge >/dev/full' 2 "$work/nothing" install_full install_apart "$prefix/bin/judge" "$work/all settled"
    mkdir -p "$work/links" && ln -sf '../a prefix/bin/judge' "$work/links/j" && ln -sf "$prefix/bin/yulbravi" "$work/links/y"
    install_gives 'installed judge, by a link' 0 "$work/all settled/verdicts.txt" install_apart "$work/links/j" "$work/all settled"
    install_gives 'installed yulbravi, by a link' 0 "$work/all settled/verdicts.txt" install_apart "$work/links/y" judge "$work/all settled"
    install_apart "$prefix/bin/yulbravi" --version 2>&1 | grep -qF "$(cat VERSION)"
    counts $? 'installed yulbravi --version'
    before=
}

# Compiles files with the flags that pkg-config gives; a PREFIX with spaces comes with backslashes, for a shell to read again.
install_flagged() { # COMPILER-AND-STANDARD OUT FILE..
    flagged_by=$1
    shift
    flags=$(PKG_CONFIG_PATH="$prefix/lib/pkgconfig" pkg-config --cflags --libs yulbravi) &&
        eval "$flagged_by $warnings -O2 -o \"\$@\" $flags" 2>"$work/complaint"
}

# The example host on files that it judges, refuses and cannot read.
install_answers() { # HOST
    for pair in too-late:1 stops-short:3 unwired:4; do
        dir=$kits/handshake/${pair%:*}
        install_gives "$1, ${pair%:*}" "${pair#*:}" "$dir/verdicts.txt" emulated "$1" "$dir/table.bin" "$dir/trace.bin"
    done
    dir="$work/all settled"
    install_gives "$1, settled" 0 "$dir/verdicts.txt" emulated "$1" "$dir/table.bin" "$dir/trace.bin"
    install_gives "$1, a table for a trace" 4 "$work/refused 15" emulated "$1" "$dir/table.bin" "$dir/table.bin"
    install_says "$1, a table for a trace" "$dir/table.bin: this is a table, and a trace is wanted here"
    install_says "$1, a table for a trace" 'what to do: '
    install_gives "$1, a trace for a table" 4 "$work/refused 3" emulated "$1" "$dir/trace.bin" "$dir/trace.bin"
    install_says "$1, a trace for a table" 'this is a trace, and a table is wanted here'
    install_gives "$1, a trace as standard input" 0 "$dir/verdicts.txt" install_input "$dir/trace.bin" emulated "$1" "$dir/table.bin" -
    install_gives "$1, no trace" 2 "$work/refused 15" emulated "$1" "$dir/table.bin" "$work/not there"
    install_says "$1, no trace" "$work/not there: "
    install_gives "$1, no table" 2 "$work/refused 1" emulated "$1" "$work/not there" "$dir/trace.bin"
    install_gives "$1, a folder" 2 "$work/refused 15" emulated "$1" "$dir/table.bin" "$dir"
    install_gives "$1 >/dev/full" 2 "$work/nothing" install_full emulated "$1" "$dir/table.bin" "$dir/trace.bin"
    install_says "$1 >/dev/full" 'standard output could not be written'
    install_gives "$1 >&-" 2 "$work/nothing" install_shut emulated "$1" "$dir/table.bin" "$dir/trace.bin"
    install_gives "$1, one file" 2 "$work/nothing" emulated "$1" "$dir/table.bin"
    install_gives "$1, an empty name" 2 "$work/nothing" emulated "$1" '' "$dir/trace.bin"
}

# A host with functions of its own under the plain names, each kept by a pointer: LINKAGE says whether other files see them.
install_own() { # LINKAGE
    cat <<END
#define YULBRAVI_PREFIXED_ONLY
#include <stdio.h>
#include "yulbravi.h"
$1 uint64_t check(const uint8_t *bytes, size_t length);
$1 uint64_t check(const uint8_t *bytes, size_t length) { return bytes[0] + length; }
$1 uint64_t judge(const uint8_t *bytes, size_t length);
$1 uint64_t judge(const uint8_t *bytes, size_t length) { return bytes[0] * length; }
int main(void)
{
    static uint64_t (*volatile const own[])(const uint8_t *, size_t) = {check, judge};
    const uint8_t bytes[] = {5, 6};
    printf("%u %u\n", (unsigned)own[0](bytes, 2), (unsigned)own[1](bytes, 2));
    printf("%u", yulbravi_number(yulbravi_check(bytes, 2)));
    printf(" %u\n", yulbravi_number(yulbravi_judge(bytes, 2, bytes, 2, 0)));
    return 0;
}
END
}

# A second file of a host, in C and C++.
install_second() {
    cat <<'END'
#include "yulbravi.h"
#ifdef __cplusplus
extern "C"
#endif
uint64_t second(void);
uint64_t second(void) { return yulbravi_check((const uint8_t *)"", 0) + check((const uint8_t *)"", 0); }
END
}

# A host and a shared library that calls a `check` of its own keep apart. Where hosts are built static there is none.
install_shared() {
    [ "$c_compiler" = cc ] || return 0
    cat >"$work/hosts/shared.c" <<'END'
int check(void), ask(void);
int check(void) { return 5; }
int ask(void) { return check(); }
END
    cat >"$work/hosts/asks.c" <<'END'
#define YULBRAVI_PREFIXED_ONLY
#include <stdio.h>
#include "yulbravi.h"
int ask(void);
int main(void) { return printf("%u %d\n", yulbravi_number(yulbravi_check((const uint8_t *)"", 0)), ask()) < 0; }
END
    echo '1 5' >"$work/own"
    cc -shared -fPIC -o "$work/hosts/libshared.so" "$work/hosts/shared.c" &&
        install_flagged 'cc -std=c99' "$work/hosts/asks" "$work/hosts/asks.c" "$work/hosts/libshared.so"
    install_gives 'a shared library with a check of its own' 0 "$work/own" "$work/hosts/asks"
}

install_hosts() {
    need pkg-config pkg-config && need "${c_compiler% *}" "$c_package" "$c_library"
    counts $? 'no compiler for C, or no pkg-config'
    need "${cxx_compiler% *}" "$cxx_package"
    counts $? 'no compiler for C++'
    echo 'refused 3 0' >"$work/refused 3"
    mkdir -p "$work/hosts" && install_second >"$work/hosts/second.c" && install_own static >"$work/hosts/static.c" && install_own extern >"$work/hosts/extern.c"
    install_flagged "$c_compiler -std=c99" "$work/hosts/as C99" "$kits/host/main.c"
    counts $? "the host as C99: $(cat "$work/complaint")"
    install_flagged "$cxx_compiler -std=c++11 -x c++" "$work/hosts/as C++11" "$kits/host/main.c" "$work/hosts/second.c"
    counts $? "the host as C++11, of two files: $(cat "$work/complaint")"
    install_flagged "$c_compiler -std=c99 -DYULBRAVI_PREFIXED_ONLY" "$work/hosts/prefixed" "$kits/host/main.c"
    counts $? "the host by prefixed names only: $(cat "$work/complaint")"
    install_flagged "$c_compiler -std=c99" "$work/hosts/two files" "$kits/host/main.c" "$work/hosts/second.c"
    counts $? "the host of two files: $(cat "$work/complaint")"
    for host in 'as C99' 'as C++11' prefixed 'two files'; do install_answers "$work/hosts/$host"; done
    printf '7 10\n1 1\n' >"$work/own"
    for by in "$c_compiler -std=c99" "$cxx_compiler -std=c++11 -x c++"; do
        install_flagged "$by" "$work/hosts/static" "$work/hosts/static.c"
        install_gives "own static functions, $by" 0 "$work/own" emulated "$work/hosts/static"
    done
    ! install_flagged "$c_compiler -std=c99" "$work/hosts/extern" "$work/hosts/extern.c" && grep -q 'multiple definition\|duplicate symbol' "$work/complaint"
    counts $? "own functions that other files see are not told: $(cat "$work/complaint")"
    install_shared
}

# Runs a command with an rt on the path that only fails, so that nothing can be proved, and with CDPATH set.
install_unproved() { # COMMAND..
    PATH="$work/fails:$PATH" RATTLE_HOME="$toolchain" CDPATH=/ "$@"
}

# examples/host/build and run in the clone.
install_clone() {
    mkdir -p "$work/fails" "$work/copy" "$work/edited" && printf '#!/bin/sh\necho rt was called >&2\nexit 1\n' >"$work/fails/rt" && chmod 755 "$work/fails/rt"
    sed 's/"cycles %u/"rounds %u/' examples/host/main.c >"$work/edited/main.c"
    dir=examples/handshake/stops-short
    sed 's/cycles/rounds/' "$dir/verdicts.txt" >"$work/edited/verdicts.txt"
    install_gives 'host/run' 3 "$dir/verdicts.txt" examples/host/run "$dir/table.bin" "$dir/trace.bin"
    install_gives 'host/run, nothing proved' 3 "$dir/verdicts.txt" install_unproved examples/host/run "$dir/table.bin" "$dir/trace.bin"
    (cd "$work" && install_unproved "$clone/examples/host/build" -- '-a folder' edited/main.c)
    counts $? 'host/build of an edited C file, nothing proved'
    install_gives 'an edited host' 3 "$work/edited/verdicts.txt" emulated "$work/-a folder/main" "$dir/table.bin" "$dir/trace.bin"
    echo '#error so' >"$work/edited/bad.c"
    for wrong in '--no' "$work/edited/nothing.c" "$work/edited/bad.c" "$work/edited/verdicts.txt"; do
        install_gives "host/build $wrong" 2 "$work/nothing" examples/host/build "$work/never" "$wrong"
    done
    [ -z "$(ls -A "$work/never" 2>/dev/null)" ] && [ "$(ls -A "$work/-a folder")" = main ]
    counts $? 'host/build leaves something behind'
    install_gives 'host/build, an option' 2 "$work/nothing" examples/host/build --no
    install_gives 'host/build, no OUT' 2 "$work/nothing" examples/host/build ''
    install_gives 'host/run, one file' 2 "$work/nothing" examples/host/run "$dir/table.bin"
    install_gives 'host/run, an empty name' 2 "$work/nothing" examples/host/run "$dir/table.bin" ''
    for script in build run; do
        "examples/host/$script" --help >"$work/said" && grep -q '^usage: ' "$work/said"
        counts $? "host/$script --help"
    done
}

# A copy of the example host's part of the clone, whose library is always current: what `run` keeps is built anew after each edit.
install_edits() {
    mkdir -p "$work/copy/bin" "$work/copy/examples" "$work/copy/built" && cp -R include "$work/copy" && cp -R examples/host "$work/copy/examples" &&
        cp bin/toolchain.sh "$work/copy/bin" && cp built/libyulbravi.a "$work/copy/built" && echo 'build() { :; }' >"$work/copy/bin/build.sh"
    counts $? 'no copy of the example host'
    dir=examples/handshake/stops-short
    ln -s "$work/copy/examples/host/run" "$work/run by link"
    set -- "$work/run by link" "$dir/table.bin" "$dir/trace.bin"
    install_gives 'a copy of host/run' 3 "$dir/verdicts.txt" "$@"
    cp "$work/edited/main.c" "$work/copy/examples/host/main.c"
    install_gives 'host/run, main.c edited' 3 "$work/edited/verdicts.txt" "$@"
    sed -i 's/YULBRAVI_EXIT_PENDING = 3/YULBRAVI_EXIT_PENDING = 7/' "$work/copy/include/yulbravi.h"
    install_gives 'host/run, header edited' 7 "$work/edited/verdicts.txt" "$@"
    cp examples/host/main.c "$work/copy/examples/host/main.c" && cp include/yulbravi.h "$work/copy/include/yulbravi.h"
    install_gives 'host/run, as before' 3 "$dir/verdicts.txt" "$@"
    echo 'no library' >"$work/copy/built/libyulbravi.a"
    install_gives 'host/run, library spoiled' 2 "$work/nothing" "$@"
}

install_kit
install_cases
install_commands
install_hosts
install_clone
install_edits
