# build.sh, for sh to source with `home` set to the clone's top: what the commands and hosts run is proved and put into built/.
#   build program    built/yulbravi, with the loader, the C library and, where the machine needs it, the emulator that it runs with
#   build library    built/libyulbravi.a, the exports for a host in C
# Where the sources are those that it was built from, nothing is done and no prover is called. One run builds at a time; others wait, and say so.

built=$home/built

say() { # WORD..
    printf 'yulbravi: %s\n' "$*" >&2
}

# The crates of this repository that one is made of, in the order in which rt proves them, so itself as the last.
crates_of() { # NAME
    awk -v want="$1" '
        function visit(name,    uses, i, n) {
            if (seen[name]++) return
            n = split(deps[name], uses, " ")
            for (i = 1; i <= n; i++) if (uses[i] in deps) visit(uses[i])
            print name
        }
        { sub(/#.*/, "") }
        /:/ { name = $1; sub(/:.*/, "", name); sub(/[^:]*:/, ""); deps[name] = $0 }
        END { visit(want) }' "$home/crates.txt"
}

# The crate that is built for each.
crate_for() { # program|library
    case $1 in program) echo yulbravi ;; library) echo host_c ;; esac
}

# What a crate is made of, in one line that changes with any of its sources.
sources_of() { # NAME
    for crate in $(crates_of "$1"); do
        (cd -- "$home/crates/$crate" && find src specs proofs -type f -exec sha256sum {} + 2>/dev/null | sed "s/^/$crate /")
    done | sort | sha256sum
}

# What is in built/ for each.
parts_of() { # program|library
    case $1 in program) echo yulbravi ld-linux-x86-64.so.2 libc.so.6 toolchain ;; library) echo libyulbravi.a ;; esac
}

# Whether what was built is there, and of the sources as they are.
current() { # program|library
    for part in $(parts_of "$1"); do [ -s "$built/$part" ] || return 1; done
    [ -f "$built/$1.sources" ] && [ "$(cat -- "$built/$1.sources")" = "$(sources_of "$(crate_for "$1")")" ]
}

# Holds the clone for one run at a time, on descriptor 8, until `release`.
hold() {
    mkdir -p -- "$built" 2>/dev/null
    [ -w "$built" ] || {
        say "nothing can be built here: no right to write in $built"
        return 2
    }
    exec 8>>"$built/lock"
    command -v flock >/dev/null || {
        say 'no flock on the path: it is in the package util-linux'
        return 2
    }
    flock -n 8 && return
    say 'another run is proving in this clone: waiting for it to end'
    waited=0
    until flock -w 1 8; do
        waited=$((waited + 1))
        [ ! -t 2 ] || printf '\ryulbravi: waiting, %s s \033[K' "$waited" >&2
    done
    [ ! -t 2 ] || printf '\n' >&2
}

release() {
    exec 8>&-
}

# The crates that a log of rt says are proved, a line each: the place among all, the name. Those that an earlier run proved have no line, so that places are left out.
proved_in() { # LOG CRATES
    awk -v crates="$2" '
        BEGIN { n = split(crates, names, " "); for (i = 1; i <= n; i++) place[names[i]] = i }
        /^rt: chose --jobs [0-9]+ for / { name = $NF }
        /^logic=proved / && name in place { print place[name], name }' "$1"
}

# What is seen of a proof that goes on: a count that is written over on a terminal, else a line for each crate.
show_proved() { # LOG CRATES SECONDS
    total=$(echo "$2" | wc -w)
    if [ -t 2 ]; then
        last=$(proved_in "$1" "$2" | sed -n '$s/ .*//p')
        printf '\ryulbravi: %s of %s crates are proved, %s s \033[K' "${last:-0}" "$total" "$3" >&2
        return
    fi
    fresh=$(proved_in "$1" "$2" | tail -n "+$((shown + 1))")
    [ -n "$fresh" ] || return 0
    shown=$((shown + $(echo "$fresh" | wc -l)))
    echo "$fresh" | while read -r place name; do say "$place of $total: $name proved"; done
}

# Ends by a signal, with all that was started, and leaves no folder.
stop_started() { # SIGNAL
    [ -z "$started" ] || kill -s TERM -- "-$started" 2>/dev/null
    [ -z "$started" ] || wait "$started"
    rm -rf -- "$room"
    trap - "$1"
    kill -s "$1" $$
}

# Starts a command in a folder of the clone, in a session and with a folder of its own for its output and temporary files. Programs that the prover runs as nobody have to
# get through that folder.
start() { # FOLDER COMMAND..
    started='' room=''
    for signal in HUP INT TERM; do
        # shellcheck disable=SC2064
        trap "stop_started $signal" "$signal"
    done
    trap 'stop_started TERM' QUIT
    room=$(mktemp -d) && chmod 711 "$room" && : >"$room/log" || return 2
    folder=$home/$1
    shift
    (cd -- "$folder" && TMPDIR=$room exec setsid "$@") >>"$room/log" 2>&1 </dev/null &
    started=$!
}

# Waits for what was started: its status is `ended`, and its output stays in the folder until `clear_room`.
await() {
    ended=0
    wait "$started" || ended=$?
}

clear_room() {
    rm -rf -- "$room"
    trap - HUP INT QUIT TERM
}

# Runs the prover over a crate out of sight, and shows how far it is: by `rt run`, which proves and links a program and then runs it, or `rt lib`.
prove() { # run|lib NAME
    crates=$(crates_of "$2" | tr '\n' ' ') shown=0 began=$(date +%s)
    start "crates/$2" rt "$1" || return 2
    while kill -0 "$started" 2>/dev/null; do
        sleep 0.5
        show_proved "$room/log" "$crates" $(($(date +%s) - began))
    done
    [ ! -t 2 ] || printf '\n' >&2
    await
    # How the program ends when rt runs it says nothing of the proof.
    ! grep -q "^rt: running out/$2;" "$room/log" || ended=0
    [ "$ended" -eq 0 ] || tail -n 40 -- "$room/log" >&2
    clear_room
    return "$ended"
}

# Puts a file into built/ under its name there, in one step.
keep() { # FILE NAME
    cp -- "$1" "$built/$2.new" && mv -f -- "$built/$2.new" "$built/$2"
}

keep_program() {
    keep "$tools/lib/ld-linux-x86-64.so.2" ld-linux-x86-64.so.2 && keep "$tools/lib/libc.so.6" libc.so.6 &&
        { [ -z "$emulator" ] || keep "$emulator" qemu-x86_64; } && keep "$home/crates/yulbravi/out/yulbravi" yulbravi &&
        rt version >"$built/toolchain.new" && mv -f -- "$built/toolchain.new" "$built/toolchain"
}

# The proved library, its functions under their prefixed names too: second names of the same code in the same object, so that the linker tells a host with a `check`
# of its own. Names made by the header, as an assembler label, would be that host's own `check`, without a word.
keep_library() {
    objects=$built/objects
    rm -rf -- "$objects" "$built/named.a" && mkdir -- "$objects" &&
        (cd -- "$objects" && "$tools/bin/llvm-ar" x "$home/crates/host_c/out/libhost_c.a") &&
        "$tools/bin/ld.lld" -r --defsym=yulbravi_check=check --defsym=yulbravi_judge=judge -o "$objects/yulbravi.all" "$objects"/*.o &&
        mv -- "$objects/yulbravi.all" "$objects/yulbravi.o" && "$tools/bin/llvm-ar" rcs "$built/named.a" "$objects/yulbravi.o" &&
        rm -rf -- "$objects" && mv -f -- "$built/named.a" "$built/libyulbravi.a"
}

# Builds while the clone is held.
build_held() { # program|library
    ! current "$1" || return 0
    . "$home/bin/toolchain.sh"
    build_crate=$(crate_for "$1") build_verb=run
    [ "$1" = program ] || build_verb=lib
    build_sources=$(sources_of "$build_crate")
    say "proving the $1: $(crates_of "$build_crate" | wc -l) crates, some minutes where none is proved yet"
    prove "$build_verb" "$build_crate" || {
        say "the $1 is not proved: nothing is run"
        return 2
    }
    "keep_$1" && printf '%s\n' "$build_sources" >"$built/$1.new" && mv -f -- "$built/$1.new" "$built/$1.sources"
}

# What one user builds, others of the clone may run, whatever that user's own files are like.
build() { # program|library
    ! current "$1" || return 0
    build_umask=$(umask)
    umask 022
    hold && build_held "$1"
    ended=$?
    release
    umask "$build_umask"
    [ "$ended" -eq 0 ] || return 2
}
