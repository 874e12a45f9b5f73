# shell.sh, for tests/lab to source after commands.sh: that the commands are robust in a shell, and that runs of one clone do not disturb each
# other. Building is tried in a copy of the clone, with an `rt` that takes its time and proves nothing: what the prover says is no matter here.

short=examples/handshake/stops-short
here=$PWD
clone=$work/clone

# Lines and status are those of the recording that stops short.
judges() { # COMMAND..
    "$@" >"$work/wrote" 2>"$work/told"
    [ $? -eq 3 ] && cmp -s "$here/$short/verdicts.txt" "$work/wrote"
    same=$?
    counts "$same" "does not judge as it should: $*"
    [ "$same" -eq 0 ] || sed 's/^/    /' "$work/wrote" "$work/told"
}

names() {
    table=$here/$short/table.bin trace=$here/$short/trace.bin
    mkdir -p "$work/a b/-c" "$work/cdpath/$short" "$work/links"
    cp "$table" "$trace" "$work/a b/-c"
    cp "$table" "$work/a b/-t"
    judges env CDPATH="$work/cdpath" bin/judge "$short"
    judges env CDPATH="$work/cdpath" bin/yulbravi judge "$short/table.bin" "$short/trace.bin"
    judges bin/judge "$work/a b/-c"
    judges bin/judge "$work/a b/-c/"
    judges bin/judge "$short/table.bin" "$short/trace.bin"
    ln -s "$here/bin/yulbravi" "$work/links/judge-all"
    ln -s "$here/bin/judge" "$work/links/j"
    (
        cd "$work/a b" || exit
        judges "$here/bin/judge" -- -c
        judges "$here/bin/judge" ./-c
        judges "$here/bin/yulbravi" judge -- -t -c/trace.bin
        judges "../links/judge-all" judge ./-c
        judges ../links/j ./-c
        PATH="$work/links:$PATH" judges j ./-c
        cd ./-c && judges "$here/bin/judge"
        echo "$passed $failed" >"$work/tally"
    )
    read -r passed failed <"$work/tally"
}

standard_input_and_pipes() {
    judges sh -c "bin/judge '$short/table.bin' - <'$short/trace.bin'"
    judges sh -c "cat '$short/trace.bin' | bin/judge '$short/table.bin' -"
    judges sh -c "{ head -c 20 '$short/trace.bin'; sleep 0.3; tail -c +21 '$short/trace.bin'; } | bin/yulbravi judge '$short/table.bin' /dev/stdin"
    judges sh -c "bin/judge - '$short/trace.bin' <'$short/table.bin'"
    judges sh -c "bin/judge '$short/table.bin' /dev/fd/3 3<'$short/trace.bin'"
    judges sh -c "bin/judge '$short' <&-"
    mkfifo "$work/fifo"
    cat "$short/trace.bin" >"$work/fifo" &
    judges bin/judge "$short/table.bin" "$work/fifo"
    wait $!
    does 2 'refused 15 0\n' 'standard input' sh -c "bin/judge '$short/table.bin' - <&-"
    does 2 'refused 15 0\n' 'no such file' sh -c "bin/judge '$short/table.bin' /dev/stdin <&-"
    judges env TMPDIR="$work/none" bin/judge "$short"
}

# Names that are UTF-8, and that only some take for it; and a folder for temporary files of such a name.
other_names() { # COMMAND..
    for other in 'b\303\251' 'b\364\220\200\200' 'b\370\210\200\200\200'; do
        # shellcheck disable=SC2059
        other=$(printf "$other")
        cp "$here/$short/table.bin" "$work/$other"
        judges "$@" judge "$work/$other" "$here/$short/trace.bin"
    done
    other=$work/$(printf 't\351')
    mkdir "$other"
    judges env TMPDIR="$other" "$here/bin/yulbravi" judge "$work/$odd"
    rmdir "$other"
    counts $? 'a folder for temporary files that is no text has something left in it'
}

# A name that is no text is as good as any other, and nothing is left behind.
odd_names() {
    odd=$(printf 'na\351me')
    mkdir "$work/$odd" "$work/tmp"
    cp "$here/$short/table.bin" "$here/$short/trace.bin" "$work/$odd"
    mkfifo "$work/$odd/fifo"
    set -- env TMPDIR="$work/tmp" "$here/bin/yulbravi"
    judges "$@" judge "$work/$odd"
    judges "$@" judge "$work/$odd/table.bin" "$here/$short/trace.bin"
    judges env -C "$work" "$@" judge "$odd"
    does 2 'refused 15 0\n' "$odd/none: there is no such file" "$@" judge "$work/$odd/table.bin" "$work/$odd/none"
    other_names "$@"
    does 2 'refused 15 0\n' "$odd: this is a folder" "$@" judge "$work/$odd/table.bin" "$work/$odd"
    "$@" judge "$work/$odd/table.bin" "$work/$odd/fifo" >"$work/wrote" 2>"$work/told" &
    waiting=$!
    sleep 2
    kill -TERM "$waiting"
    { wait "$waiting"; } 2>/dev/null
    [ $? -eq 143 ] && rmdir "$work/tmp"
    counts $? 'a name that is no text leaves something behind'
}

# A command that waits for its file is ended by a signal, and leaves no process and no file. What a shell puts into the background would ignore INT.
ended_by() { # SIGNAL STATUS
    mkdir "$work/tmp"
    env --default-signal=INT,QUIT TMPDIR="$work/tmp" bin/judge "$short/table.bin" "$work/fifo" >"$work/wrote" 2>"$work/told" &
    waiting=$!
    sleep 2
    kill "-$1" "$waiting"
    { wait "$waiting"; } 2>/dev/null
    [ $? -eq "$2" ] && ! pgrep -f "$work/fifo" >/dev/null && rmdir "$work/tmp"
    counts $? "$1 leaves something behind"
    rm -rf "$work/tmp"
}

# The copy, without anything built, and its `rt`.
make_clone() {
    mkdir "$clone" "$clone/tools"
    cp -R bin share examples VERSION crates.txt "$clone"
    mkdir "$clone/crates"
    for crate in $(crates_of yulbravi); do
        mkdir "$clone/crates/$crate" && cp -R "crates/$crate/src" "$clone/crates/$crate"
    done
    cat >"$clone/tools/rt" <<END
#!/bin/sh
[ "\$1" != version ] || { echo 'a toolchain of the test'; exit; }
echo "\$*" >>"$clone/calls"
for name in little psl table; do
    echo "rt: chose --jobs 2 for \$name"
    sleep "\${RT_TAKES:-0.6}"
    echo "logic=proved functions=1"
done
[ -z "\${RT_RUNS:-}" ] || echo 'rt: running out/yulbravi; to give it other input, run that file yourself'
mkdir -p out && cp "$here/built/yulbravi" out && exit "\${RT_ENDS:-0}"
END
    chmod +x "$clone/tools/rt"
    chmod -R go+rX "$clone"
}

# A command in the copy.
there() { # COMMAND..
    RATTLE_HOME=$toolchain PATH="$clone/tools:$PATH" "$@"
}

calls() { # COUNT LABEL
    [ "$(wc -l <"$clone/calls")" -eq "$1" ]
    counts $? "$2"
}

two_at_once() {
    there env RT_TAKES=2 "$clone/bin/judge" "$short" >"$work/wrote1" 2>"$work/told1" &
    one=$!
    there env RT_TAKES=2 "$clone/bin/judge" "$short" >"$work/wrote2" 2>"$work/told2"
    two=$?
    wait "$one"
    [ $? -eq 3 ] && [ "$two" -eq 3 ] && cmp -s "$short/verdicts.txt" "$work/wrote1" && cmp -s "$short/verdicts.txt" "$work/wrote2"
    counts $? 'two runs at once'
    calls 1 'two runs at once call the prover twice'
    cat "$work/told1" "$work/told2" | grep -q 'another run is proving in this clone: waiting'
    counts $? 'a run that waits does not say so'
    cat "$work/told1" "$work/told2" | grep -q '^yulbravi: 2 of [0-9]*: psl proved'
    counts $? 'what is proved is not shown as it goes on'
}

built_once() {
    judges there "$clone/bin/judge" "$short"
    calls 1 'the prover is called though nothing has changed'
    does 0 "yulbravi $(cat VERSION)\nproved with a toolchain of the test\n" '' there "$clone/bin/yulbravi" --version
    judges env RATTLE_HOME= PATH=/usr/bin:/bin "$clone/bin/judge" "$here/$short"
    printf '\n' >>"$clone/crates/yulbravi/src/main.rt"
    there "$clone/bin/yulbravi" --version | grep -q 'the sources have changed since'
    counts $? 'an old program is said to be proved'
    does 2 '' 'the program is not proved: nothing is run' env RT_ENDS=1 RT_TAKES=0 RATTLE_HOME="$toolchain" PATH="$clone/tools:$PATH" "$clone/bin/judge" "$short"
    judges there "$clone/bin/judge" "$short"
    calls 3 'the prover is not called though a source has changed'
    rm "$clone/built/libc.so.6"
    judges there "$clone/bin/judge" "$short"
    calls 4 'what was built is not there, and the prover is not called'
    printf '\n' >>"$clone/crates/yulbravi/src/main.rt"
    judges there env RT_RUNS=yes RT_ENDS=1 "$clone/bin/judge" "$short"
}

seen_on_a_terminal() {
    printf '\n' >>"$clone/crates/yulbravi/src/main.rt"
    RATTLE_HOME=$toolchain PATH="$clone/tools:$PATH" script -qec "'$clone/bin/judge' '$short'" /dev/null </dev/null >"$work/wrote" 2>&1
    tr '\r' '\n' <"$work/wrote" | grep -q '^yulbravi: [12] of [0-9]* crates are proved, [0-9]* s'
    counts $? 'no count is shown on a terminal'
}

building_ended() {
    printf '\n' >>"$clone/crates/yulbravi/src/main.rt"
    mkdir "$work/o'tmp"
    RT_TAKES=61 RATTLE_HOME=$toolchain TMPDIR="$work/o'tmp" PATH="$clone/tools:$PATH" "$clone/bin/judge" "$short" >/dev/null 2>&1 &
    building=$!
    sleep 2
    told_at=$(date +%s)
    kill -TERM "$building"
    { wait "$building"; } 2>/dev/null
    [ $? -eq 143 ] && [ $(($(date +%s) - told_at)) -lt 20 ] && ! pgrep -f "$clone/tools/rt" >/dev/null && rmdir "$work/o'tmp"
    counts $? 'TERM while it builds does not end it, or leaves something behind'
    judges there "$clone/bin/judge" "$short"
}

# Somebody who may read the clone and not write in it: nobody, where the test is root's, else the same user without the right.
another_user() {
    other=
    [ "$(id -u)" -ne 0 ] || other='setpriv --reuid=65534 --regid=65534 --clear-groups'
    chmod -R go+rX "$clone" && chmod a-w "$clone/built"
    cp "$short/trace.bin" "$work/closed" && chmod 0 "$work/closed"
    # shellcheck disable=SC2086
    {
        judges $other env RATTLE_HOME= PATH=/usr/bin:/bin "$clone/bin/judge" "$clone/$short"
        does 2 'refused 15 0\n' 'may not be read by you' $other env RATTLE_HOME= PATH=/usr/bin:/bin "$clone/bin/judge" "$clone/$short/table.bin" "$work/closed"
        printf '\n' >>"$clone/crates/yulbravi/src/main.rt"
        does 2 '' 'no right to write' $other env RATTLE_HOME="$toolchain" PATH="$clone/tools:$PATH" "$clone/bin/judge" "$clone/$short"
    }
    chmod u+w "$clone/built"
}

# tests/run ends with this status and line, its parts being told this.
run_gives() { # STATUS LINE VARIABLE=VALUE
    there env COMPARE_TAKES=0 "$3" sh "$clone/tests/run" >"$work/wrote" 2>&1
    [ $? -eq "$1" ] && [ "$(tail -n 1 "$work/wrote")" = "$2" ]
    counts $? "tests/run does not end in '$2' with $3"
}

# tests/run shows the lines of its parts as they come, adds them up, and fails where one fails or where an edit is bad.
the_test_command() {
    mkdir "$clone/tests" && cp tests/run "$clone/tests"
    printf 'echo begun; sleep "${COMPARE_TAKES:-5}"; echo "2 passed, 0 failed"\n' >"$clone/tests/compare"
    printf 'echo "3 passed, ${BAD:-0} failed"; exit ${BAD:-0}\n' >"$clone/tests/lab"
    cat >"$clone/tools/rt" <<'END'
#!/bin/sh
[ -n "${NOT_OK:-}" ] || echo "rt: ok; handles allowed: none; must-fail edits: 3 refused${EDITS:-}; every proof and must-fail edit was done in this run"
echo "1 passed, 0 failed${TAIL:-}"
exit "${GATE_ENDS:-0}"
END
    there sh "$clone/tests/run" >"$work/wrote" 2>&1 &
    running=$!
    tries=100
    until grep -q '^begun' "$work/wrote" || [ "$((tries -= 1))" -eq 0 ]; do sleep 0.2; done
    [ "$tries" -gt 0 ] && ! grep -q '^2 passed' "$work/wrote"
    same=$?
    counts "$same" 'tests/run does not show lines as they come'
    [ "$same" -eq 0 ] || sed 's/^/    /' "$work/wrote"
    wait "$running" && [ "$(tail -n 1 "$work/wrote")" = '6 passed, 0 failed' ]
    counts $? 'tests/run does not add up its parts'
    run_gives 1 '6 passed, 1 failed' BAD=1
    run_gives 1 '6 passed, 1 failed' GATE_ENDS=2
    run_gives 1 '6 passed, 2 failed' EDITS=', 1 of them only by a limit, 2 bad'
    run_gives 0 '6 passed, 0 failed' EDITS=', 1 of them only by a limit'
    run_gives 1 '6 passed, 1 failed' NOT_OK=yes
    run_gives 0 '6 passed, 0 failed' TAIL=' (and more)'
    run_gives 1 '5 passed, 1 failed' TAIL=' and more'
}

need pgrep procps && need setpriv util-linux && need script bsdutils
counts $? 'what the tests need is missing'
names
standard_input_and_pipes
odd_names
ended_by TERM 143
ended_by INT 130
ended_by HUP 129
ended_by QUIT 143
make_clone
two_at_once
built_once
seen_on_a_terminal
building_ended
another_user
the_test_command
