# commands.sh, for tests/lab to source: what `yulbravi` and `judge` write, tell and end with, on right and on wrong files and uses. Uses `counts`, `$work`, and the
# cases of tests/cases.py in "$work/cases".

cases=$work/cases

# A command ends with this status, writes just these lines, and what it tells has these words (none: it tells nothing).
does() { # STATUS LINES WORDS COMMAND..
    want=$1 words=$3
    printf '%b' "$2" >"$work/want"
    shift 3
    "$@" >"$work/wrote" 2>"$work/told"
    got=$?
    if [ -n "$words" ]; then grep -qF -- "$words" "$work/told"; else [ ! -s "$work/told" ]; fi
    [ $? -eq 0 ] && [ "$got" -eq "$want" ] && cmp -s "$work/want" "$work/wrote"
    same=$?
    counts "$same" "status $got, not $want, or other lines or words: $*"
    [ "$same" -eq 0 ] || sed 's/^/    /' "$work/wrote" "$work/told"
}

# The status that lines should have, by their words.
due() { # VERDICTS
    if grep -q '^refused' "$1"; then echo 4
    elif grep -q ' broken ' "$1"; then echo 1
    elif grep -q ' pending ' "$1"; then echo 3
    else echo 0; fi
}

every_case() {
    for dir in examples/*/*/ "$cases"/*/; do
        [ -f "$dir/verdicts.txt" ] || continue
        bin/yulbravi judge --quiet "$dir" >"$work/wrote" 2>"$work/told"
        [ $? -eq "$(due "$dir/verdicts.txt")" ] && cmp -s "$dir/verdicts.txt" "$work/wrote" && [ ! -s "$work/told" ]
        counts $? "yulbravi judge --quiet: $dir"
    done
}

statuses_are_told() {
    does 0 'cycles 6\n0 settled 6\n' '' bin/yulbravi judge "$cases/cells-6"
    does 1 'cycles 1\n0 broken 1\n' 'exit status 1: a property is broken' bin/yulbravi judge "$work/a-broken"
    does 3 'cycles 0\n0 pending 0\n' 'not a pass' bin/yulbravi judge "$work/a-pending"
    does 4 'refused 8 2\n' 'row 2: an operand of the wrong class' bin/yulbravi judge "$cases/class-wrong"
    does 4 'refused 9 3\n' 'property 3: the property'"'"'s root' bin/yulbravi judge "$cases/root-none"
    does 4 'refused 13 16381\n' 'trace.bin: cycle 16381: a sample sets a bit' bin/yulbravi judge "$cases/bit-in-cycle-16381"
    does 4 'refused 11 7\n' 'what to do: shorten it' bin/yulbravi judge "$cases/cells-7"
    for pass in class-wrong document table-of-288; do
        [ -z "$(bin/judge "$cases/$pass" >/dev/null 2>&1 && echo PASS)" ]
        counts $? "a script says PASS of $pass"
    done
}

# One property, a until b, of two signals: broken by its first cycle, pending without one.
one_property() {
    for name in a-broken a-pending; do
        mkdir "$work/$name"
        printf '\1\0\2\0\3\0\1\0\20\0\34\0\36\0\0\0\3\0\0\0\3\1\0\0\47\0\1\0\2\0' >"$work/$name/table.bin"
    done
    printf '\1\0\2\0\1\0\0\0\14\0\0\0\0\0\0\0' >"$work/a-broken/trace.bin"
    printf '\1\0\2\0\0\0\0\0\14\0\0\0' >"$work/a-pending/trace.bin"
}

# A trace of these bytes under the table of the document's example, whose trace is of 20.
trace_is() { # BYTES WORDS
    printf '%b' "$1" >"$work/a trace"
    does 4 'refused 15 0\n' "a trace: $2" bin/yulbravi judge "$cases/document/table.bin" "$work/a trace"
}

causes_of_15() {
    trace_is '' 'the trace is empty: it has no bytes'
    trace_is '\1\0\3\0\2\0\0\0\14\0\0' 'the trace is cut: it should have 12 bytes and has 11'
    trace_is '\1\0\3\0\2\0\0\0\14\0\0\0\1\0\0\0\3\0\0' 'the trace is cut: it should have 20 bytes and has 19'
    trace_is '\1\0\3\0\2\0\0\0\14\0\0\0\1\0\0\0\3\0\0\0\0' 'the trace is too long: by its header it has 20 bytes'
    trace_is '\1\0\4\0\2\0\0\0\14\0\0\0\1\0\0\0\3\0\0\0' 'the trace is of 4 signals and the table of 3'
    trace_is '\1\0\3\0\376\77\0\0\14\0\0\0' 'the trace is of 16382 cycles, and 16,381 is the most'
    trace_is '\2\0\3\0\2\0\0\0\14\0\0\0\1\0\0\0\3\0\0\0' 'this is no trace file'
    trace_is 'a recording of today, in words' 'this is no trace file'
    does 4 'refused 15 0\n' '16,381 is the most' bin/judge "$cases/cycles-50000"
}

files_that_are_not() {
    table=$cases/document/table.bin trace=$cases/document/trace.bin
    does 2 'refused 15 0\n' "$work/none: there is no such file" bin/yulbravi judge "$table" "$work/none"
    does 2 'refused 1 0\n' "$work/none: there is no such file" bin/yulbravi judge "$work/none" "$trace"
    does 2 'refused 15 0\n' 'this is a folder' bin/yulbravi judge "$table" "$work"
    does 2 'refused 1 0\n' 'this is a folder' bin/yulbravi judge "$work" "$trace"
    does 2 'refused 1 0\n' 'no such file' bin/yulbravi check "$work/none"
    does 2 'refused 15 0\n' 'no such file' bin/yulbravi judge --quiet "$table" "$work/none"
    does 2 'refused 8 2\n' 'no such file' bin/yulbravi judge "$cases/class-wrong/table.bin" "$work/none"
    mkdir "$work/no files"
    does 2 'refused 1 0\n' "$work/no files/trace.bin: there is no such file" bin/judge "$work/no files"
    does 4 'refused 3 0\n' "$trace: this is a trace, and a table is wanted here" bin/yulbravi judge "$trace" "$table"
    does 4 'refused 15 0\n' "$table: this is a table, and a trace is wanted here" bin/yulbravi judge "$table" "$table"
    does 4 'refused 1 0\n' 'this is a trace' bin/yulbravi check "$work/a-pending/trace.bin"
    : >"$work/empty"
    does 4 'refused 1 0\n' 'the table is empty' bin/yulbravi check "$work/empty"
}

a_table_alone() {
    does 0 'accepted\nsignals 3\nrows 5\nproperties 3\n' '' bin/yulbravi check "$cases/document/table.bin"
    does 0 'accepted\nsignals 32\nrows 64\nproperties 8\n' '' bin/yulbravi check "$cases/table-of-288/table.bin"
    does 4 'refused 4 0\n' 'copy it again' bin/yulbravi check "$cases/table-of-289/table.bin"
    does 4 'refused 10 5\n' '' bin/yulbravi check --quiet "$cases/used-twice/table.bin"
}

wrong_uses() {
    does 2 '' 'a verb is wanted' bin/yulbravi
    does 2 '' 'juge is none of the verbs' bin/yulbravi juge
    does 2 '' '--fast is no option' bin/yulbravi judge --fast "$cases/document"
    does 2 '' '--fast is no option' bin/yulbravi judge "$cases/document" --fast
    does 2 '' 'stands alone' bin/yulbravi --version please
    does 2 '' 'stands alone' bin/yulbravi --help judge
    does 2 '' '0 names' bin/yulbravi judge
    does 2 '' 'descriptors 5 to 9' bin/yulbravi judge examples/handshake/table.bin /dev/fd/9
    does 2 '' '3 names' bin/yulbravi judge a b c
    does 2 '' '2 names' bin/yulbravi check a b
    does 2 '' 'an empty name' bin/yulbravi judge ''
    does 2 '' 'an empty name' bin/judge ''
    does 2 '' 'an empty name' bin/yulbravi judge "$cases/document/table.bin" ''
    does 2 '' 'there is no such folder' bin/yulbravi judge "$work/none"
    does 2 '' 'is no folder' bin/yulbravi judge "$cases/document/table.bin"
    does 2 '' 'not both' bin/yulbravi judge - -
    does 2 '' 'not both' bin/yulbravi judge - /dev/stdin
}

# Writes lines, tells nothing and ends with 0.
helps() { # WORDS COMMAND..
    words=$1
    shift
    "$@" >"$work/wrote" 2>"$work/told" && grep -qF -- "$words" "$work/wrote" && [ ! -s "$work/told" ]
    counts $? "no help: $*"
}

help_and_version() {
    helps 'Exit status:' bin/yulbravi --help
    helps 'standard input' bin/yulbravi judge --help
    helps 'standard input' bin/yulbravi judge "$cases/document" --help
    helps 'whether a table is accepted' bin/yulbravi check -h
    helps 'not a pass' bin/judge --help
    helps "yulbravi $(cat VERSION)" bin/yulbravi --version
    helps "proved with $(rt version)" bin/yulbravi --version
    for command in tests/run tests/compare tests/lab bench/run share/spread examples/make examples/host/build examples/host/run bin/install; do
        helps "$command" "$command" --help
    done
}

output_that_fails() {
    for where in 'judge examples/handshake/stops-short' 'check examples/handshake/table.bin' --help --version 'judge --help'; do
        does 2 '' 'could not be written' sh -c "bin/yulbravi $where >/dev/full"
        does 2 '' 'could not be written' sh -c "bin/yulbravi $where >&-"
    done
    does 0 '2\n' 'could not be written' sh -c '{ { sleep 0.5; bin/judge examples/handshake/stops-short; echo $? >&3; } | true; } 3>&1'
    does 0 '3\n' '' sh -c '{ { bin/judge -q examples/handshake/stops-short; echo $? >&3; } | grep -q cycles; } 3>&1'
    does 0 '3\n' '' sh -c '{ { bin/judge examples/handshake/stops-short 2>&1; echo $? >&3; } | head -n 1 >/dev/null; } 3>&1'
    does 3 '' '' sh -c 'bin/yulbravi judge examples/handshake/stops-short >/dev/null 2>&-'
    does 3 '' '' sh -c 'bin/yulbravi judge examples/handshake/stops-short >/dev/null 2>/dev/full'
}

# The README shows what its first command writes, and its loop does what it says.
the_readme() {
    awk '/^judges a recording and writes$/ { on = 1; next } on && /^    / { print substr($0, 5) } on && /^[a-z]/ { exit }' README.md >"$work/want"
    sh -c "$(awk '/^    bin\/yulbravi judge .*echo/ { print; exit }' README.md)" >"$work/wrote" 2>&1
    [ -s "$work/want" ] && cmp "$work/want" "$work/wrote"
    counts $? 'the first command of the README writes something else'
    mkdir "$work/readme" "$work/readme/kit" "$work/readme/recordings"
    ln -s "$PWD/bin" "$work/readme/bin"
    cp examples/handshake/table.bin "$work/readme/kit"
    for name in stops-short too-late; do cp "examples/handshake/$name/trace.bin" "$work/readme/recordings/$name.bin"; done
    : >"$work/readme/recordings/a-cut-one.bin"
    awk '/^    all=0$/ { on = 1 } on { print substr($0, 5) } on && /^    exit/ { exit }' README.md >"$work/readme/loop"
    (cd "$work/readme" && sh -e ./loop) >"$work/wrote" 2>/dev/null
    [ $? -eq 1 ] && cmp -s examples/handshake/too-late/verdicts.txt "$work/readme/recordings/too-late.bin.verdicts"
    counts $? 'the loop of the README ends otherwise'
    printf 'recordings/%s\n' 'a-cut-one.bin: refused, not judged' 'stops-short.bin: nothing broken, something pending: not a pass' 'too-late.bin: BROKEN' |
        cmp - "$work/wrote"
    counts $? 'the loop of the README does something else'
    share/spread --check
    counts $? 'the words of README, header or manual page are not those of share/refusals.txt'
}

one_property
every_case
statuses_are_told
causes_of_15
files_that_are_not
a_table_alone
wrong_uses
help_and_version
output_that_fails
the_readme
