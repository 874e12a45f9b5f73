# kits.sh, for tests/lab to source at the repository's top: examples/make on kits that are right, on listings with each kind of mistake,
# and used wrongly. Needs python3, the function `counts STATUS LABEL` and the folder $work. Names here begin with kits_.
# shellcheck shell=sh disable=SC2154,SC2016 # $work is tests/lab's; a $ in quotes is sed's last line

kits_kit=$work/kit
kits_trace=acknowledged/trace.txt

# A copy of the kit handshake: listings and verdicts alone.
kits_bare() {
    rm -rf "$kits_kit"
    cp -R examples/handshake "$kits_kit"
    rm -f "$kits_kit"/*.bin "$kits_kit"/*/*.bin
}

kits_run() { # WORD..
    examples/make "$@" >"$work/kits.out" 2>"$work/kits.err"
    kits_status=$?
}

# Counts a case by the last run: its status, and a line of standard output or of standard error that begins so.
kits_case() { # LABEL STATUS STREAM TEXT
    [ "$kits_status" -eq "$2" ] && kits_line "$3" "$4"
    kits_seen=$?
    counts "$kits_seen" "examples/make: $1: status $kits_status, not $2, or not told: $4"
    [ "$kits_seen" -eq 0 ] || cat "$work/kits.out" "$work/kits.err"
}

kits_line() { # STREAM TEXT
    while IFS= read -r kits_read; do
        case $kits_read in
        "$2"*) return 0 ;;
        esac
    done <"$work/kits.$1"
    return 1
}

# Every file and link of the kit, so that two moments can be compared.
kits_now() {
    (cd "$kits_kit" && find . -type f -exec cksum {} + && find . -type l -exec ls -l {} +) | sort
}

# The kit, as it is, is told to have so many mistakes, one of them there and beginning so, and nothing is written.
kits_wrong() { # MISTAKES FILE LINE TEXT
    kits_now >"$work/kits.before"
    kits_run "$kits_kit"
    kits_case "$2:$3" 1 err "$kits_kit/$2:$3: $4"
    kits_case "$2:$3, mistakes" 1 err "make: kit: $1 mistake"
    [ ! -s "$work/kits.out" ] && kits_now | diff "$work/kits.before" -
    counts $? "examples/make: something is made or said of a kit with a mistake in $2:$3"
}

# So with a listing that is right but for one edit.
kits_edit() { # MISTAKES FILE LINE TEXT SED-COMMAND
    kits_bare
    sed -i "$5" "$kits_kit/$2"
    kits_wrong "$1" "$2" "$3" "$4"
}

# A listing that is right but for an edit that is a note: told, and made.
kits_note() { # FILE LINE TEXT SED-COMMAND
    kits_bare
    sed -i "$4" "$kits_kit/$1"
    kits_run "$kits_kit"
    kits_case "$4" 0 err "$kits_kit/$1:$2: note: $3"
    kits_case "$4, made" 0 out 'kit: table.bin, and trace.bin in 6 folders'
}

# Edits that are as good as none.
kits_same() { # FILE SED-COMMAND
    kits_bare
    sed -i "$2" "$kits_kit/$1"
    kits_run "$kits_kit"
    kits_case "$2" 0 out 'kit: table.bin, and trace.bin in 6 folders'
    cmp -s "$kits_kit/table.bin" examples/handshake/table.bin && [ ! -s "$work/kits.err" ]
    counts $? "examples/make: $2 in $1 changes the bytes, or is told"
}

# What the bytes say and what the words say.
kits_words() {
    kits_edit 1 table.txt 36 "the bytes say 'req until ack', the words say 'req until rst'" '36s/ack/rst/'
    kits_edit 1 table.txt 24 "the bytes say '!req', the words say '!rst'" '24,53s/!req/!rst/g'
    kits_edit 1 table.txt 24 "the bytes say '!req', no words stand beside them" '24s/!req//'
    kits_edit 1 table.txt 14 "the bytes say '26 rows', the words say '27 rows'" '14s/26/27/'
    kits_edit 1 table.txt 53 "the bytes say 'never {!ack ; (ack & !req)}', the words say 'never'" '53s/ {.*//'
    kits_edit 1 "$kits_trace" 17 "the bytes say 'req', the words say 'ack'" '17s/02/01/'
    kits_edit 1 table.txt 39 'the bytes say row 18, the words say row 19' '39s/18/19/'
    kits_edit 1 table.txt 55 'the bytes say property 3, the words say property 8' '55s/3/8/'
    kits_edit 1 "$kits_trace" 15 'the bytes say cycle 5, the words say cycle 6' '15s/5/6/; 16s/6/7/; 17s/7/8/; 18s/8/9/; 19s/9/10/; 20s/10/11/'
}

# A line that is mistyped is told, never passed over.
kits_typos() {
    kits_edit 1 table.txt 32 'lower-case digits: write 0A' '32s/0A/0a/'
    kits_edit 1 table.txt 34 'lower-case digits: write 0C 0B' '34s/0C 0B/0c 0b/'
    kits_edit 1 table.txt 24 'a tab in column 6: write spaces' '24s/   3  04/   3 \t04/'
    kits_edit 1 table.txt 3 'a tab in column 9: write spaces' '3s/ /\t/2'
    kits_edit 1 "$kits_trace" 14 'a tab in column 5: write spaces' '14s/  /\t/2'
    kits_edit 1 table.txt 25 "'0G' is no byte" '25s/04 01/04 0G/'
    kits_edit 1 table.txt 25 "'001' is no byte" '25s/ 01/ 001/'
    kits_edit 1 table.txt 25 "'04010000' is no byte" '25s/04 01 00 00/04010000/'
    kits_edit 1 table.txt 12 "'O1' is no byte" '12s/01/O1/'
    kits_edit 1 table.txt 25 'one space between the number and the bytes' '25s/4  04/4 04/'
    kits_edit 1 table.txt 33 'one space between the number and the bytes' '33s/12  10/12 10/'
    kits_edit 2 table.txt 24 'one space between the number and the bytes' '24s/.*/   3 04 0G 00 00  !req/'
    kits_edit 1 table.txt 25 'one space between the bytes and the words' '25s/00  !ack/00 !ack/'
    kits_edit 1 table.txt 12 'one space between the bytes and the words' '12s/00  */00 /'
    kits_edit 1 table.txt 25 'no number before the bytes' '25s/ 4 /   /'
    kits_edit 1 table.txt 49 "'O' is no number" '49s/0/O/'
    kits_edit 1 "$kits_trace" 12 "'2.' is no number" '12s/2/2./'
    kits_edit 1 table.txt 25 'a row has 4 bytes, here are 3' '25s/00 00/00/'
    kits_edit 1 table.txt 25 'a row has 4 bytes, here are 5' '25s/00 00/00 00 00/'
    kits_edit 1 table.txt 55 'a property has 2 bytes, here are 1' '55s/15 00/15/'
    kits_edit 1 "$kits_trace" 12 'a sample has 4 bytes, here are 5' '12s/00 00/00 00 00/'
    kits_edit 1 table.txt 13 "'N signals' has 2 bytes, here are 3" '13s/03 00/03 00 00/'
}

# Bytes that are not UTF-8 are told with line and column, and the other mistakes as well.
kits_utf8() {
    kits_edit 1 table.txt 27 'not UTF-8: byte E9 in column 65' '27s/in the/\xE9n the/'
    kits_edit 1 table.txt 3 'not UTF-8: byte FF in column 4' '3s/./\xC3\xA9/; 3s/ma/m\xFF/'
    kits_edit 3 table.txt 36 'the bytes say' '3s/m/\xE9/; 27s/in the/\xE9n the/; 36s/ack/rst/'
    kits_same table.txt '3s/master/m\xC3\xA9ster/; 27s/in the/\xC3\xA9n the/; s/$/\r/'
}

# What may stand below a heading beside bytes, and what may not.
kits_free_text() {
    kits_same table.txt '20a\   # the signals'
    kits_same table.txt '58a\     and nothing else, as in 0A FF.\n\n        A further line.'
    kits_same table.txt '21s/$/ # remark/; 7s/the master asks/who asks  1 or 2  times/; 20s/$/  /'
    kits_same "$kits_trace" '1i\0 requests, and 1 more'
    kits_edit 1 table.txt 23 "'rst is the reset' is neither a row nor a remark" '22a\       rst is the reset'
    kits_edit 1 table.txt 47 "'The end.' is neither a row nor a remark" '47i\The end.'
    kits_edit 1 table.txt 50 "'An acknowledge comes" '50s/^   //'
    kits_edit 1 table.txt 50 "'An  acknowledge comes" '50s/An/An /'
    kits_edit 1 table.txt 49 "'Of requests and resets' is neither a property nor a remark" '48a\     Of requests and resets'
    kits_edit 5 table.txt 50 'no number before the bytes' '50s/.*/     14 00/'
    kits_edit 1 "$kits_trace" 21 "'The recording ends.' is neither a sample nor a remark" '$a\The recording ends.'
    kits_edit 1 table.txt 5 'bytes before the first heading' '4a\   3  04 00 00 00  !req'
}

kits_headings() {
    kits_edit 1 table.txt 20 "'Row' is no heading: write 'Rows'" '20s/Rows/Row/'
    kits_edit 1 table.txt 6 "'signals:' is no heading: write 'Signals'" '6s/Signals/signals:/'
    kits_edit 1 table.txt 48 "' Properties' is no heading: write 'Properties'" '48s/P/ P/'
    kits_edit 1 "$kits_trace" 10 "'Sampels' is no heading: write 'Samples'" '10s/les/els/'
    kits_edit 1 table.txt 33 "the heading 'Rows' stands in line 20 already" '32a\Rows'
    kits_edit 1 table.txt 16 "the heading 'Signals' belongs before 'Header' (line 7)" '6,9{H;d}; 18{G}'
    kits_edit 1 "$kits_trace" 4 "a trace has no heading 'Signals', it has Header, Samples" '3a\Signals\n  0  req'
    kits_edit 1 table.txt 7 "the heading 'Signals' is missing before this line" '6,9d'
    kits_edit 1 "$kits_trace" 9 "the heading 'Samples' is missing" '10,$d'
}

# Names, and the header against the lines below it.
kits_header() {
    kits_edit 1 table.txt 8 'signal 0 is named in line 7 already' '8s/1/0/'
    kits_edit 1 table.txt 9 "the name 'ack' is given in line 8 already" '9s/rst/ack/'
    kits_edit 2 table.txt 10 'signal 3 is not below 3, the signals in the header (line 14)' '9a\  3  irq  an interrupt'
    kits_edit 1 table.txt 8 'one space between the number and the name' '8s/1  ack/1 ack/'
    kits_edit 1 table.txt 8 "one space after the name 'ack'" '8s/ack  /ack /'
    kits_edit 1 table.txt 8 "'one  ack  the slave answers' is neither a signal nor a remark" '8s/1/one/'
    kits_edit 1 table.txt 20 'here are 26 rows, the header says 27 (line 14)' '14s/1A/1B/; 14s/26/27/'
    kits_edit 1 table.txt 48 'here are 5 properties, the header says 4 (line 15)' '15s/05/04/; 15s/5/4/'
    kits_edit 1 "$kits_trace" 10 'here are 10 samples, the header says 11 (line 7)' '7s/0A/0B/; 7s/10/11/'
    kits_edit 1 "$kits_trace" 10 'here are 9 samples, the header says 10 (line 7)' '20d'
    kits_edit 3 table.txt 20 'here are 27 rows, the header says 26 (line 14)' '46a\  26  03 00 00 00  req'
    kits_edit 3 table.txt 17 "the header says 'property rows from byte 120', the lines of this listing make it 'property rows from byte 124'" \
        '46a\  26  03 00 00 00  req'
    kits_edit 1 table.txt 18 "the header says '131 bytes in all', the lines of this listing make it '130 bytes in all'" '18s/82/83/; 18s/130/131/'
    kits_edit 1 "$kits_trace" 8 "the header says 'samples from byte 16', the lines of this listing make it 'samples from byte 12'" '8s/0C/10/; 8s/12/16/'
    kits_edit 1 table.txt 11 'the header has 7 lines, here are 6: version N, N signals' '14d'
    kits_edit 1 "$kits_trace" 6 "the header says 4 signals, the table has 3 ($kits_kit/table.txt:13)" '6s/03/04/; 6s/3/4/'
}

kits_empty() {
    kits_bare
    : >"$kits_kit/$kits_trace"
    kits_wrong 1 "$kits_trace" 1 'the listing is empty'
    printf '\n  \n' >"$kits_kit/$kits_trace"
    kits_wrong 1 "$kits_trace" 1 'the listing is empty'
    echo 'Words alone.' >"$kits_kit/$kits_trace"
    kits_wrong 1 "$kits_trace" 1 'no heading: a trace has Header, Samples'
    kits_bare
    : >"$kits_kit/table.txt"
    kits_wrong 1 table.txt 1 'the listing is empty'
}

# What the judge refuses is told, and made; where the verdicts say so, it is not even told.
kits_refusals() {
    kits_note table.txt 24 'kind 77 is none of the list in docs/RULES.md: the judge refuses this with 5' \
        '24s/04 00 00 00  !req/4D 00 00 00  kind 77/; 33,35s/!req/{kind 77}/; 49s/!req/{kind 77}/; 39,41s/!req/kind 77/; 53s/!req/kind 77/'
    kits_note table.txt 46 'kind 48, next!, is strong: the judge refuses this with 6' '46s/20 18 00 00  .*/30 00 00 00  kind 48/; 57s/weak.*/kind 48/'
    kits_note table.txt 36 'row 99 does not stand above row 15: the judge refuses this with 7' \
        '36s/01/63/; 36,38s/until ack/until row 99/; 51s/until ack/until row 99/'
    kits_note table.txt 23 "signal 7 is not below the header's 3 signals: the judge refuses this with 7" \
        '23s/02/07/; 23,46s/rst/signal 7/g; 57s/rst/signal 7/g'
    kits_note table.txt 26 'kind 4 does not use field b, and it is not 0: the judge refuses this with 7' '26s/02 00/02 01/'
    kits_note table.txt 57 'row 99 is none of the table'\''s: the judge refuses this with 9' '57s/19 00  .*/63 00  row 99/'
    kits_note table.txt 12 'the version is not 1: the judge refuses this with 2' '12s/01/02/; 12s/1$/2/'
    kits_note "$kits_trace" 13 'bit 5 is no signal of the table: the judge refuses this with 13' '13s/00 00 00 00  -/20 00 00 00  bit 5/'
    kits_bare
    sed -i '6s/03/04/; 6s/3/4/' "$kits_kit/$kits_trace"
    echo 'refused 15 0' >"$kits_kit/acknowledged/verdicts.txt"
    kits_run "$kits_kit"
    kits_case 'a trace of another number of signals that is meant' 0 out 'kit: table.bin, and trace.bin in 6 folders'
}

# A signal may go without a name: it is said by its number.
kits_nameless() {
    kits_bare
    sed -i '9d; 23,57s/rst/signal 2/g' "$kits_kit/table.txt"
    for kits_listing in "$kits_kit"/*/trace.txt; do
        sed -i 's/  rst$/  bit 2/' "$kits_listing"
    done
    kits_run "$kits_kit"
    kits_case 'a signal without a name' 0 out 'kit: table.bin, and trace.bin in 6 folders'
    cmp "$kits_kit/table.bin" examples/handshake/table.bin
    counts $? 'examples/make: a signal without a name changes the bytes'
}

# All mistakes of all listings in one round, by file and line.
kits_round() {
    kits_bare
    sed -i '36s/ack/rst/; 24s/04/4/; 42s/!ack/ack/' "$kits_kit/table.txt"
    sed -i '20s/ack/rst/; 5s/01/01 0f/' "$kits_kit/$kits_trace"
    kits_wrong 6 table.txt 24 "'4' is no byte"
    sed 's/: .*//' "$work/kits.err" >"$work/kits.places"
    printf '%s\n' "$kits_kit/$kits_trace:5" "$kits_kit/$kits_trace:5" "$kits_kit/$kits_trace:20" \
        "$kits_kit/table.txt:24" "$kits_kit/table.txt:36" "$kits_kit/table.txt:42" make | diff - "$work/kits.places"
    counts $? 'examples/make: mistakes are not told by file and line'
}

# What is made can be judged as it is, and is all that is there.
kits_made() {
    kits_bare
    kits_run "$kits_kit"
    kits_case 'a kit' 0 out 'kit: table.bin, and trace.bin in 6 folders'
    kits_case 'a kit, how to go on' 0 out 'judge one: bin/judge '
    diff -r examples/handshake "$kits_kit" && [ "$(readlink "$kits_kit/stray/table.bin")" = ../table.bin ] && [ ! -s "$work/kits.err" ]
    counts $? 'examples/make: a kit made from its listings is not as the example'
    bin/judge "$kits_kit/stops-short" 2>/dev/null | diff "$kits_kit/stops-short/verdicts.txt" -
    counts $? 'bin/judge of a folder that examples/make made'
    kits_now >"$work/kits.before"
    kits_run "$kits_kit"
    kits_case 'a kit again' 0 out 'kit: table.bin, and trace.bin in 6 folders'
    kits_now | diff "$work/kits.before" -
    counts $? 'examples/make: made again, a kit is another'
    rm -rf "${kits_kit:?}"/*/
    kits_run "$kits_kit"
    kits_case 'a kit without recordings' 0 out 'kit: table.bin; no folder in it has a trace.txt'
}

kits_links() {
    kits_bare
    ln -s nowhere "$kits_kit/stray/table.bin"
    cp examples/handshake/table.bin "$kits_kit/too-late/table.bin"
    kits_run "$kits_kit"
    kits_case 'a link that dangles, and a copy' 0 out 'kit: table.bin'
    [ "$(readlink "$kits_kit/stray/table.bin")" = ../table.bin ] && [ ! -L "$kits_kit/too-late/table.bin" ]
    counts $? 'examples/make: a link that dangles is not mended, or a copy is not left'
    kits_bare
    cp examples/grant/table.bin "$kits_kit/stray/table.bin"
    kits_now >"$work/kits.before"
    kits_run "$kits_kit"
    kits_case 'the table of another kit in a folder' 1 err "$kits_kit/stray/table.bin: is not the table of the kit, and is left"
    kits_now | diff "$work/kits.before" -
    counts $? 'examples/make: the table of another kit is not left'
}

kits_checked() {
    kits_run --check
    for kits_each in burst:5 grant:5 handshake:6; do
        kits_case 'the examples' 0 out "${kits_each%:*}: table.bin, and trace.bin in ${kits_each#*:} folders, are as their listings say"
    done
    ! kits_line out 'judge one'
    counts $? 'examples/make --check says how to go on'
    kits_bare
    kits_now >"$work/kits.before"
    kits_run --check "$kits_kit"
    kits_case '--check without files' 1 err "$kits_kit/table.bin: is not there"
    kits_case '--check without links' 1 err "$kits_kit/stray/table.bin: is not there, a link to ../table.bin"
    kits_now | diff "$work/kits.before" -
    counts $? 'examples/make --check writes'
    kits_run "$kits_kit"
    sed -i 's/\x1A/\x1B/' "$kits_kit/table.bin"
    kits_run "$kits_kit" --check
    kits_case '--check of other bytes' 1 err "$kits_kit/table.bin: has not the bytes of its listing"
    sed -i '17s/02 00 00 00  ack/01 00 00 00  ack/' "$kits_kit/$kits_trace"
    kits_run --check "$kits_kit"
    kits_case '--check of a listing' 1 err "$kits_kit/$kits_trace:17: the bytes say 'req', the words say 'ack'"
    kits_case '--check of a listing, mistakes' 1 err 'make: kit: 1 mistake'
}

# Not run: status 2, told, and the rest is done.
kits_not_run() {
    kits_run --chek
    kits_case 'an unknown option' 2 err 'make: there is no option --chek'
    kits_run -- --check
    kits_case 'a folder that is named as an option and is not there' 2 err 'make: --check: no such folder'
    kits_run ''
    kits_case 'an empty name' 2 err 'make: an empty name is no folder'
    kits_run "$work/nowhere"
    kits_case 'no folder' 2 err "make: $work/nowhere: no such folder"
    kits_run examples/handshake/table.txt
    kits_case 'a file' 2 err 'make: examples/handshake/table.txt: is no folder'
    kits_run examples
    kits_case 'a folder without a listing' 2 err 'make: examples: no table.txt in this folder'
    kits_bare
    kits_run "$work/nowhere" "$kits_kit"
    kits_case 'no folder, and a kit' 2 out 'kit: table.bin, and trace.bin in 6 folders'
    rm "$kits_kit/$kits_trace"
    ln -s nowhere "$kits_kit/$kits_trace"
    kits_run "$kits_kit"
    kits_case 'a listing that dangles' 2 err "make: $kits_kit/$kits_trace: No such file or directory"
    kits_bare
    mkdir "$kits_kit/stray/trace.bin"
    kits_now >"$work/kits.before"
    kits_run "$kits_kit"
    kits_case 'a folder in place of a file' 2 err "make: $kits_kit/stray/trace.bin: Is a directory"
    kits_now | diff "$work/kits.before" -
    counts $? 'examples/make: half a kit is written'
    rmdir "$kits_kit/stray/trace.bin"
    kits_now >"$work/kits.before"
    (ulimit -f 0 && examples/make "$kits_kit" 2>&1) | grep -F "make: $kits_kit/table.bin: File too large" >/dev/null && kits_now | diff "$work/kits.before" -
    counts $? 'examples/make: something is left behind where there is no room'
}

kits_output() {
    for kits_word in --check --help; do
        examples/make "$kits_word" >/dev/full 2>"$work/kits.err"
        kits_status=$?
        kits_case "$kits_word to a full device" 2 err 'make: standard output: No space left on device'
        examples/make "$kits_word" >&- 2>"$work/kits.err"
        kits_status=$?
        kits_case "$kits_word to nowhere" 2 err 'make: standard output: Bad file descriptor'
    done
    for kits_word in --help -h; do
        kits_run "$kits_word"
        kits_case "$kits_word" 0 out 'examples/make [--check] [--] [KIT..]: makes'
        kits_case "$kits_word, an example" 0 out '  bin/judge examples/handshake/stops-short'
    done
}

# Names of any kind, from any directory; no argument: every kit beside the script.
kits_names() {
    kits_bare
    mkdir "$work/kits of mine"
    mv "$kits_kit" "$work/kits of mine/-a kit"
    kits_make=$PWD/examples/make
    for kits_word in '-a kit' '-a kit/' './-a kit' "$work/kits of mine/-a kit/"; do
        (cd "$work/kits of mine" && "$kits_make" --check -- "$kits_word") >"$work/kits.out" 2>"$work/kits.err"
        kits_status=$?
        kits_case "$kits_word without files" 1 err 'make: -a kit: 13 mistakes'
    done
    (cd "$work/kits of mine/-a kit" && CDPATH=$PWD "$kits_make" . && rm table.bin && cd .. && "$kits_make" -- '-a kit/') >"$work/kits.out" 2>"$work/kits.err"
    kits_status=$?
    kits_case 'a name with a dash and spaces' 0 out '-a kit: table.bin, and trace.bin in 6 folders'
    kits_line out "judge one: " && grep -q " './-a kit/acknowledged'$" "$work/kits.out"
    counts $? 'examples/make: how to go on with a name with a dash and spaces'
    cp -R examples "$work/kits of mine/own"
    rm "$work/kits of mine/own/grant/table.bin" "$work/kits of mine/own/grant/fair/table.bin"
    ln -s 'kits of mine/own/make' "$work/kits.link"
    (cd / && "$work/kits.link") >"$work/kits.out" 2>"$work/kits.err"
    kits_status=$?
    kits_case 'every kit beside the script, through a link' 0 out 'grant: table.bin, and trace.bin in 5 folders'
    diff -r examples "$work/kits of mine/own" && [ -z "$(find "$work/kits of mine/own" -type l)" ]
    counts $? 'examples/make: the kits beside the script are others or have links, or something is left behind'
    kits_bare
    sed -i '36s/ack/rst/' "$kits_kit/table.txt"
    kits_run "$kits_kit" "$work/kits of mine/own/burst"
    kits_case 'a wrong kit and a right one' 1 out 'burst: table.bin, and trace.bin in 5 folders'
    kits_case 'a wrong kit and a right one, told' 1 err "$kits_kit/table.txt:36: the bytes say"
    rm -rf "$work/kits of mine" "$work/kits.link"
}

kits_words
kits_typos
kits_utf8
kits_free_text
kits_headings
kits_header
kits_empty
kits_refusals
kits_nameless
kits_round
kits_made
kits_links
kits_checked
kits_not_run
kits_output
kits_names
