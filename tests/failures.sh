#!/usr/bin/env bash
# What goes wrong is said. Each row is a call of `tsevents` that fails, or seems to: it is made with the proved
# program, which ends with 0 unless a signal ends it, and with what is installed over it, which tells by its exit
# status. Both print the row's text on standard output and on standard error, and nothing else.
set -uo pipefail
cd "$(dirname "$0")/.." || exit 1
passed=0
failed=0
bash host/tools.sh gcc
work=$(mktemp -d)
trap 'rm -rf "$work"' EXIT

proved=$PWD/target/bin/tsevents
installed=$work/tsevents
gcc -std=c99 -Wall -Wextra -Wpedantic -Werror -O2 "-DSONGPIGEON_PROGRAM=\"$proved\"" -o "$installed" host/tsevents.c || exit 1
gcc -Wall -Wextra -Werror -O2 -shared -fPIC -o "$work/faults.so" tests/failures/faults.c -ldl || exit 1
gcc -Wall -Wextra -Werror -O2 -o "$work/nonblocking" tests/failures/nonblocking.c || exit 1

# a log of three lines with one event, and what it prints
printf '0\t-\n5\t-\n13500001\t-\n' > "$work/log"
head="time\tfault\tcause\tid\n"
event="13500000\t0009\t1\t0000\n"
export log=$work/log tools=$work

row() { # NAME STATUS STDOUT STDERR COMMAND: the command calls "$tsevents"; its own standard output is kept
    local name=$1 status=$2 out=$3 err=$4 command=$5 program got want
    printf '%b' "$out" > "$work/want-out"
    printf '%b' "$err" > "$work/want-err"
    for program in "$proved" "$installed"; do
        want=0
        [ "$program" = "$proved" ] || want=$status
        tsevents=$program timeout 20 bash -c "$command" > "$work/out" 2> "$work/err"
        got=$?
        if [ "$got" -eq "$want" ] && cmp -s "$work/out" "$work/want-out" && cmp -s "$work/err" "$work/want-err"; then
            passed=$((passed + 1))
        else
            echo "$name ($program): status $got, wanted $want; printed and said:"
            cat "$work/out" "$work/err"
            failed=$((failed + 1))
        fi
    done
}

# what is read
row "no argument: standard input" 0 "$head$event" "" '"$tsevents" < "$log"'
row "the argument -" 0 "$head$event" "" '"$tsevents" - < "$log"'
row "one argument: that file" 0 "$head$event" "" '"$tsevents" "$log" < /dev/null'
row "an empty log" 0 "$head" "" '"$tsevents" < /dev/null'
row "--help" 2 "" "usage: tsevents [FILE]\n" '"$tsevents" --help'
row "another option" 2 "" "usage: tsevents [FILE]\n" '"$tsevents" -v'
row "two arguments" 2 "" "usage: tsevents [FILE]\n" '"$tsevents" "$log" "$log"'
row "- and an argument" 2 "" "usage: tsevents [FILE]\n" '"$tsevents" - "$log" < "$log"'
row "no such file" 2 "" "tsevents: cannot open /no/such/log: No such file or directory\n" '"$tsevents" /no/such/log'
row "an empty name" 2 "" "tsevents: cannot open : No such file or directory\n" '"$tsevents" ""'
row "a name that is no text" 2 "" "tsevents: cannot open \\0377: Invalid or incomplete multibyte or wide character\n" '"$tsevents" $'"'\\377'"
row "a name too long" 2 "" "tsevents: cannot open the log: File name too long\n" '"$tsevents" "$(printf "%05000d" 0)"'
row "a file that begins with -, by its path" 0 "$head$event" "" 'cd "$tools" && cp log ./-log && "$tsevents" ./-log'

# a read that fails: the log ends there
row "a directory as standard input" 2 "$head" "tsevents: reading failed behind line 0: Is a directory\n" '"$tsevents" < /'
row "a directory as the argument" 2 "$head" "tsevents: reading failed behind line 0: Is a directory\n" '"$tsevents" /'
row "a closed standard input" 2 "$head" "tsevents: reading failed behind line 0: Bad file descriptor\n" '"$tsevents" <&-'
row "a read that fails at the end" 2 "$head$event" "tsevents: reading failed behind line 3: Input/output error\n" \
    'FAULTY_READS=+e LD_PRELOAD=$tools/faults.so "$tsevents" < "$log"'
row "a read that fails within a line" 2 "${head}line\t2\trefused\t8\n" \
    "tsevents: reading failed behind line 1: Input/output error\ntsevents: line 2 refused with 8: malformed line\n" \
    'FAULTY_READS=11111e LD_PRELOAD=$tools/faults.so "$tsevents" < "$log"'

# a line that is refused
row "a log cut short" 1 "${head}line\t2\trefused\t8\n" "tsevents: line 2 refused with 8: malformed line\n" \
    'head -c 6 "$log" | "$tsevents"'
row "a malformed line" 1 "${head}line\t2\trefused\t8\n" "tsevents: line 2 refused with 8: malformed line\n" \
    'printf "0\t-\n\n5\t-\n" | "$tsevents"'
row "a first line that opens nothing" 1 "${head}line\t1\trefused\t8\n" "tsevents: line 1 refused with 8: malformed line\n" \
    'echo hello | "$tsevents"'
row "a time too late" 1 "${head}line\t2\trefused\t4\n" "tsevents: line 2 refused with 4: time above 2^62\n" \
    'printf "0\t-\n4611686018427387905\t-\n" | "$tsevents"'
row "a time that runs backwards" 1 "$head${event}line\t4\trefused\t6\n" \
    "tsevents: line 4 refused with 6: time below the one before\n" '{ cat "$log"; printf "13500000\t-\n"; } | "$tsevents"'

# a write that fails
row "a full disk" 2 "" "tsevents: writing failed behind line 0: No space left on device\n" '"$tsevents" "$log" > /dev/full'
row "a closed standard output" 2 "" "tsevents: writing failed behind line 0: Bad file descriptor\n" '"$tsevents" < "$log" >&-'
row "a closed standard output, and a file that takes its place" 2 "" \
    "tsevents: writing failed behind line 0: Bad file descriptor\n" '"$tsevents" "$log" >&-'
row "closed standard output and error" 2 "" "" '"$tsevents" "$log" >&- 2>&-'
row "everything closed" 2 "" "" '"$tsevents" <&- >&- 2>&-'
row "closed standard input and error" 2 "$head" "" '"$tsevents" <&- 2>&-'
row "closed standard input and output" 2 "" "tsevents: writing failed behind line 0: Bad file descriptor\n" '"$tsevents" <&- >&-'
row "a closed standard error, and nothing to say" 0 "$head$event" "" '"$tsevents" "$log" 2>&-'
row "a disk that is full after the header" 2 "$head" "tsevents: writing failed behind line 0: No space left on device\n" \
    'FAULTY_WRITES=+n LD_PRELOAD=$tools/faults.so "$tsevents" < "$log"'
row "a disk that is full behind the second line" 2 "$head" \
    "tsevents: writing failed behind line 2: No space left on device\n" \
    'FAULTY_WRITES=+n LD_PRELOAD=$tools/faults.so "$tsevents" < <(head -n 2 "$log"; sleep 0.3; tail -n 1 "$log")'
row "a write that takes nothing, for no reason" 2 "$head" "tsevents: writing failed behind line 0\n" \
    'FAULTY_WRITES=+0 LD_PRELOAD=$tools/faults.so "$tsevents" < "$log"'
row "a disk that says so only at the end" 2 "$head$event" "tsevents: writing failed at the end: Input/output error\n" \
    'FAULTY_SYNC=e LD_PRELOAD=$tools/faults.so "$tsevents" < "$log"'
row "a signal that breaks the end" 0 "$head$event" "" 'FAULTY_SYNC=i LD_PRELOAD=$tools/faults.so "$tsevents" < "$log"'
row "an output that nobody reads" 2 "" "tsevents: writing failed behind line 0: Broken pipe\n" '
    { sleep 0.3; env --default-signal=PIPE "$tsevents" "$log"; } | :
    exit ${PIPESTATUS[0]}'
row "an output that nobody reads, and the signal is ignored" 2 "" "tsevents: writing failed behind line 0: Broken pipe\n" '
    { sleep 0.3; env --ignore-signal=PIPE "$tsevents" "$log"; } | :
    exit ${PIPESTATUS[0]}'

# nothing failed: it is tried again, and what is not ready is waited for
row "reads and writes that signals interrupt" 0 "$head$event" "" \
    'FAULTY_READS=iii+i FAULTY_WRITES=ii+i LD_PRELOAD=$tools/faults.so "$tsevents" < "$log"'
row "reads and writes of one byte at a time" 0 "$head$event" "" \
    'FAULTY_READS=11111111111111111111111 FAULTY_WRITES=111111111111111111111111111111 LD_PRELOAD=$tools/faults.so "$tsevents" < "$log"'
row "a read that is not ready: one wait for each try" 0 "$head$event" "" '
    rm -f "$tools/waits"
    FAULTY_READS=aaaa+aa COUNTED_WAITS=$tools/waits LD_PRELOAD=$tools/faults.so "$tsevents" < "$log" || exit $?
    [ "$(cat "$tools/waits")" = "6 waits, 0 of no time" ]'
row "a write that is not ready: one wait for each try" 0 "$head$event" "" '
    rm -f "$tools/waits"
    FAULTY_WRITES=aa+aaa1a COUNTED_WAITS=$tools/waits LD_PRELOAD=$tools/faults.so "$tsevents" < "$log" || exit $?
    [ "$(cat "$tools/waits")" = "6 waits, 0 of no time" ]'
row "an input that does not block and is slow" 0 "$head$event" "" \
    '{ sleep 0.2; head -c 7 "$log"; sleep 0.2; tail -c +8 "$log"; } | "$tools/nonblocking" 0 "$tsevents"'
row "an output that does not block and is slow" 0 "20001" "" '
    # each packet has the error bit set and gives an event: more than a pipe holds, and its reader sleeps first
    { printf "0\t-\n"; seq 20000 | awk "{ printf \"%d\t478000%0370d\n\", \$1, 0 }"; } > "$tools/long"
    "$tools/nonblocking" 1 "$tsevents" "$tools/long" | { sleep 0.3; wc -l | tr -d "\n"; }; exit ${PIPESTATUS[0]}'

row "a standard error that does not block and is full for a while" 2 "$head" "" '
    rm -f "$tools/full"; mkfifo "$tools/full"; exec 3<> "$tools/full"
    "$tools/nonblocking" 3 /bin/sh -c "head -c 1000000 /dev/zero >&3" 2> /dev/null
    { sleep 0.3; head -c 65536 <&3 > /dev/null; } &
    "$tsevents" / 2>&3; status=$?
    wait
    timeout 5 cat <&3 2> /dev/null | grep -aq "^tsevents: reading failed behind line 0" || status=9
    exit $status'
row "a parent that ignores the end of its children" 0 "$head$event" "" 'trap "" CHLD; "$tsevents" "$log"'

# a live log: what is said passes as it comes
row "an event while the log goes on" 0 "$head${event}seen before the end\n" "" '
    rm -f "$tools/live"; mkfifo "$tools/live"
    "$tsevents" < "$tools/live" > "$tools/printed" & exec 3> "$tools/live"
    cat "$log" >&3
    for k in $(seq 100); do [ "$(wc -l < "$tools/printed")" -eq 2 ] && break; sleep 0.05; done
    cat "$tools/printed"; echo "seen before the end"
    exec 3>&-; wait $!'

# ---- what is installed, by itself
note() { # STATUS WHAT
    if [ "$1" -eq 0 ]; then
        passed=$((passed + 1))
    else
        echo "failed: $2"
        failed=$((failed + 1))
    fi
}

# when it is ended, the proved program ends too
child_ends() {
    local k child= status
    mkfifo "$work/idle"
    (trap '' TERM; exec "$installed") < "$work/idle" > "$work/out" 2> "$work/err" &
    exec 4> "$work/idle"
    for k in $(seq 100); do
        read -r child < "/proc/$!/task/$!/children" && [ -s "$work/out" ] && break
        sleep 0.05
    done
    kill -KILL $!
    wait $!
    status=$?
    for k in $(seq 100); do
        kill -0 "$child" 2> /dev/null || break
        sleep 0.05
    done
    exec 4>&-
    [ -n "$child" ] && [ "$status" -eq 137 ] && ! kill -0 "$child" 2> /dev/null
}
child_ends 2> /dev/null
note $? "the installed program is killed, and the proved one goes on"

# nobody reads what is said: the log is judged all the same, and the exit status tells
mkfifo "$work/nobody"
exec 5<> "$work/nobody" 6> "$work/nobody" 5<&-
FAULTY_READS=11111e LD_PRELOAD=$work/faults.so "$installed" < "$work/log" > "$work/out" 2>&6
[ $? -eq 2 ] && printf '%b' "${head}line\t2\trefused\t8\n" | cmp -s - "$work/out"
note $? "a standard error that nobody reads"
exec 6>&-

# a limit keeps what is printed, and what is said, out of their files: the exit status tells
(ulimit -f 0 && exec "$installed" "$work/log" > "$work/out" 2> "$work/err")
[ $? -eq 2 ] && [ ! -s "$work/out" ] && [ ! -s "$work/err" ]
note $? "files that may not grow"

# over other programs in the place of the proved one
gcc -std=c99 -O2 "-DSONGPIGEON_PROGRAM=\"$work/other\"" -o "$work/over" host/tsevents.c
over() { # NAME STATUS STDERR SCRIPT
    printf '#!/bin/bash\n%s\n' "$4" > "$work/other"
    chmod +x "$work/other"
    "$work/over" > "$work/out" 2> "$work/err"
    [ $? -eq "$2" ] && printf '%b' "$3" | cmp -s - "$work/err"
    note $? "over a program that $1: $(cat "$work/err")"
}
line="tsevents: line 1 refused with 8: malformed line"
over "says nothing" 0 "" "exit 0"
over "says nothing and ends with 3" 2 "" "exit 3"
over "refuses a line" 1 "$line\n" "echo '$line' >&2"
over "refuses a line in two pieces" 1 "$line\n" "printf 'tsevents: li' >&2; sleep 0.1; printf '${line#tsevents: li}\n' >&2"
over "is cut off while it says so" 2 "$line" "printf '$line' >&2"
over "is cut off at once" 2 "tse" "printf tse >&2"
over "says an empty line" 2 "\n" "echo >&2"
over "says less than a refusal" 2 "tsevents: line\n" "echo 'tsevents: line' >&2"
over "refuses a line and fails" 2 "$line\nfailed\n" "echo '$line' >&2; echo failed >&2"
over "fails and refuses a line" 2 "failed\n$line\n" "echo failed >&2; echo '$line' >&2"
over "is killed" 2 "tsevents: ended by a signal: Killed\n" 'kill -KILL $$'
rm "$work/other"
"$work/over" > "$work/out" 2> "$work/err"
[ $? -eq 2 ] && [ ! -s "$work/out" ] && grep -qx "tsevents: cannot run $work/other: No such file or directory" "$work/err"
note $? "over a program that is not there: $(cat "$work/err")"

# what is said passes as it comes
printf '#!/bin/bash\necho said >&2\nread -r end\n' > "$work/other"
chmod +x "$work/other"
said_at_once() {
    local k seen=1
    mkfifo "$work/end"
    "$work/over" < "$work/end" > "$work/out" 2> "$work/err" &
    exec 4> "$work/end"
    for k in $(seq 100); do
        [ "$(cat "$work/err")" = said ] && seen=0 && break
        sleep 0.05
    done
    exec 4>&-
    wait $!
    return $seen
}
said_at_once
note $? "what is said is held back to the end"

echo "$passed passed, $failed failed"
[ "$failed" -eq 0 ]
