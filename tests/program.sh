#!/usr/bin/env bash
# Runs the built program over files, pipes and devices: its answers, its lines of fault and its statuses.
# usage: tests/program.sh SPPROF TEST_PRINTER
set -u
spprof=$(readlink -f "$1")
printer=$(readlink -f "$2")
top=$(cd "$(dirname "${BASH_SOURCE[0]}")/.." && pwd)
folder=$(mktemp -d)
trap 'rm -rf "$folder"' EXIT
passed=0
failed=0

# The last run's answer is in $status, $folder/out and $folder/err. A `*` in what is wanted stands for any text; bytes
# that are zero aren't seen.
judge() { # NAME STATUS OUT ERR
    local name=$1 out err
    out=$(tr -d '\0' < "$folder/out" && echo .)
    err=$(cat "$folder/err" && echo .)
    if [ "$status" -eq "$2" ] && [[ $out == $3. ]] && [[ $err == $4. ]]; then
        passed=$((passed + 1))
    else
        echo "FAILED program: $name: status $status, wanted $2; it wrote:"
        head -c 300 "$folder/out" "$folder/err"
        failed=$((failed + 1))
    fi
}

expect() { # NAME STATUS OUT ERR INPUT WORDS..
    local name=$1 wanted=$2 out=$3 err=$4 input=$5
    shift 5
    "$spprof" "$@" < "$input" > "$folder/out" 2> "$folder/err"
    status=$?
    judge "$name" "$wanted" "$out" "$err"
}

lf=$'\n'
small=$top/examples/small.sptrace

# What the recorded traces have for work was computed by another program, from the definitions alone.
expect 'the small trace' 0 "work 17$lf" '' "$small" check
expect 'cilksort' 0 "work 136861$lf" '' "$top/examples/cilksort.sptrace" check
expect 'fib' 0 "work 3049$lf" '' "$top/examples/fib.sptrace" check
expect 'nqueens' 0 "work 32744$lf" '' "$top/examples/nqueens.sptrace" check

# The figures of the recorded traces are that program's too.
figures_of() { # NAME FILE BURDEN WORK SPAN BURDENED PARALLELISM BURDENED_PARALLELISM
    local text="work $4${lf}span $5${lf}burdened $6${lf}parallelism $7${lf}burdened parallelism $8$lf" workers
    expect "figures of $1" 0 "$text" '' /dev/null figures --burden "$3" "$2"
    for workers in 1 2 64; do
        expect "figures of $1 by $workers workers" 0 "$text" '' /dev/null figures --workers $workers --burden "$3" "$2"
    done
    "$spprof" migrate "$2" > "$folder/compact"
    for workers in 1 2 64; do
        expect "figures of $1 in version 2 by $workers workers" 0 "$text" '' "$folder/compact" figures --workers $workers --burden "$3"
    done
}
figures_of 'the small trace' "$small" 3 17 13 16 1.30 1.06
figures_of 'cilksort' "$top/examples/cilksort.sptrace" 15000 136861 11392 596194 12.01 0.22
figures_of 'fib' "$top/examples/fib.sptrace" 15000 3049 43 195043 70.90 0.01
figures_of 'nqueens' "$top/examples/nqueens.sptrace" 15000 32744 831 210802 39.40 0.15
expect 'figures without an option' 0 "work 17${lf}span 13${lf}burdened 15013${lf}parallelism 1.30${lf}burdened parallelism 0.00$lf" '' \
    "$small" figures
# And so are the reports, as text and as tables alone.
report_of() { # TRACE FILE WORDS..: with these words, the program prints just the bytes of the file
    local trace=$1 file=$2
    shift 2
    "$spprof" "$@" "$top/examples/$trace.sptrace" > "$folder/out" 2> "$folder/err"
    status=$?
    cmp -s "$folder/out" "$top/examples/$file" || status=125
    : > "$folder/out"
    judge "$* of $trace" 0 '' ''
}
for trace in cilksort fib nqueens; do
    report_of $trace $trace.report profile
    report_of $trace $trace.csv profile --csv
    report_of $trace $trace.csv profile --csv --parts 100 --workers=64
    for workers in 1 2 64; do
        report_of $trace $trace.report profile --workers $workers
    done
    for parts in 1 7 65536; do
        report_of $trace $trace.report profile --parts=$parts
    done
    for parts in 1 7 100 65536; do
        for workers in 1 2 3; do
            report_of $trace $trace.csv profile --csv --parts $parts --workers $workers
        done
    done
done
# The same traces in version 2, which another program wrote: `migrate` writes just these bytes from either version, and the
# answers are the same.
for trace in small cilksort fib nqueens; do
    for version in sptrace compact; do
        "$spprof" migrate "$top/examples/$trace.$version" > "$folder/out" 2> "$folder/err"
        status=$?
        cmp -s "$folder/out" "$top/examples/$trace.compact" || status=125
        : > "$folder/out"
        judge "migrate of $trace.$version" 0 '' ''
    done
    for words in check figures 'figures --parts 7 --workers 2' profile 'profile --csv --parts 20 --workers 64' 'profile --parts 1 --workers 1' \
        'advise --burden 100' 'advise --parts 20 --workers 64 --top 2 --faster 7'; do
        "$spprof" $words "$top/examples/$trace.sptrace" > "$folder/old" 2> "$folder/err"
        "$spprof" $words "$top/examples/$trace.compact" > "$folder/out" 2>> "$folder/err"
        status=$?
        cmp -s "$folder/out" "$folder/old" || status=125
        : > "$folder/out"
        judge "$words of $trace in version 2" 0 '' ''
    done
done
# Two runs as text, before and after a loop of spawns became a tree.
for run in loop tree; do
    "$spprof" encode "$top/examples/$run.txt" 2> "$folder/err" | "$spprof" profile > "$folder/out" 2>> "$folder/err"
    status=$?
    cmp -s "$folder/out" "$top/examples/$run.report" || status=125
    : > "$folder/out"
    judge "profile of the $run" 0 '' ''
done
. "$top/tests/advise.sh"
# Two runs beside each other (tests/compare, by that program too), with options and without, from files and pipes.
compare_gives() { # NAME FILE WORDS..: with these words, `compare` prints just the bytes of the file
    local name=$1 file=$2
    shift 2
    "$spprof" compare "$@" < /dev/null > "$folder/out" 2> "$folder/err"
    status=$?
    cmp -s "$folder/out" "$top/tests/compare/$file.txt" || status=125
    : > "$folder/out"
    judge "compare: $name" 0 '' ''
}
for shared in '' '--parts 1 --workers 1' '--parts 7 --workers=2' '--parts 65536 --workers 64'; do
    compare_gives "fib and nqueens $shared" fib_nqueens "$top/examples/fib.sptrace" "$top/examples/nqueens.sptrace" $shared
    compare_gives "cilksort twice $shared" cilksort_twice $shared "$top/examples/cilksort.sptrace" "$top/examples/cilksort.sptrace"
done
for versions in 'sptrace compact' 'compact sptrace' 'compact compact'; do
    compare_gives "fib and nqueens as $versions" fib_nqueens "$top/examples/fib.${versions% *}" "$top/examples/nqueens.${versions#* }"
done
compare_gives 'with burdens' fib_nqueens_burdened --burden 100 --join-burden 7 "$top/examples/fib.sptrace" "$top/examples/nqueens.sptrace"
# Two recorded runs.
record=$top/examples/record
compare_gives 'the merge sort' mergesort "$record/mergesort_before.sptrace" "$record/mergesort_after.sptrace"
mkfifo "$folder/before" "$folder/after"
feed() { # FILE PIPE SECONDS: writes the file to the pipe, that long after both ends of it are open
    timeout 10 bash -c 'exec > "$1" && sleep "$2" && cat "$0"' "$@" &
}
feed "$top/examples/fib.sptrace" "$folder/before" 0
feed "$top/examples/nqueens.sptrace" "$folder/after" 0
compare_gives 'pipes by name' fib_nqueens "$folder/before" "$folder/after"
wait
# One pipe twice: the first input takes all of it, and the second is empty. Its writer waits until both are opened.
feed "$small" "$folder/before" 1
timeout 10 "$spprof" compare "$folder/before" "$folder/before" > "$folder/out" 2> "$folder/err"
status=$?
judge 'compare: one pipe twice' 1 '' "after: bad header: short$lf"
wait
expect 'compare: no file is called -' 3 '' "before: cannot open input$lf" "$small" compare - "$small"
(cd "$folder" && cp "$small" './-a b' && "$spprof" compare --burden 3 -- '-a b' "$small" > out 2> err)
status=$?
judge 'compare: a file whose name begins with a dash' 0 "work 17 17$lf*" ''
expect 'compare: standard input by name' 0 'work 17 17*' '' "$small" compare /dev/stdin "$small"
expect 'compare: no first file' 3 '' "before: cannot open input$lf" /dev/null compare "$folder/no" "$folder/no"
expect 'compare: no second file' 3 '' "after: cannot open input$lf" /dev/null compare "$small" "$folder/no"
expect 'compare: both are opened before one is read' 3 '' "after: cannot open input$lf" /dev/null compare "$top/README.md" "$folder/no"
expect 'compare: a first folder' 3 '' "before: cannot read input$lf" /dev/null compare "$folder" "$small"
expect 'compare: a second folder' 3 '' "after: cannot read input$lf" /dev/null compare "$small" "$folder"
expect 'compare: a bad first header' 1 '' "before: bad header: magic$lf" /dev/null compare "$top/README.md" "$top/README.md"
expect 'compare: a bad second header' 1 '' "after: bad header: magic$lf" /dev/null compare "$small" "$top/README.md"
head -c 120 "$small" > "$folder/input"
expect 'compare: a bad first event' 1 '' "before: bad event 5: truncated$lf" /dev/null compare "$folder/input" "$top/README.md"
expect 'compare: a bad second event' 1 '' "after: bad event 5: truncated$lf" /dev/null compare "$small" "$folder/input"
"$spprof" compare "$small" "$small" > /dev/full 2> "$folder/err"
status=$?
: > "$folder/out"
judge 'compare: a full output' 3 '' "cannot write output$lf"
# Many long names, all in both runs, or each in one alone: linear in their length.
for letter in a b; do
    awk -v letter=$letter 'BEGIN { print "func f"; pad = sprintf("%194s", ""); for (n = 0; n < 65536; n++) printf "site %s%s%05d\n", letter, pad, n }' \
        > "$folder/text"
    "$spprof" encode < "$folder/text" > "$folder/many_$letter" 2> "$folder/err"
done
for second in a b; do
    timeout 10 "$spprof" compare "$folder/many_a" "$folder/many_$second" > "$folder/answer" 2> "$folder/err"
    status=$?
    wc -l < "$folder/answer" > "$folder/out"
    [ $second = a ] && lines=65544 || lines=131080
    judge "compare: many long names, and $second" 0 "$lines$lf" ''
done
# And so is which events are on the path without burdens (tests/marks, computed by that program too).
marks_of() { # NAME INPUT FILE PARTS WORKERS: the printer prints just the marks that the file has
    "$printer" marks $4 $5 < "$2" > "$folder/out" 2> "$folder/err"
    status=$?
    cmp -s "$folder/out" "$3" || status=125
    : > "$folder/out"
    judge "marks of $1 in $4 parts by $5 workers" 0 '' ''
}
for trace in cilksort fib nqueens; do
    for parts in 1 7 100 65536; do
        for workers in 1 2 3; do
            marks_of $trace "$top/examples/$trace.sptrace" "$top/tests/marks/$trace.path" $parts $workers
        done
    done
done
printf '1111011\n' > "$folder/marks"
marks_of 'the small trace' "$small" "$folder/marks" 3 2
for command in profile advise; do
    expect "$command of a part of a record" 1 '' "bad event 1: truncated$lf" <(head -c 60 "$small") $command
done
printf 'func main\n' | "$spprof" encode | "$spprof" migrate > "$folder/empty"
for parts in 1 16 65536; do
    expect "figures of no events in $parts parts" 0 \
        "work 0${lf}span 0${lf}burdened 0${lf}parallelism -${lf}burdened parallelism -$lf" '' "$folder/empty" figures --parts=$parts
done

expect 'advise of no events' 0 "work 0${lf}*
           -            -            -            - 2
*
           1         0.00            -            -            -            0            0            - (root)

what if
*
           0            0            -            0            -            - as recorded

begin with (root): *
no change that was tried makes the burdened span shorter$lf" '' "$folder/empty" advise

head -c 120 "$small" > "$folder/part"
# The small trace ended early, after each number of bytes.
for ((length = 0; length < 148; length++)); do
    head -c $length "$small" > "$folder/begun"
    told='bad header: short'
    [ $length -lt 36 ] || told="bad event $(((length - 36) / 16)): truncated"
    for command in check figures 'profile --parts 7 --workers 2' 'advise --workers 1'; do
        expect "$command of the first $length bytes" 1 '' "$told$lf" "$folder/begun" $command
    done
done
# Each of its bytes with each other value, and a recorded trace damaged by chance: the checker, the profiler on one thread
# and the one by workers say the same. The counts of the first test were computed by another program.
damage_tells() { # NAME LINE INPUT WORDS..: the printer tells so of the damaged trace
    local name=$1 line=$2 input=$3
    shift 3
    "$printer" damage "$@" < "$input" > "$folder/out" 2> "$folder/err"
    status=$?
    judge "damage: $name" 0 "$line$lf" ''
}
damage_tells 'each byte' '7841 headers refused, 21171 with a bad event, 8728 well-formed, 0 on which they differ' "$small"
damage_tells 'each byte in version 2' '8609 headers refused, 3067 with a bad event, 819 well-formed, 0 on which they differ' \
    "$top/examples/small.compact"
damage_tells 'by chance' '* headers refused, [1-9]* with a bad event, [1-9]* well-formed, 0 on which they differ' \
    "$top/examples/nqueens.sptrace" 1000 1
# Version 2, cut off after so many bytes of its body.
cut_off() { # BYTES EVENT FAULT
    head -c $((36 + $1)) "$top/examples/small.compact" > "$folder/short"
    expect "version 2, $1 bytes of its body" 1 '' "bad event $2: $3$lf" "$folder/short" check
}
for bytes_event in 0:0 2:1 5:2 7:3 8:4 10:5 11:6; do cut_off ${bytes_event%:*} ${bytes_event#*:} truncated; done
for bytes_event in 1:0 3:1 4:1 6:2 9:4 12:6; do cut_off ${bytes_event%:*} ${bytes_event#*:} operand; done
# One bad item of 16 MB with 63 events behind it, in more parts than events.
{ head -c 20 "$top/examples/small.compact"; printf '\0\0\0\100'; head -c 36 "$top/examples/small.compact" | tail -c 12
    printf '\200'; head -c 16000000 /dev/zero; head -c 63 /dev/zero | tr '\0' '\203'; } > "$folder/item"
for command in check 'figures --parts 65536' 'profile --parts 65536 --workers 2' 'advise --parts 65536 --workers 2'; do
    timeout 30 "$spprof" $command < "$folder/item" > "$folder/out" 2> "$folder/err"
    status=$?
    judge "a bad item of 16 MB, $command" 1 '' "bad event 0: operand$lf"
done
{ cat "$top/examples/small.compact" && printf '\204'; } > "$folder/more"
expect 'an item too many' 1 '' "bad header: trailing$lf" "$folder/more" check
{ cat "$small" && printf '\0'; } > "$folder/more"
expect 'one byte too many' 1 '' "bad header: trailing$lf" "$folder/more" check
# A header that claims 2^28 events and has none: answered at once, in little memory.
printf 'SPTRACE1\0\0\0\1\0\0\0\0\0\0\0\0\20\0\0\0\0\1f' > "$folder/claims"
(ulimit -v 100000 && "$spprof" check < "$folder/claims" > "$folder/out" 2> "$folder/err")
status=$?
judge 'a header that claims much' 1 '' "bad event 0: truncated$lf"
# 65,536 functions and as many sites, with names of 200 bytes that differ in their last five.
{
    printf 'SPTRACE1\0\1\0\0\0\1\0\0\0\0\0\0\0\0\0\0'
    LC_ALL=C awk 'BEGIN { pad = sprintf("%195s", ""); for (n = 0; n < 131072; n++) printf "%c\310%s%05d", 0, pad, n % 65536 }'
} > "$folder/names"
timeout 30 "$spprof" check < "$folder/names" > "$folder/out" 2> "$folder/err"
status=$?
judge 'many long names' 0 "work 0$lf" ''
# By name it takes no more room for its bytes than it has and a piece: the program itself, a list and a set of the names
# take less than 10 MB. Room that grows by a quarter would be 1.5 MB too much.
size=$(($(stat -c %s "$folder/names") / 1024))
(ulimit -v $((size + 10000)) && exec timeout 30 "$spprof" check "$folder/names" > "$folder/out" 2> "$folder/err")
status=$?
judge 'many long names, by name' 0 "work 0$lf" ''

expect 'a file by name' 0 "work 17$lf" '' /dev/null check "$small"
cp "$small" "$folder/-a b"
expect 'a bad file by name' 1 '' "bad event 5: truncated$lf" /dev/null check "$folder/part"
expect 'a file that is not there' 3 '' "cannot open input$lf" "$small" check "$folder/nothing"
expect 'a folder by name' 3 '' "cannot read input$lf" "$small" check "$folder"
expect 'advise: no file' 3 '' "cannot open input$lf" "$small" advise "$folder/nothing"
expect 'advise: a folder' 3 '' "cannot read input$lf" "$small" advise "$folder"

# Longer than an input may be: a named regular file is refused at once, before it is read, and so is each of two. These files take
# no place on the disk.
too_long="input too long$lf"
# A header of version 2, and bytes behind it that are one item, which is bad, however many they are.
printf 'SPTRACE2\0\0\0\1\0\0\0\0\0\0\0\0\0\0\0\1\0\1f' | tee "$folder/long" "$folder/longer" "$folder/longest" > "$folder/endless"
truncate -s 9G "$folder/long" && truncate -s 8589934593 "$folder/longer" && truncate -s 8589934592 "$folder/longest"
in_little() { # SECONDS NAME STATUS OUT ERR INPUT WORDS..: within so many seconds and 100 MB of memory
    local seconds=$1 name=$2 wanted=$3 out=$4 err=$5 input=$6
    shift 6
    (ulimit -v 100000 && exec timeout "$seconds" "$spprof" "$@" < "$input" > "$folder/out" 2> "$folder/err")
    status=$?
    judge "$name" "$wanted" "$out" "$err"
}
for command in check figures profile advise encode; do
    in_little 1 "$command of a file that is too long" 3 '' "$too_long" /dev/null $command "$folder/long"
done
in_little 1 'one byte more than an input may have' 3 '' "$too_long" /dev/null check "$folder/longer"
in_little 1 'compare: a first file that is too long' 3 '' "before: $too_long" /dev/null compare "$folder/long" "$small"
in_little 1 'compare: a second file that is too long' 3 '' "after: $too_long" /dev/null compare "$small" "$folder/long"
in_little 1 'compare: two files that are too long' 3 '' "before: $too_long" /dev/null compare "$folder/long" "$folder/longer"
in_little 1 'compare: a file that is too long and none' 3 '' "before: $too_long" /dev/null compare "$folder/long" "$folder/no"
in_little 1 'compare: a bad file and one that is too long' 3 '' "after: $too_long" /dev/null compare "$top/README.md" "$folder/long"
# A file of the greatest length is read, and so is an input that tells no length: here up to where memory ends.
in_little 9 'a file as long as an input may be' 4 '' "out of memory$lf" /dev/null check "$folder/longest"
in_little 9 'a device without an end by name' 4 '' "out of memory$lf" /dev/null encode /dev/zero
in_little 9 'an input without an end' 4 '' "out of memory$lf" <(cat "$folder/endless" /dev/zero) check
# What no trace begins with is refused without reading on, by each command that reads a trace.
for command in check figures profile advise migrate; do
    in_little 1 "$command of zeros without an end" 1 '' "bad header: magic$lf" /dev/null $command /dev/zero
    in_little 1 "$command of an input that stays open" 1 '' "bad header: limits$lf" <(printf 'SPTRACE1%016d' 0 | tr 0 '\0'; sleep 5) $command
done
# Among these is one of over a thousand sites, the last two of which have one name.
{ printf 'SPTRACE1\0\0\0\1\0\0\4\6\0\0\0\0\0\0\0\1\0\1f' && printf '\0\4%s' {1000..2028} 2028; } > "$folder/alike"
in_little 1 'profile of many sites, two of one name' 1 '' "bad header: same name 1030$lf" <(cat "$folder/alike" /dev/zero) profile --workers 4
in_little 1 'encode of zeros in a file' 1 '' "bad text line 1: word$lf" <(head -c 100 /dev/zero) encode
# Of a text that isn't UTF-8 that is told without reading on; behind another fault it is read on, and not kept, nor are comments.
in_little 1 'encode of no UTF-8, without an end' 1 '' "bad text line 2: word$lf" <(printf 'func f\n\377\n' && yes sync) encode
in_little 20 'encode of a long faulty text' 1 '' "bad text line 1: word$lf" <(yes frob | head -c 300000000) encode
in_little 20 'encode of many comments' 1 '' "bad text line 60000001: no function$lf" <(yes '#one' | head -c 300000000) encode
in_little 1 'compare: zeros without an end' 1 '' "after: bad header: magic$lf" /dev/null compare "$small" /dev/zero
in_little 9 'an input from a file that is too long' 4 '' "out of memory$lf" "$folder/long" check
# A file whose length the system tells as 0, though it has bytes.
expect 'a file that tells no length' 1 '' "bad header: magic$lf" /dev/null check /proc/version

expect 'a folder for input' 3 '' "cannot read input$lf" "$folder" check
"$spprof" check <&- > "$folder/out" 2> "$folder/err"
status=$?
judge 'a closed input' 3 '' "cannot read input$lf"
for command in check advise; do
    "$spprof" $command < "$small" > /dev/full 2> "$folder/err"
    status=$?
    : > "$folder/out"
    judge "$command, a full output" 3 '' "cannot write output$lf"
    "$spprof" $command < "$small" >&- 2> "$folder/err"
    status=$?
    judge "$command, a closed output" 3 '' "cannot write output$lf"
    {
        sleep 0.3
        "$spprof" $command < "$small" 2> "$folder/err"
        echo $? > "$folder/status"
    } | true
    status=$(cat "$folder/status")
    judge "$command, a pipe that nobody reads" 3 '' "cannot write output$lf"
done
{ head -c 70 "$small" && sleep 0.2 && tail -c +71 "$small"; } | "$spprof" check > "$folder/out" 2> "$folder/err"
status=$?
judge 'an input that comes in pieces' 0 "work 17$lf" ''
"$spprof" check < /dev/null > "$folder/out" 2> /dev/full
status=$?
: > "$folder/err"
judge 'a full device for faults' 1 '' ''

# A million calls in one another, and a frame that spawns a million children: no stack overflows, and the time is linear.
awk 'BEGIN { print "func f\nsite A"; n = 1000000
    for (i = 0; i < n; i++) print "call 0 0"; print "strand 5"; for (i = 0; i < n; i++) print "return" }' > "$folder/text"
"$spprof" encode "$folder/text" > "$folder/nested"
timeout 30 "$spprof" figures "$folder/nested" > "$folder/out" 2> "$folder/err"
status=$?
judge 'figures of a million nested calls' 0 "work 5${lf}span 5${lf}burdened 5${lf}parallelism 1.00${lf}burdened parallelism 1.00$lf" ''
awk 'BEGIN { print "func f\nsite A"; for (i = 0; i < 1000000; i++) print "spawn 0 0\nstrand 5\nreturn"; print "sync" }' > "$folder/text"
"$spprof" encode "$folder/text" > "$folder/wide"
timeout 30 "$spprof" figures --burden 1 "$folder/wide" > "$folder/out" 2> "$folder/err"
status=$?
judge 'figures of a million children' 0 "work 5000000${lf}span 5${lf}burdened 1000005${lf}parallelism 1000000.00${lf}burdened parallelism 4.99$lf" ''
timeout 30 "$spprof" profile --csv "$folder/nested" > "$folder/out" 2> "$folder/err"
status=$?
judge 'tables of a million nested calls' 0 "name,*${lf}(root),1,0,1,5,5,1,5,5,1,0,1,5,5,1,5,5,1,0,1,5,5,1,5,5${lf}A,1000000,5,1,5,5,1,5,5,1000000,5,1,5,5,1,5,5,1000000,5,1,5,5,1,5,5$lf" ''
timeout 30 "$spprof" profile --csv "$folder/wide" > "$folder/out" 2> "$folder/err"
status=$?
judge 'tables of a million children' 0 "name,*${lf}(root),1,0,1,5000000,5,1,5000000,5,1,0,1,5000000,5,1,5000000,5,1,0,1,5000000,5,1,5000000,5${lf}A,1000000,5000000,1000000,5000000,5000000,1000000,5000000,5000000,1,5,1,5,5,1,5,5,1,5,1,5,5,1,5,5$lf" ''
# What is told about mending them: one call site, and two changed runs of each.
timeout 30 "$spprof" advise "$folder/nested" > "$folder/out" 2> "$folder/err"
status=$?
judge 'advise over a million nested calls' 0 "work 5$lf*
           1         0.00         1.00         0.00         0.00            0            0         0.00 (root)
     1000000         0.00         1.00       100.00       100.00            0            0         0.00 A
*
           5            5         1.00            5         1.00         0.00 as recorded
           3            3         1.00            3         1.00        40.00 A: 2 times faster
           5            5         1.00  15000000005         0.00            - A: calls as spawns

begin with A: what it runs itself is 100.00 per cent of the burdened span; *
most is saved by A: 2 times faster, burdened span 5 to 3, 40.00 per cent less, since what it runs itself is on the burdened path$lf" ''
timeout 30 "$spprof" advise --burden 1 "$folder/wide" > "$folder/out" 2> "$folder/err"
status=$?
judge 'advise over a million children' 0 "work 5000000$lf*
       64.00        63.99         4.99         4.70 64
*
     1000000         5.00         1.00       100.00         0.00      1000000      1000000        99.99 A
*
     5000000            5   1000000.00      1000005         4.99         0.00 as recorded
     3000000            3   1000000.00      1000003         2.99         0.00 A: 2 times faster
     5000000      5000000         1.00      5000000         1.00            - A: spawns as calls

begin with A: the burdens of its spawns are 99.99 per cent of the burdened span; larger pieces would bear fewer
most is saved by A: 2 times faster, burdened span 1000005 to 1000003, 0.00 per cent less, *$lf" ''
# By several workers, in blocks; threads have addresses of their own, most of which no memory is taken for.
(ulimit -v 1200000 && timeout 60 "$spprof" profile --csv --workers 3 "$folder/nested" > "$folder/out" 2> "$folder/err")
status=$?
judge 'tables of a million nested calls in blocks' 0 "name,*${lf}(root),1,0,1,5,5,1,5,5,1,0,1,5,5,1,5,5,1,0,1,5,5,1,5,5${lf}A,1000000,5,1,5,5,1,5,5,1000000,5,1,5,5,1,5,5,1000000,5,1,5,5,1,5,5$lf" ''
# In blocks of version 2 as well.
"$spprof" migrate < "$folder/nested" > "$folder/nested.compact"
(ulimit -v 1200000 && timeout 60 "$spprof" profile --csv --workers 3 "$folder/nested.compact" > "$folder/out" 2> "$folder/err")
status=$?
judge 'tables of a million nested calls in blocks of version 2' 0 "name,*${lf}(root),1,0,1,5,5,1,5,5,1,0,1,5,5,1,5,5,1,0,1,5,5,1,5,5${lf}A,1000000,5,1,5,5,1,5,5,1000000,5,1,5,5,1,5,5,1000000,5,1,5,5,1,5,5$lf" ''
# Of many call sites one worker and several go over three blocks: both tell the same, in either version.
awk 'BEGIN { print "func f\nfunc g"; for (n = 0; n < 1030; n++) print "site s" n
    for (n = 0; n < 50000; n++) print (n % 3 ? "call" : "spawn"), n * 7 % 1030, n % 2 "\nstrand", n % 11 "\nreturn" (n % 5 ? "" : "\nsync") }' |
    "$spprof" encode > "$folder/many"
"$spprof" migrate < "$folder/many" > "$folder/many.compact"
wanted=$("$spprof" profile --csv --workers 4 "$folder/many")
for many in many many.compact; do
    expect "tables of many call sites in blocks, $many" 0 "$wanted$lf" '' /dev/null profile --csv --workers 1 "$folder/$many"
done
# Of so many events blocks are read by several workers. By turns other threads add their rows up, they have no rows, and they are
# slow to join. Frames around the rows, one of which ends half way, decide which are top. Some frames, and the sums of some sites
# whose frames are smaller, take more than 64 bits.
awk 'BEGIN { print "func f\nfunc g"; for (n = 0; n < 9000; n++) print "site s" n
    print "call 5 1\ncall 6 0"
    for (n = 0; n < 2000000; n++) {
        turn = int(n / 130000) % 4
        strand = n % 1009 ? n % 11 : n % 2 ? "9223372036854775808" : "18446744073709551615\nstrand 9"
        if (turn == 2) print "strand", n % 11
        else if (turn == 3) print "call", n % 9000, n % 2 "\nreturn"
        else print (n % 6 ? "spawn" : "call"), n * 7 % 9000, n % 2 "\nstrand", strand "\nreturn" (n % 5 ? "" : "\nsync")
        if (n == 1000000) print "return"
    }
    print "return" }' | "$spprof" encode > "$folder/many"
wanted=$("$spprof" profile --csv --workers 1 "$folder/many")
for workers in 2 4 64; do
    expect "tables of many call sites by $workers workers" 0 "$wanted$lf" '' /dev/null profile --csv --workers $workers "$folder/many"
    # Blocks that come in many short reads: another thread reads the next one meanwhile.
    expect "the same through a pipe" 0 "$wanted$lf" '' <(cat "$folder/many") profile --csv --workers $workers
done
# Two towers, each deeper than many blocks, and leaves behind each: where a run is deep one thread reads most of the blocks,
# and behind it several do.
{ printf 'func f\nsite A\n' && for tower in 1 2; do
    yes 'call 0 0' | head -n 1500000 && yes return | head -n 1500000 && yes $'spawn 0 0\nstrand 3\nreturn' | head -n 1500000
done; } | "$spprof" encode | "$spprof" migrate > "$folder/towers"
wanted=$("$spprof" profile --csv --workers 1 "$folder/towers")
for workers in 2 4 64; do
    expect "tables of towers and leaves, by $workers workers" 0 "$wanted$lf" '' /dev/null profile --csv --workers $workers "$folder/towers"
done
expect 'figures of towers and leaves' 0 "work 3000000${lf}span 3$lf*" '' "$folder/towers" figures --burden 0
# The marks of the path by way of 65,536 parts, without a list of all open frames for each.
(ulimit -v 700000 && timeout 60 "$printer" marks 65536 3 < "$folder/nested" > "$folder/out" 2> "$folder/err")
status=$?
{ head -c 2000001 /dev/zero | tr '\0' 1 && echo; } | cmp -s - "$folder/out" || status=125
: > "$folder/out"
judge 'marks of a million nested calls in parts' 0 '' ''
# The same frames left open, in a trace that ends within them, end as a bad event.
head -c 1000000 "$folder/nested" > "$folder/open"
expect 'figures of frames left open' 1 '' "bad event *: truncated$lf" "$folder/open" figures
# The same behind many blocks, by one worker and by several; and trailing bytes, a bad event and a return of the root there.
head -c 20000000 "$folder/nested" > "$folder/open"
{ cat "$folder/nested" && printf '\0'; } > "$folder/trailing"
{ head -c 20000000 "$folder/nested" && head -c 16 /dev/zero | tr '\0' '\5' && tail -c +20000017 "$folder/nested"; } > "$folder/tagged"
{ printf 'func main\n' && yes 'strand 1' | head -n 200000 && yes return | head -n 100000; } | "$spprof" encode > "$folder/returns"
for workers in 1 2 4; do
    expect "figures cut off behind blocks, by $workers workers" 1 '' "bad event 1249998: truncated$lf" "$folder/open" figures --workers $workers
    expect "figures with trailing bytes, by $workers workers" 1 '' "bad header: trailing$lf" "$folder/trailing" figures --workers $workers
    expect "figures of a bad event behind blocks, by $workers workers" 1 '' "bad event 1249998: *$lf" "$folder/tagged" figures --workers $workers
    expect "figures of a root that returns, by $workers workers" 1 '' "bad event 200000: root return$lf" "$folder/returns" figures --workers $workers
    expect "a trace cut off in a pipe, by $workers workers" 1 '' "bad event 1249998: truncated$lf" <(cat "$folder/open") profile --workers $workers
    expect "trailing bytes in a pipe, by $workers workers" 1 '' "bad header: trailing$lf" <(cat "$folder/trailing") profile --workers $workers
    expect "a bad event in a pipe, by $workers workers" 1 '' "bad event 1249998: *$lf" <(cat "$folder/tagged") figures --workers $workers
done

# Numbers above 64 bits, in each form of a report.
printf 'func f\nstrand 18446744073709551615\nstrand 18446744073709551615\n' | "$spprof" encode > "$folder/great"
great=36893488147419103230
great_row=,1,$great,1,$great,$great,1,$great,$great
expect 'a great work' 0 "work $great$lf" '' "$folder/great" check
expect 'great figures' 0 "work $great${lf}span $great${lf}burdened $great${lf}parallelism 1.00*" '' "$folder/great" figures
expect 'a great report' 0 "work $great$lf*1 $great *1 $great $great * (root)$lf*1 $great * (root)$lf*1 $great * (root)$lf" '' "$folder/great" profile
printf '%s\n' 'func f' 'site A' 'spawn 0 0' 'strand 18446744073709551615' 'return' 'strand 18446744073709551615' | "$spprof" encode > "$folder/spawned"
expect 'great advice' 0 "work $great$lf*
           1 18446744073709551615.00         1.00       100.00        99.99            1   4294967295         0.00 A
*
$great 18446744073709551615         2.00 18446744078004518910         1.99         0.00 as recorded
27670116110564327423 18446744073709551615         1.50 18446744078004518910         1.49         0.00 A: 2 times faster
$great $great         1.00 $great         1.00            - A: spawns as calls

begin with A: what it runs itself is 99.99 per cent of the burdened span; *
no change that was tried makes the burdened span shorter$lf" '' "$folder/spawned" advise --burden 4294967295
expect 'great tables' 0 "name,*$lf(root)$great_row$great_row$great_row$lf" '' \
    "$folder/great" profile --csv

# Texts and bytes, each made out of the other.
gives() { # NAME FILE WORDS..: with the input `input`, the program writes just the bytes of the file
    local name=$1 file=$2
    shift 2
    "$@" < "$folder/input" > "$folder/out" 2> "$folder/err"
    status=$?
    cmp -s "$folder/out" "$file" || status=125
    : > "$folder/out"
    judge "$name" 0 '' ''
}
for trace in small fib nqueens cilksort; do
    "$printer" text < "$top/examples/$trace.sptrace" > "$folder/input"
    gives "the text of $trace brings its bytes back" "$top/examples/$trace.sptrace" "$spprof" encode
done
cp "$small" "$folder/input"
gives 'the small trace as text' "$top/tests/small.printed.txt" "$printer" text
cp "$top/tests/small.printed.txt" "$folder/input"
gives 'the text of the small trace' "$small" "$spprof" encode
cp "$top/examples/small.txt" "$folder/input"
gives 'a text typed by hand' "$small" "$spprof" encode
gives 'a text by name' "$small" "$spprof" encode "$top/examples/small.txt"
sed 's/^strand 1$/strand 1x/' "$top/tests/small.printed.txt" > "$folder/text"
expect 'a text with a bad number' 1 '' "bad text line 5: number$lf" "$folder/text" encode
expect 'a bad text by name' 1 '' "bad text line 5: number$lf" /dev/null encode "$folder/text"
expect 'no text' 1 '' "bad text line 1: no function$lf" /dev/null encode
printf 'frob\n\n\377\n' > "$folder/text"
expect 'bytes that are no text' 1 '' "bad text line 3: word$lf" "$folder/text" encode
expect 'a text that is not there' 3 '' "cannot open input$lf" "$small" encode "$folder/nothing"
expect 'a folder for a text' 3 '' "cannot read input$lf" /dev/null encode "$folder"
"$spprof" encode < "$top/examples/small.txt" > /dev/full 2> "$folder/err"
status=$?
: > "$folder/out"
judge 'a full output for bytes' 3 '' "cannot write output$lf"

# Long texts take a time that is linear in their length: many lines, one long line, one line of many words, many names.
awk 'BEGIN { print "func f"; for (n = 0; n < 1000000; n++) print "strand", n; print "frob" }' > "$folder/text"
timeout 30 "$spprof" encode < "$folder/text" > "$folder/out" 2> "$folder/err"
status=$?
judge 'a text of a million lines' 1 '' "bad text line 1000002: word$lf"
{ printf 'func f\nsync'; head -c 20000000 /dev/zero | tr '\0' ' '; } > "$folder/input"
timeout 30 "$spprof" encode < "$folder/input" > "$folder/out" 2> "$folder/err"
status=$?
judge 'a line of 20 million blanks' 0 'SPTRACE1*' ''
{ printf 'func f\n#' && head -c 300000000 /dev/zero; } | timeout 30 "$spprof" encode > "$folder/out" 2> "$folder/err"
status=$?
judge 'a line of 300 million bytes' 0 'SPTRACE1*' ''
{ printf 'func f\nsync'; head -c 20000000 /dev/zero | tr '\0' 'x' | sed 's/xx/ x/g'; } > "$folder/text"
timeout 30 "$spprof" encode < "$folder/text" > "$folder/out" 2> "$folder/err"
status=$?
judge 'a line of many words' 1 '' "bad text line 2: *$lf"
awk 'BEGIN { print "func f"; pad = sprintf("%195s", ""); for (n = 0; n < 65536; n++) printf "site %s%05d\n", pad, n }' > "$folder/text"
timeout 30 "$spprof" encode < "$folder/text" > "$folder/bytes" 2> "$folder/err"
"$spprof" check < "$folder/bytes" > "$folder/out" 2>> "$folder/err"
status=$?
judge 'a text of many long names' 0 "work 0$lf" ''

# A text is read in blocks of 65,536 bytes: whatever stands where one ends and the next begins, the trace is the same, and so
# is the first fault. A comment in front moves each byte of these lines there; it ends with a character of two bytes.
lines=$(printf 'func main\nsite A\r\n# \303\251\r\n\tspawn 0  0 \r\nstrand 18446744073709551615\nreturn\n\n sync\nstrand 7')
zeros='\0\0\0\0\0\0\0'
{ printf 'SPTRACE1\0\0\0\1\0\0\0\1\0\0\0\0\0\0\0\5\0\4main\0\1A' && printf "\2$zeros\0$zeros\0$zeros\377\377\377\377\377\377\377\377"
    printf "\3$zeros\0$zeros\4$zeros\0$zeros\0$zeros$zeros\7"; } > "$folder/wanted.trace"
moved=0
for ((n = 65536 - ${#lines} - 12; n < 65540; n++)); do
    { printf '#%*s\303\251\n' "$n" '' && printf %s "$lines"; } > "$folder/input"
    "$spprof" encode < "$folder/input" 2> "$folder/err" | cmp -s - "$folder/wanted.trace" || moved=$((moved + 1))
    tr 7 x < "$folder/input" | "$spprof" encode > "$folder/out" 2> "$folder/err"
    [ $? -eq 1 ] && [ ! -s "$folder/out" ] && [ "$(cat "$folder/err")" = 'bad text line 6: number' ] || moved=$((moved + 1))
done
status=$moved
: > "$folder/out" && : > "$folder/err"
judge 'lines where a block of a text ends' 0 '' ''
# The first fault is told though many lines follow it, and bytes that aren't UTF-8 before any fault, wherever they are.
{ printf 'func f\nsite A\nsync\nsite B\n' && yes frob | head -n 200000; } > "$folder/text"
expect 'a fault in the first block' 1 '' "bad text line 4: late$lf" "$folder/text" encode
{ cat "$folder/text" && printf 'sync \377\n' && yes frob | head -n 200000; } > "$folder/input"
expect 'no UTF-8 behind a fault' 1 '' "bad text line 200005: word$lf" "$folder/input" encode
{ echo 'func f' && yes sync | head -n 200000 && printf '\355\240\200\nfunc' && yes sync | head -n 20000; } > "$folder/input"
expect 'no UTF-8 behind good lines' 1 '' "bad text line 200002: word$lf" "$folder/input" encode
{ echo 'func f' && yes sync | head -n 200000 && printf 'func g\n' && yes sync | head -n 20000; } > "$folder/input"
expect 'a name in a later block' 1 '' "bad text line 200002: late$lf" <(cat "$folder/input") encode
{ echo 'func f' && yes sync | head -n 200000 && printf '# \303'; } > "$folder/input"
expect 'a character that is cut at the end' 1 '' "bad text line 200002: word$lf" <(cat "$folder/input") encode
{ echo 'func f' && head -c 200000 /dev/zero | tr '\0' '\n' && echo 'root 1' && yes '# no event' | head -n 20000; } > "$folder/input"
expect 'a fault of the end behind many blocks' 1 '' "bad text line 220003: root$lf" <(cat "$folder/input") encode

# Which words are which request, and what is shown for others, word for word.
shown() { # NAME STATUS WORDS..: with these words the program tells just what the file tests/usage/NAME.txt has
    local name=$1 wanted=$2 stream=err
    shift 2
    [ "$wanted" -ne 0 ] || stream=out
    "$spprof" "$@" < /dev/null > "$folder/out" 2> "$folder/err"
    status=$?
    cmp -s "$folder/$stream" "$top/tests/usage/$name.txt" && : > "$folder/$stream"
    judge "usage: $name" "$wanted" '' ''
}
shown help 0 --help
shown help 0 -h
for word in --version -V; do
    expect "$word" 0 "spprof 0.1.0$lf" '' /dev/null $word
done
shown help 0 help
for command in check figures profile advise compare encode migrate; do
    shown help_of_$command 0 $command --help
    shown help_of_$command 0 $command -h
    shown help_of_$command 0 help $command
    expect "$command with an option that isn't there" 2 '' 'error: *' "$small" $command --nothing
done
shown no_command 2
shown two_files 2 check a b
shown two_texts 2 encode a b
shown unknown_option 2 encode --nothing
shown help_of_nothing 2 help nothing
shown help_of_two 2 help check encode
expect 'help of help' 2 '' "error: unrecognized subcommand 'help'$lf*" /dev/null help help
shown no_inputs 2 compare
shown no_after 2 compare a
shown three_inputs 2 compare a b c
shown csv_of_compare 2 compare --csv a b
for command in figures profile; do
    expect "$command of two files" 2 '' \
        "error: unexpected argument 'b' found$lf$lf  tip: 'spprof compare' reads the traces of two runs$lf$lf*" /dev/null $command a b
done
shown two_traces 2 profile a b
expect 'advise of two files' 2 '' "error: unexpected argument 'b' found$lf*" /dev/null advise a b
expect 'compare by no workers' 2 '' "error: invalid value '0' for '--workers <N>': 0 is not in 1..=64$lf*" /dev/null compare --workers 0 a b
expect 'compare in too many parts' 2 '' "error: invalid value '65537' for '--parts <N>': 65537 is not in 1..=65536$lf*" /dev/null compare --parts 65537 a b
expect 'compare with too great a burden' 2 '' "error: invalid value '4294967296' for '--burden <N>': *" /dev/null compare --burden 4294967296 a b
for command in figures profile advise; do
    shown no_parts 2 $command --parts 0
    shown too_many_parts 2 $command --parts 65537
    shown no_workers 2 $command --workers 0
    shown too_many_workers 2 $command --workers 65
done
shown parts_of_check 2 check --parts 3
shown workers_of_check 2 check --workers 2
for wrong in '--top 0 1..=65536' '--top 65537 1..=65536' '--top 4294967296 1..=65536' '--faster 1 2..=1000' '--faster 1001 2..=1000'; do
    read -r option value range <<< "$wrong"
    expect "advise $option $value" 2 '' "error: invalid value '$value' for '$option <N>': $value is not in $range$lf*" "$small" advise $option $value
    for command in check figures profile encode migrate 'compare a b'; do
        expect "$command with $option" 2 '' "error: unexpected argument '$option' found$lf*" "$small" $command $option 3
    done
done
shown negative_burden 2 figures --burden -1
shown negative_burden 2 compare --burden -1 a b
for words in 'figures --parts -15' 'profile a --workers -0' 'compare --join-burden -1 a b'; do
    expect "a number with a minus sign: $words" 2 '' "error: invalid value '-*' for '--* <N>': -* is not in *$lf" /dev/null $words
done
shown too_great_burden 2 figures --burden 4294967296
shown too_great_join_burden 2 profile --join-burden 4294967296
for word in chek encod --nothing ''; do
    expect "no command: '$word'" 2 '' 'error: *' "$small" "$word"
done
for word in 4294967296 -1 x ''; do
    for option in --top --faster; do
        expect "advise, no number for $option: '$word'" 2 '' 'error: *' "$small" advise $option "$word"
    done
    for command in figures profile advise; do
        expect "$command, no burden: '$word'" 2 '' 'error: *' "$small" $command --burden "$word"
        expect "$command, no join burden: '$word'" 2 '' 'error: *' "$small" $command --join-burden "$word"
        expect "$command, no number of parts: '$word'" 2 '' 'error: *' "$small" $command --parts "$word"
        expect "$command, no number of workers: '$word'" 2 '' 'error: *' "$small" $command --workers "$word"
    done
done
expect 'parts without a number' 2 '' 'error: *' "$small" figures --parts
expect 'sites without a number' 2 '' 'error: *' "$small" advise --top
expect 'workers without a number' 2 '' 'error: *' "$small" profile --workers
expect 'a join burden without a number' 2 '' 'error: *' "$small" figures --join-burden
for command in check encode; do
    expect "$command with a burden" 2 '' 'error: *' "$small" $command --burden 3
    expect "$command with a join burden" 2 '' 'error: *' "$small" $command --join-burden 3
done
for command in check encode; do
    expect "$command with parts" 2 '' 'error: *' "$small" $command --parts 3
    expect "$command with workers" 2 '' 'error: *' "$small" $command --workers 2
done
for command in check figures encode; do
    expect "$command with --csv" 2 '' 'error: *' "$small" $command --csv
done
of_small="work 17${lf}span 13${lf}burdened"
expect 'a burden of 0' 0 "$of_small 13$lf*" '' "$small" figures --burden 0
expect 'a burden behind =' 0 "$of_small 16$lf*" '' "$small" figures --burden=3
expect 'the greatest burden' 0 "$of_small 4294967308$lf*" '' "$small" figures --burden 4294967295
expect 'a burden, parts and a file' 0 "$of_small 16$lf*" '' /dev/null figures --burden 3 --parts=7 "$small"
expect 'a burden, parts, workers and a file' 0 "$of_small 16$lf*" '' /dev/null profile --burden 3 --parts=7 --workers 2 "$small"
expect 'a burden of a profile' 0 "$of_small 16$lf*" '' /dev/null profile --burden 3 "$small"
expect 'tables alone with a burden' 0 "name,*" '' /dev/null profile --csv --burden 3 "$small"
# What edges of each kind bear: --burden is for both, and --join-burden for those of returns in its place, wherever it
# stands. The burdened path passes the child, or goes past it.
of_dag=1,7,1,17,13,1,17,13 of_path=1,3,1,17,13,1,17,13 of_child=1,10,1,10,10,1,10,10
by_child="(root),$of_dag,$of_path,$of_path${lf}A,$of_child,$of_child,$of_child$lf"
past_child="(root),$of_dag,$of_path,$of_dag${lf}A,$of_child,$of_child,0,0,0,0,0,0,0,0$lf"
burdens_give() { # BURDENED ROWS WORDS..: with these words the small trace has this burdened span and these tables
    local figures="$of_small $1$lf*" rows=$2
    shift 2
    expect "figures $*" 0 "$figures" '' "$small" figures "$@"
    expect "profile $*" 0 "$figures" '' "$small" profile "$@"
    expect "profile --csv $*" 0 "name,*,burdened_path_caller_span$lf$rows" '' "$small" profile --csv "$@"
}
burdens_give 15013 "$by_child"
burdens_give 16 "$by_child" --burden 3
burdens_give 13 "$by_child" --burden 3 --join-burden 0
burdens_give 16 "$by_child" --join-burden 3 --burden 0
burdens_give 16 "$by_child" --burden 0 --join-burden 3
burdens_give 14 "$past_child" --burden 7 --join-burden=0
burdens_give 14 "$past_child" --join-burden=0 --burden 7
burdens_give 15007 "$past_child" --join-burden 3
burdens_give 4294967308 "$by_child" --join-burden 4294967295
for command in check figures profile advise; do
    expect "$command of an input" 0 'work 17*' '' "$small" $command
    expect "$command of a file" 0 'work 17*' '' /dev/null $command "$folder/-a b"
    (cd "$folder" && "$spprof" $command -- '-a b' > out 2> err)
    status=$?
    judge "$command of a file whose name begins with a dash" 0 'work 17*' ''
    expect "$command of standard input as -" 0 'work 17*' '' "$small" $command -
done
expect 'a word that is no UTF-8' 2 '' "error: an argument is not UTF-8 text$lf" /dev/null $'\377'
"$spprof" --help > /dev/full 2> "$folder/err"
status=$?
: > "$folder/out"
judge 'help to a full output' 3 '' "cannot write output$lf"

. "$top/tests/explain.sh"

# The script at the top passes words, input and status through.
"$top/spprof" check < "$small" > "$folder/out" 2> "$folder/err"
status=$?
judge 'the script, a good trace' 0 "work 17$lf" '*'
"$top/spprof" check < /dev/null > "$folder/out" 2> "$folder/err"
status=$?
judge 'the script, a bad header' 1 '' "*bad header: short$lf"

. "$top/tests/script.sh"

echo "$passed passed, $failed failed"
[ $failed -eq 0 ]
