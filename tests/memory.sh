#!/usr/bin/env bash
# Refuses each request for memory in turn, and then each start of a thread, over the built programs. The rule: whatever is
# refused, the program ends, out of memory or with the right answer, which is what it answers when nothing is refused, and
# never with another. Where a start is refused the right answer comes all the same, since a thread that can't be started
# leaves its share to the others.
# Out of memory spprof ends with status 4, nothing on standard output and the line `out of memory`, and the printer, which
# has the marks by workers, with status 1 and nothing on standard output. The probe calls the functions that allocate and
# that commands stand on, those of tables, of parts and their jobs, of a book and of a crew, each twice: one answer at most becomes `Memory`, and no
# other changes.
# usage: tests/memory.sh SPPROF PROBE TEST_PRINTER
set -u
spprof=$1
probe=$2
printer=$3
tests=$(cd "$(dirname "${BASH_SOURCE[0]}")" && pwd)
folder=$(mktemp -d)
trap 'rm -rf "$folder"' EXIT
passed=0
failed=0

cc -O2 -Wall -shared -fPIC "$tests/refuse.c" -o "$folder/refuse.so" -ldl || exit 1
printf 'out of memory\n' > "$folder/told"

fails() { # WHAT: a case that failed
    echo "FAILED memory: $1, $(head -n 3 "$folder/err")"
    failed=$((failed + 1))
}

# Runs a program, of whose requests and starts those of these numbers are refused, and notes in $requests and $starts how
# many there were. An input that begins with | is a file that comes through a pipe.
run() { # REQUEST START INPUT PROGRAM WORDS..
    local request=$1 start=$2 input=$3
    shift 3
    rm -f "$folder/count"
    if [[ $input == '|'* ]]; then exec 3< <(cat "${input#|}"); else exec 3< "$input"; fi
    timeout 60 env LD_PRELOAD="$folder/refuse.so" REFUSE_COUNT="$folder/count" REFUSE_AT="$request" REFUSE_START="$start" \
        "$@" <&3 > "$folder/out" 2> "$folder/err"
    status=$?
    exec 3<&-
    od -An -t d8 "$folder/count" > "$folder/counts" 2> "$folder/uncounted"
    read -r requests starts < "$folder/counts" || requests=0 starts=0
}

# Whether the last run answered what is answered when nothing is refused.
is_right() {
    [ $status -eq "$wanted" ] && cmp -s "$folder/out" "$folder/wanted.out" && cmp -s "$folder/err" "$folder/wanted.err"
}

# Whether one line of the last run's output differs from what is wanted, by its answer `Memory`.
differs_by_one_memory() {
    diff "$folder/wanted.out" "$folder/out" > "$folder/diff"
    [ "$(grep -c '^>' "$folder/diff")" -eq 1 ] && [ "$(grep -c '^<' "$folder/diff")" -eq 1 ] &&
        grep -q '^> .*: Memory$' "$folder/diff"
}

# Whether the last run told that memory was wanting, as its program does.
is_wanting() { # PROGRAM
    case $1 in
        "$spprof") [ $status -eq 4 ] && [ ! -s "$folder/out" ] && cmp -s "$folder/err" "$folder/told" ;;
        "$printer") [ $status -eq 1 ] && [ ! -s "$folder/out" ] ;;
        "$probe") [ $status -eq 0 ] && differs_by_one_memory ;;
    esac
}

each_refused() { # NAME STATUS STARTS OUT ERR INPUT PROGRAM WORDS..: what the program ends with when nothing is refused,
    # and how many threads it starts, a number or a pattern
    local name=$1 wanted=$2 threads=$3 out=$4 err=$5 input=$6 at most all told=0 least=1 status requests starts
    shift 6
    run 0 0 "$input" "$@"
    [ $status -eq "$wanted" ] && [[ $(tr -d '\0' < "$folder/out") == $out ]] && [[ $(cat "$folder/err") == $err ]] ||
        { fails "$name, nothing refused: status $status"; return; }
    [[ $starts == $threads ]] || { fails "$name: $starts threads started, and not $threads"; return; }
    cp "$folder/out" "$folder/wanted.out"
    cp "$folder/err" "$folder/wanted.err"
    most=$requests
    all=$starts
    for ((at = 1; at <= most; at++)); do
        run $at 0 "$input" "$@"
        if is_wanting "$1"; then
            told=$((told + 1))
        elif ! is_right; then
            fails "$name, request $at refused: status $status"
            return
        fi
        # With threads a run may make a few more requests than another.
        [ "$requests" -le "$most" ] || most=$requests
    done
    for ((at = 1; at <= all; at++)); do
        run 0 $at "$input" "$@"
        is_right || { fails "$name, start $at refused: status $status"; return; }
    done
    # Each call of the probe has a request at least.
    [ "$1" != "$probe" ] || least=$(wc -l < "$folder/wanted.out")
    [ $told -ge "$least" ] || { fails "$name: $told refusals were told"; return; }
    echo "memory: $name: $most requests refused in turn, $told times told as out of memory, and $all starts of threads"
    passed=$((passed + 1))
}

# Each call twice: of the crew figures, profile, the same in three rounds, and marks by two workers, with 1, 1, 4 and 3 threads.
each_refused 'the calls' 0 18 "$(cat "$tests/../crates/memory_probe/stdout")" '' /dev/null "$probe"

# A round has a thread for each worker but one, and three rounds settle their paths on two threads. What goes by blocks has at
# most a thread for each worker but one at a time; where one has ended, since no block waited, another is started for the next
# block. A profile of many call sites has one for the rows of a block that are kept aside. With one worker there is none.
examples=$tests/../examples
head -c 23 "$examples/small.sptrace" > "$folder/short"
{ head -c 100 "$examples/small.sptrace"; head -c 16 /dev/zero | tr '\0' '\5'; } > "$folder/tag"
each_refused 'check, a good trace' 0 0 'work 17' '' "$examples/small.sptrace" "$spprof" check
# more than one read, so that what was read grows
each_refused 'check, a recorded trace' 0 0 'work 136861' '' "$examples/cilksort.sptrace" "$spprof" check
each_refused 'check, a file by name' 0 0 'work 17' '' /dev/null "$spprof" check "$examples/small.sptrace"
each_refused 'check, a bad header' 1 0 '' 'bad header: short' "$folder/short" "$spprof" check
each_refused 'check, a bad event' 1 0 '' 'bad event 4: tag' "$folder/tag" "$spprof" check
each_refused 'figures, a recorded trace' 0 1 'work 136861*' '' "$examples/cilksort.sptrace" "$spprof" figures
each_refused 'figures by one worker' 0 0 'work 136861*' '' "$examples/cilksort.sptrace" "$spprof" figures --workers 1
each_refused 'figures, a bad event' 1 1 '' 'bad event 4: tag' "$folder/tag" "$spprof" figures --burden 3
each_refused 'figures, a bad event by one worker' 1 0 '' 'bad event 4: tag' "$folder/tag" "$spprof" figures --workers 1
each_refused 'figures, version 2' 0 1 'work 136861*' '' "$examples/cilksort.compact" "$spprof" figures
each_refused 'figures, more parts than events' 0 1 'work 17*' '' "$examples/small.compact" "$spprof" figures --parts 20
each_refused 'profile, a recorded trace' 0 1 'work 32744*' '' "$examples/nqueens.sptrace" "$spprof" profile
each_refused 'profile as tables alone' 0 1 'name,count*' '' "$examples/nqueens.sptrace" "$spprof" profile --csv
# Two children that are waited for, in a block that a thread reads.
printf '%s\n' 'func main' 'func f' 'site A' 'strand 1' 'spawn 0 1' 'strand 4' 'return' 'spawn 0 1' 'strand 2' 'return' \
    'sync' 'strand 3' | "$spprof" encode > "$folder/two"
each_refused 'figures by workers' 0 1 'work 10*' '' "$folder/two" "$spprof" figures --workers 2
each_refused 'profile by workers' 0 1 'name,count*' '' "$folder/two" "$spprof" profile --csv --parts 9 --workers 2
# The same run, where there are many call sites.
{ awk 'BEGIN { print "func main\nfunc f"; for (n = 0; n < 1025; n++) printf "site s%d\n", n }' && printf '%s\n' 'strand 1' \
    'spawn 0 1' 'strand 4' 'return' 'spawn 0 1' 'strand 2' 'return' 'sync' 'strand 3'; } | "$spprof" encode > "$folder/many"
each_refused 'profile of many call sites' 0 1 'name,count*' '' "$folder/many" "$spprof" profile --csv --parts 9 --workers 2
# The same in version 2: one block as well.
"$spprof" migrate < "$folder/two" > "$folder/two.compact"
each_refused 'figures by workers, version 2' 0 1 'work 10*' '' "$folder/two.compact" "$spprof" figures --workers 2
each_refused 'profile by workers, version 2' 0 1 'name,count*' '' "$folder/two.compact" "$spprof" profile --csv --workers 2
# Three blocks of up to 65,536 events, in frames that are open at their ends.
awk 'BEGIN { print "func main\nsite A"; for (n = 0; n < 50; n++) print "spawn 0 0\nstrand 3"
    for (n = 0; n < 140000; n++) print "strand 1"; for (n = 0; n < 50; n++) print "return\nsync" }' | "$spprof" encode \
    > "$folder/blocks"
each_refused 'figures over blocks' 0 '[123]' 'work 140150*' '' "$folder/blocks" "$spprof" figures
each_refused 'profile over blocks' 0 '[123]' 'name,count*' '' "$folder/blocks" "$spprof" profile --csv --workers 2
# Blocks that come in many short reads: another thread reads the next one meanwhile. Whether the reads of the first are short
# depends on how fast the pipe is filled.
each_refused 'figures over blocks through a pipe' 0 '[2345]' 'work 140150*' '' "|$folder/blocks" "$spprof" figures
each_refused 'profile over blocks through a pipe' 0 '[2345]' 'name,count*' '' "|$folder/blocks" "$spprof" profile --csv --workers 2
# Two blocks of 131,072 bytes, and one that is less.
"$spprof" migrate < "$folder/blocks" > "$folder/blocks.compact"
each_refused 'profile over blocks, version 2' 0 '[123]' 'name,count*' '' "$folder/blocks.compact" "$spprof" profile --csv --workers 2
# Blocks of so many call sites that other threads add up the rows of the first three and of the fifth; the fourth has none,
# and the sixth is slow to join.
{ awk 'BEGIN { print "func f"; for (n = 0; n < 5000; n++) print "site s" n
    for (n = 0; n < 65536; n++) print "spawn", n % 5000, "0\nstrand", (n < 5000) "\nreturn"
    for (n = 0; n < 65536; n++) print "strand 1"
    for (n = 0; n < 21900; n++) print "spawn", n % 5000, "0\nstrand 1\nreturn"
    for (n = 0; n < 40000; n++) print "call", n % 5000, "0\nreturn" }' | "$spprof" encode; } > "$folder/adders"
each_refused 'profile by threads that add rows up' 0 '@([5-9]|1[01])' 'work 92436*' '' "$folder/adders" "$spprof" profile --workers 2
# Of over 8,192 call sites the rows of frames that return are kept aside, and added up hundreds at a time; one frame takes more
# than 64 bits.
{ awk 'BEGIN { print "func f"; for (n = 0; n < 8200; n++) print "site s" n
    print "call 7 0\nstrand 18446744073709551615\nstrand 1\nreturn"
    for (n = 0; n < 1600; n++) print "spawn", n * 5, "0\nstrand 1\nreturn" }' | "$spprof" encode; } > "$folder/aside"
each_refused 'profile, rows kept aside' 0 0 'work 18446744073709553216*' '' "$folder/aside" "$spprof" profile --workers 1
each_refused 'profile by one worker' 0 0 'work 32744*' '' "$examples/nqueens.sptrace" "$spprof" profile --workers 1
each_refused 'compare by one worker' 0 0 'work 10 17*' '' /dev/null "$spprof" compare --workers 1 "$folder/two" "$examples/small.sptrace"
each_refused 'marks by workers' 0 3 '111100011' '' "$folder/two" "$printer" marks 9 2
each_refused 'marks, a recorded trace' 0 6 '1*' '' "$examples/nqueens.sptrace" "$printer" marks 20 3
each_refused 'compare' 0 2 'work 17 32744*' '' /dev/null "$spprof" compare "$examples/small.sptrace" "$examples/nqueens.sptrace"
each_refused 'compare by workers' 0 2 'work 10 17*' '' /dev/null "$spprof" compare --parts 9 --workers 2 "$folder/two" "$examples/small.sptrace"
each_refused 'compare, a bad first event' 1 1 '' 'before: bad event 4: tag' /dev/null "$spprof" compare "$folder/tag" "$folder/two"
each_refused 'compare, a bad second header' 1 1 '' 'after: bad header: short' /dev/null "$spprof" compare "$folder/two" "$folder/short"
each_refused 'encode, a good text' 0 0 'SPTRACE1*' '' "$examples/small.txt" "$spprof" encode
printf 'func f\nsync\nsync 1 2 3 4 5\n' > "$folder/text"
each_refused 'encode, a bad text' 1 0 '' 'bad text line 3: count' "$folder/text" "$spprof" encode
printf 'func f\n\377' > "$folder/bytes"
each_refused 'encode, bytes that are no text' 1 0 '' 'bad text line 2: word' "$folder/bytes" "$spprof" encode
{ printf 'func f\n' && for site in {1..2500}; do echo "# a comment before the call site of number $site"; echo "site s$site"; done
    yes 'call 7 0'$'\n'return | head -n 10000; } > "$folder/lines"
each_refused 'encode over blocks' 0 0 'SPTRACE1*' '' "$folder/lines" "$spprof" encode
echo 'site s' >> "$folder/lines"
each_refused 'encode over blocks, a name too late' 1 0 '' 'bad text line 15002: late' "$folder/lines" "$spprof" encode
each_refused 'migrate, a recorded trace' 0 0 'SPTRACE2*' '' "$examples/nqueens.sptrace" "$spprof" migrate
each_refused 'migrate, a bad event' 1 0 '' 'bad event 4: tag' "$folder/tag" "$spprof" migrate
each_refused 'migrate, version 2' 0 0 'SPTRACE2*' '' "$examples/nqueens.compact" "$spprof" migrate
each_refused 'migrate over blocks' 0 0 'SPTRACE2*' '' "$folder/blocks" "$spprof" migrate
each_refused 'check, version 2' 0 0 'work 32744' '' "$examples/nqueens.compact" "$spprof" check
# Headers of more than one piece, which is 65,536 bytes: the names of 400 sites have 200 bytes each.
sites() { # COUNT: the lines of so many sites, with names of 200 bytes
    awk -v count="$1" 'BEGIN { pad = sprintf("%195s", ""); for (n = 0; n < count; n++) printf "site %s%05d\n", pad, n }'
}
{ echo 'func f' && sites 400 && echo 'strand 5'; } | "$spprof" encode > "$folder/names"
"$spprof" migrate < "$folder/names" > "$folder/names.compact"
each_refused 'check, a long header' 0 0 'work 5' '' "$folder/names" "$spprof" check
each_refused 'migrate, a long header' 0 0 'SPTRACE2*' '' "$folder/names" "$spprof" migrate
each_refused 'check, a long header by name' 0 0 'work 5' '' /dev/null "$spprof" check "$folder/names"
each_refused 'check, a long header of version 2' 0 0 'work 5' '' "$folder/names.compact" "$spprof" check
each_refused 'check, one of version 2 by name' 0 0 'work 5' '' /dev/null "$spprof" check "$folder/names.compact"
each_refused 'profile, version 2' 0 1 'work 32744*' '' "$examples/nqueens.compact" "$spprof" profile
# `advise` reads the trace whole: a profile, of many call sites in three rounds, the marks of the burdened path in three rounds,
# and the changed runs, here four and two, which the workers share.
each_refused 'advise, a recorded trace' 0 15 'work 32744*' '' "$examples/nqueens.sptrace" "$spprof" advise
each_refused 'advise by one worker' 0 0 'work 17*' '' "$examples/small.compact" "$spprof" advise --workers 1
each_refused 'advise, many call sites' 0 8 'work 10*' '' "$folder/many" "$spprof" advise --parts 9 --workers 2
each_refused 'advise, a bad event' 1 3 '' 'bad event 4: tag' "$folder/tag" "$spprof" advise
each_refused 'advise as a table, one call site' 0 0 'name,*' '' "$examples/small.compact" "$spprof" advise --csv --site A --workers 1
each_refused 'advise, no such call site' 1 0 '' 'no such call site' "$examples/small.sptrace" "$spprof" advise --site B
# An input of 69 MB, for the peaks below.
awk 'BEGIN { print "func f"; for (n = 0; n < 1025; n++) print "site s" n
    for (n = 0; n < 4300000; n++) print "strand", n % 7 }' | "$spprof" encode > "$folder/long"
peak_of() { # STATUS WORDS..: the peak memory in KiB of the program, which reads standard input and ends with that status
    python3 -c 'import resource, subprocess, sys
status = subprocess.run(sys.argv[2:], stdout=subprocess.DEVNULL, stderr=subprocess.DEVNULL).returncode
print(resource.getrusage(resource.RUSAGE_CHILDREN).ru_maxrss if status == int(sys.argv[1]) else f"memory, with status {status}")' \
        "$1" "$spprof" "${@:2}"
}
peaks_within() { # BOUND STATUS INPUT WORDS..: so many KiB are used at most, and where no more can be had, but for 10 MB that the
    # program itself takes, nothing is refused
    local bound=$1 wanted=$2 input=$3 status peak
    shift 3
    peak=$(cat "$input" | peak_of "$wanted" "$@")
    cat "$input" | (ulimit -v $((bound + 10000)) && exec "$spprof" "$@" > "$folder/out" 2> "$folder/err")
    status=$?
    if [ "$peak" -lt "$bound" ] && [ $status -eq "$wanted" ]; then
        echo "memory: ${*//$folder\//} of $size KiB takes $peak KiB"
        passed=$((passed + 1))
    else
        fails "$* of $size KiB takes $peak KiB, and ends with status $status where $bound KiB and little more can be had"
    fi
}
# Where all of an input is read, that takes at most 1.3 times its size from a pipe, and 1.1 times by name, where its length
# is known. The size is a little more than 2^26 bytes: room that doubles would be nearly twice that, and room that isn't made
# once passes 1.1. `profile` goes by blocks.
size=$(($(stat -c %s "$folder/long") / 1024))
peaks_within 32000 0 "$folder/long" profile --workers 2
peaks_within 32000 0 "$folder/long" profile --workers 2 "$folder/long"
peaks_within 32000 0 "$folder/long" profile --workers 1
peaks_within 32000 0 "$folder/long" profile --workers 1 "$folder/long"
# `advise` reads every trace whole, and has a byte for each event, a sixteenth of the size, besides.
peaks_within $((size * 13 / 10)) 0 "$folder/long" advise --workers 1
peaks_within $((size * 12 / 10)) 0 "$folder/long" advise --workers 1 "$folder/long"
# Figures go by blocks, and keep no trace.
peaks_within 20000 0 "$folder/long" figures --workers 1
peaks_within 20000 0 "$folder/long" figures "$folder/long"
# A profile that goes by blocks keeps no trace, in version 2 as well, however many frames are on the path: some are called, and
# others spawned, each of which is longer than the one before.
awk 'BEGIN { print "func f"; for (n = 0; n < 40; n++) print "site s" n
    for (n = 0; n < 1400000; n++) print (n < 700000 ? "call " : "spawn ") n % 40, 0 "\nstrand", n "\nreturn" }' | "$spprof" encode \
    > "$folder/row"
size=$(($(stat -c %s "$folder/row") / 1024))
peaks_within 20000 0 "$folder/row" profile --workers 1
peaks_within 20000 0 "$folder/row" profile --workers 1 "$folder/row"
"$spprof" migrate < "$folder/row" > "$folder/row.compact"
size=$(($(stat -c %s "$folder/row.compact") / 1024))
peaks_within 20000 0 "$folder/row.compact" profile --workers 1 "$folder/row.compact"
# By several workers too, where no child is longer than the first: children of few call sites are added up as they close.
peak_within() { # BOUND INPUT WORDS..: so many KiB are used at most
    local bound=$1 input=$2 peak
    shift 2
    peak=$(peak_of 0 "$@" "$input")
    if [ "$peak" -lt "$bound" ]; then
        echo "memory: $* takes $peak KiB"
        passed=$((passed + 1))
    else
        fails "$* takes $peak KiB, and not $bound at most"
    fi
}
awk 'BEGIN { print "func f"; for (n = 0; n < 40; n++) print "site s" n
    for (n = 0; n < 1400000; n++) print "spawn", n % 40, "0\nstrand 5\nreturn" }' | "$spprof" encode > "$folder/row"
peak_within 24000 "$folder/row" profile --workers 2
# Nor does a trace of 4,000 call sites need room for its 32 MB.
{ awk 'BEGIN { print "func f"; for (n = 0; n < 4000; n++) print "site s" n }' && yes 'strand 5' | head -n 2000000; } |
    "$spprof" encode > "$folder/row"
peak_within 16000 "$folder/row" profile --workers 2
size=$(($(stat -c %s "$folder/long") / 1024))
# `check` keeps the header and a piece of a trace: most of what is measured is the process that starts the program.
peaks_within 20000 0 "$folder/long" check
peaks_within 20000 0 "$folder/long" check "$folder/long"
# Of one with a header of 13 MB too: the peak is that of the header, with a quarter more at most, and of its names.
{ echo 'func f' && sites 65536 && awk 'BEGIN { for (n = 0; n < 4300000; n++) print "strand", n % 7 }'; } | "$spprof" encode \
    > "$folder/headed"
size=$(($(stat -c %s "$folder/headed") / 1024))
peaks_within 24000 0 "$folder/headed" check
peaks_within 24000 0 "$folder/headed" check "$folder/headed"
# A profile has the header once more, and the names, and a table.
peaks_within 50000 0 "$folder/headed" profile --workers 2
peaks_within 50000 0 "$folder/headed" profile --workers 2 "$folder/headed"
{ echo 'func f' && yes "strand $((2 ** 63 - 1))" | head -n 5800000; } | "$spprof" encode | "$spprof" migrate > "$folder/compact"
size=$(($(stat -c %s "$folder/compact") / 1024))
peaks_within 20000 0 "$folder/compact" check
peaks_within 20000 0 "$folder/compact" figures --workers 1 "$folder/compact"
# Of 30,000 sites, each called in turn, blocks are slow to join: one thread reads most of these 67 MB.
awk 'BEGIN { print "func f"; for (n = 0; n < 30000; n++) print "site s" n
    for (n = 0; n < 1400000; n++) print "call", n * 7 % 30000, "0\nstrand 5\nreturn" }' | "$spprof" encode > "$folder/row"
peak_within 75000 "$folder/row" profile --workers 2
# `encode` keeps the trace of these 39 MB of lines, and not the lines.
awk 'BEGIN { print "func f"; for (n = 0; n < 4300000; n++) print "strand", n % 7 }' > "$folder/lines"
peak_within 75000 "$folder/lines" encode
# `migrate` keeps what it writes: two bytes for each of these events.
size=$(($(stat -c %s "$folder/long") / 1024))
peaks_within 32000 0 "$folder/long" migrate
peaks_within 32000 0 "$folder/long" migrate "$folder/long"
# Six towers of half a million nested frames, each of which takes 224 bytes, once for all workers: where a run is deep one
# thread reads most blocks, and parts take nearly as much again where several do.
{ yes 'call 0 0' | head -n 500000 && yes return | head -n 500000; } > "$folder/tower"
{ printf 'func f\nsite A\n' && for tower in 1 2 3 4 5 6; do cat "$folder/tower"; done; } | "$spprof" encode > "$folder/deep"
peak_within 160000 "$folder/deep" profile --workers 4
# While it goes over a block another thread reads the next one: for each of its 92 blocks one, or one of the pool. Over the leaves
# behind a tower threads go that last for many blocks.
starts_within() { # LEAST MOST NAME INPUT WORDS..: so many threads are started
    local least=$1 most=$2 name=$3 input=$4 status requests starts
    shift 4
    run 0 0 "$input" "$spprof" "$@"
    if [ $status -eq 0 ] && [ "$starts" -ge "$least" ] && [ "$starts" -le "$most" ]; then
        echo "memory: $name: $starts threads"
        passed=$((passed + 1))
    else
        fails "$name: $starts threads, and not $least to $most, status $status"
    fi
}
starts_within 60 100 'a deep run' "$folder/deep" profile --workers 4
{ printf 'func f\nsite A\n' && cat "$folder/tower" && yes $'spawn 0 0\nstrand 3\nreturn' | head -n 4500000; } | "$spprof" encode > "$folder/leaves"
starts_within 8 84 'leaves behind a deep run' "$folder/leaves" profile --workers 4
# The first run's bytes are let go before the second is read: the peak is that of the larger run, and not of both.
one=$(peak_of 0 profile "$folder/long")
both=$(peak_of 0 compare "$folder/long" "$folder/long")
if [ "$both" -lt $((one + 20000)) ]; then
    echo "memory: a profile takes $one KiB, and compare of two such runs $both KiB"
    passed=$((passed + 1))
else
    fails "compare takes $both KiB, where a profile of one run takes $one KiB"
fi
each_refused 'help' 0 0 'A call-site profiler*' '' /dev/null "$spprof" --help
each_refused 'a usage fault' 2 0 '' 'error: *' /dev/null "$spprof" check --nothing

echo "$passed passed, $failed failed"
[ $failed -eq 0 ]
