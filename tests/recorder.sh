#!/usr/bin/env bash
# Records programs with the recorders of examples/record, and looks at what these say and keep; and runs the commands of
# docs/TUNING.md. What a compiler or runtime is missing for is skipped, and a line says so.
# usage: tests/recorder.sh SPPROF
set -u
spprof=$(readlink -f "$1")
top=$(cd "$(dirname "${BASH_SOURCE[0]}")/.." && pwd)
folder=$(mktemp -d)
trap 'rm -rf "$folder"' EXIT
passed=0
failed=0

# The last run's answer is in $status, $folder/out and $folder/err. A `*` in what is wanted stands for any text; bytes
# that are zero aren't seen.
judge() { # NAME STATUS OUT ERR
    local name=$1 out err
    out=$(tr -d '\0' < "$folder/out" && echo .)
    err=$(cat "$folder/err" && echo .)
    if [ "$status" -eq "$2" ] && [[ $out == $3. ]] && [[ $err == $4. ]]; then
        passed=$((passed + 1))
    else
        echo "FAILED recorder: $name: status $status, wanted $2; it wrote:"
        head -c 600 "$folder/out" "$folder/err"
        failed=$((failed + 1))
    fi
}

expect() { # NAME STATUS OUT ERR INPUT WORDS..
    local name=$1 wanted=$2 out=$3 err=$4 input=$5
    shift 5
    "$spprof" "$@" < "$input" > "$folder/out" 2> "$folder/err"
    status=$?
    judge "$name" "$wanted" "$out" "$err"
}

run() { # NAME STATUS OUT ERR WORDS..: runs the words
    local name=$1 wanted=$2 out=$3 err=$4
    shift 4
    "$@" > "$folder/out" 2> "$folder/err" < /dev/null
    status=$?
    judge "$name" "$wanted" "$out" "$err"
}

readme_command() { # BEGINNING: the command of examples/record/README.md that begins so
    sed -n "s/^    \\($1.*\\)/\\1/p" "$top/examples/record/README.md" | head -n 1
}

line_of() { # TEXT FILE: the number of the first line that has the text
    grep -nF -m 1 -- "$1" "$2" | cut -d : -f 1
}

lf=$'\n'
small=$top/examples/small.sptrace
record=$top/examples/record
options=(-std=c11 -O2 -Wall -Wextra -Werror -Wno-unknown-pragmas)
mkdir "$folder/record" && cp "$record"/*.[ch] "$record/record.sh" "$record/README.md" "$top"/tests/recorded.c "$top"/tests/right.c "$top"/tests/parts.c "$top"/tests/tasks.c "$folder/record" || exit 1
unset SPTRACE SPPROF_TRACE SPPROF_VERSION OMP_NUM_THREADS OMP_THREAD_LIMIT

# The macros, with spprof_record.c; what it counts depends on the compiler.
test_macros() {
    "$folder/record/record.sh" > "$folder/out" 2> "$folder/err"
    status=$?
    judge 'the recorder' 0 '*' ''
    expect 'two recorded runs' 0 'work *' '' /dev/null compare "$folder/record/out/before.sptrace" "$folder/record/out/after.sptrace"
    SPPROF_VERSION=2 SPTRACE="$folder/record/out/compact" "$folder/record/out/mergesort" before > "$folder/out" 2> "$folder/err"
    "$spprof" migrate "$folder/record/out/before.sptrace" 2>> "$folder/err" | cmp -s - "$folder/record/out/compact"
    status=$?
    judge 'the recorder, version 2' 0 '*' ''
    # Compiled in one command with the program, it counts the same. Compiled by clang, it counts otherwise, but works as well.
    cd "$folder/record" || exit 1
    for compiler in gcc clang; do
        command -v $compiler > /dev/null || continue
        for built in one two; do
            flag=-fsanitize-coverage=trace-pc
            if [ $built = one ]; then
                $compiler "${options[@]}" $flag mergesort.c spprof_record.c -o out/$built
            else
                $compiler "${options[@]}" $flag -c mergesort.c -o out/m.o && $compiler "${options[@]}" -c spprof_record.c -o out/r.o &&
                    $compiler out/m.o out/r.o -o out/$built
            fi > "$folder/out" 2> "$folder/err" && SPTRACE=out/$built.sptrace out/$built after > "$folder/out" 2>> "$folder/err"
            status=$?
            judge "the recorder: compiled by $compiler in $built" 0 '' ''
        done
        run "the recorder: $compiler, one command or two" 0 '' '' cmp out/one.sptrace out/two.sptrace
    done
    run 'the recorder: gcc, one file as the script compiles it' 0 '' '' bash -c 'gcc "$@" mergesort.c spprof_record.c -o out/one &&
        SPTRACE=out/one.sptrace out/one before && cmp out/one.sptrace out/before.sptrace' bash "${options[@]}" -fsanitize-coverage=trace-pc
    # A compiler that can't leave functions out is refused.
    run 'the recorder: an older gcc' 1 '' '*#error *-DREC_APART*' gcc -std=c11 -D__has_attribute=0* -U__clang__ -c spprof_record.c -o out/r.o
    # The source runs on threads too, or alone; what is neither is refused.
    for words in '-fopenmp -DREC_OFF' -DREC_OFF; do
        run "the recorder off: $words" 0 '' '' gcc "${options[@]}" $words mergesort.c -o out/threads
        for variant in before after; do
            OMP_NUM_THREADS=2 run "the recorder off: $words, $variant" 0 "*.* ms$lf" '' out/threads $variant
        done
    done
    run 'the recorder: with -fopenmp' 1 '' '*#error "to record, compile without -fopenmp; to run on threads, with -fopenmp and -DREC_OFF"*' \
        gcc -std=c11 -fopenmp -c mergesort.c -o out/m.o
    # An earlier trace stays until a new one is whole, however the program ends.
    recorded=$folder/record/out/recorded
    gcc "${options[@]}" -fsanitize-coverage=trace-pc recorded.c spprof_record.c -pthread -o "$recorded" > "$folder/out" 2> "$folder/err" &&
        (cd "$folder" && "$recorded") 2>> "$folder/err"
    status=$?
    judge 'the recorder: a program that ends as it is told' 0 '' ''
    expect 'the recorder: where no file is named' 0 'work *' '' "$folder/spprof.sptrace" check
    # The program of README.md, by the commands there, and with the pragmas there.
    awk '/^```c/ { n++; next } /^```/ { if (n == 1) exit } n == 1' README.md > fib.c && cp fib.c fib_line.c
    run 'README.md: the macros' 0 '' '' bash -c "$(readme_command 'gcc -O2 -fsanitize-coverage=trace-pc fib.c') && $(readme_command 'SPTRACE=fib')"
    expect 'README.md: the trace' 0 'work *' '' /dev/null check fib.sptrace
    cp fib.sptrace fib_before.sptrace
    sed -i -e '/REC_SPAWN/i #pragma omp task shared(x)' -e '/REC_SYNC/i #pragma omp taskwait' \
        -e '/REC_CALL("main/i #pragma omp parallel\n#pragma omp single' fib.c
    run 'README.md: with pragmas, recorded' 0 '' '' bash -c "$(readme_command 'gcc -O2 -fsanitize-coverage=trace-pc fib.c .* -o fib_recorded') &&
        SPTRACE=fib.sptrace ./fib_recorded && cmp fib.sptrace fib_before.sptrace"
    run 'README.md: no -fsanitize-coverage with -DREC_OFF' 1 '' '*__sanitizer_cov_trace_pc*' gcc -O2 -fsanitize-coverage=trace-pc -DREC_OFF fib.c -o out/off
    run 'README.md: with pragmas, on threads' 0 '' '' bash -c "$(readme_command 'gcc -O2 -fopenmp -DREC_OFF fib.c') && OMP_NUM_THREADS=2 ./fib_on_threads"
    run 'README.md: one thread, for burden' 0 "*.* ms$lf" '' bash -c "$(readme_command 'gcc -O2 -DREC_OFF mergesort.c')"
    if command -v g++ > /dev/null; then
        cp fib_line.c fib.cpp
        run 'README.md: C++' 0 '' '' bash -c "$(readme_command 'g++ -O2 -fsanitize') && $(readme_command 'gcc -O2 -c spprof') &&
            $(readme_command 'g++ fib.o') && $(readme_command 'SPTRACE=fib')"
        expect 'README.md: a trace of C++' 0 'work *' '' /dev/null check fib.sptrace
        run 'the recorder: C++, warnings' 0 '' '' g++ -Wall -Wextra -Wshadow -Wpedantic -Werror -c fib.cpp -o out/fib.o
        run 'the recorder: compiled as C++' 1 '' '*#error "compile the recorder with gcc or clang, as C*' g++ -x c++ -c spprof_record.c -o out/fib.o
    else
        echo 'recorder: SKIPPED C++: there is no g++'
    fi
    [ "$(line_of 'REC_SPAWN("fib: first"' fib_line.c)" = "$(sed -n 's/^    spprof_record: fib.c:\([0-9]*\) .*/\1/p' README.md)" ]
    status=$?
    judge 'README.md: the line in its message' 0 '*' '*'
    # What is used wrongly is told with its place.
    told() { # WORD STATUS PLACE MESSAGE: where PLACE stands in recorded.c, as it was written
        SPTRACE=$folder/told run "the recorder: $1" "$2" '' "spprof_record: recorded.c:$(line_of "$3" recorded.c) $4$lf" "$recorded" "$1"
    }
    by='its statement was left by return, break, continue, goto or an exception' jumped='its statement was left, as by longjmp'
    twice='it is reached twice, and may be only once in a run' thread='this is another thread than that of REC_START, so no trace was kept'
    told 'in return' 1 'REC_SPAWN("return:' "\"return: child\": $by"
    told 'in break' 1 'REC_SPAWN("break:' "\"break: child\": $by"
    told 'in longjmp' 1 'REC_CALL("jump:' "\"jump: deeper\": $jumped"
    told 'in longjmp to the end' 1 'REC_CALL("jump:' "\"jump: deeper\": REC_FINISH stands within it, or $jumped"
    told 'in thread' 1 'REC_SPAWN("fib: first"' "\"fib: first\": $thread"
    told 'start in thread' 1 'REC_START("in a thread")' "REC_START: $thread"
    for run in {1..20}; do
        SPTRACE=$folder/told timeout 10 "$recorded" 'start beside' > /dev/null 2>> "$folder/beside"
    done
    sort -u "$folder/beside" > "$folder/err"
    judge 'the recorder: start beside what is recorded' 1 '*' \
        "spprof_record: recorded.c:$(line_of 'REC_START("in a thread")' recorded.c) REC_START: $thread$lf"
    told 'in start' 1 '"in start"' "REC_START: $twice, so no trace was kept"
    told 'in name' 1 '"in name"' '"": a name is empty'
    told 'in function' 1 '"in function"' '"main: f": a name has more than 200 bytes: xxx*'
    told 'in root' 1 '"in root"' '"(root)": this name is spprof'"'"'s own: (root)'
    told 'in text' 1 '"in text"' $'"tab\t": a name has bytes that are no printable ASCII: tab\t'
    told 'atexit after a fault' 1 '"atexit after a fault"' '"": a name is empty'
    SPPROF_VERSION=3 told finish 1 '    REC_START("main")' 'REC_START: SPPROF_VERSION must be 1 or 2, and is 3'
    told 'in finish' 1 '"in finish"' "\"main: finish\": REC_FINISH stands within it, or $jumped"
    told 'no start' 1 '"no start"' 'REC_FINISH: no REC_START came before it'
    told 'start within' 1 '"start within"' 'REC_START: it stands within a spawn or call'
    [ ! -e "$folder/told" ]
    status=$?
    : > "$folder/out" > "$folder/err"
    judge 'the recorder: nothing kept of these' 0 '' ''
    for word in finish start; do
        rm -f "$folder/told"
        told "$word twice" 1 "\"$word twice\"" "REC_${word^^}: $twice; the first trace was kept"
        expect "the recorder: what $word twice keeps" 0 'work *' '' /dev/null check "$folder/told"
    done
    for version in '' 1; do
        SPPROF_VERSION=$version SPTRACE=$folder/told run "the recorder: SPPROF_VERSION=$version" 0 '' '' "$recorded"
        run "the recorder: SPPROF_VERSION=$version, its magic" 0 SPTRACE1 '' head -c 8 "$folder/told"
    done
    SPTRACE=$folder/told run 'the recorder: in plain thread' 0 '' "spprof_record: recorded.c:* REC_FINISH: other threads have run too, and are not in the trace$lf" \
        "$recorded" 'in plain thread'
    expect 'the recorder: beside a plain thread' 0 'work *' '' "$folder/told" check
    told 'in call' 0 'REC_SPAWN("plainly:' '"plainly: child": call_plainly was called without REC_CALL, so in the trace its children are those of main, where REC_START stands'
    expect 'the recorder: a call without REC_CALL' 0 'work *' '' /dev/null check "$folder/told"
    # However a program is built, what the recorder tells of it is the same; of what is right, nothing.
    gcc "${options[@]}" -c spprof_record.c -o out/r.o
    as_built() { # NAME FILE MESSAGE WORDS..: of the program of this file, run with these words
        local name=$1 file=$2 message=${3:+"4 spprof_record: $3$lf"} compiler level
        shift 3
        for compiler in gcc clang; do
            command -v $compiler > /dev/null || continue
            status=0
            for level in 0 1 2 3; do
                $compiler "${options[@]}" -O$level -Wshadow -fsanitize-coverage=trace-pc "$file" out/r.o -o out/built &&
                    SPTRACE=out/built.sptrace out/built "$@" || status=1
            done > "$folder/out" 2> "$folder/lines"
            sort "$folder/lines" | uniq -c | sed 's/^ *//' > "$folder/err"
            judge "the recorder: $name, $compiler" 0 '' "$message"
        done
    }
    runs='was called without REC_CALL, so in the trace two runs of it are one frame' second='REC_CALL("fib: second", "fib", y = fib(n - 2));'
    as_built 'what is right' right.c ''
    as_built 'mergesort.c' mergesort.c '' after
    sed "s/$second/y = fib(n - 2);/" fib_line.c > plain_last.c
    as_built 'a recursion, with the plain call last' plain_last.c "plain_last.c:6 \"fib: first\": fib $runs"
    sed -e "/$second/d" -e '/REC_SPAWN/i y = fib(n - 2);' fib_line.c > plain_first.c
    as_built 'a recursion, with the plain call first' plain_first.c "plain_first.c:7 \"fib: first\": fib $runs"
    sed 's/REC_CALL("sort: right", "sort", \(.*\));$/\1;/' mergesort.c > plain_sort.c
    as_built 'mergesort.c with a plain call' plain_sort.c \
        "plain_sort.c:$(line_of 'REC_SPAWN("sort: left"' plain_sort.c) \"sort: left\": sort $runs" before
    sed -e 's/REC_START("main");/begin();/' -e 's/REC_FINISH();/end();/' -e '/^int main/i static void begin(void) { REC_START("main"); }' \
        -e '/^int main/i static void end(void) { REC_FINISH(); }' fib_line.c > begin.c
    as_built 'REC_START in a function of its own' begin.c "begin.c:$(line_of 'REC_CALL("main: fib"' begin.c) \"main: fib\": \
main was called without REC_CALL, so in the trace its children are those of begin, where REC_START stands"
    # Which of two functions was called plainly can't be seen.
    printf '%s\n' '#include "spprof_record.h"' 'volatile int n; __attribute__((noinline)) static void leaf(void) { for (n = 0; n < 9;) n++; }' \
        'static void prepare(void) { REC_SPAWN("prepare: a", "leaf", leaf()); REC_SYNC(); }' \
        'static void step(void) { prepare(); REC_SPAWN("step: a", "leaf", leaf()); REC_SYNC(); }' \
        'int main(void) { REC_START("main"); REC_CALL("main: step", "step", step()); REC_FINISH(); }' > helper.c
    as_built 'a helper with a plain call' helper.c \
        'helper.c:4 "step: a": step and prepare ran in one frame, so one of them was called without REC_CALL'
    # Parts that were compiled without the option that counts.
    parts() { # NAME MESSAGE COMPILER WORD ALONE WORK: the rest and the work are compiled with these options
        local compiler=$3
        $compiler "${options[@]}" $5 -c parts.c -o out/alone.o && $compiler "${options[@]}" $6 -DWORK -c parts.c -o out/work.o &&
            $compiler out/alone.o out/work.o out/r.o -o out/parts
        SPTRACE=out/parts.sptrace run "the recorder: $1, $compiler" 0 '' "${2:+"spprof_record: parts.c:$2$lf"}" out/parts "$4"
    }
    flag=-fsanitize-coverage=trace-pc
    of_spawn="$(line_of 'REC_SPAWN("spawn: first"' parts.c) \"spawn: first\"" of_work="$(line_of 'REC_SPAWN("main: work"' parts.c) \"main: work\""
    of_main="$(line_of 'REC_CALL("main: spawn"' parts.c) \"main: spawn\""
    for compiler in gcc clang; do
        command -v $compiler > /dev/null || continue
        for word in work spawn; do
            parts "all counts, $word" '' $compiler $word $flag $flag
        done
        parts 'work that does not count' "$of_work: no block was counted in its frames, though they took long: \
what they run was compiled without $flag, as libraries are" $compiler work $flag ''
        parts 'macros that do not count' "$of_spawn: this file was compiled without $flag, so its blocks aren't counted" $compiler spawn $flag ''
        parts 'the rest does not count' "$of_main: this file was compiled without $flag, so its blocks aren't counted" $compiler spawn '' $flag
    done
    gcc "${options[@]}" recorded.c spprof_record.c -pthread -o out/uncounted
    SPTRACE=$folder/uncounted run 'the recorder: nothing counted' 1 '' "spprof_record: recorded.c:* REC_FINISH: nothing was counted: *$lf" out/uncounted
    # The name of the variable, and the older one.
    SPPROF_TRACE=$folder/older run 'the recorder: SPPROF_TRACE' 0 '' '' "$recorded"
    SPPROF_TRACE=$folder/no/older SPTRACE=$folder/newer run 'the recorder: SPTRACE and SPPROF_TRACE' 0 '' '' "$recorded"
    run 'the recorder: two names' 0 '' '' cmp "$folder/older" "$folder/newer"
    left() { # NAME STATUS ERR FILES: these files are in the folder `kept`, and what they have is empty, earlier or new
        (shopt -s dotglob && LC_ALL=C && cd "$folder/kept" && for file in *; do
            has=bad
            ! "$spprof" check "$file" > "$folder/answer" 2> /dev/null || has=new
            ! cmp -s "$file" "$small" || has=earlier
            [ -s "$file" ] || has=empty
            [ ! -L "$file" ] || has="link to $has"
            echo "$file: $has"
        done) > "$folder/out"
        judge "the recorder: $1" "$2" "$4$lf" "$3"
    }
    # Root may write what is read only, and a recorder with a fault could replace devices: so another user runs it.
    as_user=(timeout 10) is_bound=1 owner=$(id -u):$(id -g)
    if [ "$(id -u)" -eq 0 ]; then
        chmod a+x "$folder" && chmod -R a+rX "$folder/record"
        owner=65534:65534 as_user+=(setpriv --reuid 65534 --regid 65534 --clear-groups)
        "${as_user[@]}" test -x "$recorded" 2> "$folder/err" || { owner=0:0 as_user=(timeout 10) is_bound=; }
    fi
    # The program ends as the word says, after the command, where `trace` is an earlier trace, `link` leads there, and what
    # $prepare says is done.
    record() { # TRACE WORD [COMMAND]
        rm -rf "$folder/kept" && mkdir "$folder/kept" && cp "$small" "$folder/kept/trace" && ln -s trace "$folder/kept/link" &&
            chown -hR "$owner" "$folder/kept"
        (cd "$folder/kept" && eval "${prepare-}" && SPTRACE=$1 exec "${as_user[@]}" "$recorded" "${@:2}") \
            > "$folder/out" 2> "$folder/err"
        status=$?
        chmod u+rwx "$folder/kept"
    }
    unkept='so no trace was kept'
    nothing="spprof_record: recorded.c:* REC_START: no REC_FINISH was reached, $unkept; the last event was at recorded.c:* \"main: fib\"$lf"
    within="spprof_record: recorded.c:* REC_FINISH: the program ended within it, $unkept$lf"
    old="link: link to earlier${lf}trace: earlier" new="link: link to new${lf}trace: new"
    for word in finish move fork atexit; do
        record trace $word
        left "$word" 0 '' "$new"
    done
    for word in exit return; do
        for trace in trace link new; do
            record $trace $word
            left "$word, $trace" 0 "$nothing" "$old"
        done
    done
    for word in _exit exec; do
        record trace $word
        left "$word" 0 '' "$old"
    done
    # Other runs with the same file: ended, and not yet.
    record trace finish "$recorded exit"
    left 'a run that keeps nothing within a run' 0 "$nothing" "$new"
    record trace exit "$recorded"
    left 'a run within a run that keeps nothing' 0 "$nothing" "$new"
    record trace finish "$recorded exit && { $recorded finish 'sleep 0.2' & sleep 0.1; }"
    left 'a run beside a run' 0 "$nothing" "$new"
    sleep 0.2
    left 'a run beside a run, and its end' 0 "$nothing" "$new"
    # Other files, and what files may be like.
    prepare='cp trace trace.part && ln trace hard' record trace finish
    left 'other files' 0 '' "hard: earlier${lf}link: link to new${lf}trace: new${lf}trace.part: earlier"
    for mode in 600 666; do
        prepare="chmod $mode trace" record trace finish
        [ "$(stat -c %a "$folder/kept/trace")" = $mode ] || status=125
        left "a file of mode $mode" 0 '' "$new"
    done
    record trace finish 'cp trace .spprof-$PPID-0'
    left 'a new file of an earlier run' 0 '' ".spprof-*-0: earlier$lf$new"
    long=$(printf '%0255d' 0)
    record $long finish
    left 'a long name' 0 '' "$long: new$lf$old"
    if [ $is_bound ]; then
        prepare='chmod 444 trace' record trace exit
        left 'a file that is read only' 3 "spprof_record: recorded.c:* REC_*: cannot write trace, $unkept: *" "$old"
        record trace finish 'chmod 444 trace'
        left 'a file that becomes read only' 3 "spprof_record: recorded.c:* REC_*: cannot write trace, $unkept: *" "$old"
        prepare='chmod 555 .' record link exit
        left 'a folder that is read only' 3 "spprof_record: recorded.c:* REC_*: cannot write a file beside link, $unkept: *" "$old"
        prepare='chmod 311 .' record trace move
        left 'a folder that cannot be opened' 0 '' "$new"
        if [ "$(id -u)" -eq 0 ]; then
            prepare='chown 0 . trace && chmod 1777 . && chmod 666 trace' record trace finish
            left "another user's file in a sticky folder" 3 "spprof_record: recorded.c:* REC_*: cannot write trace, $unkept: *" "$old"
        fi
    fi
    # A file of at most 1 KB.
    for trace in trace link; do
        (trap '' XFSZ && ulimit -f 1 && record $trace finish && exit "$status")
        status=$?
        left "a write that fails, $trace" 3 "spprof_record: recorded.c:* REC_*: cannot write $trace, $unkept: *" "$old"
        (ulimit -f 1 && record $trace signal && exit "$status")
        status=$?
        left "exit from a signal's function while it writes, $trace" 0 "$within" "$old"
    done
    record no/trace exit
    left 'no such folder' 3 "spprof_record: recorded.c:* REC_*: cannot write no/trace, $unkept: *" "$old"
    record . exit
    left 'a folder' 3 "spprof_record: recorded.c:* REC_*: cannot write ., $unkept: *" "$old"
    # Links.
    record link move
    left 'a link' 0 '' "$new"
    prepare='ln -s missing first && ln -s "$PWD/first" second' record ./second move
    left 'links to a missing file' 0 '' \
        "first: link to new${lf}link: link to earlier${lf}missing: new${lf}second: link to new${lf}trace: earlier"
    prepare='ln -s missing first' record first exit
    left 'a link to a missing file, exit' 0 "$nothing" "first: link to empty$lf$old"
    prepare='ln -s no/trace first' record first exit
    left 'a link to no such folder' 3 "spprof_record: recorded.c:* REC_*: cannot write first, $unkept: *" "first: link to empty$lf$old"
    record new finish 'ln -s trace new'
    left 'a link that is made meanwhile' 3 "spprof_record: recorded.c:* REC_*: cannot write new, $unkept: *" \
        "link: link to earlier${lf}new: link to earlier${lf}trace: earlier"
    # What is no regular file, or is open already, is written itself.
    mkfifo -m 666 "$folder/pipe"
    timeout 10 "$spprof" check "$folder/pipe" > "$folder/answer" 2>&1 &
    record "$folder/pipe" finish
    wait
    mv "$folder/answer" "$folder/out"
    judge 'the recorder: a pipe by name' 0 'work *' ''
    record "$folder/pipe" signal 'sleep 0.1 && kill $PPID &'
    left "exit from a signal's function, a pipe" 0 "$within" "$old"
    if [ $is_bound ]; then
        record /dev/full finish
        left 'a full device' 3 "spprof_record: recorded.c:* REC_*: cannot write /dev/full, $unkept: *" "$old"
    fi
    # There may be no /dev/stdout, or none that this user can open.
    has_output=
    ! (set -o pipefail && "${as_user[@]}" test -e /dev/stdout | cat) || has_output=1
    if [ $has_output ] && [ $is_bound ]; then
        exec 3< "$folder/out"
        record /dev/stdout finish
        "$spprof" check <&3 > "$folder/answer" 2>> "$folder/err" && mv "$folder/answer" "$folder/out"
        exec 3<&-
        judge 'the recorder: standard output in a file' 0 'work *' ''
        SPTRACE=/dev/stdout "${as_user[@]}" bash -c '"$0" | cat' "$recorded" 2> "$folder/err" |
            "$spprof" check > "$folder/out" 2>> "$folder/err"
        status=$?
        judge 'the recorder: a pipe' 0 'work *' ''
    fi
    if [ $has_output ]; then
        # The command runs the program with its output in a pipe, which is closed before the trace can go there.
        record trace exit "ln -s /dev/stdout out && { SPTRACE=out $recorded close; echo \$? >&2; } | cat"
        left 'a pipe that is closed' 0 "spprof_record: recorded.c:* REC_*: cannot write out, $unkept: *${lf}3$lf$nothing" \
            "link: link to earlier${lf}out: link to *${lf}trace: earlier"
    else
        echo 'recorder: SKIPPED standard output by name: there is no /dev/stdout that can be opened'
    fi
    cd "$top" || exit 1
}
if command -v gcc > /dev/null; then
    test_macros
else
    echo 'recorder: SKIPPED the macros: there is no gcc'
fi

# The tool for OpenMP: the frames of each site, which are known, and parallelisms within wide bounds.
test_openmp() {
    local word line
    cd "$folder/record" || exit 1
    run 'openmp: the tool' 0 '' '' clang "${options[@]}" -fPIC -shared openmp.c spprof_record.c -o librecord.so
    run 'openmp: the programs' 0 '' '' clang -std=c11 -O2 -g -Wall -Wextra -Werror -fopenmp tasks.c -o tasks
    under() { # THREADS WORDS..: runs the words under the tool
        OMP_NUM_THREADS=$1 OMP_TOOL_LIBRARIES=./librecord.so SPTRACE=tasks.sptrace timeout 20 "${@:2}"
    }
    rows() { # the rows of tasks.sptrace, each as how many frames it has and its name
        "$spprof" profile tasks.sptrace | awk '/^whole dag/ { on = 1; next } /^$/ { on = 0 }
            on { n = $1; for (i = 0; i < 8; i++) sub(/^ *[^ ]+ +/, ""); print n, $0 }'
    }
    # What the program prints, its parallelism in hundredths, and `frames mark function` each. The line is the mark's, or
    # where $slack says so one of the next, as gcc has it.
    recorded_as() { # WORD RESULT LOW HIGH FRAMES..
        local word=$1 low=$3 high=$4 frames at
        rm -f tasks.sptrace
        run "openmp: ${program-./tasks} $word" 0 "$2$lf" "${told-}" under 1 ${program-./tasks} "$word"
        rows > "$folder/rows"
        shift 4
        for frames in "$@" '1 region main parallel'; do
            read -r count mark name <<< "$frames"
            at=$(line_of "/* ${mark//_/ } */" tasks.c)
            status=1
            for ((line = at; line <= at + ${slack-0}; line++)); do
                ! grep -qxF "$(echo "$count" "tasks.c:$line" $name)" "$folder/rows" || status=0
            done
            cp "$folder/rows" "$folder/out" && : > "$folder/err"
            judge "openmp: ${program-./tasks} $word has $frames" 0 '*' ''
        done
        "$spprof" figures tasks.sptrace | awk -v low="$low" -v high="$high" '/^parallelism/ { exit !(100 * $2 >= low && 100 * $2 <= high) }'
        status=$?
        judge "openmp: ${program-./tasks} $word, parallelism" 0 '*' ''
    }
    all_recorded() {
        recorded_as fib 987 200 8000 '1596 fib fib'
        recorded_as queens 4 100 4000 '152 queens queens'
        recorded_as sort 1 150 2500 '63 sort_left sort' '63 sort_right sort'
        recorded_as lu 1 150 2000 '15 lu_row lu' '15 lu_column lu' '55 lu_inner lu'
        recorded_as chain 1 100 110 '32 chain chain'
        recorded_as flat 1 150 3300 '32 flat flat'
        recorded_as cut 144 110 1200 '143 cut_first cut' '143 cut_second cut'
        recorded_as undeferred 1 100 150 '1 undeferred_first undeferred' '1 undeferred_second undeferred' \
            '1 undeferred_final undeferred' '1 undeferred_included undeferred' '1 undeferred_within undeferred'
        recorded_as turns 1 100 500 '1 turns_first turns' '3 turns_second turns'
        recorded_as line 1 100 300 '1 line line' '1 line line #2'
        told="spprof_record: the trace leaves out dependences, *: 2$lf${unseen-spprof_record: the trace has loops *: 1$lf}" \
            recorded_as kinds 5 100 600 '1 if kinds' '1 final kinds' '1 included kinds' '4 taskloop kinds' \
            "3 nogroup ${slack:+kinds}" '1 untied kinds' '1 out kinds' '1 in kinds'
        # What if(0) and final make undeferred is called, not spawned.
        run "openmp: ${program-./tasks}: calls" 0 "3$lf" '' bash -c 'tail -c +$(($(stat -c %s tasks.sptrace) % 16 + 1)) tasks.sptrace |
            od -An -v -tx1 -w16 | grep -c "^ 01 00 00 00"'
    }
    all_recorded
    recorded_as halves 1 100 1300 '13 halves halves'
    expect 'openmp: a taskloop in halves, no group' 0 '* 1 * taskloop nogroup*' '' /dev/null profile tasks.sptrace
    recorded_as twice 0 100 1000
    recorded_as rest 1 100 200 '1 rest rest'
    [ "$("$spprof" check tasks.sptrace | cut -d ' ' -f 2)" -lt 100000000 ] # of 200 ms
    status=$?
    judge 'openmp: to wait is no work' 0 '*' ''
    # The same in version 2; and gcc's programs, with LLVM's runtime in place of its own.
    SPPROF_VERSION=2 run 'openmp: version 2' 0 "987$lf" '' under 1 ./tasks fib
    [ "$(head -c 8 tasks.sptrace)" = SPTRACE2 ]
    status=$?
    judge 'openmp: its magic' 0 '*' ''
    if command -v gcc > /dev/null; then
        for level in 0 1 2 3; do
            run "openmp: gcc -O$level" 0 '' '' gcc -std=c11 -O$level -g -fopenmp tasks.c -o tasks_of_gcc$level
            LD_PRELOAD=$(ldd tasks | awk '/libomp/ { print $3 }') slack=2 unseen= program=./tasks_of_gcc$level all_recorded
        done
    fi
    # Names by function, which an edit leaves as they are, with numbers in the order of the lines.
    SPPROF_NAMES=functions run 'openmp: by another word' 1 '' \
        "spprof_record: SPPROF_NAMES must be function or line, and is functions$lf" under 1 ./tasks turns
    SPPROF_NAMES=function run 'openmp: by function' 0 "1$lf" '' under 1 ./tasks turns
    rows | sort > "$folder/out"
    judge 'openmp: names by function' 0 "1 (root)${lf}1 tasks.c main parallel${lf}1 tasks.c turns${lf}3 tasks.c turns #2${lf}*" ''
    mkdir edited && (echo && cat tasks.c) > edited/tasks.c
    run 'openmp: an edited program' 0 '' '' clang -std=c11 -O2 -g -fopenmp edited/tasks.c -o edited/tasks
    for names in 'function 7' 'line 1'; do
        for program in ./tasks edited/tasks; do
            SPPROF_NAMES=${names% *} under 1 $program undeferred > /dev/null
            rows | grep -v '^count'
        done 2> "$folder/err" | sort | uniq -d | wc -l > "$folder/out"
        judge "openmp: rows that an edit leaves, by ${names% *}" 0 "${names#* }$lf" ''
    done
    unset program
    # Without lines, and without programs that tell names.
    clang -std=c11 -O1 -fopenmp tasks.c -o plain
    run 'openmp: no lines' 0 "987$lf" '' under 1 ./plain fib
    expect 'openmp: names where lines are unknown' 0 '* plain+0x* fib*' '' /dev/null profile tasks.sptrace
    SPPROF_NAMES=function run 'openmp: no lines, by function' 0 "987$lf" '' under 1 ./plain fib
    expect 'openmp: names by function where lines are unknown' 0 '* plain fib*' '' /dev/null profile tasks.sptrace
    run 'openmp: nothing that tells names' 0 "987$lf" '' under 1 env PATH=/nowhere ./tasks fib
    expect 'openmp: names by module' 0 '* tasks+0x*' '' /dev/null profile tasks.sptrace
    # The names by llvm-symbolizer alone.
    if command -v llvm-symbolizer > /dev/null; then
        mkdir names && ln -s "$(command -v llvm-symbolizer)" names
        run 'openmp: names by llvm-symbolizer' 0 "987$lf" '' under 1 env PATH="$PWD/names" ./tasks fib
        expect 'openmp: these names' 0 "* tasks.c:$(line_of '/* fib */' tasks.c) fib$lf*" '' /dev/null profile tasks.sptrace
    fi
    # What can't be recorded, and what ends early.
    rm tasks.sptrace
    run 'openmp: two threads' 1 '' 'spprof_record: "tasks.c:* main parallel": it has more than one thread: set OMP_NUM_THREADS=1*' under 2 ./tasks fib
    run 'openmp: regions of two threads' 1 '' 'spprof_record: "tasks.c:* region parallel": then a second thread *' under 1 ./tasks thread
    run 'openmp: no region' 0 '' "spprof_record: the program ran no parallel region, so no trace was kept$lf" under 1 ./tasks none
    [ ! -e tasks.sptrace ]
    status=$?
    judge 'openmp: nothing kept of these' 0 '*' '*'
    run 'openmp: exit in a region' 3 '' 'spprof_record: the program ended within a region, *' under 1 ./tasks exit
    expect 'openmp: a trace of exit in a region' 0 'work *' '' tasks.sptrace check
    run 'openmp: a folder that is missing' 3 '' 'spprof_record: cannot write no/trace, so no trace was kept: *' \
        env OMP_NUM_THREADS=1 OMP_TOOL_LIBRARIES=./librecord.so SPTRACE=no/trace ./tasks fib
    # The commands of README.md, and those of docs/TUNING.md that depend on the compiler or the hour.
    mkdir bin && ln -s "$spprof" bin/spprof && cp tasks.c program.c
    run 'README.md: OpenMP' 0 "987$lf" '' bash -c "$(readme_command 'clang -O2 -fPIC') && $(readme_command 'clang -O2 -g') &&
        $(readme_command 'OMP_NUM_THREADS=1 OMP_TOOL') fib"
    run 'README.md: its profile' 0 'work *' '' env PATH="$PWD/bin:$PATH" bash -c "$(readme_command 'spprof profile out')"
    run 'README.md: no trace' 0 '*Opening librecord.so... Failed: *' '' \
        env OMP_TOOL_VERBOSE_INIT=stdout OMP_NUM_THREADS=1 OMP_TOOL_LIBRARIES=librecord.so ./program fib
    run 'README.md: the least work' 0 "work * run.*${lf}work *" '' env PATH="$PWD/bin:$PATH" \
        bash -c "$(readme_command 'export OMP_NUM') && set -- fib && $(readme_command 'for n in' | sed 's/program/& fib/')"
    if command -v gcc > /dev/null; then
        run "README.md: the tool by gcc" 0 '' '' bash -c "$(readme_command 'gcc -O2 -fPIC')"
        run "README.md: the tool by gcc, run" 0 "1$lf" '' under 1 ./tasks undeferred
    fi
    run 'README.md: burden' 0 "4 threads, *$lf--burden [0-9]* --join-burden [0-9]*$lf" '' \
        timeout 60 bash -c "$(readme_command 'clang -O2 -fopenmp burden.c') && $(readme_command 'OMP_NUM_THREADS=4 .\/burden')"
    while read -r line; do
        run "docs/TUNING.md: $line" 0 '*' '' timeout 60 bash -c "$line"
    done < <(sed -n 's/^    \$ \([^.].*\)/\1/p' "$top/docs/TUNING.md")
    # The burden, and the loop and tree of docs/TUNING.md.
    run 'openmp: burden.c' 0 '' '' clang "${options[@]}" -fopenmp burden.c -o burden
    OMP_NUM_THREADS=2 run 'burden' 0 "2 threads, *$lf--burden [0-9]* --join-burden [0-9]*$lf" '' timeout 20 ./burden
    OMP_NUM_THREADS=2 run 'burden in another unit' 0 "2 threads, *$lf--burden [0-9]* --join-burden [0-9]*$lf" '' timeout 20 ./burden 1000000 0.1
    OMP_NUM_THREADS=1 run 'burden of one thread' 1 '' 'burden: one thread has no burden: *' ./burden
    OMP_NUM_THREADS=1 run 'burden, one word' 2 '' 'usage: *' ./burden 1
    for word in 0 -1 nan inf 1e999 72ms 85,460,022 '' x; do
        OMP_NUM_THREADS=2 run "burden, WORK $word" 2 '' "burden: WORK and SECONDS must be numbers above 0, *; this is none: $word$lf" ./burden "$word" 1
        OMP_NUM_THREADS=2 run "burden, SECONDS $word" 2 '' "burden: WORK and SECONDS must be numbers above 0, *; this is none: $word$lf" ./burden 1 "$word"
    done
    for words in '1 1' '1e300 1'; do
        OMP_NUM_THREADS=2 run "burden $words" 2 '' "burden: the burdens must be whole numbers from 1 on, and are *: look at WORK and SECONDS$lf" ./burden $words
    done
    run 'openmp: collatz.c' 0 '' '' clang "${options[@]}" -g -fopenmp collatz.c -o collatz
    for word in loop tree; do
        run "openmp: collatz $word" 0 "13255 has 275 steps$lf" '' under 1 ./collatz $word
        expect "openmp: the trace of collatz $word" 0 'work *' '' tasks.sptrace check
    done
    cd "$top" || exit 1
}
if ! command -v clang > /dev/null; then
    echo 'recorder: SKIPPED openmp: there is no clang'
elif ! printf '#include <omp-tools.h>\nint main(void) { return 0; }\n' | clang -fopenmp -x c - -o "$folder/probe" 2> /dev/null; then
    echo 'recorder: SKIPPED openmp: clang has no omp-tools.h or no libomp'
elif ! command -v addr2line > /dev/null; then
    echo 'recorder: SKIPPED openmp: there is no addr2line'
else
    test_openmp
fi

# What docs/FORMATS.md says to writers of recorders: the text that one prints, and the usual causes of each line.
fib_as_text() {
    awk -v n=12 'function fib(n) { print "strand 3"; if (n < 2) return; print "spawn 0 1"; fib(n - 1); print "return\nstrand 1\ncall 1 1"
        fib(n - 2); print "return\nstrand 1\nsync\nstrand 2" }
        BEGIN { print "func main\nfunc fib\nsite first\nsite second"; fib(n) }'
}
fib_as_text | "$spprof" encode > "$folder/fib" && "$spprof" profile --csv "$folder/fib" | cut -d , -f 1,2 > "$folder/out" 2> "$folder/err"
status=$?
judge 'a recorder that prints text' 0 "name,count$lf(root),1${lf}first,232${lf}second,232$lf" ''
text_has() { # FAULT TEXT: what `encode` says of the text
    printf "$2" > "$folder/text"
    expect "a recorder's text: $1, $2" 1 '' "bad text line $1$lf" "$folder/text" encode
}
text_has '2: word' 'func f\nhello\n'
text_has '3: count' 'func f\nsite a\nspawn 0\n'
text_has '2: count' 'func f\nsync # waits\n'
for number in -1 1.5 0x10 18446744073709551616; do
    text_has '2: number' "func f\nstrand $number\n"
done
text_has '3: late' 'func f\nstrand 1\nfunc g\n'
text_has '2: name' 'func f\nsite \n'
text_has '3: same name' 'func f\nsite a\nsite a\n'
text_has '3: root' 'func f\nroot 0\nroot 0\n'
text_has '3: root' 'func f\nroot 1\nstrand 1\n'
text_has '1: no function' 'strand 1\n'
text_has '1: no function' ''
text_has '3: site' 'func f\nsite a\nspawn 1 0\n'
text_has '3: function' 'func f\nsite a\nspawn 0 1\n'
text_has '3: number' 'func f\nsite a\nspawn a f\n'
bytes_have() { # LINE WHY BYTES: what `check` says of the bytes, in hexadecimal
    printf "$(sed 's/[0-9a-f][0-9a-f]/\\x&/g; s/ //g' <<< "$3")" > "$folder/bytes"
    expect "a recorder's bytes: $2" 1 '' "$1$lf" "$folder/bytes" check
}
magic=5350545241434531 one=00000001 none=00000000 zeros=0000000000000000
f="$magic$one$none$none" g="$magic$one$one$none" names='0001660001 61' strand="00000000$none$none$one"
bytes_have 'bad header: short' nothing ''
bytes_have 'bad header: magic' 'text' 66756e63206d61696e0a66756e63206d61696e0a66756e63
bytes_have 'bad header: limits' 'lowest byte first' "${magic}01000000$none$none${none}000166"
bytes_have 'bad header: limits' 'no function' "$magic$none$none$none$none"
bytes_have 'bad header: short' 'a name too few' "$f${none}0001"
bytes_have 'bad header: root function' 'functions from 1' "$magic$one$none$one${none}000166"
bytes_have 'bad header: name 0' 'a length of one byte' "$f${none}0166"
bytes_have 'bad header: name 0' 'a length of four bytes' "$f${none}0000000166"
bytes_have 'bad header: name 0' 'a zero at the end' "$f${none}00026600"
bytes_have 'bad header: same name 1' '(root)' "$g${none}000166000628726f6f7429"
bytes_have 'bad header: trailing' 'a number that stayed 0' "$f${none}000166$strand"
bytes_have 'bad event 1: truncated' 'too great a number' "${f}00000002000166$strand"
bytes_have 'bad event 0: tag' 'tags from 1' "${f}${one}00016605000000$none$none$none"
bytes_have 'bad event 0: padding' 'a tag of four bytes' "${g}${one}$names$one$none$none$none"
bytes_have 'bad event 0: site' 'lowest byte first' "${g}${one}${names}0200000001000000$zeros"
bytes_have 'bad event 0: root return' 'a return too many' "${f}${one}00016603000000$none$none$none"
bytes_have 'bad event 1: unclosed 1' 'a return too few' "${g}${one}${names}02000000$none$none$none"
bytes_have 'bad event 0: operand' 'a leading digit' "5350545241434532$one$none$none${one}000166800041"
missing=$(sed -n '/^## Faults/,/^## What/p' "$top/docs/FORMATS.md" | grep -o '`[a-z ]*\( n\| d\)\?`' | sort -u | tr -d '`' | while read -r fault; do
    sed -n '/^## Writing a recorder/,$p' "$top/docs/FORMATS.md" | grep '^|' | grep -q "[: ]$fault\`" || echo "$fault"
done)
echo "$missing" > "$folder/out" && : > "$folder/err"
[ -z "$missing" ]
status=$?
judge 'docs/FORMATS.md: the table has all faults' 0 '*' ''

# The lines that the committed traces name are still those of their pragmas.
for run in loop tree; do
    "$spprof" profile "$record/collatz_$run.sptrace" | grep -o 'collatz.c:[0-9]*' | cut -d : -f 2 | sort -u
done > "$folder/out" 2> "$folder/err"
while read -r line; do
    sed -n "${line}p" "$record/collatz.c"
done < "$folder/out" | grep -c '^#pragma omp' > "$folder/err"
[ "$(cat "$folder/err")" -eq "$(wc -l < "$folder/out")" ]
status=$?
judge 'the lines of collatz.c' 0 '*' '*'

# Each command of docs/TUNING.md that reads committed traces, and what it shows; a line `...` stands for any lines.
awk '/^    \$ / { show = /^    \$ \.\/spprof /; if (show) print "\001" substr($0, 7); next }
    /^    / { if (show) print substr($0, 5); next }
    /^$/ { if (show) print ""; next }
    { show = 0 }' "$top/docs/TUNING.md" > "$folder/shown"
commands=0
while IFS= read -r -d $'\001' block; do
    [ -n "$block" ] || continue
    command=${block%%"$lf"*} text=${block#*"$lf"}
    while [[ $text == *"$lf$lf" ]]; do text=${text%"$lf"}; done
    pattern=${text//"$lf...$lf"/"$lf"*"$lf"}
    (cd "$top" && eval "\"\$spprof\" ${command#./spprof }") > "$folder/out" 2> "$folder/err"
    status=$?
    judge "docs/TUNING.md: $command" 0 "$pattern" ''
    commands=$((commands + 1))
done < <(cat "$folder/shown" && printf '\001')
[ $commands -ge 4 ]
status=$?
judge 'docs/TUNING.md: its commands are found' 0 '*' '*'

echo "$passed passed, $failed failed"
[ $failed -eq 0 ]
