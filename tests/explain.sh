# The cases of `--explain`. tests/program.sh reads this file, and what it uses is set there.

# With --explain a second line says where, what was found, what was expected, and what to do; without it nothing more is told.
explains() { # NAME STATUS LINE FOUND ADVICE INPUT WORDS..
    local name=$1 wanted=$2 line=$3 found=$4 advice=$5 input=$6
    shift 6
    expect "explain: $name" "$wanted" '' "$line${lf}spprof: $found; expected: *; usual cause: *; to do: $advice$lf" "$input" "$@" --explain
    expect "explain: $name, not asked for" "$wanted" '' "$line$lf" "$input" "$@"
}
trace() { # EVENTS: a trace of version 1 with so many events, of which none is written; functions main and f, site A
    printf "SPTRACE1\0\0\0\2\0\0\0\1\0\0\0\0\0\0\0\\$1\0\4main\0\1f\0\1A"
}
event() { # BYTES..: one more event, of which these bytes aren't zero, each as PLACE=VALUE in octal
    local place bytes=(0 0 0 0 0 0 0 0 0 0 0 0 0 0 0 0)
    for place in "$@"; do bytes[${place%=*}]=${place#*=}; done
    printf "$(printf '\\%s' "${bytes[@]}")"
}
bad=$folder/bad
encode_it='make a trace of the text: spprof encode TEXT > TRACE'
explains 'an empty input' 1 'bad header: short' 'standard input: it is empty' 'flush*' /dev/null check
head -c 30 "$small" > "$bad"
explains 'a header that ends' 1 'bad header: short' "$bad: byte 30: it ends within its header" 'flush*' /dev/null figures "$bad"
for command in check figures profile advise migrate; do
    explains "a text for $command" 1 'bad header: magic' "$top/examples/small.txt: byte 0: it begins with '# main s'" "$encode_it" \
        /dev/null $command "$top/examples/small.txt"
done
printf 'func main\n' > "$bad"
explains 'a short text' 1 'bad header: short' "standard input: byte 0: it begins with 'func mai'" "$encode_it" "$bad" check
{ printf '\37\213\10' && head -c 30 /dev/zero; } > "$bad"
explains 'bytes that are no trace' 1 'bad header: magic' "standard input: byte 0: it begins with '????????'" 'keep standard output*' "$bad" check
printf 'SPTRACE1\0\0\0\0\0\0\0\0\0\0\0\0\0\0\0\0' > "$bad"
explains 'no function' 1 'bad header: limits' 'standard input: byte 8: 0 functions' 'declare*' "$bad" check
printf 'SPTRACE1\0\0\0\1\0\1\0\1\0\0\0\0\0\0\0\0' > "$bad"
explains 'many sites' 1 'bad header: limits' 'standard input: byte 12: 65537 sites' 'declare*' "$bad" check
printf 'SPTRACE2\0\0\0\1\0\0\0\0\0\0\0\0\20\0\0\1' > "$bad"
explains 'many events' 1 'bad header: limits' 'standard input: byte 20: 268435457 events' 'declare*' "$bad" check
printf 'SPTRACE1\0\0\0\2\0\0\0\1\0\0\0\2\0\0\0\0\0\1f\0\1g\0\1A' > "$bad"
explains 'no root function' 1 'bad header: root function' 'standard input: byte 16: root function 2, and there are 2, counted from 0' 'number*' "$bad" check
printf 'SPTRACE1\0\0\0\1\0\0\0\1\0\0\0\0\0\0\0\0\0\1f\0\0' > "$bad"
explains 'an empty name' 1 'bad header: name 1' "standard input: byte 27: the name of site 0, of length 0: ''" 'cut the name*' "$bad" check
printf 'SPTRACE1\0\0\0\1\0\0\0\1\0\0\0\0\0\0\0\0\0\2\303\244\0\1A' > "$bad"
explains 'a name in another script' 1 'bad header: name 0' "standard input: byte 24: the name of function 0, of length 2: '??'" 'cut the name*' "$bad" check
printf 'SPTRACE1\0\0\0\1\0\0\0\2\0\0\0\0\0\0\0\0\0\1f\0\1A\0\1A' > "$bad"
explains 'a name twice' 1 'bad header: same name 2' \
    "standard input: byte 30: the name of site 1, of length 1: 'A'" 'look names up*' "$bad" check
{ trace 0 && printf '\0'; } > "$bad"
explains 'a byte too many' 1 'bad header: trailing' \
    'standard input: byte 36: more follows, and the header'\''s number of events is 0' 'write the count*' "$bad" check
{ trace 2 && event 11=5; } > "$bad"
explains 'a record that is missing' 1 'bad event 1: truncated' \
    "$bad: byte 52, event 1: it ends there, and the header's number of events is 2" 'check each write*' /dev/null check "$bad"
{ trace 1 && event 0=11; } > "$bad"
for command in check figures profile advise migrate; do
    explains "no event, $command" 1 'bad event 0: tag' 'standard input: byte 36, event 0, bytes 09 00 00*: its first byte is that of no event' 'write records*' "$bad" $command
done
{ trace 1 && event 0=4 3=1; } > "$bad"
explains 'a byte that is not zero' 1 'bad event 0: padding' "standard input: byte 36, event 0, bytes 04 00 00 01 00*: a byte that must be zero isn't" 'set the 16 bytes*' "$bad" check
{ trace 1 && event 0=1 7=1; } > "$bad"
explains 'no site' 1 'bad event 0: site' 'standard input: byte 36, event 0, bytes 01 *: site 1, and there are 1, counted from 0' 'write the site*' "$bad" check
{ trace 1 && event 0=2 11=7; } > "$bad"
explains 'no function of an event' 1 'bad event 0: function' 'standard input: byte 36, event 0, bytes 02 *: function 7, and there are 2, counted from 0' \
    'write the site*' "$bad" check
{ trace 2 && event 0=4 && event 0=3; } > "$bad"
explains 'a return of the root' 1 'bad event 1: root return' 'standard input: byte 52, event 1, bytes 03 *: a return *' 'return only*' "$bad" check
{ trace 1 && event 0=2 11=1; } > "$bad"
explains 'an open frame' 1 'bad event 1: unclosed 1' 'standard input: byte 52, event 1: frames that are open where the trace ends: 1' \
    'note the return*' "$bad" check
{ head -c 36 "$top/examples/small.compact" && printf '\200\101\200\0\101\204\204\204\204\204'; } > "$bad"
explains 'an operand' 1 'bad event 1: operand' 'standard input: byte 38, event 1, bytes 80 00 41: *' 'compare with*' "$bad" check
# Numbers in version 2: of a site, and of a function of two digits.
for item in '\202\101\100:site:site 1, and there are 1, counted from 0' '\201\100\1\102:function:function 66, and there are 2, counted from 0'; do
    IFS=: read -r bytes fault found <<< "$item"
    { head -c 36 "$top/examples/small.compact" && printf "$bytes" && printf '\204\204\204\204\204\204'; } > "$bad"
    explains "version 2, $fault" 1 "bad event 0: $fault" "standard input: byte 36, event 0, bytes *: $found" 'write the site*' "$bad" check
done
text_explains() { # NAME FAULT ADVICE TEXT: the fault is on the last line of the text
    local line=$(printf "$4" | wc -l)
    printf "$4" > "$bad"
    explains "a text, $1" 1 "bad text line $line: $2" "standard input: line $line: '*'" "$3" "$bad" encode
}
text_explains 'a word' word 'print to a file*' 'frob\n'
text_explains 'too few words' count 'print one event*' 'func f\nstrand\n'
text_explains 'a number' number 'print plain*' 'func f\nstrand -1\n'
text_explains 'a name' name 'cut the name*' 'func \n'
text_explains 'a name twice' 'same name' 'look names up*' 'site A\nsite A\n'
text_explains 'a late name' late 'put these lines*' 'func f\nsync\nsite A\n'
text_explains 'a root' root 'print one root*' 'func f\nroot 1\nsync\n'
text_explains 'no function' 'no function' 'put these lines*' 'sync\n'
text_explains 'a site' site 'print the site*' 'func f\nspawn 0 0\n'
text_explains 'a function' function 'print the site*' 'func f\nsite A\nspawn 0 1\n'
awk 'BEGIN { for (n = 0; n <= 65536; n++) print "func f" }' > "$bad"
explains 'a text, limits' 1 'bad text line 65537: limits' "standard input: line 65537: 'func f'" 'name places*' "$bad" encode
explains 'a trace for a text' 1 'bad text line 1: word' "$small: line 1: 'SPTRACE1*'" 'check, figures, *' /dev/null encode "$small"
explains 'no file' 3 'cannot open input' "$folder/nothing: no such file" 'name the trace*' "$small" check "$folder/nothing"
explains 'no text' 3 'cannot open input' "$folder/nothing: no such file" 'name the trace*' "$small" encode "$folder/nothing"
explains 'a folder' 3 'cannot read input' "$folder: it is a folder" 'name a file*' /dev/null check "$folder"
explains 'a folder for input' 3 'cannot read input' 'standard input: it is a folder' 'name a file*' "$folder" check
explains 'a file for a folder' 3 'cannot open input' "$small/no: a part of its path is no folder" 'name a file*' /dev/null check "$small/no"
explains 'a long file' 3 'input too long' "$folder/long: it has more bytes than an input may have" 'record less' /dev/null check "$folder/long"
explains 'a first file' 3 'before: cannot open input' "$folder/no: no such file" '*' /dev/null compare "$folder/no" "$small"
explains 'a second file' 3 'after: cannot open input' "$folder/no: no such file" '*' /dev/null compare "$small" "$folder/no"
explains 'a first text' 1 'before: bad header: magic' "$top/README.md: byte 0: *" "$encode_it" /dev/null compare "$top/README.md" "$small"
explains 'a second trace' 1 'after: bad event 5: truncated' "$folder/part: byte 116, event 5, bytes*: *" 'check each write*' /dev/null compare "$small" "$folder/part"
# A file that this user may not read: root may read each.
cp "$spprof" "$folder/program" && chmod a+rx "$folder" "$folder/program" && cp "$small" "$folder/closed" && chmod 0 "$folder/closed"
as=()
[ "$(id -u)" -ne 0 ] || as=(setpriv --reuid 65534 --regid 65534 --clear-groups)
if [ ${#as[@]} -eq 0 ] || "${as[@]}" test -x "$folder/program" 2> "$folder/err"; then
    "${as[@]}" "$folder/program" check --explain "$folder/closed" > "$folder/out" 2> "$folder/err"
    status=$?
    judge 'explain: no permission' 3 '' "cannot open input${lf}spprof: $folder/closed: no permission to read it; *; to do: ask for the right*$lf"
fi
# Control characters of a name aren't shown, in whichever way they are written; other characters are.
expect 'explain: a name of two lines' 3 '' "cannot open input${lf}spprof: no\\?file: no such file; *$lf" /dev/null check --explain "no${lf}file"
expect 'explain: a name that would change a terminal' 3 '' "cannot open input${lf}spprof: \\?\\?31m\\?\\?ä: no such file; *$lf" \
    /dev/null check --explain $'\302\200\302\23331m\302\237\177\303\244'
# A pipe; an input that comes in pieces; one that is longer than what is kept of it.
cat "$folder/part" | "$spprof" profile --explain > "$folder/out" 2> "$folder/err"
status=$?
judge 'explain: a pipe' 1 '' "bad event 5: truncated${lf}spprof: standard input: byte 116, event 5, bytes*: *$lf"
{ head -c 70 "$small" && sleep 0.2 && head -c 120 "$small" | tail -c +71; } | "$spprof" check --explain > "$folder/out" 2> "$folder/err"
status=$?
judge 'explain: a pipe in pieces' 1 '' "bad event 5: truncated${lf}spprof: standard input: byte 116, event 5, bytes*: *$lf"
expect 'explain: a long trace' 1 '' \
    "bad event 1249998: truncated${lf}spprof: standard input: byte 19999998, event 1249998: it ends there, and the header's number of events is 2000001; *$lf" \
    <(head -c 20000000 "$folder/nested") check --explain
# Each status that is no fault's, and an answer as ever.
expect 'explain: a good trace' 0 "work 17$lf" '' "$small" check --explain
expect 'explain: a good text' 0 'SPTRACE1*' '' "$top/examples/small.txt" encode --explain
expect 'explain: a word too many' 2 '' "error: unexpected argument 'b' found$lf*" /dev/null check --explain a b
in_little 9 'explain: out of memory' 4 '' "out of memory${lf}spprof: $folder/longest: the system has no more memory; *; to do: record less*$lf" \
    /dev/null check --explain "$folder/longest"
# To compare, either of the files may have taken the memory.
no_memory="out of memory${lf}spprof: the system has no more memory; *$lf"
in_little 9 'explain: out of memory at a first file' 4 '' "$no_memory" /dev/null compare --explain "$folder/longest" "$small"
in_little 9 'explain: out of memory at a second file' 4 '' "$no_memory" /dev/null compare --explain "$small" "$folder/longest"
# The output and the device for faults.
"$spprof" check --explain < "$small" > /dev/full 2> "$folder/err"
status=$?
: > "$folder/out"
judge 'explain: a full output' 3 '' "cannot write output${lf}spprof: standard output: there is no room left; *$lf"
"$spprof" check --explain < "$small" >&- 2> "$folder/err"
status=$?
judge 'explain: a closed output' 3 '' "cannot write output${lf}spprof: standard output: the system refuses to write; *$lf"
{
    sleep 0.3
    "$spprof" check --explain < "$small" 2> "$folder/err"
    echo $? > "$folder/status"
} | true
status=$(cat "$folder/status")
judge 'explain: a pipe that nobody reads has no second line' 3 '' "cannot write output$lf"
for device in full closed unread; do
    case $device in
        full) "$spprof" check --explain < /dev/null > "$folder/out" 2> /dev/full ;;
        closed) "$spprof" check --explain < /dev/null > "$folder/out" 2>&- ;;
        unread) { sleep 0.3; "$spprof" check --explain < /dev/null 2>&1 > "$folder/out"; echo $? > "$folder/status"; } | true ;;
    esac
    status=$?
    [ $device != unread ] || status=$(cat "$folder/status")
    : > "$folder/err"
    judge "explain: a $device device for faults" 1 '' ''
done
