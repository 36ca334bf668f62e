# The cases of `advise`. tests/program.sh reads this file.
# What is told about mending a run (tests/advise): of the recorded runs by that program too; of the first by hand. There the
# burdened path enters the second item, and goes past the first: 2 + 9 + 4 + 5 + 2 + 1.
advise_gives() { # NAME FILE WORDS..: with these words, `advise` prints just the bytes of the file
    local name=$1 file=$2
    shift 2
    "$spprof" advise "$@" < /dev/null > "$folder/out" 2> "$folder/err"
    status=$?
    cmp -s "$folder/out" "$top/tests/advise/$file.txt" || status=125
    : > "$folder/out"
    judge "advise: $name" 0 '' ''
}
printf '%s\n' 'func main' 'func load' 'func item' 'site main: load' 'site main: item' 'strand 2' 'call 0 1' 'strand 9' 'return' \
    'spawn 1 2' 'strand 3' 'return' 'spawn 1 2' 'strand 5' 'return' 'sync' 'strand 1' > "$folder/text"
"$spprof" encode "$folder/text" > "$folder/worked" 2> "$folder/err"
# The same with so many more call sites that a profile takes three rounds.
{ sed '/^strand/,$d' "$folder/text" && seq -f 'site %g' 1100 && sed -n '/^strand/,$p' "$folder/text"; } | "$spprof" encode > "$folder/sites"
for trace in worked sites; do
    advise_gives "$trace" worked --burden 4 --join-burden 2 "$folder/$trace"
    for shared in '--parts 1 --workers 1' '--parts 3 --workers 2' '--parts 65536 --workers 64'; do
        advise_gives "$trace $shared" worked --burden 4 --join-burden 2 $shared "$folder/$trace"
    done
done
# Of sites and changes that come to the same the first is told; with one site none of another; and each reason has its words.
expect 'advise: one site, nine times faster' 0 "work 20$lf* (root)
           2         4.00         1.00        29.41        21.73            2            6        26.08 main: item

what if
*
          20           17         1.17           23         0.86         0.00 as recorded
          14           13         1.07           20         0.70        13.04 main: item: 9 times faster
          20           20         1.00           20         1.00        13.04 main: item: spawns as calls

begin with main: item: the burdens of its spawns are 26.08 per cent of the burdened span; larger pieces would bear fewer
most is saved by main: item: 9 times faster, burdened span 23 to 20, 13.04 per cent less, since what it runs itself is on the burdened path$lf" '' \
    "$folder/worked" advise --burden 4 --join-burden 2 --top 1 --faster 9
printf '%s\n' 'func f' 'site B' 'site A' 'call 1 0' 'strand 3' 'return' 'call 0 0' 'strand 3' 'return' | "$spprof" encode > "$folder/calls"
expect 'advise: calls that could be spawns' 0 "work 6$lf*
           6            6         1.00            6         1.00         0.00 as recorded
           5            5         1.00            5         1.00        16.66 B: 2 times faster
           6            6         1.00            6         1.00         0.00 B: calls as spawns
           5            5         1.00            5         1.00        16.66 A: 2 times faster
           6            3         2.00            3         2.00        50.00 A: calls as spawns

begin with B: what it runs itself is 50.00 per cent of the burdened span; less of it, or parts of it side by side, would shorten it
most is saved by A: calls as spawns, burdened span 6 to 3, 50.00 per cent less, since it could run beside what follows, if nothing there needs it before the next sync$lf" '' \
    "$folder/calls" advise --burden 0
expect 'advise: spawns that cost too much' 0 "work 17${lf}*
begin with A: the burdens of its spawns are 99.91 per cent of the burdened span; larger pieces would bear fewer
most is saved by A: spawns as calls, burdened span 15013 to 17, 99.88 per cent less, since its spawns cost more than they bring$lf" '' "$small" advise
# A site is told of that has no frame on either path, where the burdened one goes past its child.
printf '%s\n' 'func f' 'site A' 'spawn 0 0' 'strand 3' 'return' 'strand 8' | "$spprof" encode > "$folder/past"
expect 'advise: spawns that the path goes past' 0 "work 11${lf}*
           1         8.00         1.37       100.00        61.53            0            0         0.00 (root)
           1         3.00         1.00         0.00         0.00            1            5        38.46 A

what if
*
          11            8         1.37           13         0.84         0.00 as recorded
          10            8         1.25           13         0.76         0.00 A: 2 times faster
          11           11         1.00           11         1.00        15.38 A: spawns as calls

begin with (root): what it runs itself is 61.53 per cent of the burdened span; less of it, or parts of it side by side, would shorten it
most is saved by A: spawns as calls, burdened span 13 to 11, 15.38 per cent less, since its spawns cost more than they bring$lf" '' \
    "$folder/past" advise --burden 5
printf '%s\n' 'func f' 'site A' 'spawn 0 0' 'strand 1' 'return' 'strand 1' | "$spprof" encode > "$folder/least"
expect 'advise: nothing to mend' 0 "work 2${lf}span 1${lf}*
           2            1         2.00            1         2.00         0.00 as recorded
           2            1         2.00            1         2.00         0.00 A: 2 times faster
           2            2         1.00            2         1.00            - A: spawns as calls

begin with A: what it runs itself is 100.00 per cent of the burdened span; less of it, or parts of it side by side, would shorten it
no change that was tried makes the burdened span shorter$lf" '' "$folder/least" advise --burden 0
for shared in '' '--parts 1 --workers 1' '--parts 7 --workers=2' '--parts 65536 --workers 64'; do
    for version in sptrace compact; do
        advise_gives "cilksort.$version $shared" cilksort --burden 100 --join-burden 30 $shared "$top/examples/cilksort.$version"
    done
done
advise_gives 'fib' fib "$top/examples/fib.sptrace"
advise_gives 'nqueens' nqueens --burden 100 --top 1 --faster 1000 "$top/examples/nqueens.sptrace"
advise_gives 'the merge sort' mergesort --burden 534 --join-burden 1676 "$top/examples/record/mergesort_after.sptrace"
advise_gives 'the search by a tree' tree --burden 1144 --join-burden 3062 --faster 3 "$top/examples/record/collatz_tree.sptrace"
for workers in 1 3; do
    advise_gives "the search by a loop, $workers workers" loop --burden 1144 --join-burden 3062 --workers $workers "$top/examples/record/collatz_loop.sptrace"
done
# As comma-separated values: of that run by hand, and the same numbers as the text has of a recorded one.
expect 'advise as a table' 0 "name,change,work,span,burdened,frames,local,site_work,site_span,path_local,burdened_path_local,burdens,burdens_cost
(root),as recorded,20,17,23,1,3,20,17,3,3,0,0
main: item,as recorded,20,17,23,2,8,8,8,5,5,2,6
main: load,as recorded,20,17,23,1,9,9,9,9,9,0,0
main: item,2 times faster,*,,,,,,,,
main: item,spawns as calls,20,20,20,,,,,,,,
main: load,2 times faster,*,,,,,,,,
main: load,calls as spawns,*,,,,,,,,$lf" '' "$folder/worked" advise --csv --burden 4 --join-burden 2
for shared in '--parts 1 --workers 1' '--parts 3 --workers 2'; do
    "$spprof" advise --csv --burden 4 --join-burden 2 "$folder/worked" > "$folder/old"
    expect "advise as a table, $shared" 0 "$(cat "$folder/old")$lf" '' "$folder/worked" advise --csv --burden 4 --join-burden 2 $shared
done
printf '%s\n' 'func f' 'site a,b' 'site c"d' 'call 0 0' 'strand 1' 'return' | "$spprof" encode > "$folder/quoted"
expect 'advise as a table: quotes' 0 "name,*$lf(root),as recorded,1,1,1,*$lf\"a,b\",as recorded,1,1,1,1,1,1,1,1,1,0,0$lf\"a,b\",2 times faster,1,1,1,,,,,,,,$lf\"a,b\",calls as spawns,1,1,*,,,,,,,,$lf" '' \
    "$folder/quoted" advise --csv
# One call site: whether others weigh more, or it is on no path; and none of that name, which comes before a bad event.
expect 'advise: a site by name' 0 "work 20$lf* (root)
           1         9.00         1.00        52.94        39.13            0            0         0.00 main: load

what if
*as recorded
*main: load: 2 times faster
*main: load: calls as spawns

begin with main: load: *$lf" '' "$folder/worked" advise --burden 4 --join-burden 2 --top 1 --site 'main: load'
printf '%s\n' 'func f' 'site A' 'site B' 'spawn 0 0' 'strand 3' 'return' 'sync' 'spawn 1 0' 'strand 1' 'return' 'strand 8' 'sync' | "$spprof" encode > "$folder/beside"
expect 'advise: a site beside the paths' 0 "work 12$lf* (root)
           1         1.00         1.00         0.00         0.00            1            0         0.00 B
*B: 2 times faster
*B: spawns as calls
*" '' "$folder/beside" advise --burden 0 --site B
for name in C a '' '(root)' 'A '; do
    for version in check migrate; do
        "$spprof" migrate "$folder/beside" > "$folder/old"
        [ $version = migrate ] || cp "$folder/beside" "$folder/old"
        expect "advise: no site '$name'" 1 '' "no such call site$lf" "$folder/old" advise --site "$name"
    done
done
expect 'advise: no site C, explained' 1 '' "no such call site$lf*$lf" "$folder/beside" advise --site C --explain
printf '%s\n' 'func f' 'site A' 'call 0 0' | "$spprof" encode > "$folder/open"
expect 'advise: no site before a bad event' 1 '' "no such call site$lf" "$folder/open" advise --site B
expect 'advise: a site, and a bad event' 1 '' "bad event 1: unclosed 1$lf" "$folder/open" advise --site A
expect 'advise: a site twice' 2 '' 'error: *' "$small" advise --site A --site A
expect 'advise: a site without a name' 2 '' 'error: *' "$small" advise --site
expect 'a site of profile' 2 '' "error: *tip: '--site' is an option of 'advise'*" "$small" profile --site A
one_word="*tip: a call site is named by one word, as in --site='NAME'$lf*"
expect 'advise: a site named by two words' 2 '' "error: unexpected argument '$small' found$lf$one_word" /dev/null advise --site main: load "$small"
for name in -x -5; do
    expect "advise: a site named $name" 2 '' "error: *$one_word" "$small" advise --site $name
    expect "advise: no site named $name" 1 '' "no such call site$lf" "$small" advise --site=$name
done
