#!/usr/bin/env bash
# How much processor time the gate spends on each crate: on its proof, its tests and its refused edits.
# usage: tests/times.sh watch FILE    until it is killed, notes every two seconds what the prover's processes have used
#        tests/times.sh print FILE    a line for each crate, the longest first
set -u

# A process of the prover names its crate. It checks an edit where it runs in a copy of the crate, and tests where it
# says so. A line is: process, seconds so far, kind, crate.
note() {
    local pid seconds words crate kind
    ps -wweo pid=,cputimes=,args= | grep -E '/rattle (check|build) ' | while read -r pid seconds words; do
        crate=${words##*--crate-name }
        crate=${crate%% *}
        kind=proof
        [[ " $words " != *' --test '* ]] || kind=tests
        [[ $(readlink "/proc/$pid/cwd" 2> /dev/null) != */rt-edit-* ]] || kind=edits
        echo "$pid $seconds $kind $crate"
    done
}

case $1 in
    watch)
        while sleep 2; do
            note >> "$2"
        done
        ;;
    print)
        awk '{ key = $1 " " $3 " " $4; if ($2 >= used[key]) used[key] = $2 }
            END {
                for (key in used) {
                    split(key, part, " ")
                    crates[part[3]] += used[key]
                    kinds[part[3], part[2]] += used[key]
                }
                for (crate in crates)
                    printf "%6d %-18s proof %4d  tests %4d  edits %4d\n", crates[crate], crate, kinds[crate, "proof"], kinds[crate, "tests"], kinds[crate, "edits"]
            }' "$2" | sort -rn
        ;;
esac
