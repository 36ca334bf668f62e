# The cases of the script ./spprof in a clone, on a machine without the toolchain and without Python. tests/program.sh reads
# this file, and what it uses is set there. Where the release is behind the sources here, the clone has the built program for a
# release, so that it's always the script that is tested.

clone="$folder/a clone" release="$folder/a clone/release" program=spprof-x86_64-linux
mkdir "$clone" "$folder/bin" "$folder/elsewhere"
tar -C "$top" --exclude=out -c spprof build.py crates.txt crates examples release | tar -C "$clone" -x
for tool in bash readlink find sort uname b2sum; do
    ln -s "$(command -v $tool)" "$folder/bin/$tool"
done
sources=$("$release/hash")
if ! grep -qsx "sources: $sources" "$release/SOURCES"; then
    cp "$spprof" "$release/$program"
    "$release/names" "$sources" "$spprof" > "$release/SOURCES"
fi
cloned() { # NAME STATUS OUT ERR WORDS..: what the script in the clone answers; the small trace is its input
    local name=$1 wanted=$2 out=$3 err=$4
    shift 4
    PATH=${path-$folder/bin} "${script-$clone/spprof}" "$@" < "$small" > "$folder/out" 2> "$folder/err"
    status=$?
    judge "the script in a clone: $name" "$wanted" "$out" "$err"
}
no_rt="the Rattle toolchain's command 'rt' isn't in PATH${lf}spprof: docs/INSTALL.md tells what to do$lf"
builds() { # NAME WHY: the script doesn't run the released program, tells why not, and would build
    cloned "$1" 125 '' "spprof: $2, and it can't be built here: $no_rt" check
}
touch "$folder/began"
cloned 'profile' 0 "$(cat "$top/examples/nqueens.report")$lf" '' profile "$top/examples/nqueens.sptrace"
cloned 'figures' 0 "${of_small} 15013$lf*" '' figures
cloned 'a bad file' 1 '' "bad event 5: truncated$lf" check "$folder/part"
cloned 'bad words' 2 '' "error: *Usage: spprof <COMMAND>$lf*" chek
cloned 'no file' 3 '' "cannot open input$lf" check "$folder/no"
cloned '--build beside a word' 2 '' "error: *" --build check
PATH=$folder/bin "$clone/spprof" check <&- > "$folder/out" 2> "$folder/err"
status=$?
judge 'the script in a clone: a closed input' 3 '' "cannot read input$lf"
PATH=$folder/bin "$clone/spprof" check < "$small" >&- 2> "$folder/err"
status=$?
judge 'the script in a clone: a closed output' 3 '' "cannot write output$lf"
ln -s "$clone/spprof" "$folder/elsewhere/link"
script=$folder/elsewhere/link cloned 'a link' 0 "work 17$lf" '' check
(cd "$folder/elsewhere" && ln -s '../a clone' there && PATH=$folder/bin CDPATH=.. there/spprof check < "$small" > "$folder/out" 2> "$folder/err")
status=$?
judge 'the script in a clone: in a linked folder' 0 "work 17$lf" ''
chmod -R a-w "$clone"
cloned 'a checkout that is read only' 0 "work 17$lf" '' check
chmod -R u+w "$clone"
[ -z "$(find "$clone" -newer "$folder/began")" ]
status=$?
: > "$folder/out"
: > "$folder/err"
judge 'the script in a clone: it writes nothing there' 0 '' ''
# The release is of the sources of the program alone.
changed='sources have changed since the program was released'
for file in crates/spprof/src/main.rt crates/spp_dag/specs/Dag.antt crates/spp_book/proofs/New.antt crates/spp_event/src/new.rt; do
    cp "$clone/$file" "$folder/aside" 2> "$folder/err" || rm -f "$folder/aside"
    echo '// changed' >> "$clone/$file"
    builds "$file changed" "$changed"
    rm "$clone/$file"
    if [ -e "$folder/aside" ]; then
        builds "$file is gone" "$changed"
        cp "$folder/aside" "$clone/$file"
    fi
done
cp "$clone/crates.txt" "$folder/aside"
sed 's/^spp_site: spp_event/& spp_book/' "$folder/aside" > "$clone/crates.txt"
builds 'a line of crates.txt changed' "$changed"
{ cat "$folder/aside" && echo 'another: spp_event'; } > "$clone/crates.txt"
for file in crates/trace_tests/src/lib.rt crates/spp_dag/must-fail/new.edit crates/spprof/args build.py; do
    echo changed >> "$clone/$file"
done
cloned 'what the program does not stand on has changed' 0 "work 17$lf" '' check
cp "$folder/aside" "$clone/crates.txt"
# A release that isn't the one that was made, or is none.
cp -p "$release/$program" "$folder/aside"
printf x | dd of="$release/$program" bs=1 seek=4096 conv=notrunc 2> /dev/null
builds 'one byte of the program changed' "release/$program isn't the program that release/SOURCES names, and isn't run"
rm "$release/$program"
missing="release/$program or release/SOURCES is missing"
builds 'no released program' "$missing"
cp -p "$folder/aside" "$release/$program"
chmod a-x "$release/$program"
builds 'a released program without its bit' "release/$program can't be executed (chmod +x?)"
chmod a+x "$release/$program"
mv "$release/SOURCES" "$folder/aside"
builds 'no SOURCES' "$missing"
: > "$release/SOURCES"
builds 'empty SOURCES' 'release/SOURCES names no sources or no program'
mv "$folder/aside" "$release/SOURCES"
# Other machines: another system or processor, an older glibc, none.
fake() { # FILE BODY: a program of that name, in bash
    printf '#!%s\n%s\n' "$BASH" "$2" > "$1" && chmod +x "$1"
}
needs='the released program needs Linux on x86-64 with glibc 2.34 or newer, and'
mkdir "$folder/other"
sed "s|^loader=.*|loader='$folder/loader'|" "$clone/spprof" > "$clone/other" && chmod +x "$clone/other"
for machine in 'Darwin arm64' 'Linux aarch64' 'Linux x86_64'; do
    fake "$folder/other/uname" "echo $machine"
    script=$clone/other path=$folder/other:$folder/bin builds "on $machine without glibc" "$needs this is $machine without $folder/loader"
done
for body in 'echo "ld.so (GNU libc) stable release version 2.33."' 'echo "--version: cannot open shared object file"; exit 127'; do
    fake "$folder/loader" "$body"
    script=$clone/other builds 'on an older glibc' "$needs the loader $folder/loader tells no such version"
done
fake "$folder/loader" 'echo "ld.so (GNU libc) stable release version 2.34."'
script=$clone/other cloned 'on glibc 2.34' 0 "work 17$lf" '' check
# What was built here comes first, as long as it's of these sources.
cloned '--build without the toolchain' 125 '' "spprof: the Rattle toolchain's command 'rt', which builds spprof, isn't in PATH$lf" --build
fake "$folder/other/rt" ''
no_hash="the sources here can't be read and hashed, for which it needs find, sort and b2sum (GNU findutils and coreutils)"
for tool in find sort b2sum; do
    mv "$folder/bin/$tool" "$folder/aside"
    builds "no $tool" "$no_hash"
    path=$folder/other:$folder/bin cloned "--build without $tool" 125 '' "spprof: $no_hash$lf" --build
    mv "$folder/aside" "$folder/bin/$tool"
done
fake "$folder/other/python3" 'exit 1'
path=$folder/other:$folder/bin cloned '--build that fails' 125 '' '' --build
source=$clone/crates/spprof/src/main.rt out=$clone/crates/spprof/out
mkdir -p "$out"
fake "$folder/built" 'echo "built here: $*"; exit 9'
ln -s "$(command -v cp)" "$folder/bin/cp"
cp -p "$source" "$folder/source"
fake "$folder/other/python3" "cp '$folder/built' '$out/spprof'; echo '// changed' >> '$source'"
path=$folder/other:$folder/bin cloned '--build while a source changes' 125 '' "spprof: sources have changed while it was built; run this again$lf" --build
builds 'what was built while a source changed' "$changed"
cp -p "$folder/source" "$source"
cloned 'what was built while a source changed, which is as before' 0 "work 17$lf" '' check
fake "$folder/other/python3" "cp '$folder/built' '$out/spprof'"
path=$folder/other:$folder/bin cloned '--build' 0 '' "spprof: built$lf" --build
cloned 'what was built' 9 "built here: check -$lf" '' check -
touch "$source"
cloned 'what was built is of the same sources' 9 "built here: *" '' check
# Sources that differ, though no file is newer than what was built.
for file in crates/spprof/src/main.rt crates/spp_dag/specs/Dag.antt; do
    cp -p "$clone/$file" "$folder/aside"
    rm "$clone/$file"
    builds "what was built, $file being gone" "$changed"
    cp -p "$folder/aside" "$clone/$file" && echo '// changed' >> "$clone/$file" && touch -r "$folder/aside" "$clone/$file"
    builds "what was built, an older $file" "$changed"
    cp -p "$folder/aside" "$clone/$file"
    mv "$clone/$file" "$clone/${file%/*}/Other.${file##*.}"
    builds "what was built, $file being renamed" "$changed"
    mv "$clone/${file%/*}/Other.${file##*.}" "$clone/$file"
done
# The end of a file's bytes at the front of the next one's.
first=$clone/crates/spp_site/src/slots.rt second=$clone/crates/spp_site/src/table.rt
cp "$first" "$folder/first" && cp "$second" "$folder/second"
head -c -100 "$folder/first" > "$first" && { tail -c 100 "$folder/first" && cat "$folder/second"; } > "$second"
builds 'what was built, bytes being moved' "$changed"
cp "$folder/first" "$first" && cp "$folder/second" "$second"
# A source that is a link is read where it leads.
mv "$source" "$folder/source" && ln -s "$folder/source" "$source"
cloned 'what was built, a source being a link' 9 "built here: *" '' check
echo '// changed' >> "$folder/source"
builds 'what was built, a linked source having changed' "$changed"
rm "$source" && sed '$d' "$folder/source" > "$source"
cloned 'what was built, all being as before' 9 "built here: *" '' check
# A program that something else built since, or a changed one.
echo '# changed' >> "$out/spprof"
cloned 'another program than was built' 0 "work 17$lf" '' check
cp "$folder/built" "$out/spprof"
cloned 'the program that was built' 9 "built here: *" '' check
echo '// changed' >> "$source"
path=$folder/other:$folder/bin cloned 'a changed source' 9 "built here: *" "spprof: $changed; building it here${lf}spprof: built$lf" check
cloned 'a changed source that was built' 9 "built here: *" '' check
sed -i '$d' "$source"
cloned 'what was built is of other sources' 0 "work 17$lf" '' check
