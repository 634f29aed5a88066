#!/bin/sh
# judge-test.sh: tries ../judge in a copy of the repository's skeleton with a stand-in for rt that "builds" programs which do what
# crates/verdict/src/main.rt and crates/explain/src/main.rt hold. No proof is made; some ten seconds. Ends with status 1 where something is not as
# judge's header says.
set -u
here=$(CDPATH='' cd -- "$(dirname -- "$0")" && pwd -P)
room=$(mktemp -d)
trap 'rm -rf "$room"' EXIT
repo="$room/a repository"
bin=$room/bin
failed=0
tried=0
mkdir -p "$repo/crates/verdict/src" "$repo/crates/explain/src" "$repo/crates/spec_base/src" "$repo/show" "$bin" "$room/elsewhere"
cp "$here/../judge" "$repo/judge"
cp "$here/../show/explain.awk" "$here/../show/picture.awk" "$repo/show"
printf '# a comment\nspec_base:\nverdict: spec_base libc\nexplain: spec_base\nother: spec_base\n' >"$repo/crates.txt"
echo "// spec_base" >"$repo/crates/spec_base/src/lib.rt"
printf 'a text\n' >"$room/text"
source=$repo/crates/verdict/src/main.rt

# The stand-in: it proves and builds what stands in the folder that it is called in, as slowly as the file `slow` says, and notes each call. Two
# at once are noted as a fault.
cat >"$bin/rt" <<EOF
#!/bin/sh
room='$room'
case \$1 in
version) cat "\$room/kit"; exit ;;
run) program=\$(basename "\$PWD"); cd ../.. ;;
*) exit 2 ;;
esac
[ "\$program" = verdict ] || [ "\$program" = explain ] || exit 2
mkdir "\$room/building" 2>/dev/null || echo overlap >>"\$room/faults"
echo built >>"\$room/calls"
: >"\$room/began"
echo "rt: chose --jobs 2 for spec_base"
echo "fn spec_base::f: proved"
sleep "\$(cat "\$room/slow")"
word=\$(cat "crates/\$program/src/main.rt")
rmdir "\$room/building"
echo "rt: chose --jobs 2 for \$program"
[ "\$word" != broken ] || { echo "logic=not-proved"; exit 1; }
echo "a line of the prover"
echo "logic=proved functions=1"
mkdir -p "crates/\$program/out"
{ echo '#!/bin/sh'; echo "cat >/dev/null"; echo "\$word"; } >"crates/\$program/out/\$program"
chmod +x "crates/\$program/out/\$program"
EOF
chmod +x "$bin/rt"
echo "kit 1" >"$room/kit"
echo 0 >"$room/slow"
: >"$room/calls"
PATH=$bin:$PATH
XDG_CACHE_HOME=$room/cache
export PATH XDG_CACHE_HOME

word() { printf 'printf "verdict programs nodes edges back\\n%s 0 0 0 0\\n"\n' "$1" >"$source"; }

# runs judge and keeps what it printed
run() { "$@" >"$room/out" 2>"$room/err"; status=$?; }

calls() { wc -l <"$room/calls" | tr -d ' '; }

# what should be: a status, the second line of the report (or nothing), how many builds so far
want() { # WHAT STATUS WORD CALLS
    tried=$((tried + 1))
    got=$(sed -n 2p "$room/out" | cut -d' ' -f1)
    [ "$status" = "$2" ] && [ "$got" = "$3" ] && [ "$(calls)" = "$4" ] && return
    failed=1
    echo "$1: wanted status $2, word '$3', $4 builds; got status $status, word '$got', $(calls) builds"
    sed 's/^/    /' "$room/err"
}

# what standard error should say
says() { # WHAT PATTERN
    tried=$((tried + 1))
    grep -q "$2" "$room/err" && return
    failed=1
    echo "$1: standard error does not say '$2':"
    sed 's/^/    /' "$room/err"
}

# the program explain lists these facts
facts() { printf 'printf "%s"\n' "$1" >"$repo/crates/explain/src/main.rt"; }

word robust
facts 'verdict robust 0 0 0 0\nend\n'

# the file is looked at first; usage
run "$repo/judge"; want "no argument" 2 '' 0
run "$repo/judge" "$room/text" "$room/text"; want "two arguments" 2 '' 0
run "$repo/judge" --explain; want "--explain of nothing" 2 '' 0
run "$repo/judge" --picture "$room/text" "$room/text"; want "--picture of two" 2 '' 0
run "$repo/judge" --explain "$room/none"; want "--explain of no such file" 1 '' 0
run "$repo/judge" --help; tried=$((tried + 1))
{ [ "$status" = 0 ] && grep -q -- '--explain FILE' "$room/out" && [ "$(calls)" = 0 ]; } || { failed=1; echo "--help: status $status"; }
run "$repo/judge" "$room/none"; want "no such file" 1 '' 0
run "$repo/judge" "$room"; want "a folder" 1 '' 0
[ -r /etc/shadow ] || { run "$repo/judge" /etc/shadow; want "unreadable" 1 '' 0; }

# it builds once, and a line a crate is all it says
run "$repo/judge" "$room/text"; want "first call" 0 robust 1
says "the log's name" "target/judge/log"
says "the crates" "verdict, 2 of 2"
tried=$((tried + 1))
[ "$(wc -l <"$room/err")" -le 3 ] || { failed=1; echo "it says too much:"; cat "$room/err"; }
run "$repo/judge" "$room/text"; want "second call" 0 robust 1
tried=$((tried + 1))
[ ! -s "$room/err" ] || { failed=1; echo "it says something where it builds nothing"; }

# called in other ways
ln -s "../a repository/judge" "$room/elsewhere/link"
ln -s elsewhere/link "$room/link"
run "$room/link" "$room/text"; want "by symbolic links" 0 robust 1
cp "$room/text" "$room/elsewhere/-a name"
cd "$room/elsewhere" || exit 1
run "$repo/judge" "-a name"; want "a name with a dash and a space, relative" 0 robust 1
run env CDPATH="$room" ./link "-a name"; want "CDPATH" 0 robust 1
run env CDPATH="$room" PATH="$room/elsewhere:$PATH" link "-a name"; want "by the path" 0 robust 1
cd "$repo" || exit 1
run env CDPATH="$room" sh judge ../text; want "sh judge" 0 robust 1
cd "$room" || exit 1

# other sources with older times, and back again; another toolchain
word danger
touch -t 200001010000 "$source" "$repo/crates/verdict/src" "$repo/crates"
run "$repo/judge" text; want "older times" 0 danger 2
word robust
touch -t 200001010000 "$source"
run "$repo/judge" text; want "the first sources again" 0 robust 2
echo "kit 2" >"$room/kit"
run "$repo/judge" text; want "another toolchain" 0 robust 3
echo "// base, changed" >"$repo/crates/spec_base/src/lib.rt"
run "$repo/judge" text; want "another crate changed" 0 robust 4
rm "$room"/cache/gunthoey/*/crates/verdict/out/verdict
run "$repo/judge" text; want "the build's own program removed" 0 robust 4
# what another rt leaves in the repository's own folders is never asked
mkdir -p "$repo/crates/verdict/out"
printf '#!/bin/sh\nprintf "verdict programs nodes edges back\\nother 0 0 0 0\\n"\n' >"$repo/crates/verdict/out/verdict"
chmod +x "$repo/crates/verdict/out/verdict"
run "$repo/judge" text; want "another program in the crate's own folder" 0 robust 4

# edited while it builds: the answer is that of the sources as they are then
began() { while [ ! -e "$room/began" ]; do sleep 0.05; done; }
echo 1 >"$room/slow"
word first
rm -f "$room/began"
"$repo/judge" text >"$room/out" 2>"$room/err" &
judge=$!
began
word danger
wait "$judge"; status=$?
want "edited while it builds" 0 danger 6
says "edited while it builds" "changed while"
# edited and changed back meanwhile: what was built is not what was edited
word robust-2
rm -f "$room/began"
"$repo/judge" text >"$room/out" 2>"$room/err" &
judge=$!
began
word danger
sleep 0.3
word robust-2
wait "$judge"; status=$?
want "edited and changed back" 0 robust-2 7

# two at once, and three
word two
rm -f "$room/began"
"$repo/judge" text >"$room/out1" 2>"$room/err1" &
one=$!
began
"$repo/judge" text >"$room/out2" 2>"$room/err2" &
two=$!
run "$repo/judge" text; want "the third of three at once" 0 two 8
says "the third waits" "waiting"
wait "$one"; status=$?; cp "$room/out1" "$room/out"; want "the first of three at once" 0 two 8
wait "$two"; status=$?; cp "$room/out2" "$room/out"; want "the second of three at once" 0 two 8

# one that is killed while it builds holds nobody up for long
word three
rm -f "$room/began"
"$repo/judge" text >/dev/null 2>&1 &
judge=$!
began
kill -9 "$judge"
wait "$judge" 2>/dev/null
run "$repo/judge" text; want "after a killed one" 0 three 10
echo 0 >"$room/slow"

# no program, no answer: never that of earlier sources
printf broken >"$source"
run "$repo/judge" text; want "sources that are not proved" 1 '' 11
says "the log's name" "see .*target/judge/log"
printf 'exit 3\n' >"$source"
run "$repo/judge" text; want "a program that fails" 1 '' 12
printf 'true\n' >"$source"
run "$repo/judge" text; want "a program that prints nothing" 1 '' 13
printf 'printf "refused line\\n7 9\\n"\n' >"$source"
run "$repo/judge" text; want "a refusal is a report" 0 7 14
run sh -c "'$repo/judge' text >&-"; want "closed output" 1 '' 14
run sh -c "{ '$repo/judge' text; echo \$? >'$room/ended'; } | true; exit \$(cat '$room/ended')"
case $status in 0 | 1) ;; *) failed=1; echo "a pipe that nobody reads: status $status" ;; esac
printf 'printf "verdict programs nodes edges back\\nrob"\n' >"$source"
run "$repo/judge" text; want "a report cut off in its second line" 1 '' 15
printf 'printf "refused line\\n7 9\\n"\n' >"$source"
printf 'text\ntext\n' >"$room/list"
run sh -c "while read f; do '$repo/judge' \$f; done <'$room/list' | grep -c '^7 9'"
tried=$((tried + 1))
[ "$(cat "$room/out")" = 2 ] || { failed=1; echo "a list of files on standard input: $(cat "$room/out") reports"; }
mkdir "$room/few"
for tool in sh dirname readlink find sort sha256sum cut env flock sed awk cat; do ln -s "$(command -v $tool)" "$room/few/$tool"; done
run env PATH="$room/few" "$repo/judge" text; want "without rt" 1 '' 15
says "without rt" "rt is not on the path"

# explanations and pictures: of the facts that the program lists, whole ones alone
first() { sed -n 1p "$room/out"; }
told() { # WHAT STATUS FIRST-LINE CALLS
    tried=$((tried + 1))
    [ "$status" = "$2" ] && [ "$(first)" = "$3" ] && [ "$(calls)" = "$4" ] && return
    failed=1
    echo "$1: wanted status $2, first line '$3', $4 builds; got status $status, '$(first)', $(calls) builds"
    sed 's/^/    /' "$room/err"
}
run "$repo/judge" --explain text; told "an explanation" 0 robust 16
says "the crates of explain" "explain, 2 of 2"
run "$repo/judge" --explain text; told "an explanation again" 0 robust 16
run "$repo/judge" --picture text; told "a picture" 0 "digraph workload {" 16
cp text "a=b"
run "$repo/judge" --explain a=b; told "a name with an equals sign" 0 robust 16
cd "$room/elsewhere" || exit 1
run "$repo/judge" --explain "-a name"; told "a name with a dash and a space" 0 robust 16
cd "$room" || exit 1
mkfifo pipe
cat text >pipe &
run "$repo/judge" --explain pipe; told "a pipe" 0 robust 16
wait
facts 'refused 4 2\nbefore 0 0 0 0 0 0 0 0\nend\n'
run "$repo/judge" --explain text; told "the explanation of a refusal" 0 "refused: line 2, rule 4" 17
run "$repo/judge" --picture text; told "the picture of a refused text" 1 '' 17
says "the picture of a refused text" "refused"
facts 'verdict robust 0 0 0 0\n'
run "$repo/judge" --explain text; told "facts that are cut off" 1 '' 18
facts ''
run "$repo/judge" --explain text; told "no facts" 1 '' 19
facts 'verdict robust 0 0 0 0\nend\n'
run "$repo/judge" --explain text; told "the first facts again" 0 robust 19
mv "$repo/show" "$repo/hidden"
run "$repo/judge" --explain text; told "without the scripts" 1 '' 19

[ ! -e "$room/faults" ] || { failed=1; echo "two builds at once"; }
[ $failed = 0 ] && echo "judge: $tried cases as they should be" || echo "judge: SOMETHING FAILED, see above"
exit $failed
