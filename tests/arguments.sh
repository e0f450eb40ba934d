#!/usr/bin/env bash
# What `dump_events` and `check_yaml` answer to their arguments, and where they can't read or write: the programs as
# `rt ci`, or `rt run` in their folders, left them in out/.
set -euo pipefail
crates=$(cd "$(dirname "$0")/.." && pwd)/crates
program=$crates/dump_events/out/dump_events
folder=$(mktemp -d)
trap 'rm -rf "$folder"' EXIT
cd "$folder"
printf 'a: b' >text
printf '[a:[]]' >refused
printf '{"":#\n}' >adjacent
printf '\377' >bytes
failed=0

# expect STATUS SAID ARGUMENT..: the status, and what stands on standard error.
expect() {
    local wanted=$1 said=$2 status=0
    shift 2
    printf '%b' "$said" >wanted
    "$program" "$@" >lines 2>errors <text || status=$?
    if [ "$status" != "$wanted" ] || ! cmp -s wanted errors; then
        echo "dump_events ${*@Q}: status $status and not $wanted: $(cat errors)"
        failed=1
    fi
}

expect 0 ''
expect 0 '' text
expect 2 'usage: dump_events [FILE]\n' text text
expect 2 'usage: dump_events [FILE]\n' $'\377' text
expect 2 'usage: dump_events [FILE]\n' '' ''
expect 1 "dump_events: can't read missing\n" missing
expect 1 "dump_events: can't read \n" ''
expect 1 "dump_events: can't read .\n" .
expect 1 "dump_events: can't read \377\n" $'\377'
expect 1 "dump_events: can't read a\nb\n" $'a\nb'
expect 1 "dump_events: can't read $(printf 'a%.0s' {1..5000})\n" "$(printf 'a%.0s' {1..5000})"
expect 1 "dump_events: bytes is not UTF-8\n" bytes
expect 1 "':' may not precede any of \`[{\` in flow mapping at byte 2 line 1 column 3\n" refused

status=0
"$program" text >/dev/full 2>errors || status=$?
if [ "$status" != 1 ] || [ "$(cat errors)" != "dump_events: can't write" ]; then
    echo "dump_events on a full device: status $status: $(cat errors)"
    failed=1
fi

program=$crates/check_yaml/out/check_yaml
printf -- '---\n' >empty

# answers STATUS PRINTED ARGUMENT..: the status of `check_yaml`, what stands on standard output, and nothing on standard
# error but what `complaint` has.
complaint=''
answers() {
    local wanted=$1 printed=$2 status=0
    shift 2
    printf '%b' "$printed" >wanted
    printf '%b' "$complaint" >complaint
    "$program" "$@" >lines 2>errors <text || status=$?
    if [ "$status" != "$wanted" ] || ! cmp -s wanted lines || ! cmp -s complaint errors; then
        echo "check_yaml ${*@Q}: status $status and not $wanted: $(cat lines errors)"
        failed=1
    fi
}

warned='empty:1:1: warning: this document has no content\n---\n^\n'
refused="refused:1:3: error: ':' may not precede any of \`[{\` in flow mapping\n[a:[]]\n  ^\n"
refused+='refused:1:1: note: the sequence that begins here is not closed yet\n[a:[]]\n^\n'
adjacent='adjacent:1:5: error: [149] c-ns-flow-map-adjacent-value: a blank parts a comment from the colon before it\n'
adjacent+='{"":#\n    ^\n'
events='+STR\n+DOC\n+MAP\n=VAL :a\n=VAL :b\n-MAP\n-DOC\n-STR\n'
answers 0 ''
answers 0 '' -
answers 0 '' text - text
answers 0 "$warned" empty
answers 1 "$warned" --strict empty
answers 0 '' --disable empty-document --strict empty
answers 0 '' --standard text
answers 1 "$adjacent" --standard text adjacent
answers 0 '' adjacent
answers 1 "$refused" text refused
answers 1 "$warned$refused" empty refused
answers 1 '' --quiet empty refused
answers 0 "$events" --events text
answers 0 "$events" --events
answers 0 '-:1:1: warning: the text has more than 0 nodes\na: b\n^\n' --max-nodes 0
answers 0 '-:1:1: warning: more than 0 collections are open here\na: b\n^\n' --max-depth=0 -
cp empty ./-q
answers 0 '-q:1:1: warning: this document has no content\n---\n^\n' -- -q
printf -- '---\n' >$'two\nlines'
answers 0 'two\\nlines:1:1: warning: this document has no content\n---\n^\n' $'two\nlines'
told='"rule":"empty-document","severity":"warning","message":"this document has no content"}\n'
answers 0 '{"file":"two\\u000alines","line":1,"column":1,"end":{"line":1,"column":4},'"$told" --format=json $'two\nlines'
answers 0 "$(sed -n 's/^const VERSION: &str = "\(.*\)";$/\1/p' "$crates/check_yaml/src/main.rt")\n" --version
answers 0 "$(cat lines)\n" -V

case $("$program" --help) in
'usage: check_yaml [OPTION..] [--] [FILE or FOLDER..]'*) ;;
*)
    echo "check_yaml --help: $("$program" --help)"
    failed=1
    ;;
esac
answers 0 "$("$program" --help)\n" --help
answers 0 "$("$program" --help)\n" -h

# refuses COMPLAINT ARGUMENT..: the call is wrong, which one line says.
refuses() {
    complaint="check_yaml: $1; see check_yaml --help\n"
    shift
    answers 2 '' "$@"
}

refuses 'there is no option --wrong' --wrong empty
refuses 'there is no option --two\\nlines' $'--two\nlines'
refuses 'there is no option --\357\277\275' $'--\377'
refuses '--max-depth asks for a number' --max-depth
refuses '--max-depth asks for a number' --max-depth -1
refuses '--max-nodes asks for a number' --max-nodes empty
refuses '--quiet takes no value' --quiet=yes empty
refuses '--disable asks for the name of a rule' --disable syntax empty
refuses '--format asks for text or json' --format
complaint=''

# Files that can't be read are told with what is found, and the rest is checked.
missing='can'"'"'t read: No such file or directory (os error 2)'
unnamed='can'"'"'t read: the name is not UTF-8'
answers 2 "missing:1:1: error: $missing\n" missing
answers 2 '' --quiet missing
answers 2 "${warned}missing:1:1: error: $missing\n$refused" empty missing refused
answers 2 "no\\\\nfile:1:1: error: $missing\n" $'no\nfile'
answers 2 "\357\277\275:1:1: error: $unnamed\n$warned" $'\377' empty
# as_json FILE MESSAGE: an error at the beginning of a file that can't be read.
as_json() {
    printf '{"file":"%s","line":1,"column":1,"end":{"line":1,"column":1},"rule":"unreadable","severity":"error",' "$1"
    printf '"message":"%s"}\\n' "$2"
}
answers 2 "$(as_json missing "$missing")" --format json missing text
answers 2 "$(as_json '\357\277\275' "$unnamed")" --format json $'\377'

# What is checked of a folder, and in which order. Links may lead in circles, or nowhere.
mkdir -p tree/b/.github tree/b/deep tree/.hidden tree/none
for file in .ci.yml .hidden/h.yaml B.yaml a.yaml b-c.yml b.yaml b/.github/g.yml b/c.yaml b/c.yml b/deep/d.yaml \
    b/yaml z.yaml.txt; do
    printf -- '---\n' >"tree/$file"
done
ln -s .. tree/b/up
ln -s ../tree tree/folder.yaml
ln -s b.yaml tree/link.yaml
ln -s loop.yaml tree/loop.yaml
ln -s nothing tree/nowhere.yml
mkfifo tree/pipe.yaml
# found FILE..: what is printed of files that have no content.
found() { printf '%s:1:1: warning: this document has no content\\n---\\n^\\n' "$@"; }
below=$(found tree/b/c.yaml tree/b/c.yml tree/b/deep/d.yaml)
loops="can't read: Too many levels of symbolic links (os error 40)"
answers 0 "$below" tree/b
answers 0 "$(found tree/b//c.yaml tree/b//c.yml tree/b//deep/d.yaml | sed 's|//|/|g')" tree/b/
all=$(found tree/.ci.yml tree/B.yaml tree/a.yaml)$below$(found tree/b-c.yml tree/b.yaml tree/link.yaml)
all+="tree/loop.yaml:1:1: error: $loops\ntree/nowhere.yml:1:1: error: $missing\n"
answers 2 "$all" tree
answers 0 "$(found tree/.hidden/h.yaml tree/b/.github/g.yml)" tree/.hidden tree/b/.github
answers 0 '' tree/none
answers 0 "$(found tree/b/up/b/c.yaml tree/b/up/b/c.yml tree/b/up/b/deep/d.yaml)" tree/b/up/b
answers 0 "$below$below$(found tree/b/yaml tree/b/c.yml)" tree/b tree/b tree/b/yaml tree/b/c.yml
answers 1 '' --strict --quiet tree/b
mkdir names names/$'\377'
for file in names/$'a\377.yml' names/$'a\377.txt' names/b.yaml names/$'\377/c.yaml'; do
    printf -- '---\n' >"$file"
done
answers 2 "names/a\357\277\275.yml:1:1: error: $unnamed\n$(found names/b.yaml)" names
# Paths that are too long to be asked for: of a file, hidden or not, and of a folder.
part=$(printf 'd%.0s' {1..250})
path=long
(
    mkdir long && cd long
    for _ in {1..16}; do mkdir "$part" && cd "$part"; done
    mkdir "$part"
    touch ".$part.yml"
)
for _ in {1..16}; do path=$path/$part; done
printf -- '---\n' >long/e.yml
long="1:1: error: can't read: File name too long (os error 36)"
answers 2 "$path/.$part.yml:$long\n$path/$part:$long\n$(found long/e.yml)" long
mkdir many
(cd many && seq -f '%05g.yaml' 16000 | xargs touch && cp ../empty 08000.yaml)
answers 0 "$(found many/08000.yaml)" many
mkdir closed
chmod 0 closed
if ! ls closed >/dev/null 2>&1; then
    answers 2 "closed:1:1: error: can't read: Permission denied (os error 13)\n$warned" closed empty
fi

status=0
"$program" empty refused empty >/dev/full 2>errors || status=$?
if [ "$status" != 2 ] || [ "$(cat errors)" != "check_yaml: empty: can't write" ]; then
    echo "check_yaml on a full device: status $status: $(cat errors)"
    failed=1
fi
[ "$failed" = 1 ] || echo "arguments: as they are to be answered"
exit "$failed"
