#!/bin/bash
# Tries the program tcmend (crates/tcmend/out/tcmend, which `rt run` writes there) on a damaged database, on the edges of its input, and on
# each fault that can be made here. What it must write is written here by hand. The first difference ends the run.
set -Eeuo pipefail
cd "$(dirname "$0")/.."
tcmend=$PWD/crates/tcmend/out/tcmend
damaged=$PWD/data/damaged.tc
folder=$(mktemp -d)
trap 'chmod -R u+w "$folder"; rm -rf "$folder"' EXIT
trap 'echo "tests/tcmend.sh: line $LINENO: a command failed, or took too long" >&2' ERR
chmod 755 "$folder"
cd "$folder"
tried=0

# wrote CASE OUT ERR: the files out and err have exactly these bytes.
wrote() {
    if ! diff <(printf '%s' "$2") out || ! diff <(printf '%s' "$3") err; then
        printf '%s\n' "tests/tcmend.sh: $1: the lines with < were expected, those with > were written" >&2
        exit 1
    fi
    tried=$((tried + 1))
}

# mends CASE OUT ERR ARGUMENTS...: tcmend with these arguments.
mends() {
    local case=$1 out=$2 err=$3
    shift 3
    timeout 10 "$tcmend" "$@" > out 2> err < /dev/null
    wrote "$case" "$out" "$err"
}

# holds CASE FILE TEXT: the file has exactly these bytes, and no temporary file stands beside it.
holds() {
    if ! diff <(printf '%s' "$3") "$2"; then
        printf '%s\n' "tests/tcmend.sh: $1: $2 holds something else" >&2
        exit 1
    fi
    [ ! -e "$2.tcmend" ]
    tried=$((tried + 1))
}

# times COUNT BYTE: the byte so many times.
times() {
    printf "%0$1d" 0 | tr 0 "$2"
}

# as_nobody COMMAND...: without the rights of root, whom no mode stops.
as_nobody() {
    if [ "$(id -u)" = 0 ]; then
        setpriv --reuid 65534 --regid 65534 --clear-groups "$@"
    else
        "$@"
    fi
}

# ---- the arguments

wanted='tcmend: a file is wanted, and perhaps a new one; tcmend --help says more'$'\n'
usage='usage: tcmend FILE        writes the mended database to standard output
       tcmend FILE NEW    writes it to the file NEW, which may be FILE
Removes from a termcap database what makes names unusable: lines without a
colon, malformed fields, fields after a link, links to unknown names, and links
that come back to their own line. A line that loses nothing keeps every byte.
Each removal is noted as FILE:LINE:COLUMN: reason: text, and a summary follows:
on standard error, or with NEW on standard output. With NEW and nothing to mend
no file is written. NEW is written as NEW.tcmend and then renamed; after a fault
the old file is as it was. FILE has at most 1048576 bytes and 4096 descriptions.
The exit status says nothing: it is 0 in every case.
'
mends 'no argument' '' "$wanted"
mends 'three arguments' '' "$wanted" a b c
mends '--help' "$usage" '' --help
mends 'a path of 5,000 bytes' '' "tcmend: $(times 4096 p): File name too long"$'\n' "$(times 5000 p)"

# ---- a damaged database: notes, summary, and what is left

old=$'# shop\noven:am:co#8O:li#24:tc=hall:\nhall:li#24:tc=oven:\nwide screen\nlost:tc=nowhere:\nlate:tc=hall:am:\n'
new=$'# shop\noven:am:li#24:\nhall:li#24:tc=oven:\nlost:\nlate:tc=hall:\n'
notes='site.tc:2:9: malformed field removed: co#8O:
site.tc:2:21: link that comes back to its own line removed: tc=hall:
site.tc:4:1: line without a colon dropped: wide screen
site.tc:5:6: link to an unknown name removed: tc=nowhere:
site.tc:6:14: field after a link removed: am:
site.tc: 4 fields removed from 3 descriptions, 1 line dropped; 4 descriptions left
'
printf '%s' "$old" > site.tc
mends 'to standard output' "$new" "$notes" site.tc
holds 'the file stays' site.tc "$old"
mends 'to another file' "$notes" '' site.tc other.tc
holds 'the other file' other.tc "$new"
holds 'the file still stays' site.tc "$old"
mends 'in place' "$notes" '' site.tc site.tc
holds 'the file is mended' site.tc "$new"
mends 'once more' $'site.tc: nothing to mend\n' '' site.tc site.tc
holds 'the file stays mended' site.tc "$new"
mends 'nothing to mend, to another file' $'site.tc: nothing to mend\n' '' site.tc third.tc
[ ! -e third.tc ]
mends 'nothing to mend, to standard output' "$new" $'site.tc: nothing to mend\n' site.tc

# ---- places as an editor counts them: joined lines, and bytes that cannot be printed

printf 'a:am:\\\n\tco#80:\\\n:li#24:\\\n\\\n xx:\nb:\x01\xff:\n' > joined.tc
mends 'continued lines' $'a:am::li#24:\nb:\n' 'joined.tc:2:1: malformed field removed: \011co#80:
joined.tc:5:1: malformed field removed:  xx:
joined.tc:6:3: malformed field removed: \001\377:
joined.tc: 3 fields removed from 2 descriptions, 0 lines dropped; 2 descriptions left
' joined.tc
{ printf 'a:'; times 59 x; printf ':'; times 60 x; printf ':\n'; } > long.tc
mends 'a text of 60 bytes and one of 61' $'a:\n' "long.tc:1:3: malformed field removed: $(times 59 x):
long.tc:1:63: malformed field removed: $(times 60 x)...
long.tc: 2 fields removed from 1 description, 0 lines dropped; 1 description left
" long.tc
printf 'a:xx' > open.tc
mends 'a last field without a colon' $'a:xx' $'open.tc: nothing to mend\n' open.tc
printf 'a:x' > open.tc
mends 'a last malformed field without a colon' $'a:\n' 'open.tc:1:3: malformed field removed: x
open.tc: 1 field removed from 1 description, 0 lines dropped; 1 description left
' open.tc
: > empty.tc
mends 'an empty file' '' $'empty.tc: nothing to mend\n' empty.tc

# ---- the limits

{ printf 'a:x:\n#'; times 1048569 c; printf '\n'; } > most.tc
[ "$(wc -c < most.tc)" = 1048576 ]
timeout 10 "$tcmend" most.tc mended.tc > out 2> err
wrote '1,048,576 bytes' $'most.tc:1:3: malformed field removed: x:\nmost.tc: 1 field removed from 1 description, 0 lines dropped; 1 description left\n' ''
[ "$(wc -c < mended.tc)" = 1048574 ]
{ cat most.tc; printf '\n'; } > more.tc
mends '1,048,577 bytes' '' $'tcmend: more.tc: more than 1048576 bytes\n' more.tc mended2.tc
mends 'no end of file' '' $'tcmend: /dev/zero: more than 1048576 bytes\n' /dev/zero
for ((i = 0; i < 4096; i++)); do echo "n$i:x:"; done > many.tc
timeout 10 "$tcmend" many.tc > out 2> err
[ "$(wc -l < err)" = 4097 ]
tail -1 err | diff - <(echo 'many.tc: 4096 fields removed from 4096 descriptions, 0 lines dropped; 4096 descriptions left')
echo 'n:' >> many.tc
mends '4,097 descriptions' '' $'tcmend: many.tc: more than 4096 descriptions\n' many.tc mended2.tc
{ printf 'n:'; times 65536 x | sed 's/x/x:/g'; printf '\n'; } > removals.tc
timeout 20 "$tcmend" removals.tc > out 2> err
diff out <(printf 'n:\n')
[ "$(wc -l < err)" = 65537 ]
{ printf 'n:'; times 65537 x | sed 's/x/x:/g'; printf '\n'; } > removals.tc
mends '65,537 things to remove' '' $'tcmend: removals.tc: more than 65536 things to remove\n' removals.tc mended2.tc
[ ! -e mended2.tc ]
tried=$((tried + 2))

# ---- faults: a message, and the old file as it was

printf '%s' "$old" > site.tc
mends 'a missing file' '' $'tcmend: none.tc: No such file or directory\n' none.tc
mends 'an empty path' '' $'tcmend: : No such file or directory\n' ''
mends 'a name that is not UTF-8' '' $'tcmend: \xff.tc: A name in UTF-8 is wanted\n' $'\xff.tc'
mkdir folder
mends 'a directory' '' $'tcmend: folder: Is a directory\n' folder
mends 'a directory as the new file' '' $'tcmend: folder: Is a directory\n' site.tc folder
[ ! -e folder.tcmend ]
mends 'a new file in no directory' '' $'tcmend: none/new.tc.tcmend: No such file or directory\n' site.tc none/new.tc
mends 'an empty new path' '' $'tcmend: : No such file or directory\n' site.tc ''
[ ! -e .tcmend ]
mends 'a new name that is not UTF-8' '' $'tcmend: \xff.tc.tcmend: A name in UTF-8 is wanted\n' site.tc $'\xff.tc'
echo taken > site.tc.tcmend
mends 'a temporary name that is taken' '' $'tcmend: site.tc.tcmend: File exists\n' site.tc site.tc
diff site.tc.tcmend <(echo taken)
rm site.tc.tcmend
holds 'the file after a taken name' site.tc "$old"
long=$(times 250 n)
mends 'a temporary name that is too long' '' "tcmend: $long.tcmend: File name too long"$'\n' site.tc "$long"

# A limit on a file's size stands for a full disk: a write takes only a part, and the next one fails.
{ cat site.tc; printf '#'; times 100000 c; printf '\n'; } > large.tc
cp large.tc kept.tc
(trap '' XFSZ; ulimit -f 8; exec timeout 10 "$tcmend" large.tc large.tc > out 2> err)
wrote 'no room for the new file' '' $'tcmend: large.tc.tcmend: File too large\n'
cmp large.tc kept.tc
[ ! -e large.tc.tcmend ]

chmod 000 kept.tc
as_nobody timeout 10 "$tcmend" kept.tc > out 2> err
wrote 'a file that may not be read' '' $'tcmend: kept.tc: Permission denied\n'
chmod 644 site.tc
mkdir shut
cp site.tc shut/site.tc
chmod 644 shut/site.tc
chmod 555 shut
as_nobody timeout 10 "$tcmend" shut/site.tc shut/site.tc > out 2> err
wrote 'a directory that may not be written' '' $'tcmend: shut/site.tc.tcmend: Permission denied\n'
holds 'the file in that directory' shut/site.tc "$old"

# ---- standard output and standard error

: > out
"$tcmend" site.tc > /dev/full 2> err
wrote 'a full device' '' $'tcmend: standard output: No space left on device\n'
"$tcmend" site.tc >&- 2> err
wrote 'closed output' '' $'tcmend: standard output: Bad file descriptor\n'
"$tcmend" site.tc new.tc > /dev/full 2> err
wrote 'notes to a full device' '' $'tcmend: the notes: No space left on device\n'
holds 'the new file is there all the same' new.tc "$new"
"$tcmend" new.tc new.tc > /dev/full 2> err
wrote 'nothing to mend, to a full device' '' $'tcmend: the notes: No space left on device\n'
"$tcmend" site.tc > out 2> /dev/full
: > err
wrote 'notes that cannot be written' "$new" ''
"$tcmend" --help > /dev/full 2> err
: > out
wrote '--help to a full device' '' $'tcmend: standard output: No space left on device\n'

# ---- the sample of damage: every name can be used afterwards

"$tcmend" "$damaged" mended-sample.tc > out 2> err
[ ! -s err ]
"$tcmend" mended-sample.tc again.tc > out 2> err
wrote 'the mended sample' $'mended-sample.tc: nothing to mend\n' ''

echo "tests/tcmend.sh: $tried cases, each as expected"
