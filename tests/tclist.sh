#!/bin/bash
# Tries the program tclist (crates/tclist/out/tclist, which `rt run` writes there) on what a user can do wrong and on the edges of its
# input. What it must write is written here by hand. The first difference ends the run.
set -Eeuo pipefail
cd "$(dirname "$0")/.."
tclist=$PWD/crates/tclist/out/tclist
folder=$(mktemp -d)
trap 'rm -rf "$folder"' EXIT
trap 'echo "tests/tclist.sh: line $LINENO: a command failed, or took too long" >&2' ERR
cd "$folder"
tried=0

# wrote CASE OUT ERR: the files out and err have exactly these bytes.
wrote() {
    if ! diff <(printf '%s' "$2") out || ! diff <(printf '%s' "$3") err; then
        printf '%s\n' "tests/tclist.sh: $1: the lines with < were expected, those with > were written" >&2
        exit 1
    fi
    tried=$((tried + 1))
}

# asks CASE FILE INPUT OUT ERR: tclist FILE, with INPUT (escapes as in printf) on standard input.
asks() {
    printf "$3" > input
    timeout 10 "$tclist" "$2" < input > out 2> err
    wrote "$1" "$4" "$5"
}

# times COUNT BYTE: the byte so many times.
times() {
    printf "%0$1d" 0 | tr 0 "$2"
}

cat > whole.tc <<'END'
N9|aaa:am:li#30:tc=aaa-unk:
NY|aaa-unk:co#80:li#48:cl=\E[H:
QZ|aaa-nam:am@:tc=aaa:
END
whole=$'108 105 2 1 0 0 0 30 0 0 0 0\n99 111 2 2 0 0 0 80 0 0 0 0\n99 108 3 2 0 0 0 3 0 0 0 0\n'
good=$(times 64 n)
printf '%s:co#65535:\n%sn:co#1:\n' "$good" "$good" > long.tc
good_record=$'99 111 2 0 0 0 255 255 0 0 0 0\n'
printf 'crlf:co#80:\r\n' > crlf.tc
: > empty.tc
mkdir folder
# whole.tc has 83 bytes; the comment's # and newline are two more.
{ cat whole.tc; printf '#'; times 65451 x; printf '\n'; } > most.tc
{ cat most.tc; printf '\n'; } > more.tc
[ "$(wc -c < most.tc)" = 65536 ]
[ "$(wc -c < more.tc)" = 65537 ]

# ---- the arguments

one='tclist: one argument is wanted, the file; tclist --help says more'$'\n'
usage='usage: tclist FILE
Prints the listing of the terminal that the first line of standard input names.
FILE is a termcap database of at most 65536 bytes. Each record is printed on a
line of its own, its bytes in decimal; a refusal is printed as its number alone.
What goes wrong is reported on standard error, and then nothing is printed.
The exit status says nothing: it is 0 in every case.
'
"$tclist" > out 2> err < /dev/null
wrote 'no argument' '' "$one"
"$tclist" whole.tc whole.tc > out 2> err < /dev/null
wrote 'two arguments' '' "$one"
"$tclist" --help whole.tc > out 2> err < /dev/null
wrote 'help and a file' '' "$one"
"$tclist" --help > out 2> err < /dev/null
wrote '--help' "$usage" ''
"$tclist" "$(times 4096 p)" > out 2> err < /dev/null
wrote 'a path of 4,096 bytes' '' "tclist: $(times 4096 p): File name too long"$'\n'
"$tclist" "$(times 5000 p)" > out 2> err < /dev/null
wrote 'a path of 5,000 bytes, reported by its first 4,096' '' "tclist: $(times 4096 p): File name too long"$'\n'

# ---- the file

asks 'a missing file' none.tc 'aaa\n' '' $'tclist: none.tc: No such file or directory\n'
asks 'an empty path' '' 'aaa\n' '' $'tclist: : No such file or directory\n'
asks 'a name that is not UTF-8' $'\xff.tc' 'aaa\n' '' $'tclist: \xff.tc: A name in UTF-8 is wanted\n'
asks 'a directory' folder 'aaa\n' '' $'tclist: folder: Is a directory\n'
asks 'an empty file' empty.tc 'aaa\n' $'4\n' ''
asks '65,536 bytes' most.tc 'aaa-nam\n' "$whole" ''
asks '65,537 bytes' more.tc 'aaa-nam\n' '' $'tclist: more.tc: more than 65536 bytes\n'
asks 'no end of file' /dev/zero 'aaa-nam\n' '' $'tclist: /dev/zero: more than 65536 bytes\n'
asks 'lines that end in CR and LF' crlf.tc 'crlf\n' $'6\n' ''
asks 'a listing' whole.tc 'aaa-nam\n' "$whole" ''

# ---- standard input

asks 'no newline' whole.tc 'aaa-nam' "$whole" ''
asks 'more lines' whole.tc 'aaa-nam\naaa\n' "$whole" ''
asks 'an unknown name' whole.tc 'aaa-name\n' $'4\n' ''
asks 'a blank after the name' whole.tc 'aaa-nam \n' $'4\n' ''
asks 'a CR after the name' whole.tc 'aaa-nam\r\n' $'1\n' ''
asks 'a zero byte after the name' whole.tc 'aaa-nam\0\n' $'1\n' ''
asks 'empty input' whole.tc '' $'1\n' ''
asks 'an empty line' whole.tc '\naaa-nam\n' $'1\n' ''
asks 'a name of 64 bytes' long.tc "$good\n" "$good_record" ''
asks 'a name of 64 bytes without a newline' long.tc "$good" "$good_record" ''
asks 'a name of 65 bytes' long.tc "${good}n\n" $'1\n' ''
times 1000000 n > long
timeout 10 "$tclist" long.tc < long > out 2> err
wrote 'a name of 1,000,000 bytes' $'1\n' ''
{ printf 'aaa'; sleep 0.1; printf -- '-na'; sleep 0.1; printf 'm\n'; } | timeout 10 "$tclist" whole.tc > out 2> err
wrote 'a name in three pieces' "$whole" ''
timeout 10 "$tclist" whole.tc <&- > out 2> err
wrote 'closed input' '' $'tclist: standard input: Bad file descriptor\n'
timeout 10 "$tclist" whole.tc < folder > out 2> err
wrote 'a directory as input' '' $'tclist: standard input: Is a directory\n'

# This end of the pipe is never closed, so that its input does not end.
mkfifo pipe
exec 3<> pipe
printf 'aaa-nam\n' >&3
timeout 2 "$tclist" whole.tc <&3 > out 2> err
wrote 'input that does not end' "$whole" ''
exec 3>&-

# ---- standard output

: > out
printf 'aaa-nam\n' > input
"$tclist" whole.tc < input > /dev/full 2> err
wrote 'a full device' '' $'tclist: standard output: No space left on device\n'
"$tclist" whole.tc < input >&- 2> err
wrote 'closed output' '' $'tclist: standard output: Bad file descriptor\n'
"$tclist" --help > /dev/full 2> err
wrote '--help to a full device' '' $'tclist: standard output: No space left on device\n'

echo "tests/tclist.sh: $tried cases, each as expected"
