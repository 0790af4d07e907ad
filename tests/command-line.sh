#!/bin/sh
# What the program answers to good and bad words and files: its exit status, standard output and standard error.
# Usage: tests/command-line.sh PROGRAM
set -eu
program=$(realpath "$1")
here=$(cd "$(dirname "$0")/.." && pwd)
work=$(mktemp -d)
trap 'rm -rf "$work"' EXIT
cd "$work"
bad=0
cases=0

# expect STATUS OUT ERR WORDS..: OUT and ERR are files that hold what is to be written
expect() {
    status=$1 out=$2 err=$3
    shift 3
    cases=$((cases + 1))
    got=0
    "$program" "$@" >got.out 2>got.err </dev/null || got=$?
    if [ "$got" != "$status" ] || ! cmp -s got.out "$out" || ! cmp -s got.err "$err"; then
        echo "nurvischi $*: status $got, wrote:"
        cat got.out got.err
        bad=1
    fi
}

# refuses LINE WORDS..: status 1, nothing on standard output, and one line on standard error
refuses() {
    printf 'nurvischi: %s\n' "$1" >want.err
    shift
    expect 1 /dev/null want.err "$@"
}

cp "$here/crates/nurvischi/data/sample.trace" sample.trace
printf '\0\0\0\0' >empty.trace
printf 'records 0\n' >empty.out
printf '' >nothing
printf '\0\0\0\0\0' >five
printf '\001\004\0\0' >many
head -c 30 sample.trace >cut
"$program" help >help.out
grep -q 'nurvischi inspect TRACE' help.out || { echo "help does not name inspect"; bad=1; }

expect 0 "$here/crates/nurvischi/stdout" /dev/null inspect sample.trace
expect 0 empty.out /dev/null inspect empty.trace
expect 0 help.out /dev/null help
expect 0 help.out /dev/null
refuses 'unknown word `inspekt`; `nurvischi help` lists the words' inspekt sample.trace
refuses 'unknown word ``; `nurvischi help` lists the words' ''
refuses 'the words cannot be read as UTF-8 text' inspect "$(printf '\377')"
refuses 'inspect takes the name of a trace file' inspect
refuses 'inspect takes one trace file' inspect sample.trace empty.trace
refuses 'help takes no further word' help inspect
refuses 'absent: cannot be read: No such file or directory (os error 2)' inspect absent
refuses '.: cannot be read: Is a directory (os error 21)' inspect .
for file in nothing five many cut; do
    refuses "$file: refused 17: this is not a trace file" inspect "$file"
done

echo "command line: $cases cases"
exit $bad
