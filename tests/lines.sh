#!/usr/bin/env bash
# Lists written as lines, and lines read as lists, by the two programs: every vector, each also the other way round, and some inputs of edge
# lengths, compared byte for byte. Wants target/bin/to_lines, from_lines and player.
set -euo pipefail
cd "$(dirname "$0")/.."
work=$(mktemp -d)
trap 'rm -rf "$work"' EXIT

fail() {
    echo "lines: $1"
    exit 1
}

expect() { # PROGRAM INPUT WANTED NAME: what the program prints for a file is another file, byte for byte
    "target/bin/$1" < "$2" > "$work/got"
    cmp "$3" "$work/got" || fail "$4 differs"
}

expect_line() { # PROGRAM NAME LINE: the input is in $work/in, and this line is all that is printed
    echo "$3" > "$work/want"
    expect "$1" "$work/in" "$work/want" "$2"
    edges=$((edges + 1))
}

vectors() { # FOLDER ENDING PROGRAM OTHER: each vector, and back by the other program where it is accepted
    local input wanted
    count=0
    back=0
    for input in "tests/vectors/03-lines/$1"/*."$2"; do
        wanted=${input%."$2"}.out
        expect "$3" "$input" "$wanted" "$input"
        count=$((count + 1))
        grep -aqx 'refused [0-9]* at [0-9]*' "$wanted" && continue
        expect "$4" "$wanted" "$input" "$input, and back,"
        back=$((back + 1))
    done
    echo "lines: $count vectors of $3, $back of them also back by $4"
}

text() { # COUNT LINE ..: the longest header's line (42 bytes), so many START, more lines
    local count=$1
    shift
    awk -v n="$count" 'BEGIN { print "sites 16 commit 15 abort 15 willing 65535"; while (n-- > 0) print "start" }'
    [ $# -eq 0 ] || printf '%s\n' "$@"
}

vectors write bin to_lines from_lines
if [ "$count" -lt 60 ] || [ "$back" -lt 41 ] || [ "$back" -eq "$count" ]; then
    fail 'too few vectors of to_lines'
fi
vectors read txt from_lines to_lines
if [ "$count" -lt 80 ] || [ "$back" -lt 19 ] || [ "$back" -eq "$count" ]; then
    fail 'too few vectors of from_lines'
fi
expect from_lines examples/m3.txt examples/m3.bin 'M3 from its lines'
expect to_lines examples/m3.bin examples/m3.txt 'M3 as lines'

edges=0
: > "$work/in"
expect_line to_lines 'an empty list' 'refused 2 at 0'
expect_line from_lines 'an empty text' 'refused 19 at 0'
head -c 32768 /dev/zero > "$work/in"
expect_line to_lines 'a list of 32,768 zeros' 'refused 3 at 0'
head -c 32769 /dev/zero > "$work/in"
expect_line to_lines 'a list of 32,769 bytes' 'refused 1 at 0'
head -c 1048576 /dev/zero > "$work/in"
expect_line to_lines 'a list of a megabyte' 'refused 1 at 0'

# the longest list and its text; with a START more it is too long
text 32763 > "$work/longest"
[ "$(wc -c < "$work/longest")" -eq 196620 ] || fail 'the longest text has another length'
{
    printf '\020\017\017\377\377'
    head -c 32763 /dev/zero | tr '\000' '\001'
} > "$work/list"
expect from_lines "$work/longest" "$work/list" 'the longest text'
expect to_lines "$work/list" "$work/longest" 'the longest list'
edges=$((edges + 2))
text 32764 > "$work/in"
expect_line from_lines 'a list of 32,769 bytes as lines' 'refused 1 at 0'

# from_lines reads at most 262,144 bytes. That is more than the text of any list has, so a longer one in the form is 1 as well, and so is one that is
# not in the form
text 43681 'crash 0' 'crash 0' > "$work/in"
[ "$(wc -c < "$work/in")" -eq 262144 ] || fail 'this text should have 262,144 bytes'
expect_line from_lines 'a text of 262,144 bytes' 'refused 1 at 0'
text 43682 'timeout 10' > "$work/in"
[ "$(wc -c < "$work/in")" -eq 262145 ] || fail 'this text should have 262,145 bytes'
expect_line from_lines 'a text of 262,145 bytes' 'refused 1 at 0'
text 500000 > "$work/in"
expect_line from_lines 'a text of three megabytes' 'refused 1 at 0'
text 43680 'crash 0' stop > "$work/in"
expect_line from_lines 'a text of 262,135 bytes, the last line bad' 'refused 19 at 262130'
{
    echo stop
    text 43681 'timeout 10'
} > "$work/in"
[ "$(wc -c < "$work/in")" -eq 262144 ] || fail 'this text, its first line bad, should have 262,144 bytes'
expect_line from_lines 'a text of 262,144 bytes, the first line bad' 'refused 19 at 0'
{
    echo stop
    text 43683
} > "$work/in"
[ "$(wc -c < "$work/in")" -eq 262145 ] || fail 'this text, its first line bad, should have 262,145 bytes'
expect_line from_lines 'a text of 262,145 bytes, the first line bad' 'refused 1 at 0'

# why a file should stand between from_lines and player: its line of a refusal begins with r, which is 114, as a number of sites
echo 'refused 19 at 35' > "$work/in"
expect_line player 'the line of a refusal, played' 'refused 3 at 0'
echo "lines: M3 both ways, and $edges inputs of edge lengths"
