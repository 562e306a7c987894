#!/usr/bin/env bash
# Lists turned into the other edition by the program: every vector, those that are accepted also back, and some inputs of edge lengths, compared byte
# for byte; and both lists of a vector as the player shows them. Wants target/bin/convert and player.
set -euo pipefail
cd "$(dirname "$0")/.."
work=$(mktemp -d)
trap 'rm -rf "$work"' EXIT

fail() {
    echo "convert: $1"
    exit 1
}

expect() { # INPUT WANTED NAME: what the program prints for a file is another file, byte for byte
    target/bin/convert < "$1" > "$work/got"
    cmp "$2" "$work/got" || fail "$3 differs"
}

expect_line() { # NAME LINE: the input is in $work/in, and this line is all that is printed
    echo "$2" > "$work/want"
    expect "$work/in" "$work/want" "$1"
    edges=$((edges + 1))
}

expect_both() { # LENGTH NAME: $work/first has so many bytes and becomes $work/second, of 32,768, and back
    [ "$(wc -c < "$work/first")" -eq "$1" ] || fail "$2: the first edition has another length"
    [ "$(wc -c < "$work/second")" -eq 32768 ] || fail "$2: the second edition has another length"
    expect "$work/first" "$work/second" "$2"
    expect "$work/second" "$work/first" "$2, and back,"
    edges=$((edges + 2))
}

list() { # LENGTH HEADER: so many bytes, the header's and then commands of no sense
    {
        printf '%b' "$2"
        seq 1 9999
    } > "$work/longer"
    head -c "$1" "$work/longer"
}

played_alike() { # FIRST SECOND NAME: a list in both editions; the player shows the same, but for a last place that is n + 3 higher
    local n
    n=$(od -An -tu1 -N1 "$1")
    target/bin/player < "$1" | awk -v more=$((n + 3)) 'NR > 1 { print line } { line = $0 } END { $0 = line; $NF += more; print }' > "$work/want"
    target/bin/player < "$2" > "$work/got"
    cmp "$work/want" "$work/got" || fail "$3: the player shows another report"
}

count=0
forward=0
back=0
stopped=0
for input in tests/vectors/07-convert/*.bin; do
    wanted=${input%.bin}.out
    expect "$input" "$wanted" "$input"
    count=$((count + 1))
    grep -aqx 'refused [0-9]* at [0-9]*' "$wanted" && continue
    expect "$wanted" "$input" "$input, and back,"
    if [ "$(od -An -tu1 -N1 "$input")" -eq 130 ]; then
        back=$((back + 1))
        played_alike "$wanted" "$input" "$input"
    else
        forward=$((forward + 1))
        played_alike "$input" "$wanted" "$input"
    fi
    ! grep -q '^refused' "$work/got" || stopped=$((stopped + 1))
done
if [ "$count" -lt 60 ] || [ "$forward" -lt 18 ] || [ "$back" -lt 16 ] || [ "$stopped" -lt 7 ]; then
    fail "only $count vectors, $forward forward, $back back, $stopped that stop the player"
fi
echo "convert: $count vectors, $((forward + back)) of them also back and as the player shows both; $stopped of these stop it"

# M3, its header spelt out
{
    printf '\202\003\002\000\002\000\007\000\001\001\001'
    tail -c +6 examples/m3.bin
} > "$work/second"
expect examples/m3.bin "$work/second" 'M3 in the second edition'
expect "$work/second" examples/m3.bin 'M3 in the first edition'
played_alike examples/m3.bin "$work/second" M3

edges=0
three='\003\002\002\007\000'
three_second='\202\003\002\000\002\000\007\000\001\001\001'
sixteen='\020\017\002\001\200'
sixteen_second='\202\020\017\000\002\000\001\200\001\001\001\001\001\001\001\001\001\001\001\001\001\001\001\001'
heavy_second='\202\004\003\000\003\000\017\000\001\001\002\001'
: > "$work/in"
expect_line 'an empty list' 'refused 2 at 0'
list 4 "$three" > "$work/in"
expect_line 'a list of four bytes' 'refused 2 at 0'
list 4 "$three_second" > "$work/in"
expect_line 'four bytes of the second edition' 'refused 2 at 0'
list 10 "$three_second" > "$work/in"
expect_line 'a header of the second edition, a byte short' 'refused 2 at 0'
list 12 "$heavy_second" > "$work/in"
expect_line 'a weight of 2' 'refused 22 at 0'

# the longest lists that can go forward, 32,768 bytes in the second edition, and those a byte longer
list 32762 "$three" > "$work/first"
list 32768 "$three_second" > "$work/second"
expect_both 32762 'a list of three sites'
list 32763 "$three" > "$work/in"
expect_line 'a list of 32,763 bytes, three sites' 'refused 1 at 0'
list 32749 "$sixteen" > "$work/first"
list 32768 "$sixteen_second" > "$work/second"
expect_both 32749 'a list of sixteen sites'
list 32750 "$sixteen" > "$work/in"
expect_line 'a list of 32,750 bytes, sixteen sites' 'refused 1 at 0'

# longer than a list may be, whatever the header
list 32768 "$three" > "$work/in"
expect_line 'a list of 32,768 bytes, going forward' 'refused 1 at 0'
list 32768 '\000' > "$work/in"
expect_line 'a list of 32,768 bytes, no site' 'refused 3 at 0'
list 32769 '\000' > "$work/in"
expect_line 'a list of 32,769 bytes, no site' 'refused 1 at 0'
list 32768 "$heavy_second" > "$work/in"
expect_line 'a list of 32,768 bytes, a weight of 2' 'refused 22 at 0'
list 32769 "$heavy_second" > "$work/in"
expect_line 'a list of 32,769 bytes, a weight of 2' 'refused 1 at 0'
list 32769 "$three_second" > "$work/in"
expect_line 'a list of 32,769 bytes, going back' 'refused 1 at 0'
head -c 1048576 /dev/zero > "$work/in"
expect_line 'a list of a megabyte' 'refused 1 at 0'

# why a file should stand between this program and the next: its line of a refusal begins with r, which is 114, as a number of sites
echo 'refused 22 at 0' > "$work/in"
expect_line 'the line of a refusal, converted' 'refused 3 at 0'
echo "convert: M3 both ways, and $edges inputs of edge lengths"
