#!/usr/bin/env bash
# Plays every list of the player's vectors and some lists of edge lengths, and compares what the player prints byte for byte.
set -euo pipefail
cd "$(dirname "$0")/.."
player=target/bin/player
work=$(mktemp -d)
trap 'rm -rf "$work"' EXIT

expect() { # NAME: the list is in $work/list, what must be printed on standard input
    cat > "$work/want"
    "$player" < "$work/list" > "$work/got"
    cmp "$work/want" "$work/got" || { echo "player: $1 differs"; exit 1; }
}

count=0
for list in tests/vectors/{base,01-restart,02-news,06-weights}/*.bin; do
    cp "$list" "$work/list"
    expect "$list" < "${list%.bin}.out"
    count=$((count + 1))
done
[ "$count" -ge 161 ] || { echo "player: only $count vectors"; exit 1; }

: > "$work/list"
echo 'refused 2 at 0' | expect 'an empty list'
printf '\003' > "$work/list"
echo 'refused 2 at 0' | expect 'a list of one byte'
head -c 32769 /dev/zero > "$work/list"
echo 'refused 1 at 0' | expect 'a list of 32,769 bytes'
head -c 1048576 /dev/zero > "$work/list"
echo 'refused 1 at 0' | expect 'a list of a megabyte'

# 32,768 bytes: START, then site 0 crashes and recovers in turn; the last command is a crash
{
    printf '\003\002\002\007\000\001'
    for _ in $(seq 8190); do printf '\004\000\005\000'; done
    printf '\004\000'
} > "$work/list"
expect 'a list of 32,768 bytes' <<'WANT'
sites 3 commit 2 abort 2 events 16382 rows 1 news 0
0 down subordinate prepared P-- 100
1 up subordinate active --- 000
2 up subordinate active --- 000
end 32768
WANT
echo "player: $count vectors and 5 edge lists played"
