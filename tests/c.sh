#!/usr/bin/env bash
# The library from C: the headers, their readers, the cases around every number, steps of single sites, the quiet day, the rounds when everyone is back
# and the examples, built strictly and run. The example network is in network.sh.
# Wants target/staticlib/libquorum.a and libquorum_step.a.
set -euo pipefail
cd "$(dirname "$0")/.."
strict=(-Wall -Wextra -Werror -pedantic -Iinclude)
work=$(mktemp -d)
trap 'rm -rf "$work"' EXIT

fail() {
    echo "C: $1"
    exit 1
}

build() { # NAME FILES: target/NAME from the C files
    local name=$1
    shift
    cc -std=c99 -O2 "${strict[@]}" "$@" target/staticlib/lib{quorum,quorum_step}.a -o "target/$name"
}

status() { # WANTED COMMAND ..: its exit status; what it prints is in $work/got
    local wanted=$1 got=0
    shift
    "$@" > "$work/got" 2> "$work/errors" || got=$?
    [ "$got" -eq "$wanted" ] || fail "$* exits $got, not $wanted"
}

full() { # PROGRAM ARGUMENT ..: it exits 2 where the disk is full
    local name=$1 got=0
    shift
    [ -w /dev/full ] || return 0
    "target/$name" "$@" > /dev/full 2> "$work/errors" || got=$?
    [ "$got" -eq 2 ] || fail "$name: a full disk is not noticed"
}

for header in include/*.h; do
    cc -std=c99 "${strict[@]}" -fsyntax-only -x c "$header"
    c++ "${strict[@]}" -fsyntax-only -x c++ "$header"
done
readers=(tests/readers.c tests/line_readers.c tests/step_readers.c)
c++ "${strict[@]}" -fsyntax-only -x c++ "${readers[@]}"
build readers "${readers[@]}"
target/readers
build cases tests/cases/*.c
target/cases
build step_worlds tests/step_worlds.c tests/shared.c
target/step_worlds
build step_histories tests/step_histories.c tests/shared.c
target/step_histories
build quiet_day tests/quiet_day.c tests/shared.c
target/quiet_day
build all_back_worlds tests/all_back*.c tests/shared.c
target/all_back_worlds

build play_day examples/play_day.c
for list in '' examples/m3.bin; do
    status 0 target/play_day ${list:+"$list"}
    cmp "$work/got" crates/player/stdout
done
refused=0
for list in tests/vectors/{base,01-restart,02-news,06-weights}/*.bin; do
    wanted=0
    grep -q '^refused' "${list%.bin}.out" && wanted=1
    status "$wanted" target/play_day "$list"
    cmp "$work/got" "${list%.bin}.out"
    refused=$((refused + wanted))
done
[ "$refused" -ge 10 ] || fail "only $refused vectors are refused"
status 2 target/play_day "$work/missing"
status 2 target/play_day "$work"
echo "C: play_day prints every vector's report; 0, 1 ($refused lists) and 2 as its exit status"

build quiet_list examples/quiet_list.c
quiet() { # N C A EVENTS ROWS NEWS: the quiet day's list, as play_day plays it
    status 0 target/quiet_list "$1" "$2" "$3"
    mv "$work/got" "$work/quiet"
    status 0 target/play_day "$work/quiet"
    [ "$(head -n 1 "$work/got")" = "sites $1 commit $2 abort $3 events $4 rows $5 news $6" ] || fail "quiet_list: $1 $2 $3 is not played so"
    [ "$(grep -c ' committed PCc ' "$work/got")" -eq "$1" ] || fail "quiet_list: $1 $2 $3 does not commit everywhere"
}
quiet 3 2 2 15 9 16
quiet 8 7 2 45 24 126
quiet 16 9 8 93 48 510
status 1 target/quiet_list 2 2 2
status 1 target/quiet_list 16 8 8
status 2 target/quiet_list 3 2
status 2 target/quiet_list 3 2 two
status 2 target/quiet_list 3 2 99999999999999999999
full quiet_list 3 2 2
echo "C: quiet_list writes days that commit everywhere; 0, 1 and 2 as its exit status"

build weights examples/weights.c
status 0 target/weights 51 50 40 25 15 10 10
cmp "$work/got" - <<'WANT'
sites 5 commit 51 abort 50 events 21 rows 12 news 30
0 up coordinator committed PCc 44444
1 up subordinate committed PCc 44111
2 up subordinate committed P-c 42411
3 up subordinate committed P-c 42141
4 up subordinate committed P-c 42114
end 90
WANT
in_group() { # MEMBERS C A WEIGHT ..: weights plays this day; all commit, and so many of them are needed for the quorum
    local members=$1
    shift
    status 0 target/weights "$@"
    [ "$(grep -c ' committed PCc ' "$work/got")" -eq "$members" ] || fail "weights: $* does not need $members sites"
    [ "$(grep -c ' committed P-c ' "$work/got")" -eq $(($# - 2 - members)) ] || fail "weights: $* does not commit everywhere"
}
in_group 3 3 3 1 1 1 1 1
in_group 3 51 50 10 25 40 15 10
in_group 4 51 50 10 10 15 25 40
in_group 2 256 256 255 255 1
in_group 15 3825 256 255 255 255 255 255 255 255 255 255 255 255 255 255 255 255 255
refuse() { # NUMBER TEXT C A WEIGHT ..: weights refuses this day, and says why
    local number=$1 text=$2
    shift 2
    status 1 target/weights "$@"
    [ "$(cat "$work/got")" = "refused $number at 0" ] || fail "weights: $* is not refused with $number"
    [ "$(cat "$work/errors")" = "refused: $text" ] || fail "weights: of $* it does not say '$text'"
}
quorums='a quorum is over all weights but the largest, or both together are not over all weights'
refuse 3 'the number of sites is not 3 to 16' 2 2 1 1
refuse 21 "a site's weight is 0" 2 2 1 0 1
refuse 4 "$quorums" 61 50 40 25 15 10 10
refuse 4 "$quorums" 50 50 40 25 15 10 10
refuse 4 "$quorums" 50 50 50 20 15 10 5
status 2 target/weights
status 2 target/weights 51 50
status 2 target/weights 51 50 40 25 15 10 heavy
status 2 target/weights 51 50 40 25 15 10 256
status 2 target/weights 65536 50 40 25 15 10 10
status 2 target/weights 9 9 1 1 1 1 1 1 1 1 1 1 1 1 1 1 1 1 1
echo "C: weights commits with the sites that weigh enough, and tells why others are refused; 0, 1 and 2 as its exit status"

build convert_list examples/convert_list.c
written=0
refused=0
for list in tests/vectors/07-convert/*.bin; do
    answer=${list%.bin}.out
    if grep -aqx 'refused [0-9]* at 0' "$answer"; then
        refused=$((refused + 1))
        status 1 target/convert_list "$list"
        [ ! -s "$work/got" ] || fail "convert_list: $list is refused, and something is written"
        [ "$(cut -d : -f 1 "$work/errors") at 0" = "$(cat "$answer")" ] || fail "convert_list: $list is refused with another number"
    else
        written=$((written + 1))
        status 0 target/convert_list "$list"
        cmp "$work/got" "$answer"
        status 0 target/convert_list < "$answer"
        cmp "$work/got" "$list"
    fi
done
if [ "$written" -lt 34 ] || [ "$refused" -lt 26 ]; then
    fail "only $written lists are converted and $refused refused"
fi
why() { # TEXT LIST: convert_list refuses a list, and says why; its bytes as printf has them
    printf '%b' "$2" > "$work/list"
    status 1 target/convert_list "$work/list"
    [ ! -s "$work/got" ] || fail "convert_list: '${2:0:99}' is refused, and something is written"
    [ "$(cat "$work/errors")" = "$1" ] || fail "convert_list: of '${2:0:99}' it does not say '$1'"
}
three='\003\002\002\007\000'
why "refused 22: a site's weight is not 1, so the first edition cannot have the list" '\202\004\003\000\003\000\017\000\001\001\002\001'
why 'refused 3: the number of sites is not 3 to 16' '\203\002\002\007\000'
why 'refused 2: the list is shorter than its header' ''
why 'refused 1: in the other edition the list is longer than 32,768 bytes' "$three$(printf 'x%.0s' {6..32763})"
why 'refused 1: the list is longer than 32,768 bytes' "$three$(printf 'x%.0s' {6..32769})"
status 2 target/convert_list "$work/missing"
status 2 target/convert_list "$work"
status 2 target/convert_list examples/m3.bin examples/m3.bin
full convert_list examples/m3.bin
echo "C: convert_list turns $written vectors into the other edition and back, and tells why $refused are refused; 0, 1 and 2 as its exit status"

build all_back examples/all_back.c
weight() { # LIST: what all its sites weigh together
    od -An -v -w24 -tu1 -N24 "$1" | awk '$1 != 130 { sum = $1 } $1 == 130 { for (i = 9; i < 9 + $2; i++) sum += $i } { print sum }'
}
ending() { # LIST STATUS: 1 if all_back must finish this list, else 0; then how it ended: committed, aborted or undecided, or what is wrong
    awk -v weight="$(weight "$1")" -v status="$2" '
        FNR == 1 { part++ } # the report of the list by itself, that of all_back, what it said
        part == 3 { if ($1 == "added") { events = $2; rows = $5 } next }
        FNR == 1 { n = $2; over = $4 + $6 - weight - 1; had[part] = $8; held[part] = $10; next }
        FNR <= n + 1 { down[part] += $2 == "down"; state[part, $1] = $4; next }
        { last[part] = $0 }
        END {
            how = state[2, 0]
            for (site = 0; site < n; site++) {
                if (state[2, site] != state[2, 0] || state[2, site] !~ /^(committed|aborted)$/) how = "undecided"
                if (state[1, site] ~ /^(committed|aborted)$/ && state[2, site] != state[1, site]) wrong = "an outcome has changed"
            }
            enough = held[1] + 3 * n * n <= 1024
            due = enough && over == 0
            if (due && how == "undecided") wrong = "it is not finished"
            if (status > 1 || enough && status != (how == "undecided")) wrong = "it exits " status
            if (had[2] != had[1] + events || held[2] != held[1] + rows || last[2] != last[1] || down[2] > 0) wrong = "the reports do not fit"
            if (events > down[1] + 3 * n * (2 * n - 1) || rows > 3 * n * n) wrong = "too much is added"
            print due + 0, wrong != "" ? wrong : how
        }' "${1%.bin}.out" "$work/got" "$work/errors"
}
committed=0
aborted=0
due=0
refused=0
for list in tests/vectors/{base,01-restart,02-news,06-weights}/*.bin; do
    if [ "$(wc -l < "${list%.bin}.out")" -eq 1 ]; then
        refused=$((refused + 1))
        status 1 target/all_back "$list"
        cmp "$work/got" "${list%.bin}.out"
        continue
    fi
    got=0
    target/all_back "$list" > "$work/got" 2> "$work/errors" || got=$?
    read -r must how < <(ending "$list" "$got")
    due=$((due + must))
    case $how in
    committed) committed=$((committed + 1)) ;;
    aborted) aborted=$((aborted + 1)) ;;
    undecided) ;;
    *) fail "all_back: $list: $how" ;;
    esac
done
if [ "$committed" -lt 40 ] || [ "$aborted" -lt 81 ] || [ "$due" -lt 110 ] || [ "$refused" -lt 40 ]; then
    fail "all_back: only $committed vectors commit and $aborted abort, $due must do so, $refused have no world"
fi
finish() { # STATUS LIST SAID ..: all_back exits so with a list, its bytes as printf has them, and says these lines
    printf '%b' "$2" > "$work/list"
    status "$1" target/all_back "$work/list"
    printf '%s\n' "${@:3}" | cmp - "$work/errors"
}
sites() { # COUNT STATE: so many sites are in this state
    [ "$(grep -c " coordinator $2 " "$work/got")" -eq "$1" ] || fail "all_back: $1 sites are not $2"
}
cat > "$work/want" <<'WANT'
sites 3 commit 2 abort 2 events 52 rows 32 news 12
0 up coordinator aborted PAa 555
1 up coordinator aborted P-a 555
2 up coordinator aborted -Aa 555
end 26
WANT
status 0 target/all_back examples/m3.bin
cmp "$work/got" "$work/want"
status 0 target/all_back < examples/m3.bin
cmp "$work/got" "$work/want"
voted="$three"'\001\002\000\000\001\002\000\000\002\002\001\000\000\002\002\000\000'
finish 0 "$voted" 'added 45 events and 27 rows'
cmp "$work/got" - <<'WANT'
sites 3 commit 2 abort 2 events 50 rows 30 news 18
0 up coordinator committed PCc 444
1 up coordinator committed PCc 444
2 up coordinator committed PCc 444
end 22
WANT
# sites 0 and 2 are down, and then there is no command 9
finish 0 "$voted"'\004\000\004\002\011\001' 'the list was refused at 26: no command byte, or not 1 to 5' 'added 47 events and 27 rows'
sites 3 committed
[ "$(tail -n 1 "$work/got")" = 'refused 6 at 26' ] || fail 'all_back: the last line is not that of the list'
# two of four in each group: undecided where C + A is W + 2
split='\001\002\000\000\001\002\000\000\002\002\000\000\003\002\001\000\000\002\002\000\000\002\003\000\000'
split="$split"'\003\000\002\004\000\001\004\002\005\002\003\002\003\002\002\007\000\003'
finish 0 '\004\002\003\017\000'"$split" 'added 84 events and 48 rows'
sites 4 committed
finish 0 '\004\003\002\017\000'"$split" 'added 84 events and 48 rows'
sites 4 aborted
stays='both groups may be left without their quorum'
finish 1 '\004\003\003\017\000'"$split" 'added 84 events and 48 rows' 'the sites stay undecided' "C + A is 6, over W + 1, which is 5: $stays"
sites 2 commit-group
sites 2 abort-group
finish 1 '\202\004\005\000\005\000\017\000\002\002\002\002'"$split" \
    'added 84 events and 48 rows' 'the sites stay undecided' "C + A is 10, over W + 1, which is 9: $stays"
# 994 votes more, and 27 rows are free; one more, and they are too few
again=$(printf '\\002\\000\\000\\001%.0s' {1..994})
finish 0 "$voted$again" 'added 45 events and 27 rows'
finish 1 "$voted$again"'\002\000\000\001' \
    'added 43 events and 26 rows' 'the rounds were refused: a row is to be added and 1,024 are there' '26 rows were free, and the rounds may take 27'
finish 1 '\002\002\002\003\000' 'the list was refused at 0: the number of sites is not 3 to 16'
[ "$(cat "$work/got")" = 'refused 3 at 0' ] || fail 'all_back: a list without a world has a report'
status 2 target/all_back "$work/missing"
status 2 target/all_back "$work"
status 2 target/all_back examples/m3.bin examples/m3.bin
full all_back examples/m3.bin
echo "C: all_back finishes $((committed + aborted)) vectors ($due must, $committed commit) and tells why others do not; 0, 1 and 2 as its exit status"

build play_lines examples/play_lines.c
status 0 target/play_lines examples/m3.txt
cmp "$work/got" crates/player/stdout
status 0 target/play_lines < examples/m3.txt
cmp "$work/got" crates/player/stdout
played=0
refused=0
for text in tests/vectors/03-lines/read/*.txt; do
    answer=${text%.txt}.out
    if grep -aqx 'refused [0-9]* at [0-9]*' "$answer"; then
        refused=$((refused + 1))
        status 1 target/play_lines "$text"
        cmp "$work/got" "$answer"
    else
        # the answer is the text's list, which play_day plays
        played=$((played + 1))
        wanted=0
        target/play_day "$answer" > "$work/report" 2> "$work/errors" || wanted=$?
        status "$wanted" target/play_lines "$text"
        cmp "$work/got" "$work/report"
    fi
done
if [ "$played" -lt 19 ] || [ "$refused" -lt 61 ]; then
    fail "only $played texts are played and $refused refused"
fi
status 2 target/play_lines "$work/missing"
status 2 target/play_lines "$work"

shown=0
show() { # TEXT LAST ERROR: play_lines refuses the text; the last line that it prints, and what it says of the line at fault
    printf '%b' "$1" > "$work/typed"
    status 1 target/play_lines "$work/typed"
    [ "$(tail -n 1 "$work/got")" = "$2" ] || fail "play_lines: '${1:0:99}' does not end with '$2'"
    [ "$(cat "$work/errors")" = "$3" ] || fail "play_lines: of '${1:0:99}' it does not say '$3'"
    shown=$((shown + 1))
}

first='sites 3 commit 2 abort 2 willing 7\n'
form='a line is not in the form, or a number in it is past its range'
show '' 'refused 19 at 0' "line 1: \"\", without a line feed: $form"
show 'start\n' 'refused 19 at 0' "line 1: \"start\": $form"
show "${first}start\ndeliver 01 0\nstop\n" 'refused 19 at 41' "line 3: \"deliver 01 0\": $form"
show "${first}start \n" 'refused 19 at 35' "line 2: \"start \": $form"
show "${first}start\r\n" 'refused 19 at 35' "line 2: \"start\\x0d\": $form"
show "${first}start" 'refused 19 at 35' "line 2: \"start\", without a line feed: $form"
x72=$(printf 'x%.0s' {1..72})
show "$first$x72\n" 'refused 19 at 35' "line 2: \"$x72\": $form"
show "$first${x72}x\n" 'refused 19 at 35' "line 2: \"$x72..\": $form"
show "${first}\nstart\n" 'refused 19 at 35' "line 2: \"\": $form"
show 'sites 2 commit 2 abort 2 willing 3\nstart\n' 'refused 3 at 0' \
    'line 1: "sites 2 commit 2 abort 2 willing 3": the number of sites is not 3 to 16'
show "${first}start\ndeliver 0 1\ntimeout 3\nstart\n" 'refused 8 at 10' 'line 4: "timeout 3": site number n or more'
show "$first$(printf 'start\\n%.0s' {1..32764})" 'refused 1 at 0' 'refused: the list is longer than 32,768 bytes'
show "$first$(printf 'start\\n%.0s' {1..70000})stop\n" 'refused 19 at 420035' "line 70002: \"stop\": $form"
echo "C: play_lines plays $played texts as play_day their lists, refuses $refused, and shows the line at fault ($shown texts)"

build club examples/club.c
seeds=300
committed=0
for seed in $(seq "$seeds"); do
    status 0 target/club "$seed"
    case $(awk 'NR > 1 && NR < 7 { print $2, $4 }' "$work/got" | sort -u) in
    'up committed') committed=$((committed + 1)) ;;
    'up aborted') ;;
    *) fail "club: seed $seed ends in more than one state" ;;
    esac
    # a delivery that is not idle tells one to four codes, for there are five sites
    awk 'NR == 1 { news = $12 } $1 == "delivered" { told = $2 - $4 } END { exit !(told > 0 && told <= news && news <= 4 * told) }' \
        "$work/got" || fail "club: seed $seed, news and idle deliveries do not fit"
done
status 2 target/club nonsense
if [ "$committed" -eq 0 ] || [ "$committed" -eq "$seeds" ]; then
    fail "club: $committed of $seeds seeds commit"
fi
echo "C: club agrees for $seeds seeds, $committed of them commit"
