#!/usr/bin/env bash
# The example network: five clubs' servers as processes, with kills and a split network, for many seeds. The log files of each run are held to what the
# protocol promises by network_logs.awk, which does not know the program. Faulty copies of it must be found out.
# Wants target/staticlib/libquorum_step.a.
set -euo pipefail
cd "$(dirname "$0")/.."
strict=(-std=c99 -O2 -Wall -Wextra -Werror -pedantic)
library=target/staticlib/libquorum_step.a
at_once=16
p=prepare
two='two outcomes'
work=$(mktemp -d)
trap 'rm -rf "$work"' EXIT

fail() {
    echo "network: $1"
    exit 1
}

judge() { # DIR: what is wrong with the logs in it, and as the last line the outcome
    awk -v commit=3 -v abort=3 -f tests/network_logs.awk "$1"/club[0-4].log
}

logs() { # LOG ..: five logs in $work/logs, the lines after the first with commas between them
    local club=0 lines
    rm -rf "$work/logs"
    mkdir "$work/logs"
    for lines in "$@"; do
        printf 'club %s\n' "$club" > "$work/logs/club$club.log"
        [ -z "$lines" ] || tr ',' '\n' <<< "$lines" >> "$work/logs/club$club.log"
        club=$((club + 1))
    done
}

status() { # WANTED COMMAND ..: its exit status; what it prints is in $work/got
    local wanted=$1 got=0
    shift
    "$@" > "$work/got" 2> "$work/errors" || got=$?
    [ "$got" -eq "$wanted" ] || fail "$* exits $got, not $wanted: $(cat "$work/errors")"
}

# The judge itself: logs that are right, and logs that are wrong in one way.

right=0
accept() { # OUTCOME LOG ..
    logs "${@:2}"
    [ "$(judge "$work/logs")" = "$1" ] || fail "right logs are called wrong: ${*:2}"
    right=$((right + 1))
}
wrong=0
expect_wrong() { # TEXT: it is among what is wrong with $work/logs
    if judge "$work/logs" > "$work/found"; then fail "wrong logs are called right: it is not said that $1"; fi
    grep -qF -- "$1" "$work/found" || fail "of wrong logs it is not said that $1"
    wrong=$((wrong + 1))
}
refuse() { # TEXT LOG ..
    logs "${@:2}"
    expect_wrong "$1"
}
accept none '' '' '' '' ''
accept none $p $p '' '' ''
accept commit "$p,group commit 21111,outcome commit" "$p,group commit 22111" "$p,group commit 21211" $p $p
accept abort '' '' 'outcome abort' '' ''
accept abort $p $p 'group abort 11300,outcome abort' 'group abort 11030' 'group abort 11003'
accept abort "$p,group commit 21000,outcome abort" $p "$p,group abort 10301,outcome abort" "$p,group abort 10031" "$p,group abort 10013"
refuse "$two" "$p,group commit 21111,outcome commit" "$p,group commit 22111" "$p,group commit 21211" $p "$p,outcome abort"
refuse 'a commit, and 4 clubs with one prepare' "$p,group commit 21101,outcome commit" "$p,group commit 22101" "$p,group commit 21201" '' $p
refuse 'a commit with 2 clubs in the commit group' "$p,group commit 21111,outcome commit" "$p,group commit 22111" $p $p $p
refuse 'an abort with 2 clubs in the abort group' $p $p $p "$p,group abort 00030,outcome abort" "$p,group abort 00033"
refuse 'club 0 says 1 of club 3' "$p,group commit 21111" $p $p '' $p
refuse 'club 0 says 2 of club 1' "$p,group commit 22111" $p $p $p $p
refuse 'club 0 says 3 of club 1' 'group abort 33000' "$p,group commit 02000" '' '' ''
refuse 'club 0 says 5 of club 1' 'group abort 35000' "$p,outcome commit" $p $p $p
refuse 'a second prepare' "$p,$p" '' '' '' ''
refuse 'a second group' "$p,group commit 20000,group commit 20000" '' '' '' ''
refuse 'a second outcome' 'outcome abort,outcome abort' '' '' '' ''
refuse "'$p' after the outcome" "outcome abort,$p" '' '' '' ''
refuse 'a prepare record after the group' "group abort 30000,$p" '' '' '' ''
refuse 'in the commit group without' 'group commit 20000' '' '' '' ''
refuse 'whose own code is not 3' "$p,group abort 20000" '' '' '' ''
refuse "with codes '30006'" 'group abort 30006' '' '' '' ''
refuse "with codes '3000'" 'group abort 3000' '' '' '' ''
refuse "no line of a log: 'outcome none'" 'outcome none' '' '' '' ''
refuse '4 logs, not 5' '' '' '' ''
logs '' '' '' '' ''
echo 'club 3' > "$work/logs/club1.log"
expect_wrong "the first line is 'club 3'"
echo "network: the judge of logs accepts $right sets of five and refuses $wrong, each for its own reason"

# The program, the same under watch, and copies with an edit.

objects=()
for file in examples/network*.c; do
    object=$work/$(basename "$file" .c).o
    cc "${strict[@]}" -c "$file" -o "$object"
    objects+=("$object")
done
wraps=(tests/network_order.c -Wl,--wrap=open,--wrap=write,--wrap=ftruncate,--wrap=fsync,--wrap=sendto,--wrap=qc_step)
cc "${objects[@]}" "$library" -o target/network
cc "${strict[@]}" "${wraps[@]}" "${objects[@]}" "$library" -o target/network_watched
cc "${strict[@]}" -g -fsanitize=address,undefined -fno-sanitize-recover=all examples/network*.c "$library" -o target/network_sanitized

cp -r include "$work"
mkdir "$work/edited"
cp examples/network.h "$work/edited"
edit() { # NAME FILE LINES SCRIPT OPTIONS ..: target/network_NAME, where one file is edited by sed, and so many of its lines are changed
    local others=() object changed
    sed "$4" "examples/$2" > "$work/edited/$2"
    changed=$(awk 'NR == FNR { was[FNR] = $0; next } $0 != was[FNR] { changed++ } END { print changed + 0 }' "examples/$2" "$work/edited/$2")
    [ "$changed" -eq "$3" ] || fail "$1: $changed lines are changed, not $3"
    for object in "${objects[@]}"; do
        [ "$object" = "$work/${2%.c}.o" ] || others+=("$object")
    done
    cc "${strict[@]}" "${@:5}" "$work/edited/$2" "${others[@]}" "$library" -o "target/network_$1"
}
# a club that sends its row before its log is written, and is killed in between: club 3, once, at its vote
dies='if (c->own == 3 \&\& qc_row_kind(c->row, 0) == QC_VOTE \&\& mkdir("died", 0777) == 0) raise(SIGKILL);'
early="s/^    force_log(c);\$/    send_row(c, c->row); $dies/; s/^    send_row(c, c->row);\$/    force_log(c);/"
dying=(-D_POSIX_C_SOURCE=200809L -include signal.h -include sys/stat.h)
edit early network_club.c 2 "$early" "${dying[@]}"
edit early_watched network_club.c 2 "$early" "${dying[@]}" "${wraps[@]}"
# a club that decides with a smaller quorum: the host has C = 2, A = 4, which is legal by itself
edit quorum network_club.c 1 's/COMMIT_QUORUM, ABORT_QUORUM, NULL, own/own == HOST ? 2 : COMMIT_QUORUM, own == HOST ? 4 : ABORT_QUORUM, NULL, own/'
# a club that writes its log and does not force it: no kill shows that, for it leaves the files, but the calls do
edit unforced_watched network_log.c 1 's/ && fsync(log->file) == 0;$/;/' "${wraps[@]}"
# runs that are stopped
edit slow network.c 1 's/TIME_MOST = 15000/TIME_MOST = 40/'
edit chatty network.c 1 's/ROWS_MOST = 20000/ROWS_MOST = 10/'

# Runs of all of them.

run() { # PROGRAM STORY SEED: its logs, what it printed and its status are in $work/runs/PROGRAM-STORY-SEED
    local to=$work/runs/$1-$2-$3 got=0
    mkdir -p "$to"
    timeout -k 1 60 "target/$1" "$3" "$2" "$to" > "$to/printed" 2> "$to/errors" || got=$?
    echo "$got" > "$to/status"
}
runs() { # PROGRAM STORY SEEDS: for seeds 1 to so many, some at once
    local seed
    for seed in $(seq "$3"); do
        while [ "$(jobs -rp | wc -l)" -ge "$at_once" ]; do wait -n; done
        run "$1" "$2" "$seed" &
    done
}
host=17
split=12
runs network host $host
runs network kills 24
runs network split $split
runs network_watched host 2
runs network_watched kills 6
runs network_sanitized host 2
runs network_sanitized kills 3
runs network_sanitized split 2
runs network_early host $host
runs network_quorum split $split
for copy in early_watched unforced_watched slow chatty; do
    runs "network_$copy" host 1
done
wait

shown() { # DIR: has it shown the logs as they are?
    awk '
        FILENAME ~ /printed$/ && sub(/^ *[0-9]* ms  club /, "") && /^[0-4]  (prepare|group|outcome)/ { shown[$1] = shown[$1] substr($0, 4) "\n" }
        FILENAME ~ /log$/ && FNR > 1 { club = substr(FILENAME, length(FILENAME) - 4, 1); written[club] = written[club] $0 "\n" }
        END { for (club = 0; club < 5; club++) if (shown[club] != written[club]) exit 1 }' "$1/printed" "$1"/club[0-4].log
}
declare -A found=([commit]=0 [abort]=0)
count=0
kills=0
check() { # DIR: a run of the right program, which is counted
    local outcome
    [ "$(cat "$1/status")" -eq 0 ] || fail "${1##*/} exits $(cat "$1/status"): $(tail -n 4 "$1/printed") $(cat "$1/errors")"
    outcome=$(judge "$1") || fail "${1##*/}: $outcome"
    [ "$(grep '^outcome' "$1/printed" | tr -s ' ')" = "outcome $outcome $outcome $outcome $outcome $outcome" ] || fail "${1##*/} prints another outcome"
    shown "$1" || fail "${1##*/} does not show the logs as they are"
    found[$outcome]=$((found[$outcome] + 1))
    count=$((count + 1))
    kills=$((kills + $(sed -n 's/^ms .* kills \([0-9]*\)$/\1/p' "$1/printed")))
}
for to in "$work"/runs/network{,_watched,_sanitized}-*; do
    check "$to"
done
# the host's own story: it is killed, the others have an outcome, it comes back and has it too
alone=$(awk '
    FNR == 1 { ended = killed = back = 0 }
    / club 0  is killed/ { killed = 1 }
    / club [1-4]  outcome/ && killed && !back { ended++ }
    / club 0  comes back/ { back = 1 }
    / club 0  outcome/ && back && ended == 4 { alone++ }
    END { print alone + 0 }' "$work"/runs/network-host-*/printed)
cut=$(grep -l 'is cut between' "$work"/runs/network-split-*/printed | wc -l)
counts="${found[commit]} of them commit and ${found[abort]} abort; $kills kills, $alone times the others finish without the host, $cut splits"
[ "$count" -eq 68 ] || fail "$count runs, not 68"
if [ "${found[commit]}" -lt 10 ] || [ "${found[abort]}" -lt 5 ] || [ "$kills" -lt 80 ] || [ "$alone" -lt 6 ] || [ "$cut" -lt 6 ]; then
    fail "only $counts"
fi
echo "network: $count runs agree, $counts"

found_out() { # PROGRAM: in how many of its runs the judge finds two outcomes; each of these exits 1
    local to caught=0
    for to in "$work/runs/$1-"*; do
        judge "$to" > "$to/found" || true
        grep -qx "$two" "$to/found" || continue
        [ "$(cat "$to/status")" -eq 1 ] || fail "${to##*/} has $two and exits $(cat "$to/status")"
        caught=$((caught + 1))
    done
    [ "$caught" -gt 0 ] || fail "$1: not one of its runs has $two"
    echo "$caught"
}
caught_early=$(found_out network_early) || fail "$caught_early"
caught_quorum=$(found_out network_quorum) || fail "$caught_quorum"
echo "network: $two in $caught_early of $host runs where a club sends before its log is written, in $caught_quorum of $split where a quorum is smaller"
for copy in early unforced; do
    to=$work/runs/network_${copy}_watched-host-1
    [ "$(cat "$to/status")" -eq 2 ] || fail "$copy under watch exits $(cat "$to/status")"
    grep -qx 'a row is sent before the log is forced' "$to/errors" || fail "$copy is not seen by its calls"
done
for copy in slow chatty; do
    to=$work/runs/network_$copy-host-1
    [ "$(cat "$to/status")" -eq 1 ] || fail "$copy exits $(cat "$to/status")"
    grep -q '^ms [0-9]* rows [0-9]* kills [0-9]*: stopped' "$to/printed" || fail "$copy is not stopped"
done
echo "network: a log that is written after the row, or not forced, is seen by the calls; a run that takes too long, or too many rows, is stopped"

# A log that is cut off; logs that are there already, from which clubs come back; arguments.

cc "${strict[@]}" tests/network_log.c tests/shared.c "$work/network_log.o" "$work/network_common.o" -o target/network_log
program=$PWD/target/network_log
(cd "$work" && "$program")
from_logs() { # STATUS NAME: a run from $work/logs, which is then $work/NAME
    mv "$work/logs" "$work/$2"
    status "$1" target/network 1 split "$work/$2"
}
log_is() { # FILE TEXT: as printf has it
    printf '%b' "$2" | cmp - "$1" || fail "$1 is not '$2'"
}
logs $p $p $p '' $p
from_logs 0 begun
[ "$(judge "$work/begun")" = abort ] || fail 'a club that comes back with an empty log does not abort'
log_is "$work/begun/club3.log" 'club 3\noutcome abort\n'
ended='outcome commit'
logs "$p,group commit 21111,$ended" "$p,group commit 22111,$ended" "$p,group commit 21211" "$p,$ended" "$p"
printf 'outcome abor' >> "$work/logs/club2.log"
from_logs 0 torn
[ "$(judge "$work/torn")" = commit ] || fail 'clubs that come back do not keep their outcome'
log_is "$work/torn/club2.log" 'club 2\nprepare\ngroup commit 21211\noutcome commit\n'
logs '' nonsense '' '' ''
from_logs 2 damaged
grep -qx 'club 1: the log cannot be used: it is damaged' "$work/errors" || fail 'a damaged log is not told'
status 2 target/network nonsense
status 2 target/network 1 nonsense
status 2 target/network 1 host "$work/here" more
status 2 target/network 1 host "$work/not/here"
if [ -w /dev/full ]; then
    got=0
    target/network 1 > /dev/full 2> "$work/errors" || got=$?
    [ "$got" -eq 2 ] || fail 'a full disk is not noticed'
fi

# Its directory when it ends or is interrupted; and its clubs when it is killed: one that were left would keep the pipe open.

mkdir "$work/own"
export TMPDIR=$work/own
left() { # how much is in the directory where it makes its own
    find "$work/own" -mindepth 1 | wc -l
}
status 0 target/network 2
[ "$(left)" -eq 0 ] || fail 'its directory is left'
target/network 2 > "$work/got" 2>&1 &
sleep 0.1
kill -TERM $!
got=0
wait $! || got=$?
if [ "$got" -ne 2 ] || [ "$(left)" -ne 0 ]; then fail "interrupted, it exits $got and leaves $(left) files"; fi
mkfifo "$work/pipe"
{
    target/network 2 kills > "$work/pipe" 2>&1 &
    {
        sleep 0.1
        kill -KILL $!
    } &
    timeout 10 cat "$work/pipe" > "$work/got" || fail 'killed, it leaves clubs behind'
    wait
} 2> "$work/errors"
echo "network: clubs come back from logs that are there; 0, 1 and 2 as its exit status; nothing and nobody is left at the end"
