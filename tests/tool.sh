#!/usr/bin/env bash
# The tool `quorum`, built and installed by make: plays, traces, drawings, lists in other forms, reasons and exit statuses, any bytes under sanitizers.
# Wants target/staticlib/libquorum.a, libquorum_step.a and target/bin/player.
set -euo pipefail
cd "$(dirname "$0")/.."
export LC_ALL=C
unset MAKEFLAGS MFLAGS MAKELEVEL PREFIX DESTDIR
strict='-O2 -Werror -pedantic'
quorum=target/quorum
work=$(mktemp -d)
trap 'rm -rf "$work"' EXIT

fail() {
    echo "tool: $1"
    exit 1
}

status() { # WANTED COMMAND ..: its exit status; what it prints is in $work/got and $work/errors
    local wanted=$1 got=0
    shift
    "$@" > "$work/got" 2> "$work/errors" || got=$?
    [ "$got" -eq "$wanted" ] || fail "$* exits $got, not $wanted"
}

quiet() { # WANTED COMMAND ..: the same, and nothing is said on standard error
    status "$@"
    [ ! -s "$work/errors" ] || fail "${*:2} says something: $(cat "$work/errors")"
}

refused() { # LINE NAME: standard error has this refusal with a reason after it, and nothing else
    [ "$(wc -l < "$work/errors")" -eq 1 ] || fail "$2: standard error has not one line"
    case $(cat "$work/errors") in
    "$1: "?*) ;;
    *) fail "$2: standard error is not '$1' with a reason" ;;
    esac
}

rm -f "$quorum"
make --silent CFLAGS="$strict"

# Plays: every vector of the player, from a file and from standard input; its lines too, if it has lines. One that begins as text does is no list to the
# player, 2 or 3, and to the tool no lines, 19.

begins_as_text() { # LIST
    [ -s "$1" ] && [ "$(od -An -tu1 -N1 "$1")" -ge 32 ] && [ "$(od -An -tu1 -N1 "$1")" -le 126 ]
}
lists=()
texts=0
for list in tests/vectors/{base,01-restart,02-news,06-weights}/*.bin; do
    if begins_as_text "$list"; then
        status 1 "$quorum" play "$list"
        grep -qx 'refused [23] at 0' "${list%.bin}.out" || fail "$list begins as text does, and is a list"
        [ "$(cat "$work/got")" = 'refused 19 at 0' ] || fail "$list begins as text does, and is not taken for lines"
        refused 'refused 19 at 0' "$list"
        texts=$((texts + 1))
    else
        lists+=("$list")
    fi
done
plays=0
stops=0
in_lines=0
for list in "${lists[@]}"; do
    report=${list%.bin}.out
    wanted=0
    last=$(tail -n 1 "$report")
    case $last in refused*) wanted=1 ;; esac
    status "$wanted" "$quorum" play "$list"
    cmp "$work/got" "$report"
    if [ "$wanted" -eq 0 ]; then quiet 0 "$quorum" play < "$list"; else refused "$last" "$list"; fi
    cmp "$work/got" "$report"
    plays=$((plays + 1))
    stops=$((stops + wanted))
    if "$quorum" lines "$list" > "$work/lines" 2> "$work/errors"; then
        status "$wanted" "$quorum" play "$work/lines"
        cmp "$work/got" "$report"
        in_lines=$((in_lines + 1))
    fi
done
if [ $((plays + texts)) -lt 161 ] || [ "$texts" -gt 20 ] || [ "$stops" -lt 50 ] || [ "$in_lines" -lt 50 ]; then
    fail "only $plays plays, $stops of them stopped, $in_lines also as lines"
fi
echo "tool: $plays vectors played, $stops of them stopped, $in_lines also as lines; $texts begin as text does"

# Lists in other forms.

written=0
kept=0
forms() { # COMMAND ENDING FOLDER: what the command makes of each vector; of a refused one nothing
    local input answer
    for input in "$3"/*."$2"; do
        answer=${input%."$2"}.out
        if grep -aqx 'refused [0-9]* at [0-9]*' "$answer"; then
            status 1 "$quorum" "$1" "$input"
            [ ! -s "$work/got" ] || fail "$1: $input is refused, and something is written"
            refused "$(cat "$answer")" "$1 $input"
            kept=$((kept + 1))
        else
            quiet 0 "$quorum" "$1" < "$input"
            cmp "$work/got" "$answer"
            written=$((written + 1))
        fi
    done
}
forms lines bin tests/vectors/03-lines/write
forms list txt tests/vectors/03-lines/read
forms convert bin tests/vectors/07-convert
if [ "$written" -lt 94 ] || [ "$kept" -lt 100 ]; then
    fail "only $written vectors written in another form, $kept refused"
fi
echo "tool: $written vectors written in another form, $kept refused"

# Traces, written by hand from the papers; and the drawing of M3, which has been looked at.

for list in examples/m3.{bin,txt} tests/tool/{restart.txt,unwilling.txt,sixteen.txt,weights.bin}; do
    trace=tests/tool/$(basename "${list%.*}").trace
    wanted=0
    if grep -q '^refused' "$trace"; then wanted=1; fi
    quiet "$wanted" "$quorum" trace "$list"
    cmp "$work/got" "$trace"
done
for list in examples/m3.{bin,txt}; do
    quiet 0 "$quorum" draw "$list"
    cmp "$work/got" docs/m3.svg
done

# Why a list is refused.

reasons=0
why() { # COMMAND REFUSAL INPUT: the command refuses an input, its bytes as printf has them, in these words
    printf '%b' "$3" > "$work/in"
    status 1 "$quorum" "$1" "$work/in"
    if [ "$1" = trace ]; then tail -n 1 "$work/got" > "$work/errors"; fi
    [ "$(cat "$work/errors")" = "$2" ] || fail "$1 of '${3:0:99}' says '$(cat "$work/errors")', not '$2'"
    reasons=$((reasons + 1))
}
repeat() { # COUNT TEXT
    printf "$2%.0s" $(seq "$1")
}
three='\003\002\002\007\000'
typed='sites 3 commit 2 abort 2 willing 7\n'
why play 'refused 12 at 26: site 1 is down' "$three"'\001\002\000\000\001\002\001\000\000\003\000\002\002\000\002\003\000\004\001\004\002\003\001'
why play 'refused 1 at 0: this is a list of more than 32768 bytes' "$three$(repeat 32764 '\\001')"
why play 'refused 1 at 0: these lines make a list of more than 32768 bytes' "$typed$(repeat 32764 'start\\n')"
why play 'refused 1 at 0: the text has more than 262144 bytes, and that of a list never has' "$typed$(repeat 43686 'start\\n')"
why convert 'refused 1 at 0: in the other edition this is a list of more than 32768 bytes' "$three$(repeat 32763 '\\001')"
why play 'refused 2 at 0: the list has 0 bytes, and its header at least 5' ''
why trace 'refused 2 at 0: the list has 1 byte, and its header at least 5' '\003'
why play 'refused 2 at 0: the list has 10 bytes, and its header 11' '\202\003\002\000\002\000\007\000\001\001'
why play 'refused 3 at 0: the number of sites is 2, not 3 to 16' '\002\002\002\003\000'
why draw 'refused 3 at 0: the number of sites is 17, not 3 to 16' '\202\021\002\000\002\000\003\000'
why trace 'refused 3 at 0: the number of sites is 17, not 3 to 16 (line 1)' 'sites 17 commit 9 abort 9 willing 1\n'
why lines "refused 3 at 0: this is text and not a list; if it is lines, 'quorum list' makes a list of them" "$typed"
why lines "refused 3 at 0: this is a list of the second edition, and only the first has lines; 'quorum convert' may bring it back" \
    '\202\003\002\000\002\000\007\000\001\001\001'
why play 'refused 4 at 0: commit quorum 3 is over 2, one less than there are sites' '\003\003\002\007\000'
why play 'refused 4 at 0: abort quorum 4 is over 3, one less than there are sites (line 1)' 'sites 4 commit 2 abort 4 willing 0\n'
why play 'refused 4 at 0: commit quorum 2 and abort quorum 2 make 4 together, and must make 5 or more' '\004\002\002\017\000'
why play 'refused 4 at 0: commit quorum 8 is over 7, what all sites weigh but the heaviest' '\202\003\010\000\006\000\007\000\005\004\003'
why play 'refused 4 at 0: commit quorum 7 and abort quorum 5 make 12 together, and must make 13 or more' '\202\003\007\000\005\000\007\000\005\004\003'
why play 'refused 4 at 0: site 1 weighs 255 and all others together 2, so there can be no quorums' '\202\003\002\000\002\000\007\000\001\377\001'
why play 'refused 5 at 0: sites 3 and 8 cannot be willing, for sites are 0 to 2' '\003\002\002\017\001'
why list 'refused 5 at 0: site 3 cannot be willing, for sites are 0 to 2 (line 1)' 'sites 3 commit 2 abort 2 willing 8\n'
why trace 'refused 6 at 6: the byte 9 is no command; commands are 1 to 5' "$three"'\001\011'
why play 'refused 7 at 6: the list ends within deliver: it has 3 operand bytes, and 1 is there' "$three"'\001\002\000'
why play 'refused 7 at 5: the list ends within crash: it has 1 operand byte, and 0 are there' "$three"'\004'
why lines 'refused 7 at 6: the list ends within deliver: it has 3 operand bytes, and 2 are there' "$three"'\001\002\000\000'
why play 'refused 8 at 6: there is no site 3, only 0 to 2 (line 3)' "${typed}start\ntimeout 3\n"
why trace 'refused 9 at 5: there is no message 0: none has been sent (line 2)' "${typed}deliver 0 1\n"
why draw 'refused 9 at 10: there is no message 256: only 0 to 1 have been sent' "$three"'\001\002\000\000\001\002\000\001\001'
why play 'refused 11 at 6: message 0 was not sent to site 0' "$three"'\001\002\000\000\000'
why play 'refused 8 at 6: there is no site 4, only 0 to 2' "$three"'\001\002\000\000\004'
why trace 'refused 11 at 10: message 1 was not sent to site 2' "$three"'\001\002\000\000\001\002\001\000\002'
why play 'refused 12 at 8: site 2 is down' "$three"'\001\004\002\002\000\000\002'
why play 'refused 12 at 7: site 0 is down (line 3)' "${typed}crash 0\nstart\n"
why play 'refused 13 at 5: site 1 is up' "$three"'\005\001'
why play 'refused 14 at 6: site 0 is prepared, no longer active' "$three"'\001\001'
why play 'refused 15 at 2052: a message is due, and 1024 have been sent, which is all that there is room for' "$three"'\001'"$(repeat 1024 '\\003\\000')"
why play 'refused 19 at 0: line 1, "play": no line feed after it' 'play'
why play "refused 19 at 0: line 1, \"site 3\": the first line must be as 'sites 3 commit 2 abort 2 willing 7', with numbers in their range" 'site 3\n'
commands="a command is 'start', 'deliver MESSAGE SITE', 'timeout SITE', 'crash SITE' or 'recover SITE', with numbers in their range"
why trace "refused 19 at 41: line 3, \"deliver 01 0\": $commands" "${typed}start\ndeliver 01 0\nstop\n"
why list "refused 19 at 35: line 2, \"crash 256\": $commands" "${typed}crash 256\n"
why play 'refused 19 at 35: line 2, "start\x0d": a carriage return before its line feed: save the text with Unix line ends' "${typed}start\r\n"
why play 'refused 19 at 35: line 2, "start ": one blank between words, and no other' "${typed}start \n"
why play 'refused 19 at 35: line 2, " start": one blank between words, and no other' "${typed} start\n"
why trace 'refused 19 at 35: line 2, "deliver  0 1": one blank between words, and no other' "${typed}deliver  0 1\n"
why play 'refused 19 at 35: line 2, "": an empty line' "${typed}\nstart\n"
why list 'refused 19 at 0: line 1, "": the text is empty' ''
why list "refused 19 at 0: line 1, \"\\x03\\x02\\x02\\x07\\x00\": this is no text; if it is a list, 'quorum lines' makes lines of it" "$three"
hint="; if this is lines, they must be plain ASCII and begin with 'sites'"
why play "refused 3 at 0: the number of sites is 239, not 3 to 16$hint" "\\xef\\xbb\\xbf$typed"
why trace "refused 3 at 0: the number of sites is 255, not 3 to 16$hint" '\xff\xfes\x00i\x00t\x00'
why draw "refused 4 at 0: commit quorum 115 is over 9, one less than there are sites$hint" "\n$typed"
why play "refused 4 at 0: commit quorum 10 is over 9, one less than there are sites" '\n\n\n\n\n'
why list "refused 19 at 35: line 2, \"$(repeat 72 x)..\": $commands" "$typed$(repeat 73 x)\n"
why play 'refused 21 at 0: site 1 weighs 0, not 1 to 255' '\202\003\002\000\002\000\007\000\001\000\001'
why convert 'refused 22 at 0: site 2 weighs 2, and in the first edition each weighs 1' '\202\004\003\000\003\000\017\000\001\001\002\001'
echo "tool: $reasons refusals in words"

# Statuses, help, a full disk: of the tool, and of the same built with sanitizers.

version=$(awk '/define QC_VERSION_/ { print $3 }' include/quorum.h | paste -sd .)
no_space() { # TOOL WORDS: it exits 2 where the disk is full, and says so
    local got=0
    $1 $2 > /dev/full 2> "$work/errors" || got=$?
    [ "$got" -eq 2 ] || fail "$2: a full disk is not noticed"
    grep -q '^quorum: standard output: ' "$work/errors" || fail "$2: of a full disk it says $(cat "$work/errors")"
}
wrong() { # TOOL WORDS: it exits 2, says something and prints nothing
    status 2 "$1" $2
    [ ! -s "$work/got" ] || fail "'$2' is wrong, and something is printed"
    [ -s "$work/errors" ] || fail "'$2' is wrong, and nothing is said"
}
wrong_words() { # TOOL
    local words
    for words in '' paly -x --verbose --help-me '--version 4' 'play -x' 'play --helpless' 'play examples/m3.bin examples/m3.bin' 'play -- -a -b' \
        "play $work/missing" "draw $work"; do
        wrong "$1" "$words"
    done
}
helpful() { # TOOL COMMAND: it tells its usage, wherever it is asked for
    quiet 0 "$1" "$2" --help
    grep -q "^usage: quorum $2 \[FILE\]" "$work/got" || fail "$2 --help does not tell its usage"
    [ "$(wc -l < "$work/got")" -ge 3 ] || fail "$2 --help tells nothing"
    cp "$work/got" "$work/help"
    quiet 0 "$1" "$2" "$work/missing" -h
    cmp "$work/got" "$work/help"
    no_space "$1" "$2 --help"
}
statuses() { # TOOL
    local tool=$1 command file
    wrong_words "$tool"
    cp examples/m3.txt "$work/-h"
    (cd "$work" && "$OLDPWD/$tool" play -- -h > got) || fail 'a name that begins with - is not read'
    cmp "$work/got" crates/player/stdout
    for command in play trace draw lines list convert; do
        helpful "$tool" "$command"
        file=examples/m3.bin
        if [ "$command" = list ]; then file=examples/m3.txt; fi
        quiet 0 "$tool" "$command" "$file"
        no_space "$tool" "$command $file"
    done
    no_space "$tool" --help
    no_space "$tool" --version
    quiet 0 "$tool" --version
    [ "$(cat "$work/got")" = "quorum $version" ] || fail "--version is not $version"
    quiet 0 "$tool" --help
}
sanitized=(-std=c99 -O1 -g -Wall -Wextra -Werror -pedantic -fsanitize=address,undefined -fno-sanitize-recover=all)
cc "${sanitized[@]}" tools/*.c target/staticlib/libquorum.a -o target/quorum_sanitized
statuses "$quorum"
statuses target/quorum_sanitized
for command in play trace draw lines list convert; do
    grep -q "^  $command " "$work/got" || fail "--help does not name $command"
    grep -q "^\.B $command\$" tools/quorum.1 || fail "the manual does not name $command"
done
echo 'tool: statuses, help and a full disk'

# Every vector and drawn bytes, under sanitizers; the drawings that come of them are well-formed XML.

without_main=()
for file in tools/*.c; do
    if [ "$file" != tools/quorum.c ]; then without_main+=("$file"); fi
done
cc "${sanitized[@]}" tests/tool_bytes.c tests/shared.c "${without_main[@]}" target/staticlib/libquorum.a -o target/tool_bytes
mkdir "$work/drawn"
target/tool_bytes "$work/drawn" tests/vectors/*/*.bin tests/vectors/*/*/*.{bin,txt}
python3 - "$work"/drawn/*.svg <<'CHECK'
import sys
import xml.etree.ElementTree as tree
for name in sys.argv[1:]:
    assert tree.parse(name).getroot().tag == "{http://www.w3.org/2000/svg}svg", name
print("tool:", len(sys.argv) - 1, "drawings of such inputs are well-formed")
CHECK

# All traces and drawings once more, held to what the player reports after each event; some of the drawn lists too, five of them longer than a drawing.

python3 -B tests/tool/judge.py "$quorum" target/bin/player "${lists[@]}" "$work"/drawn/*.{bin,long}

# Installed, and used from there.

place=$work/place
make --silent install PREFIX="$place" CFLAGS="$strict"
cmp "$quorum" "$place/bin/quorum"
for name in include/quorum{,_read,_step}.h lib/libquorum{,_step}.a lib/pkgconfig/quorum.pc share/man/man1/quorum.1; do
    [ -f "$place/$name" ] || fail "$name is not installed"
done
flags="-I$place/include -L$place/lib -lquorum -lquorum_step"
if command -v pkg-config > "$work/got"; then
    export PKG_CONFIG_PATH=$place/lib/pkgconfig
    [ "$(pkg-config --modversion quorum)" = "$version" ] || fail "the package's version is not $version"
    flags=$(pkg-config --cflags --libs quorum)
fi
cat > "$work/uses.c" <<'USES'
#include <quorum_read.h>
#include <quorum_step.h>

int main(void)
{
    const uint8_t list[] = {3}, command[] = {QC_START};
    uint8_t buffer[16], result[QC_LINES_RESULT_BYTES], terms[QC_TERMS_BYTES], site[QC_SITE_BYTES], row[QC_ROW_BYTES], wrote[QC_STEP_RESULT_BYTES];

    qc_make_terms(terms, 3, 2, 2, NULL, 0, 1);
    qc_make_site(site);
    return qc_convert(list, sizeof list, buffer, sizeof buffer, result, sizeof result) != QC_LIST_SHORT ||
           qc_step(terms, sizeof terms, site, sizeof site, command, sizeof command, row, sizeof row, wrote, sizeof wrote) != QC_ACCEPTED ||
           !qc_step_prepare(wrote);
}
USES
cc -std=c99 -Wall -Wextra -Werror "$work/uses.c" $flags -o "$work/uses"
"$work/uses" || fail 'a program over the installed library does not run as it should'
make --silent uninstall PREFIX="$place"
[ -z "$(find "$place" -type f)" ] || fail 'something is left where it was installed'
make --silent install PREFIX=/there DESTDIR="$place" CFLAGS="$strict"
grep -qx 'prefix=/there' "$place/there/lib/pkgconfig/quorum.pc" || fail 'DESTDIR has come into the package'
if command -v groff > "$work/got"; then
    groff -man -t -Tascii tools/quorum.1 > "$work/page" 2> "$work/errors"
    [ ! -s "$work/errors" ] || fail "the manual: $(cat "$work/errors")"
fi
make --silent day CFLAGS="$strict" > "$work/got"
cmp <(tail -n 5 "$work/got") crates/player/stdout
echo 'tool: installed, used and taken away again'
