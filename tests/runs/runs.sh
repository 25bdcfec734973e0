#!/usr/bin/env bash
# runs.sh [COMMAND]: the programs as people use them, through COMMAND (./run unless it is named, which proves and builds them
# where that is to do). Each check says what it wants; the first that fails ends it with 1. What the texts have to be stands here.
set -euo pipefail
cd "$(dirname "$0")/../.."
run=${1:-./run}
work=$(mktemp -d)
trap 'rm -rf "$work"' EXIT
checks=0
# check NAME WANTED GOT: two texts are the same
check() {
    checks=$((checks + 1))
    [ "$2" = "$3" ] || { printf 'runs: %s\n--- wanted\n%s\n--- got\n%s\n' "$1" "$2" "$3" >&2; exit 1; }
}
# tell COMMAND ..: its standard output, a byte 0 shown as ~, then its standard error behind a line `!`, then its status where it is not 0
tell() {
    local status=0
    "$@" >"$work/out" 2>"$work/err" || status=$?
    tr '\000' '~' <"$work/out"
    [ ! -s "$work/err" ] || { echo "!"; cat "$work/err"; }
    [ "$status" = 0 ] || echo "status $status"
}
header="event kind answer column start finish"

# a session, as text and as records
cat >"$work/session.txt" <<'END'
board 4 1
submit stuffing 1 2 1 2 9     # PLANNER ID W H E D
submit stuffing 2 3 1 4 9
submit full 3 1 1 5 5
clock 2
END
$run record "$work/session.txt" >"$work/session"
lines="$header
1 1 0 0 0 0
2 2 0 1 0 2
3 2 0 1 2 6
4 2 0 4 0 5
5 3 0 0 0 0"
check "plan FILE" "$lines" "$(tell $run plan "$work/session")"
# slowly FILE SIZE ..: FILE in pieces of these sizes and the rest, each written when the one before has long been read
slowly() {
    local file=$1 from=1 size
    shift
    for size in "$@"; do
        tail -c +$from "$file" | head -c "$size"
        from=$((from + size))
        sleep 0.3
    done
    tail -c +$from "$file"
}
check "plan, slowly" "$lines" "$(slowly "$work/session" 1 3 10 20 | tell $run plan)"
check "record, slowly" "$(od -An -tx1 "$work/session")" "$(slowly "$work/session.txt" 3 8 40 | $run record | od -An -tx1)"
check "ask, slowly" "answer 0
3" "$(slowly "$work/session" 1 3 10 20 | tell $run ask busy 5)"
for size in 1 37; do
    check "plan, a pipe in pieces of $size" "$lines" "$(dd bs=$size if="$work/session" 2>/dev/null | $run plan)"
    check "record, a pipe in pieces of $size" "$(od -An -tx1 "$work/session")" "$(dd bs=$size if="$work/session.txt" 2>/dev/null | $run record | od -An -tx1)"
    check "ask, a pipe in pieces of $size" "answer 0
4 1 2
2 2 3 1 4 9 1 2 6 running
3 3 1 1 5 5 4 0 5 running" "$(dd bs=$size if="$work/session" 2>/dev/null | $run ask board)"
done
check "plan --words" "$header id answer
1 1 0 0 0 0 - 0 done
2 2 0 1 0 2 1 0 done
3 2 0 1 2 6 2 0 done
4 2 0 4 0 5 3 0 done
5 3 0 0 0 0 - 0 done" "$(tell $run plan --words "$work/session")"

# every question, with an answer 0 and with a refusal
ask() { tell $run ask --from "$work/session" "$@"; }
check "ask horizon" "answer 0
4 4 5
1 3 6" "$(ask horizon)"
check "ask busy" "answer 0
3" "$(ask busy 5)"
check "ask busy, before now" "answer 11" "$(ask busy 1)"
check "ask busy, too late" "answer 12" "$(ask busy 2000000001)"
check "ask openings" "answer 0
6 1
6 2
6 3
end" "$(ask openings 2 1 3 9)"
check "ask openings, from a pair on, one of them" "answer 0
6 2
more" "$(ask openings 2 1 3 9 6 1 1)"
check "ask openings, too wide" "answer 5" "$(ask openings 5 1 3 9)"
check "ask openings, e 0" "answer 6" "$(ask openings 2 1 0 9)"
check "ask openings, too late" "answer 8" "$(ask openings 2 1 3 4)"
check "ask stamp" "answer 0
4 1 2
2 2 3 1 4 9 1 2 6 ended
3 3 1 1 5 5 4 0 5 ended" "$(ask stamp 6)"
check "1,001 openings are told as 1,000 and more" "1002 more" "$(printf 'board 1 1\n' | $run record | $run ask openings 1 1 1 2000 | awk 'END { print NR, $0 }')"
check "200,000 openings" "200002 end" "$(printf 'board 1 1\n' | $run record | $run ask openings 1 1 1 200000 0 0 4294967295 | awk 'END { print NR, $0 }')"
: >"$work/none"
for question in horizon "busy 0" "openings 1 1 1 1" board "stamp 0"; do
    check "ask $question of no board" "answer 1" "$(tell $run ask --from "$work/none" $question)"
done

# columns in steps (document 02, Q-3): a third number of `board` is the grid, 1 where there is none
cat >"$work/grid.txt" <<'END'
board 10 1 4
board 8 1 17
board 8 1 4
submit full 1 3 1 2 9
submit full 1 4 1 2 9
submit horizon 2 8 1 1 3
END
$run record "$work/grid.txt" >"$work/grid"
check "plan, on a grid" "$header id answer
1 5 2 0 0 0 - 2 W, H or G out of range, or W no multiple of G
2 5 2 0 0 0 - 2 W, H or G out of range, or W no multiple of G
3 5 0 0 0 0 - 0 done
4 2 5 0 0 0 1 5 w or h out of range, or w no multiple of G
5 2 0 1 0 2 1 0 done
6 2 0 1 2 3 2 0 done" "$(tell $run plan --words "$work/grid")"
check "ask board, on a grid" "answer 0
8 1 0 4
1 1 4 1 2 9 1 0 2 running
2 2 8 1 1 3 1 2 3 waiting" "$(tell $run ask --from "$work/grid" board)"
check "ask stamp, on a grid" "answer 0
8 1 0 4
1 1 4 1 2 9 1 0 2 ended
2 2 8 1 1 3 1 2 3 running" "$(tell $run ask --from "$work/grid" stamp 2)"
check "ask board, a grid of 1 is not shown" "answer 0
8 1 0" "$(printf 'board 8 1 1\n' | $run record | tell $run ask board)"
check "ask openings, on a grid" "answer 0
0 5
1 5
3 1
3 5
end" "$(tell $run ask --from "$work/grid" openings 4 1 1 4)"
check "ask openings, on a grid, after a pair off it" "answer 0
1 5
more" "$(tell $run ask --from "$work/grid" openings 4 1 1 4 1 2 1)"
check "ask openings, a width off the grid" "answer 5" "$(tell $run ask --from "$work/grid" openings 3 1 1 4)"
check "record, a grid of 1 is a kind of its own" " 05 08 00 01 00 01 01 08 00 01 00" "$(printf 'board 8 1 1\nboard 8 1\n' | $run record | od -An -tx1)"
check "record, a grid that does not fit its byte" "~!
record: line 1, word 4: '256': expected G, a number from 0 to 255, or the end of the line (board W H [G]); records written: 0
status 1" "$(printf 'board 8 1 256\n' | tell $run record)"
check "record, a word behind the grid" "~!
record: line 1, word 5: '5': expected the end of the line (board W H [G]); records written: 0
status 1" "$(printf 'board 8 1 4 5\n' | tell $run record)"
check "summary, a board on a grid begins anew" "1" "$({ printf 'board 4 1\nclock 9\nboard 8 1 4\nsubmit full 1 4 1 1 9\n' | $run record; } | $run summary | awk '$1 == "full" && $3 > 0 { n += 1 } END { print n }')"

# a deadline with a digit too many (document 02, Q-2): with now 5 and e 4 the last one is 10,000,009
cat >"$work/lax.txt" <<'END'
board 4 1
clock 5
submit full 1 4 1 4 10000009
submit full 2 4 1 4 10000010
submit full 1 4 1 4 10000010  # a live id
submit full 2 4 1 4 8         # before now + e
submit full 2 4 1 4 2000000001
END
$run record "$work/lax.txt" >"$work/lax"
check "plan, laxities about the limit" "$header id answer
1 1 0 0 0 0 - 0 done
2 3 0 0 0 0 - 0 done
3 2 0 1 5 9 1 0 done
4 2 18 0 0 0 2 18 the laxity is over 10000000
5 2 7 0 0 0 1 7 the id is live already
6 2 8 0 0 0 2 8 d is before now + e
7 2 6 0 0 0 2 6 e or d out of range" "$(tell $run plan --words "$work/lax")"
check "ask openings, the last one within the limit" "answer 0
10000005 1
end" "$(tell $run ask --from "$work/lax" openings 4 1 4 10000009 10000004 1)"
check "ask openings, too lax" "answer 18" "$(tell $run ask --from "$work/lax" openings 4 1 4 10000010 10000004 1)"
check "ask openings, far, from a late now" "answer 0
1999999999 1
end" "$(printf 'board 1 1\nclock 1989999999\n' | $run record | tell $run ask openings 1 1 1 2000000000 1999999998 1)"
{ sed -n '1,66p' tests/summary/full.txt; echo "submit full 65 1 1 1 10000001"; echo "submit full 65 1 1 1 10000002"; } >"$work/crowded.txt"
check "plan, 64 live: at the limit 9, past it 18" "66 2 9 0 0 0
67 2 18 0 0 0" "$($run record "$work/crowded.txt" | $run plan | tail -n 2)"
check "summary, too lax: refused in class Other" "planner class submitted taken rejected refused waited taken/submitted
full Other 2 1 0 1 0 1/2
refused without class 3
events 7 files 1 stop end" "$(tell $run summary "$work/lax" | grep -v ' 0 0 0 0 0 0/0$')"

# 15, 16, and a wrong line: nothing partial looks whole
head -c 10 "$work/session" >"$work/cut"
check "plan, cut short" "$header
1 1 0 0 0 0
2 2 15 0 0 0
!
plan: event 2 (kind 2) is cut short (15): the recording is not whole
status 1" "$(tell $run plan "$work/cut")"
check "ask, cut short" "!
ask: event 2 (kind 2) is cut short (15): not answered
status 1" "$(tell $run ask --from "$work/cut" board)"
{ head -c 5 "$work/session"; printf '\011'; tail -c +6 "$work/session"; } >"$work/strange"
check "plan, an unknown kind" "$header
1 1 0 0 0 0
2 9 16 0 0 0
!
plan: event 2 (kind 9) is of no known kind (16): the rest was not read
status 1" "$(tell $run plan "$work/strange")"
check "ask, an unknown kind" "!
ask: event 2 (kind 9) is of no known kind (16): not answered
status 1" "$(tell $run ask --from "$work/strange" board)"
printf 'board 4 1\nsubmit refrence 1 2 1 2 9\nclock 2\n' >"$work/typo.txt"
$run record "$work/typo.txt" >"$work/typo" 2>"$work/message" && check "record, a wrong line: status" 1 0
check "record, a wrong line: message" "record: line 2, word 2: 'refrence': expected PLANNER, reference, horizon, stuffing, full or a number from 0 to 255 (submit PLANNER ID W H E D); records written: 1" "$(cat "$work/message")"
check "record, a wrong line: records" " 01 04 00 01 00 00" "$(od -An -tx1 "$work/typo")"
check "plan of it" "$header
1 1 0 0 0 0
2 0 16 0 0 0
!
plan: event 2 (kind 0) is of no known kind (16): the rest was not read
status 1" "$(tell $run plan "$work/typo")"
check "record, a missing word" "~!
record: line 1, word 3: the line ends: expected H, a number from 0 to 65535 (board W H [G]); records written: 0
status 1" "$(printf 'board 4\n' | tell $run record)"
check "record, a last line without a line feed" " 03 02 00 00 00" "$(printf 'clock 2' | $run record | od -An -tx1)"
check "record, a byte order mark and CR LF" " 03 02 00 00 00" "$(printf '\357\273\277clock 2\r\n' | $run record | od -An -tx1)"

# many events, and a slow pipe
{ echo "board 1 1"; yes "clock 0" | head -n 300000 || true; } | $run record >"$work/many"
check "300,001 events" "300002 300001 3 0 0 0 0" "$($run plan "$work/many" | awk 'END { print NR, $0 }')"
mkfifo "$work/slow"
$run plan "$work/slow" >"$work/live" &
exec 7>"$work/slow"
head -c 5 "$work/session" >&7
for _ in $(seq 300); do [ "$(wc -l <"$work/live")" -ge 2 ] && break; sleep 0.1; done
check "a slow pipe: the line comes as its record comes" "$header
1 1 0 0 0 0" "$(cat "$work/live")"
tail -c +6 "$work/session" >&7
exec 7>&-
wait
check "a slow pipe: and all of them" "$lines" "$(cat "$work/live")"
# a wrong line ends record, and an unknown kind plan, while the input is still open
for program in record plan; do
    $run $program "$work/slow" >"$work/live" 2>"$work/message" &
    exec 7>"$work/slow"
    echo "9" >&7
    for _ in $(seq 300); do kill -0 $! 2>/dev/null || break; sleep 0.1; done
    check "$program ends at what is wrong" ended "$(kill -0 $! 2>/dev/null && echo running || echo ended)"
    exec 7>&-
    wait || true
done

# summary: the rows with a submission, the line without class, the end
rows() { tell $run summary "$@" | grep -v ' 0 0 0 0 0 0/0$'; }
head1="planner class submitted taken rejected refused waited taken/submitted"
$run record tests/listing/listing.txt >"$work/listing"
for name in table1 laxity full; do $run record tests/summary/$name.txt >"$work/$name"; done
for name in listing table1 laxity full; do
    check "crates/summary/data/$name.rec is the text's records" "$(od -An -tx1 "$work/$name")" "$(od -An -tx1 crates/summary/data/$name.rec)"
done
check "summary of 01's listing" "$head1
stuffing A 2 2 0 0 2 2/2
stuffing Other 1 0 1 0 0 0/1
full Other 1 1 0 0 0 1/1
refused without class 0
events 7 files 1 stop end" "$(rows "$work/listing")"
check "summary: 19 lines, also of nothing" "19 events 0 files 1 stop end" "$($run summary </dev/null | awk 'END { print NR, $0 }')"
check "summary of Table 1 by each planner" "$head1
reference A 7 3 4 0 0 3/7
horizon A 7 7 0 0 36 7/7
stuffing A 7 7 0 0 26 7/7
full A 7 7 0 0 26 7/7
refused without class 0
events 44 files 1 stop end" "$(rows "$work/table1")"
check "summary of two files: it doubles" "$head1
reference A 14 6 8 0 0 6/14
horizon A 14 14 0 0 72 14/14
stuffing A 14 14 0 0 52 14/14
full A 14 14 0 0 52 14/14
refused without class 0
events 88 files 2 stop end" "$(rows "$work/table1" "$work/table1")"
check "summary: laxities 0, 1, 50, 51, 100, 101, 200, 201, and what is refused without class" "$head1
reference A 1 0 1 0 0 0/1
reference Other 1 0 1 0 0 0/1
horizon B 1 0 1 0 0 0/1
horizon C 1 1 0 0 53 1/1
stuffing A 1 0 1 0 0 0/1
full A 2 2 0 0 0 2/2
full B 2 2 0 0 0 2/2
full C 2 2 0 0 0 2/2
full Other 3 3 0 0 3 3/3
refused without class 7
events 24 files 1 stop end" "$(rows "$work/laxity")"
check "summary: 64 live, and a task withdrawn stays taken" "$head1
reference A 1 0 0 1 0 0/1
horizon B 1 0 0 1 0 0/1
stuffing A 50 50 0 0 0 50/50
stuffing B 14 14 0 0 0 14/14
stuffing C 1 0 0 1 0 0/1
full A 3 3 0 0 15 3/3
full Other 1 0 0 1 0 0/1
refused without class 0
events 76 files 1 stop end" "$(rows "$work/full")"
whole=$($run summary "$work/table1")
for size in 1 37; do
    check "summary, a pipe in pieces of $size" "${whole}" "$(dd bs=$size if="$work/table1" 2>/dev/null | $run summary)"
done
check "summary, slowly" "$whole" "$(slowly "$work/table1" 1 3 10 20 | tell $run summary)"
check "summary stops at a 15, with the figures so far" "stuffing A 2 2 0 0 2 2/2
refused without class 0
events 6 files 3 stop 15 $work/cut 2 2
!
summary: $work/cut: event 2 (kind 2) is cut short (15): the recording is not whole
status 1" "$(tell $run summary "$work/session" "$work/none" "$work/cut" "$work/session" | sed -n '/^stuffing A/p; /^refused/,$p')"
check "summary stops at a 16 on standard input" "events 1 files 1 stop 16 - 2 9
!
summary: -: event 2 (kind 9) is of no known kind (16): the rest was not read
status 1" "$(tell $run summary <"$work/strange" | sed '/^events/,$!d')"
check "summary, no such file: no figures" "!
summary: $work/missing: No such file or directory
status 1" "$(tell $run summary "$work/session" "$work/missing" "$work/session")"
check "summary, a folder: no figures" "!
summary: $work: cannot read: Is a directory
status 1" "$(tell $run summary "$work/session" "$work")"
# summaries added
for name in listing table1 laxity full; do $run summary "$work/$name" >"$work/$name.sum"; done
all=$($run summary "$work/listing" "$work/table1" "$work/laxity" "$work/full")
check "summary --add, files" "$all" "$(tell $run summary --add "$work/listing.sum" "$work/table1.sum" "$work/laxity.sum" "$work/full.sum")"
check "summary --add, standard input" "$all" "$(cat "$work"/{listing,table1,laxity,full}.sum | tell $run summary --add)"
check "summary --add, pieces of 37" "$all" "$(cat "$work"/{listing,table1,laxity,full}.sum | dd obs=37 2>/dev/null | $run summary --add)"
check "one summary a process, added" "$all" "$(printf '%s\0' "$work"/{listing,table1,laxity,full} | xargs -0 -P 2 -n 1 $run summary | $run summary --add)"
sed '$s/end$/limit/' "$work/table1.sum" >"$work/limit.sum"
check "summary --add, one that stopped at the limit" "!
summary: $work/limit.sum: line 19 is not what a summary that ends in 'stop end' has there
status 1" "$(tell $run summary --add "$work/listing.sum" "$work/limit.sum")"
sed '2s/ 7 3 4 / 7 3 5 /' "$work/table1.sum" >"$work/wrong.sum"
check "summary --add, a row that does not add up" "!
summary: -: line 21 is not what a summary that ends in 'stop end' has there
status 1" "$(cat "$work/listing.sum" "$work/wrong.sum" | tell $run summary --add)"
sed '18s/0$/18446744073709551615/' "$work/table1.sum" >"$work/large.sum"
check "summary --add, up to 64 bits" "refused without class 18446744073709551615" "$(tell $run summary --add "$work/large.sum" "$work/table1.sum" | sed -n 18p)"
check "summary --add, past 64 bits" "!
summary: $work/laxity.sum: the summary at line 1 makes a sum of more than 64 bits
status 1" "$(tell $run summary --add "$work/large.sum" "$work/laxity.sum")"
check "summary --add, nothing" "!
summary: -: line 1 is not what a summary that ends in 'stop end' has there
status 1" "$(tell $run summary --add </dev/null)"
# A text that is refused is closed before standard error is told of it: who writes the text may be whom standard error waits for.
# (`./run`, which has built it by now, reads standard error by itself, so this asks the program.)
if [ -x crates/summary/out/summary ]; then
    mkfifo "$work/text" "$work/told"
    exec 8<>"$work/told"
    dd if=/dev/zero of="$work/told" bs=1024 count=4096 oflag=nonblock 2>/dev/null || true
    { yes x >"$work/text" 2>/dev/null || true; exec cat <&8 >/dev/null; } &
    reader=$!
    status=0
    timeout 20 crates/summary/out/summary --add "$work/text" 2>&8 || status=$?
    kill $reader 2>/dev/null || true
    wait $reader 2>/dev/null || true
    exec 8>&-
    check "summary --add, a text that is refused is closed before it is told" 0 "$status"
fi
# how far it is: on a terminal, and nowhere else
{
    echo "board 256 1"
    for id in $(seq 60); do echo "submit horizon $id 4 1 $((id * 7 % 97 + 1)) 2000"; done
    yes "submit stuffing 61 256 1 300 379" | head -n 50000 || true
} | $run record >"$work/busy"
many=("$work/busy" "$work/busy" "$work/busy" "$work/busy")
check "summary, 200,244 events, no terminal" "stuffing B 200000 0 200000 0 0 0/200000
refused without class 0
events 200244 files 4 stop end" "$(tell $run summary "${many[@]}" | sed -n '11p; 18,$p')"
if command -v script >/dev/null; then
    shown=$(script -qec "$run summary ${many[*]} >'$work/out'" /dev/null | tr '\r' '\n')
    check "summary, a terminal: how far it is" "summary: file N, N events" "$(grep -o 'summary: file [0-9]*, [0-9]* events' <<<"$shown" | sed 's/[0-9][0-9]*/N/g' | sort -u)"
    check "summary, a terminal: the figures are the same" "events 200244 files 4 stop end" "$(sed 1,18d "$work/out")"
fi

# arguments
for program in plan record ask summary; do
    check "$program --help" "$program" "$($run $program --help | awk 'NR == 1 { print $1 }')"
    check "$program --help has the answers" "  3 no such planner" "$($run $program --help | grep '^  3 ')"
    example=$($run $program --help | sed -n 's/^example: //p')
    check "$program --help: its example runs" "yes" "$(bash -o pipefail -c "${example//.\/run/$run}" 2>&1 >"$work/out" && [ -s "$work/out" ] && echo yes || echo no)"
    check "$program with a stray argument" "!
usage: $program" "$(tell $run $program --stray | sed -n '1p; 2s/^\(usage: [a-z]*\) .*/\1/p')"
done
check "plan, two files" "!
usage: plan [--words] [FILE]; plan --help says more
status 1" "$(tell $run plan "$work/session" "$work/session")"
check "plan, no such file" "!
plan: $work/missing: No such file or directory
status 1" "$(tell $run plan "$work/missing")"
check "ask, no such file" "!
ask: $work/missing: No such file or directory
status 1" "$(tell $run ask --from "$work/missing" board)"
# a folder can be opened and not read
check "plan, a folder" "$header
!
plan: cannot read: Is a directory
status 1" "$(tell $run plan "$work")"
check "record, a folder" "~!
record: cannot read: Is a directory
status 1" "$(tell $run record "$work")"
check "ask, a folder" "!
ask: cannot read: Is a directory
status 1" "$(tell $run ask --from "$work" board)"
check "ask, a wrong question" "status 1" "$(tell $run ask busy x <"$work/session" | tail -n 1)"
echo "runs: $checks checks"
