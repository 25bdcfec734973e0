#!/bin/bash
# summary.sh: compares a program `summary` with the second program on random recordings and on sums of summaries, byte for byte.
#
#   summary.sh SUMMARY-PROGRAM [RECORDINGS]
#     SUMMARY-PROGRAM  `summary [FILE ..]` prints the figures of Q-1 over recordings, `summary --add [FILE ..]` adds summaries
#     RECORDINGS       how many (default 200), by turns of every profile of the generator, of 1 to 300 events, some of 20000
#   environment:
#     SEED=N           first seed (default: from the clock); the same arguments and seed make the same recordings
#     RUN=COMMAND      put before SUMMARY-PROGRAM, as RUN=qemu-x86_64 (from the search path or by its whole path)
#     LIMIT=1          tries the stop at 1,000,000,000 events too (a minute or two for a program at full speed)
#
# Each recording is summed up as one file, on standard input (by turns a file, a pipe, pieces of 37 bytes) and among 2 to 5
# files: with the last bytes cut off, with a byte of no kind or a kind without its body behind them, without the first new
# board (of kind 1 or 5), empty, the same file twice. What is printed must be equal; standard error must have a message where
# the second program stops at 15 or 16, and be empty otherwise. Then --add: sums of the summaries must be the second program's
# and the summary of all files at once; wrong summaries (a byte changed, a line left out, a stop that is no end, cut, empty,
# figures past 64 bits) must be judged as the second program judges them: nothing printed, a message that names the file and
# the line. So with a file that is not there and with a folder. No status is looked at. Ends with 0 if all is as it has to be;
# with 1 at the first difference, and keeps the files and both outputs in the temporary folder that it names; with 2 for a
# wrong call or if the second program itself fails.
set -u
here=$(cd "$(dirname "$0")" && pwd -P)
fail() { echo "summary.sh: $*" >&2; exit 2; }
[ $# -ge 1 ] && [ $# -le 2 ] || { sed -n '2,10p' "$0" >&2; exit 2; }
summary=$1 recordings=${2:-200}
case $summary in */*) ;; *) [ -f "$summary" ] && summary=./$summary ;; esac
[ -f "$summary" ] || fail "no file $summary"
summary=$(cd "$(dirname "$summary")" && pwd -P)/$(basename "$summary")
[ -n "${RUN:-}" ] || [ -x "$summary" ] || fail "cannot run $summary"
[[ $recordings =~ ^[1-9][0-9]*$ ]] || fail "RECORDINGS is to be a number from 1, not '$recordings'"
seed=${SEED:-$(date +%s)}
[[ $seed =~ ^[0-9]+$ ]] || fail "SEED is to be a number, not '$seed'"
command -v rustc >/dev/null || fail "rustc is not here; it builds the second program"

work=$(mktemp -d) || fail "no temporary folder"
keep=""
trap '[ -n "$keep" ] || rm -rf "$work"' EXIT
for program in second generate; do
    rustc -O --edition 2021 "$here/$program.rs" -o "$work/$program" || fail "$program.rs does not compile"
done
"$work/second" --self-test || fail "the second program fails its own test"
mkdir "$work/files" "$work/sums" "$work/files/folder" && cd "$work/files" || fail "no temporary folder"

RANDOM=$((seed % 32768))
one_of() { shift $((RANDOM % $#)); echo "$1"; }

declare -A n=([one]=0 [input]=0 [several]=0 [stops]=0 [sums]=0 [wrong]=0 [taken]=0 [lost]=0)
events=0

# ARGUMENT..: both programs on the same arguments and the standard input $input, which comes as $arrival says
input=/dev/null arrival=file
both() {
    asked=("$@")
    "$work/second" summary "$@" <"$input" >"$work/want" 2>"$work/want.err"
    case $arrival in
        file) ${RUN:-} "$summary" "$@" <"$input" >"$work/got" 2>"$work/got.err" ;;
        pipe) cat "$input" | ${RUN:-} "$summary" "$@" >"$work/got" 2>"$work/got.err" ;;
        pieces) dd if="$input" ibs=64k obs=37 2>/dev/null | ${RUN:-} "$summary" "$@" >"$work/got" 2>"$work/got.err" ;;
    esac
}

differs() { # MESSAGE: says what, keeps the files, ends
    keep=1
    {
        echo "differs: $1; recording $r (seed $seed)"
        echo "  in $work/files, standard input $input (arrival: $arrival), asked: ${asked[*]@Q}"
        echo "  the second program: $work/want and want.err; $summary: $work/got and got.err"
        diff -a "$work/want" "$work/got" | head -6 | sed 's/^/  /'
        head -c 300 "$work/got.err"
    } >&2
    exit 1
}

# a summary: equal, and a message exactly where it stops before the end
figures() { # KIND ARGUMENT..
    local kind=$1 last
    shift
    both "$@"
    last=$(tail -n 1 "$work/want")
    case $last in
        events\ *\ files\ *\ stop\ *) ;;
        *) keep=1; fail "the second program printed no summary; see $work" ;;
    esac
    cmp -s "$work/want" "$work/got" || differs "standard output"
    case $last in
        *" stop end") [ ! -s "$work/got.err" ] || differs "a message with a summary that ends in stop end" ;;
        *) [ -s "$work/got.err" ] || differs "no message, and the summary stops before the end"; n[stops]=$((n[stops] + 1)) ;;
    esac
    n[$kind]=$((n[$kind] + 1))
    events=$((events + $(cut -d' ' -f2 <<<"$last")))
}

# nothing printed, and a message that has NAME in it
refused() { # NAME
    [ ! -s "$work/want" ] && [ -s "$work/want.err" ] || { keep=1; fail "the second program does not refuse ${asked[*]@Q}; see $work"; }
    [ ! -s "$work/got" ] || differs "printed where nothing is to be printed"
    [ -s "$work/got.err" ] || differs "no message"
    [ -z "$1" ] || grep -aqF -- "$1" "$work/got.err" || differs "the message does not name $1"
}

# sums of summaries: the names in `chosen` stand for recordings and for their summaries
sums() {
    local c names=()
    "$work/second" summary "${chosen[@]}" >"$work/at-once" 2>/dev/null
    for c in "${chosen[@]}"; do names+=("$work/sums/$c"); done
    input=/dev/null arrival=file
    case $((RANDOM % 4)) in
        0) cat "${names[@]}" >"$work/joined"; input=$work/joined arrival=$(one_of file pipe pieces); both --add ;;
        1) cat "${names[@]}" >"$work/joined"; both --add "$work/joined" ;;
        2) # the first ones in one file, and the sum of the rest as it was printed
            cat "${names[0]}" "${names[@]:1:1}" >"$work/joined"
            if [ ${#names[@]} -gt 2 ]; then
                ${RUN:-} "$summary" --add "${names[@]:2}" </dev/null >"$work/rest" 2>/dev/null
                both --add "$work/rest" "$work/joined"
            else
                both --add "$work/joined"
            fi ;;
        *) both --add "${names[@]}" ;;
    esac
    [ -s "$work/want" ] && [ ! -s "$work/want.err" ] || { keep=1; fail "the second program does not add ${asked[*]@Q}; see $work"; }
    cmp -s "$work/want" "$work/at-once" || { keep=1; fail "the second program's sum is not its summary of all files at once; see $work"; }
    cmp -s "$work/want" "$work/got" || differs "standard output"
    [ ! -s "$work/got.err" ] || differs "a message with a sum"
    n[sums]=$((n[sums] + 1))
    # and the summary of all these files at once is the same
    input=/dev/null
    figures several "${chosen[@]}"
}

# a wrong text in $work/wrong out of the summary of a recording; `must` is empty where it may have stayed right, `line` where
# it may be said in more than one way which line is wrong
most=18446744073709551615 half=9223372036854775808
wrong_text() { # NAME KIND
    local size at row
    cp "$work/sums/$1" "$work/wrong"
    must=1 line=1
    size=$(wc -c <"$work/wrong")
    at=$((2 + RANDOM % 16)) # a row of a planner
    row=$(sed -n "${at}p" "$work/wrong" | cut -d' ' -f1,2)
    case $2 in
        byte)
            must=""
            at=$(((RANDOM * 32768 + RANDOM) % size))
            printf "\\x$(printf %02x "$(one_of 10 32 48 49 57 0 9 13 45 47 255 $((RANDOM % 256)) $((RANDOM % 256)))")" | dd of="$work/wrong" bs=1 seek="$at" conv=notrunc 2>/dev/null ;;
        digit)
            must=""
            at=$(grep -abo '[0-9]' "$work/wrong" | cut -d: -f1 | sed -n "$((1 + RANDOM % $(grep -ao '[0-9]' "$work/wrong" | wc -l)))p")
            printf %d $((RANDOM % 10)) | dd of="$work/wrong" bs=1 seek="$at" conv=notrunc 2>/dev/null ;;
        left-out) line=""; sed -i "$((1 + RANDOM % 19))d" "$work/wrong" ;;
        twice) at=$((1 + RANDOM % 19)); sed -i "${at}p" "$work/wrong" ;;
        swapped) at=$((1 + RANDOM % 18)); sed -i "${at}{h;d};$((at + 1)){G}" "$work/wrong" ;;
        stop) sed -i "s|stop end|stop $(one_of limit "15 $1 3 2" "16 - 1 0" "END" "end " "" "end 1")|" "$work/wrong" ;;
        cut) line=""; truncate -s $((1 + (RANDOM * 32768 + RANDOM) % (size - 1))) "$work/wrong" ;;
        empty) line=""; : >"$work/wrong"; [ $((RANDOM % 3)) -ne 0 ] || echo >"$work/wrong" ;;
        zeros) # a figure with a zero before it, in any line
            at=$((2 + RANDOM % 18))
            sed -i -E "${at}s/ ([0-9]+)/ 0\\1/$((1 + RANDOM % (at < 18 ? 5 : at == 18 ? 1 : 2)))" "$work/wrong" ;;
        sign) sed -i -E "${at}s/ ([0-9]+)/ $(one_of + - ' ')\\1/$((1 + RANDOM % 5))" "$work/wrong" ;;
        ratio) sed -i -E "${at}s|[0-9]+/[0-9]+\$|$(one_of 1/0 1/1x 999999/999999 0/999999 /0 0/ 0)|" "$work/wrong" ;;
        count) sed -i -E "${at}s|.*|$row $(one_of "3 1 1 0 0 1/3" "1 1 1 0 0 1/1" "0 0 0 1 0 0/0" "2 2 0 0 0 2/1" "2 1 1 0 0 2/2" "4 2 1 1 0 1/2")|" "$work/wrong" ;;
        past) # figures that no 64 bits hold, or whose parts make no sum in 64 bits
            sed -i -E "${at}s|.*|$row $(one_of "0 0 0 0 18446744073709551616 0/0" "18446744073709551616 18446744073709551616 0 0 0 18446744073709551616/18446744073709551616" \
                "0 $half $half 0 0 $half/0" "18446744073709551616 $half $half 0 0 $half/18446744073709551616" "1 1 0 0 99999999999999999999999999999999999999999 1/1" "18446744073709551617 1 0 0 0 1/1")|" "$work/wrong" ;;
        text)
            line=""
            case $((RANDOM % 5)) in
                0) echo >>"$work/wrong" ;;
                1) sed -i 's/$/\r/' "$work/wrong" ;;
                2) truncate -s $((size - 1)) "$work/wrong" ;;
                3) { one_of summary "#" "" "event kind answer column start finish"; cat "$work/sums/$1"; } >"$work/wrong" ;;
                4) printf '\0' >>"$work/wrong" ;;
            esac ;;
        large) # right by itself, but twice it passes 64 bits; so it is put behind itself
            case $((RANDOM % 6)) in
                0) sed -i -E "${at}s|.*|$row 1 1 0 0 $most 1/1|" "$work/wrong" ;;
                1) sed -i -E "${at}s|.*|$row $half $half 0 0 7 $half/$half|" "$work/wrong" ;;
                2) sed -i -E "${at}s|.*|$row $half 1 9223372036854775807 0 7 1/$half|" "$work/wrong" ;;
                3) sed -i -E "18s|[0-9]+|$most|" "$work/wrong" ;;
                4) sed -i -E "19s|[0-9]+|$most|" "$work/wrong" ;;
                5) sed -i -E "19s|files [0-9]+|files $half|" "$work/wrong" ;;
            esac
            cp "$work/wrong" "$work/large"; cat "$work/large" >>"$work/wrong" ;;
        edge) # the largest sum that 64 bits hold is no mistake
            must=""
            sed -i -E "${at}s|.*|$row $half 1 9223372036854775806 1 $half 1/$half|" "$work/wrong"
            sed "${at}s|.*|$row 9223372036854775807 9223372036854775805 1 1 9223372036854775807 9223372036854775805/9223372036854775807|" "$work/sums/$1" >>"$work/wrong" ;;
    esac
}
wrong_sum() { # NAME KIND
    local name=""
    wrong_text "$1" "$2"
    input=/dev/null arrival=file
    case $((RANDOM % ($(wc -c <"$work/wrong") ? 4 : 3))) in # nothing behind a summary is no mistake
        0) both --add "$work/wrong"; name=$work/wrong ;;
        1) input=$work/wrong arrival=$(one_of file pipe pieces); both --add ;;
        2) both --add "$work/sums/$1" "$work/wrong" "$work/sums/$1"; name=$work/wrong ;;
        3) cat "$work/sums/$1" "$work/wrong" >"$work/joined"; both --add "$work/joined"; name=$work/joined ;;
    esac
    # a byte that is changed to itself, or a figure for a figure, leaves a summary
    if [ -z "$must" ] && [ -s "$work/want" ]; then
        cmp -s "$work/want" "$work/got" || differs "standard output"
        [ ! -s "$work/got.err" ] || differs "a message with a sum"
        n[taken]=$((n[taken] + 1))
        return
    fi
    refused "$name"
    if [ -n "$line" ]; then
        line=$(sed -n 's/^second: .*, line \([0-9]*\): .*/\1/p' "$work/want.err")
        [ -n "$line" ] || { keep=1; fail "the second program names no line; see $work"; }
        # a sum past 64 bits: the line of the figure, or the first line of the summary that is too much
        if grep -q '64 bits$' "$work/want.err"; then line="($line|$(((line - 1) / 19 * 19 + 1)))"; fi
        grep -aqE "(^|[^0-9])$line([^0-9]|\$)" <(sed "s|$work||g" "$work/got.err") || differs "the message does not name line $line"
    fi
    n[wrong]=$((n[wrong] + 1))
}
kinds=(byte byte byte digit digit left-out twice swapped stop cut empty zeros sign ratio count past text large large edge)

profiles=(tiny paper wide crowded late bounds lax grid cut mixed)
declare -A well
for ((r = 0; r < recordings; r++)); do
    profile=${profiles[$((r % ${#profiles[@]}))]}
    name=$((r % 24)).rec
    case $name in 5.*) name="with space.rec" ;; 6.*) name="fünf.rec" ;; esac
    count=$((1 + RANDOM % 300))
    [ $((r % 29)) -ne 28 ] || count=20000
    "$work/generate" "$profile" $((seed + r)) "$count" >"$name" || fail "the generator failed"
    case $((RANDOM % 12)) in
        0) size=$(wc -c <"$name"); [ "$size" -lt 6 ] || truncate -s $((size - 1 - RANDOM % 5)) "$name" ;;
        1) printf "\\x$(printf %02x "$(one_of 0 5 6 9 255)")" >>"$name" ;;
        2) [ $((RANDOM % 3)) -ne 0 ] || : >"$name" ;;
        3 | 4) # without its new board, so that a board left by the file before would show
            case $(head -c 1 "$name" | od -An -tu1 | tr -d ' ') in
                1) tail -c +6 "$name" >"$work/later" && mv "$work/later" "$name" ;;
                5) tail -c +7 "$name" >"$work/later" && mv "$work/later" "$name" ;;
            esac ;;
    esac

    # one file; what stands on standard input is not read then
    input=$(one_of /dev/null "$name") arrival=$(one_of file pipe)
    figures one "$name"
    case $(tail -n 1 "$work/want") in *" stop end") ends=1 ;; *) ends="" ;; esac
    cp "$work/got" "$work/sums/$name"

    # the same on standard input
    input=$name arrival=$(one_of file pipe pieces)
    figures input
    input=/dev/null arrival=file

    # what there is: all files, and those that end well
    well[$name]=$ends
    pool=("${!well[@]}") good=()
    for f in "${pool[@]}"; do [ -z "${well[$f]}" ] || good+=("$f"); done

    # several files
    chosen=()
    for ((k = 2 + RANDOM % 4; k > 0; k--)); do
        if [ $((RANDOM % 5)) -eq 0 ] || [ ${#good[@]} -eq 0 ]; then chosen+=("${pool[$((RANDOM % ${#pool[@]}))]}"); else chosen+=("${good[$((RANDOM % ${#good[@]}))]}"); fi
    done
    case $((RANDOM % 8)) in
        0) : >empty; chosen+=(empty); [ $((RANDOM % 2)) -eq 0 ] || chosen=(empty "${chosen[@]}") ;;
        1) chosen+=("${chosen[0]}") ;;
        2) { cat "${chosen[0]}"; printf "\\x$(printf %02x "$(one_of 0 5 6 128 255)")"; } >marred; chosen=("${chosen[@]:1:1}" marred "${chosen[@]:2}") ;;
        3) size=$(wc -c <"${chosen[0]}"); head -c $((size < 2 ? size : size - 1 - RANDOM % (size < 18 ? size - 1 : 17))) "${chosen[0]}" >marred; chosen=("${chosen[@]:1:1}" marred "${chosen[@]:2}") ;;
    esac
    input=$(one_of /dev/null /dev/null "$name")
    figures several "${chosen[@]}"

    [ ${#good[@]} -gt 0 ] || continue

    # sums, and wrong ones
    chosen=()
    for ((k = 1 + RANDOM % 5; k > 0; k--)); do chosen+=("${good[$((RANDOM % ${#good[@]}))]}"); done
    sums
    for ((k = 0; k < 3; k++)); do wrong_sum "${good[$((RANDOM % ${#good[@]}))]}" "${kinds[$(((3 * r + k) % ${#kinds[@]}))]}"; done

    # a file that is not there, and a folder, among files that end well
    if [ $((r % 4)) -eq 0 ]; then
        right=${good[$((RANDOM % ${#good[@]}))]} sum=$work/sums/${good[$((RANDOM % ${#good[@]}))]}
        bad=$(one_of nowhere ./no/where folder ../files/folder)
        input=/dev/null arrival=file
        case $((RANDOM % 6)) in
            0) both "$bad" ;;
            1) both "$right" "$bad" "$right" ;;
            2) both "$right" "$right" "$bad" ;;
            3) both "$bad" "$right" ;;
            4) both --add "$bad" ;;
            5) both --add "$sum" "$bad" "$sum" ;;
        esac
        refused "$bad"
        n[lost]=$((n[lost] + 1))
    fi
done

# 500 times 2,000,000 clocks: the last event of the last file, one event less, and a stop with a byte of no kind and a file that
# is not there behind it
if [ -n "${LIMIT:-}" ]; then
    printf '\3\0\0\0\0' >clocks
    for k in 1 2 3 4 5 6; do cat clocks clocks clocks clocks clocks clocks clocks clocks clocks clocks >ten && mv ten clocks; done
    cat clocks clocks >two && mv two clocks
    head -c -5 clocks >fewer
    { cat clocks; printf '\11'; } >more
    chosen=()
    for ((k = 0; k < 499; k++)); do chosen+=(clocks); done
    input=/dev/null arrival=file
    for k in "1000000000 files 500 stop limit" "999999999 files 500 stop end" "1000000000 files 500 stop limit "; do
        case $k in
            *limit) figures several "${chosen[@]}" clocks ;;
            *end) figures several "${chosen[@]}" fewer ;;
            *) figures several "${chosen[@]}" more nowhere ;;
        esac
        [ "$(tail -n 1 "$work/want")" = "events ${k% }" ] || { keep=1; fail "the second program does not stop at the limit; see $work"; }
    done
fi
echo "$recordings recordings: ${n[one]} summaries of one file, ${n[input]} of standard input, ${n[several]} of several files ($events events, ${n[stops]} stops before the end); ${n[sums]} sums, ${n[taken]} changed summaries added, ${n[wrong]} wrong ones refused, ${n[lost]} times no file or a folder; all equal; seed $seed"
