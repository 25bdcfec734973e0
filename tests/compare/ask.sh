#!/bin/bash
# ask.sh: compares a program `ask` with the second program on random recordings and questions, byte for byte.
#
#   ask.sh ASK-PROGRAM [RECORDINGS [QUESTIONS]]
#     ASK-PROGRAM   reads a recording on standard input and answers the question in its arguments
#     RECORDINGS    how many (default 200), by turns of every profile of the generator, of 1 to 300 events
#     QUESTIONS     how many of each recording (default 12)
#   environment:
#     SEED=N        first seed (default: from the clock); the same arguments and seed make the same recordings, not the same
#                   questions (bash draws anew in each subshell); where one differs it is kept
#     RUN=COMMAND   put before ASK-PROGRAM, as RUN=qemu-x86_64
#
# What is printed must be equal, and so must the message on a recording that ends in 15 or 16; after a wrong question both
# print nothing, and something on standard error. Numbers are drawn about the board's own: its sizes, its clock, the starts and
# finishes of its tasks, and the edges of every range; deadlines of openings also at the limit of laxity (10,000,000, Q-2), beside
# it and far beyond, and pairs to start after at the end of the window. Where the board has a grid (Q-3), two questions in three are
# openings, most of them of whole steps, after pairs on the grid and off it. Ends with 0 if all is equal; with 1 at the first
# difference, and keeps the recording and both outputs in the temporary folder that it names; with 2 for a wrong call.
set -u
here=$(cd "$(dirname "$0")" && pwd -P)
fail() { echo "ask.sh: $*" >&2; exit 2; }
[ $# -ge 1 ] || { sed -n '2,12p' "$0" >&2; exit 2; }
ask=$1 recordings=${2:-200} questions=${3:-12}
case $ask in */*) ;; *) [ -f "$ask" ] && ask=./$ask ;; esac
[ -f "$ask" ] || fail "no file $ask"
[[ $recordings =~ ^[1-9][0-9]*$ && $questions =~ ^[1-9][0-9]*$ ]] || fail "RECORDINGS and QUESTIONS are to be numbers from 1"
seed=${SEED:-$(date +%s)}
[[ $seed =~ ^[0-9]+$ ]] || fail "SEED is to be a number, not '$seed'"
command -v rustc >/dev/null || fail "rustc is not here; it builds the second program"

work=$(mktemp -d) || fail "no temporary folder"
keep=""
trap '[ -n "$keep" ] || rm -rf "$work"' EXIT
for program in second generate; do
    rustc -O --edition 2021 "$here/$program.rs" -o "$work/$program" || fail "$program.rs does not compile"
done
"$work/second" --self-test || fail "the second program fails its own test"

RANDOM=$((seed % 32768))
below() { echo $(((RANDOM * 32768 + RANDOM) % $1)); }
one_of() { shift $((RANDOM % $#)); echo "$1"; }

# an instant near what the board holds, or at an edge
instant() {
    case $((RANDOM % 4)) in
        0) one_of 0 1 1999999999 2000000000 2000000001 4294967295 "$now" ;;
        1) echo $((now + $(below 50))) ;;
        *) local at; at=$(one_of $times); at=$((at + RANDOM % 3 - 1)); echo $((at < 0 ? 0 : at)) ;;
    esac
}

# what is asked, in `words`
question() {
    local w h e d limit after column steps=$((W / G))
    case $((G > 1 && RANDOM % 2 ? 6 : RANDOM % 10)) in
        0) words=(horizon) ;;
        1) words=(board) ;;
        2 | 3) words=(busy "$(instant)") ;;
        4 | 5) words=(stamp "$(instant)") ;;
        9) words=("${wrong[$((RANDOM % ${#wrong[@]}))]}")
           case $((RANDOM % 3)) in 0) words=(${words[0]}) ;; 1) words=(openings ${words[0]}) ;; esac
           [ ${#words[@]} -gt 0 ] || words=("") ;; # no argument at all makes the second program print the lines of `plan`
        *)
            w=$(one_of 1 1 2 3 "$W" $((W + 1)) 0 65535 $((1 + RANDOM % (W + 1))))
            h=$(one_of 1 1 1 1 "$H" $((H + 1)) 0)
            e=$(one_of 1 2 7 100 $((1 + RANDOM % 40)) 1000000 1000001 0)
            if [ "$G" -gt 1 ]; then # mostly whole steps, and the rest in range; or a width beside a number of steps
                case $((RANDOM % 8)) in
                    0) w=$(one_of $((G + 1)) $((W - 1)) $((G * (1 + RANDOM % steps) - 1)) $((W + G))) ;;
                    1) ;;
                    *) w=$((G * (RANDOM % 2 ? 1 : 1 + RANDOM % steps))) h=$(one_of 1 "$H") e=$(one_of 1 2 7 100 $((1 + RANDOM % 40)) 1000000) ;;
                esac
            fi
            limit=$((now + e + 10000000))
            if [ $((RANDOM % 2)) -eq 0 ]; then # about the limit of laxity, or up to it as far as there are deadlines
                d=$(one_of "$limit" "$limit" $((limit - 1)) $((limit + 1)) $((limit + 1)) $((limit + 2 + RANDOM)) $((limit - RANDOM)) $((limit + RANDOM * 50000)) $((limit < 2000000000 ? limit : 2000000000)))
                [ "$d" -le 4294967295 ] || d=4294967295
            else
                d=$(one_of $((now + e)) $((now + e + RANDOM % 60)) $((now + e + RANDOM)) $((now + e + 1)) $((now + e > 0 ? now + e - 1 : 0)) 2000000000 2000000001)
            fi
            words=(openings "$w" "$h" "$e" "$d")
            after=$(instant)
            if [ $((RANDOM % 4)) -eq 0 ]; then after=$((d - e - 1 + RANDOM % 3)); after=$((after < 0 || after > 4294967295 ? 0 : after)); fi # about the last start
            column=$(one_of 0 1 "$W" 65535 $((RANDOM % (W + 2))))
            if [ "$G" -gt 1 ] && [ $((RANDOM % 4)) -ne 0 ]; then # where a step begins, in its last column, or anywhere; early in the window
                column=$(one_of $((1 + G * (RANDOM % steps))) $((1 + G * (RANDOM % steps))) $((G * (1 + RANDOM % steps))) $((1 + RANDOM % W)))
                if [ $((RANDOM % 2)) -eq 0 ] && [ $((d - e)) -ge "$now" ]; then after=$((now + $(below $((d - e - now < 60 ? d - e - now + 1 : 60))))); fi
            fi
            [ $((RANDOM % 3)) -eq 0 ] || words+=("$after" "$column")
            [ ${#words[@]} -eq 5 ] || [ $((RANDOM % 3)) -eq 0 ] || words+=("$(one_of 0 1 2 $((RANDOM % 20)) 2976 2977 5952 $((RANDOM % 9000)))")
            ;;
    esac
}
wrong=("" "x" "horizon 1" "Horizon" "board 0" "busy" "busy 4294967296" "busy -1" "busy +1" "busy 1x" "busy 1 2" "stamp" "stamp 99999999999999999999" "stamp 4294967296"
    "openings" "openings 1 1 1" "65536 1 1 9" "1 65536 1 9" "1 1 1 9 3" "1 1 1 9 3 65536" "1 1 1 9 0 0 1 1" "1 1 4294967296 9" "1 1 1 9 0 0 4294967296" "busy ?" "bus y 1")

${RUN:-} "$ask" </dev/null >"$work/got" 2>"$work/got.err"
[ ! -s "$work/got" ] && grep -q '^usage: ask' "$work/got.err" || { echo "differs: no usage where there is no argument" >&2; exit 1; }
asked=0 refused=0 lax=0 unanswered=0 wrongs=0 rows=0 stepped=0 off=0
profiles=(tiny paper wide crowded late bounds lax grid cut mixed)
for ((r = 0; r < recordings; r++)); do
    profile=${profiles[$((r % ${#profiles[@]}))]}
    "$work/generate" "$profile" $((seed + r)) $((1 + RANDOM % 300)) >"$work/recording" || fail "the generator failed"
    # of some recordings the last bytes are left out, behind some is put a byte of no kind, or a kind 5 without its body
    case $((RANDOM % 12)) in
        0) size=$(wc -c <"$work/recording"); [ "$size" -lt 6 ] || truncate -s $((size - 1 - RANDOM % 5)) "$work/recording" ;;
        1) printf "\\x$(printf %02x "$(one_of 0 5 6 9 255)")" >>"$work/recording" ;;
    esac
    W=1 H=1 now=0 G=1 times="0 1 7"
    if "$work/second" board <"$work/recording" >"$work/board" 2>/dev/null && { read -r _ n && [ "$n" = 0 ]; } <"$work/board"; then
        read -r W H now G < <(sed -n 2p "$work/board")
        G=${G:-1} # a grid of 1 is not told
        times="$now $(sed 1,2d "$work/board" | cut -d' ' -f8,9 | tr '\n' ' ')"
    fi
    for ((q = 0; q < questions; q++)); do
        question
        "$work/second" "${words[@]}" <"$work/recording" >"$work/want" 2>"$work/want.err"
        if [ $((q % 3)) -eq 0 ]; then
            cat "$work/recording" | ${RUN:-} "$ask" "${words[@]}" >"$work/got" 2>"$work/got.err"
        else
            ${RUN:-} "$ask" "${words[@]}" <"$work/recording" >"$work/got" 2>"$work/got.err"
        fi
        differ=""
        cmp -s "$work/want" "$work/got" || differ="standard output"
        if [ -s "$work/want" ]; then
            [ ! -s "$work/got.err" ] || differ="a message with an answer"
        elif grep -q 'not answered$' "$work/want.err"; then
            [ "$(sed 's/^second: //' "$work/want.err")" = "$(sed 's/^ask: //' "$work/got.err")" ] || differ="the message of a recording that ends in 15 or 16"
            unanswered=$((unanswered + 1))
        else
            grep -q '^usage: ask' "$work/got.err" || differ="no usage after a wrong question"
            wrongs=$((wrongs + 1))
        fi
        if [ -n "$differ" ]; then
            keep=1
            echo "differs: $differ; recording $r (profile $profile, seed $((seed + r))), asked: ${words[*]@Q}; see $work" >&2
            diff "$work/want" "$work/got" | head -5 >&2
            exit 1
        fi
        asked=$((asked + 1))
        if [ -s "$work/want" ]; then
            read -r _ n <"$work/want"
            [ "$n" = 0 ] || refused=$((refused + 1))
            [ "$n" != 18 ] || lax=$((lax + 1))
            rows=$((rows + $(wc -l <"$work/want") - 1))
            if [ "$G" -gt 1 ] && [ "${words[0]}" = openings ]; then
                [ "$n" != 0 ] || stepped=$((stepped + 1))
                [ "$n" != 5 ] || off=$((off + 1))
            fi
        fi
    done
done
echo "$recordings recordings, $asked questions, all equal: $rows rows, $refused refusals ($lax of them 18), $unanswered not answered (15 or 16), $wrongs wrong questions; on boards with a grid $stepped lists of openings and $off refusals 5; seed $seed"
