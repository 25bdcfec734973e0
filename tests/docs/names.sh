#!/usr/bin/env bash
# names.sh: holds README.md, docs/BOOK.md and docs/PROMISES.md to what they name. Whatever stands there in code type and is
#   a path                  exists (`slots/proofs/Soundness` is crates/slots/proofs/Soundness.antt),
#   CRATE/EDIT              is an edit of crates/CRATE/must-fail/,
#   CRATE::NAME             is declared in crates/CRATE/src/,
#   an equation, .. ≡ ..    stands so in a contract or a theorem, but for `x.now` and `x.old`, which may be x, where no .. is left out,
#   TYPE.FIELD              is two names that are declared,
#   a program's functions   are quoted in docs/PROMISES.md as they stand,
#   any other name          is declared: in the file of `file`: `name`, `name` that it stands behind, otherwise in some file under crates/.
# Not looked at: fenced and indented blocks, the key to the notation, other texts with blanks, and the words of words.txt.
# Prints each name that is not there, and ends with 1 if there is one, otherwise with a line that counts them.
set -euo pipefail
shopt -s nullglob
cd "$(dirname "$0")/../.."
export LC_ALL=C.UTF-8
work=$(mktemp -d)
trap 'rm -rf "$work"' EXIT

# what is declared where: FILE NAME
awk '{ print FILENAME " " $0 }' crates/*/{specs,proofs}/*.antt crates/*/{specs,proofs}/*/*.antt |
    sed -nE 's/^([^ ]+) +((abbrev|unfoldable|pub|record|data|module) )*([^ :({]+)( .*)?$/\1 \4/p' | sort -u >"$work/antt"
awk '{ print FILENAME " " $0 }' crates/*/src/*.rt |
    sed -nE -e 's/^([^ ]+) +(pub )?(fn|struct|enum|const) ([A-Za-z0-9_]+).*/\1 \4/p' -e 's/^([^ ]+)     (pub )?([a-z_0-9]+): .*/\1 \3/p' \
        -e 's/^([^ ]+)     ([A-Z][A-Za-z0-9]+)[ ,({].*/\1 \2/p' | sort -u >"$work/rt"
cut -d' ' -f2 "$work/antt" "$work/rt" | sort -u >"$work/all"
sed '/^#/d' tests/docs/words.txt >"$work/words"
# contracts and theorems on one line, blanks squeezed, as they stand and with the contents of what is lent by its name
cat crates/*/src/*.rt crates/*/{specs,proofs}/*.antt | tr -s ' \n' ' ' >"$work/said"
sed -E 's/([a-z_0-9]+)\.(now|old)([^a-z_0-9]|$)/\1\3/g' "$work/said" >"$work/short"

# the names in order: PAGE LINE ITEM BETWEEN NEXT NAME, BETWEEN the text since the last one, NEXT what follows the closing quote
for page in README.md docs/BOOK.md docs/PROMISES.md; do
    awk -v page="$page" '
        /^```/ { fenced = !fenced; next }
        fenced || /^    / { next }
        /^## / { skip = /Key to the notation/ }
        skip { next }
        /^(#|\||- |[0-9]+\. |$)/ { flush() }
        { text = text (text == "" ? "" : " ") $0; if (!start) start = NR }
        function flush() {
            item++
            while (match(text, /`[^`]+`/)) {
                print page "\t" start "\t" item "\t_" substr(text, 1, RSTART - 1) "\t_" substr(text, RSTART + RLENGTH, 1) "\t" substr(text, RSTART + 1, RLENGTH - 2)
                text = substr(text, RSTART + RLENGTH)
            }
            text = ""; start = 0
        }
        END { flush() }' "$page"
done >"$work/names"

missing=0 looked=0
miss() { echo "names.sh: $page:$line: \`$name\`: $1" >&2; missing=$((missing + 1)); }
anywhere() { grep -qxF -- "$1" "$work/all"; }
file='' before=''
while IFS=$'\t' read -r page line item between next name; do
    # a file holds for the names right behind it
    [ "$page $item" = "$before" ] && [[ ${between//and/} != *[a-z.\;]* ]] || file=''
    before="$page $item" looked=$((looked + 1))
    ! grep -qxF -- "$name" "$work/words" || continue
    case $name in
    *..*) ;;
    *' ≡ '*) grep -qF -- "$name" "$work/said" "$work/short" || miss "no contract and no theorem says so" ;;
    *' '* | [0-9]* | -*) ;;
    *::*)
        crate=${name%%::*} rest=${name#*::}
        rest=${rest##*::}
        for one in ${rest//[\{\},]/ }; do
            one=${one%%(*}
            if [ -d "crates/$crate" ]; then grep -qE "^crates/$crate/src/[^ ]+ $one\$" "$work/rt" || miss "crates/$crate/src declares no $one"
            else anywhere "$crate" && anywhere "$one" || miss "nothing of that name is declared"; fi
        done ;;
    */*)
        if [ -e "$name" ] || [ -e "crates/$name" ]; then :
        elif [ -f "crates/$name.antt" ]; then
            file=''
            [ "$next" != _: ] || file=crates/$name.antt
        elif [ ! -f "crates/${name%%/*}/must-fail/${name#*/}.edit" ]; then miss "there is no such file and no such edit"; fi ;;
    [A-Za-z]*.[a-z]*)
        if [ ! -e "$name" ]; then anywhere "${name%%.*}" && anywhere "${name##*.}" || miss "nothing of that name is declared"; fi ;;
    *)
        one=${name#.}
        one=${one%%(*}
        if [ -n "$file" ]; then grep -qxF -- "$file $one" "$work/antt" || miss "$file declares no such name"
        elif [ ! -e "$one" ] && [ ! -d "crates/$one" ]; then anywhere "$one" || miss "nothing of that name is declared"; fi ;;
    esac
done <"$work/names"
# "quotes these lines whole"
for program in plan record ask summary; do
    looked=$((looked + 1)) page=docs/PROMISES.md line=0 name=$program
    lines=$(sed -n '/^\(fn\|struct\) /,$p' "crates/$program/src/main.rt" | sed 's/^..*/    &/')
    [[ $(cat docs/PROMISES.md) == *"$lines"* ]] || miss "its functions are not quoted as they stand"
done
[ "$missing" -eq 0 ] || { echo "names.sh: $missing of $looked names are not there" >&2; exit 1; }
echo "names.sh: all $looked names are there"
