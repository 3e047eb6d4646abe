#!/bin/sh
# Usage: sh docs/check_language.sh. Checks each program of the table "Examples" in language.md, and compares the line, and
# the status, with the page's. The program is $orochi, or else the launcher of this clone. What differs is printed. Ends
# with 0 where they all agree, else with 1.
[ "${1:-}" != --help ] || { sed -n '2,4s/^# //p' "$0"; exit; }
here=$(CDPATH='' cd -- "$(dirname -- "$0")" && pwd -P) || exit 125
orochi=${orochi:-${here%/docs}/orochi}
room=$(mktemp -d) || exit 125
trap 'rm -rf "$room"' EXIT

awk -F '`' '/^### / { inside = ($0 == "### Examples") } /^## / { inside = 0 }
    inside && /^\|/ && NF >= 5 { print $2; print $4 }' "$here/language.md" >"$room/examples"

differ=0
examples=0
while IFS= read -r program && IFS= read -r wanted; do
    printf %s "$program" >"$room/program"
    case $wanted in
        'ok: '*) wanted="0 $wanted" ;;
        *) wanted="3 $wanted" ;;
    esac
    printed=$("$orochi" check "$room/program")
    printed="$? $printed"
    examples=$((examples + 1))
    [ "$printed" = "$wanted" ] && continue
    differ=$((differ + 1))
    printf '%s\n  wanted %s\n  printed %s\n' "$program" "$wanted" "$printed"
done <"$room/examples"

echo "language.md: examples $examples, differ $differ"
[ "$examples" -gt 0 ] && [ "$differ" -eq 0 ]
