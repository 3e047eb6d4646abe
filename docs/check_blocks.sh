#!/bin/sh
# Usage: sh docs/check_blocks.sh PAGE. Runs the `sh` blocks of a page, in their order and in one shell at the top of this
# clone, and compares what each prints with the `text` block that stands below it, if one does. The program is $orochi, or
# else the launcher of this clone; it also stands for ./orochi in a block, and there its status must be that of its line.
# Tells which blocks differ, and ends with 1 where one does, with 125 where the page isn't there.
[ "${1:-}" != --help ] || { sed -n '2,5s/^# //p' "$0"; exit; }
top=$(CDPATH='' cd -- "$(dirname -- "$0")/.." && pwd -P) || exit 125
orochi=${orochi:-$top/orochi}
case $orochi in
    /*) ;;
    */*) orochi=$(CDPATH='' cd -- "$(dirname -- "$orochi")" && pwd -P)/${orochi##*/} ;;
esac
cd "$top" || exit 125
page=${1:-}
[ -f "$page" ] || { echo "no page $page" >&2; exit 125; }
room=$(mktemp -d) || exit 125
trap 'rm -rf "$room"' EXIT
trap 'exit 125' HUP INT TERM
mkdir "$room/files" || exit 125
export orochi room

# Runs the program, and says so where its status isn't that of its line.
cat >"$room/run" <<'END'
"$orochi" "$@" >"$room/line"
status=$?
cat "$room/line"
case $(cat "$room/line") in
    'ok: '* | 'recorded: '* | 'accepted: '* | 'agrees: '*) wanted=0 ;;
    'rejected '* | 'differs '*) wanted=1 ;;
    usage) wanted=2 ;;
    *': '*) wanted=3 ;;
    *) wanted='4 or 5' ;;
esac
case "$wanted" in
    *"$status"*) ;;
    *) echo "status $status in place of $wanted" ;;
esac
exit "$status"
END

# Each block goes into a file of its own: run.N, and what it must print into wanted.N. `blocks` has the line of each.
: >"$room/blocks"
awk -v room="$room" '
    /^```/ {
        if (kind == "" && $0 == "```sh") {
            kind = "run"
            print ++number, NR >(room "/blocks")
            printf "" >(room "/wanted." number)
        } else if (kind == "" && $0 == "```text" && number && !(number in shown)) {
            kind = "wanted"
            shown[number]
        } else kind = kind == "" ? "other" : ""
        next
    }
    kind == "run" || kind == "wanted" { print >(room "/" kind "." number) }' "$page"

while read -r number line; do
    echo "exec >'$room/printed.$number'"
    sed 's|\./orochi\([[:space:]]\)|sh "$room/run"\1|g' "$room/run.$number"
done <"$room/blocks" >"$room/script"
TMPDIR=$room/files sh "$room/script" </dev/null

blocks=0 differ=0
while read -r number line; do
    blocks=$((blocks + 1))
    diff "$room/wanted.$number" "$room/printed.$number" >"$room/differs" 2>&1 && continue
    differ=$((differ + 1))
    echo "$page:$line: this block prints something else:"
    cat "$room/differs"
done <"$room/blocks"

echo "$page: blocks $blocks, differ $differ"
[ "$blocks" -gt 0 ] && [ "$differ" -eq 0 ]
