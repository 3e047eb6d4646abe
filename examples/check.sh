#!/bin/sh
# Usage: sh examples/check.sh [NAME ..]. Runs the blocks of examples/NAME/README.md, without a NAME those of all examples,
# and compares what each prints with what the page says, as docs/check_blocks.sh does: the program is $orochi, or else the
# launcher of this clone. Ends with 0 where they agree, else with 1.
[ "${1:-}" != --help ] || { sed -n '2,4s/^# //p' "$0"; exit; }
here=$(dirname -- "$0")
if [ $# = 0 ]; then
    for page in "$here"/*/README.md; do
        page=${page%/README.md}
        set -- "$@" "${page##*/}"
    done
fi
status=0
for name; do
    sh "$here/../docs/check_blocks.sh" "examples/$name/README.md" || status=1
done
exit "$status"
