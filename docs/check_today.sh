#!/bin/sh
# Usage: sh docs/check_today.sh. Runs the blocks of today.md, and compares what each prints with what the page says, as
# check_blocks.sh does: the program is $orochi, or else the launcher of this clone. Ends with 0 where they agree.
[ "${1:-}" != --help ] || { sed -n '2,3s/^# //p' "$0"; exit; }
exec sh "$(dirname -- "$0")/check_blocks.sh" docs/today.md
