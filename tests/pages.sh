#!/bin/sh
# tests/pages.sh: the pages can be read in a terminal, no line having more than 100 columns, and docs/PROOFS.md names each
# must-fail edit once, as CRATE/LABEL.
set -eu
unset CDPATH
cd "$(dirname "$0")/.."
failed=0
if LC_ALL=C.UTF-8 grep -nE '^.{101,}$' ./*.md docs/*.md NOTICE include/*.h; then
    echo "pages: these lines have more than 100 columns"
    failed=1
fi
count=0
for edit in crates/*/must-fail/*.edit; do
    label=${edit##*/}
    crate=${edit#crates/}
    name=${crate%%/*}/${label%.edit}
    times=$(grep -oF "\`$name\`" docs/PROOFS.md | wc -l)
    if [ "$times" -ne 1 ]; then
        echo "pages: docs/PROOFS.md names \`$name\` $times times"
        failed=1
    fi
    count=$((count + 1))
done
[ "$failed" -eq 0 ] && echo "pages: no line has more than 100 columns, and each of $count edits is named once"
exit $failed
