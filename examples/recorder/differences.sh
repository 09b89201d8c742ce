#!/bin/sh
# Records each run of upstream that the repository keeps once more, and says what `esync check` finds of it:
#
#     examples/recorder/differences.sh [RECORDER [ESYNC]]
#
# The two programs are this folder's target/release/recorder and crates/esync/out/esync where they aren't named.
# The status is 1 where a run is recorded otherwise than it is kept.
set -eu
here=$(cd "$(dirname "$0")" && pwd)
recorder=$(realpath "${1-$here/target/release/recorder}")
esync=$(realpath "${2-$here/../../crates/esync/out/esync}")
status=0
for run in "$here"/../../crates/test_tool/data/upstream_*.run; do
    echo "== $(basename "$run")"
    sed 's/ => .*//' "$run" | "$recorder" | diff "$run" - || status=1
    "$esync" check <"$run" || true
done
exit $status
