#!/bin/sh
# Says of each recorded run whether `esync check` finds what its verdict says, and whether upstream still answers so:
#
#     rust/found/judge.sh [ESYNC [RECORDER]]
#
# The two programs are crates/esync/out/esync and examples/recorder/target/release/recorder where they aren't named.
# The status is 1 where a run or a verdict is another.
set -eu
top=$(cd "$(dirname "$0")/../.." && pwd)
esync=$(realpath "${1-$top/crates/esync/out/esync}")
recorder=$(realpath "${2-$top/examples/recorder/target/release/recorder}")
cd "$top/rust/found/runs"
status=0
for run in *.run; do
    name=${run%.run}
    found="the run and the verdict"
    sed 's/ => .*//' "$run" | "$recorder" | cmp -s "$run" - || found="another run"
    { "$esync" check <"$run" || true; } | cmp -s "$name.verdict" - || found="another verdict"
    [ "$found" = "the run and the verdict" ] || status=1
    printf '%-32s %s\n' "$name" "$found"
done
exit $status
