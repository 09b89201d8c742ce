#!/bin/sh
# Runs the tests and random programs over the recorded primitives, and judges each run that they leave:
#
#     rust/recorder/run.sh [--upstream FOLDER] [COUNT [SEED]]
#
# FOLDER is the package embassy-sync, for where no registry is reached. COUNT is the number of random programs, 1000
# where it isn't said, and SEED another number for others. ESYNC names the program that judges, as for judge.sh. The
# last line says what was found, and the status is 1 where a run has another verdict than it should.
set -eu
upstream=
if [ "${1-}" = --upstream ]; then
    upstream=$(cd "$2" && pwd)
    shift 2
fi
count=${1-1000}
seed=${2-1}
if [ "${ESYNC-}" ]; then
    ESYNC=$(realpath "$ESYNC")
    export ESYNC
fi
cd "$(dirname "$0")"
with_upstream() {
    if [ "$upstream" ]; then
        # (the package's own critical sections stand for the host's)
        cargo "$@" --offline --config "patch.crates-io.embassy-sync.path=\"$upstream\"" \
            --config "patch.crates-io.critical-section.path=\"$(cd ../../examples/recorder/offline/critical-section && pwd)\""
    else
        cargo "$@"
    fi
}
# (an example's arguments stand behind the options)
example() {
    with_upstream build --quiet --features record --example "$1"
    name=$1
    shift
    "$target/debug/examples/$name" "$@"
}
target=${CARGO_TARGET_DIR:-$PWD/target}
runs=$target/tmp/runs
rm -rf "$runs"
with_upstream test --quiet
with_upstream test --quiet --features record
example random "$runs" "$count" "$seed"
# (some of these are rightly no: the example knows which)
./judge.sh "$runs"/*.run >"$target/tmp/verdicts" || true
example verdicts verdicts "$runs" <"$target/tmp/verdicts"
