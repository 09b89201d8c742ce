#!/bin/sh
# Proves and builds our side, and times it beside embassy-sync 0.6.2:
#
#     bench/run.sh [--upstream FOLDER] [CASE..]
#
# FOLDER is the package embassy-sync, for where no registry is reached. With no CASE all are timed.
set -eu
cd "$(dirname "$0")"
if [ "${1-}" = --upstream ]; then
    upstream=$(cd "$2" && pwd)
    shift 2
    set -- --offline --config "patch.crates-io.embassy-sync.path=\"$upstream\"" -- "$@"
else
    set -- -- "$@"
fi
(cd ../crates/bench_states && rt lib) >&2
(cd ../crates/bench_shared && rt run -- ping_pong 1) >&2
exec cargo run --quiet --release "$@"
