#!/bin/sh
# Says of each recorded run what `esync check` finds:
#
#     rust/recorder/judge.sh RUN..
#
# For each file it prints its name behind ==, the verdict, and the status: 0 a run, 1 none, 2 a recording that stopped,
# 3 a read that failed, 4 too little memory. The greatest of these is the status of this program.
#
# `esync` is crates/esync/out/esync or what ESYNC names; where there is none, one rt try judges all.
set -eu
top=$(cd "$(dirname "$0")/../.." && pwd)
esync=${ESYNC:-$top/crates/esync/out/esync}
# Without the name of the input, and why a line is no command.
shortened() {
    sed 's/^esync: standard input: //; s/^\(line [0-9]*\), column .*/\1: not a command/'
}
if [ ! -x "$esync" ]; then
    case "$*" in
    [!/]* | *" "[!/]*)
        for run; do
            shift
            set -- "$@" "$(realpath "$run")"
        done
        ;;
    esac
    cd "$top/crates/test_tool"
    greatest=0
    verdicts=$(rt try --seconds 3600 -- --check "$@") || greatest=$?
    printf '%s\n' "$verdicts" | shortened
    for status in $(printf '%s\n' "$verdicts" | sed -n 's/^status \([0-9]*\)$/\1/p'); do
        [ "$status" -le "$greatest" ] || greatest=$status
    done
    exit "$greatest"
fi
greatest=0
for run; do
    status=0
    verdict=$("$esync" check <"$run" 2>&1) || status=$?
    printf '== %s\n%s\nstatus %s\n' "$run" "$verdict" "$status" | shortened
    [ "$status" -le "$greatest" ] || greatest=$status
done
exit "$greatest"
