#!/bin/sh
# Explores systems, and the same in Promela with Spin:
#
#     bench/explore/run.sh [--esync FILE] [KIND-NUMBER-REPEAT..]
#
# FILE is the program `esync`; without it `rt run` proves and builds it. systems.py has the kinds. With no word all are
# explored.
set -eu
esync='' limit=4000000
while [ $# -gt 0 ]; do
    case $1 in
        --esync) esync=$(realpath "$2"); shift ;;
        -*) sed -n '2,/^set/s/^# \{0,1\}//p' "$0" >&2; exit 2 ;;
        *) break ;;
    esac
    shift
done
[ $# -gt 0 ] || set -- one_order-3-2 one_order-4-2 one_order-5-2 one_order-6-1 one_order-7-1 one_order-8-1 \
    two_orders-8-2 consumers-2-4 consumers-4-2 service-4-2
cd "$(dirname "$0")"
mkdir -p out

for package in spin time; do
    command -v $package >/dev/null || { apt-get update && apt-get install -y --no-install-recommends $package; } >&2
done
if [ -z "$esync" ]; then
    (cd ../../crates/esync && rt run -- --version) >&2
    esync=../../crates/esync/out/esync
fi

# Runs a command, whose output goes to out/said, and prints its seconds and megabytes. A status of 1 is an answer, too.
timed() {
    /usr/bin/time -f '%e %M' -o out/took "$@" >out/said || [ $? -eq 1 ]
    tail -1 out/took | awk '{ printf "%.2f %.0f", $1, $2 / 1024 }'
}

# The verdict of out/said and how many states were gathered, in two words.
verdict() {
    python3 -c 'import json; said = json.load(open("out/said")); print(said["verdict"].replace(" ", "_"), said["states"])'
}

echo 'system answer states s MB, spin: states s MB'
for system in "$@"; do
    # shellcheck disable=SC2046 # three words
    python3 systems.py out $(echo "$system" | tr - ' ')
    ours=$(timed "$esync" explore --json --limit $limit "out/$system.system")
    answer=$(verdict)
    (cd out && spin -a "$system.pml" >/dev/null && cc -O2 -o pan pan.c)
    theirs=$(timed env -C out ./pan -m1000000)
    errors=$(sed -n 's/.*errors: //p' out/said)
    case $answer in
        all_*) wanted=0 ;;
        *) wanted=1 ;;
    esac
    if [ "$errors" != $wanted ]; then
        echo "run.sh: $system: $answer, and Spin tells of $errors errors" >&2
        exit 1
    fi
    echo "$system $answer $ours, $(awk '/states, stored/ { print $1 }' out/said) $theirs"
done
