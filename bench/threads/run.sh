#!/bin/sh
# Times channels between threads and tasks that wait: ours beside tokio, async-channel and embassy-sync 0.6.2.
#
#     bench/threads/run.sh [--upstream FOLDER | --registry] [--rounds N] [CASE..]
#
# tokio and async-channel are Debian's packages, which are installed if they are missing. FOLDER is the package
# embassy-sync, whose critical section has to be one over std. Without it embassy-sync is left out. With --registry all
# come from Cargo's registry instead. With no CASE all are timed. N is 5 if it isn't given.
set -eu
registry='' upstream='' rounds=5
debian=/usr/share/cargo/registry
ours=../../crates/bench_shared
programs=out/build/target/release

usage() {
    sed -n '2,/^set/s/^# \{0,1\}//p' "$0" >&2
    exit 2
}

# Installs the packages that are missing.
install() {
    missing=
    for crate in tokio async-channel async-executor futures-lite; do
        ls -d "$debian/$crate"-[0-9]* >/dev/null 2>&1 || missing="$missing librust-$crate-dev"
    done
    # shellcheck disable=SC2086 # a list
    if [ -n "$missing" ] && ! { apt-get update && apt-get install -y --no-install-recommends $missing; } >&2; then
        echo "run.sh: apt-get could not install what is missing (it has to be run as root):$missing" >&2
        exit 2
    fi
}

# Builds a copy with the words that Cargo is given, from a Cargo.toml without the lines that the pattern finds.
build() {
    without=$1
    shift
    mkdir -p out/build
    rm -rf out/build/src out/build/Cargo.lock
    cp -Rp src out/build/src
    sed "/$without/d" Cargo.toml > out/build/Cargo.toml
    cd out/build
    cargo build --quiet --release --bin bench-threads --bin time_tokio --bin time_async_channel "$@" >&2
    cd ../..
}

# Builds from Debian's packages, with the words that Cargo is given.
build_offline() {
    without=$1
    shift
    install
    build "$without" --offline --config 'source.crates-io.replace-with="debian"' \
        --config "source.debian.directory=\"$debian\"" "$@"
}

while [ $# -gt 0 ]; do
    case $1 in
        --registry) registry=yes ;;
        --upstream) [ $# -gt 1 ] && upstream=$(cd "$2" && pwd) || usage; shift ;;
        --rounds) [ $# -gt 1 ] && rounds=$2 || usage; shift ;;
        -*) usage ;;
        *) break ;;
    esac
    shift
done
[ -z "$registry" ] || [ -z "$upstream" ] || usage
cd "$(dirname "$0")"

if [ -d $ours ]; then
    (cd $ours && rt run -- uncontended_try 8) >&2
fi
upstream_program=$programs/time_upstream
if [ -n "$registry" ]; then
    build '^$' --bin time_upstream
elif [ -n "$upstream" ]; then
    build_offline '^critical-section =' --bin time_upstream --config "patch.crates-io.embassy-sync.path=\"$upstream\""
else
    build_offline '^critical-section =\|^embassy-sync ='
    upstream_program=
fi
# The versions, since those of Debian's packages are old.
awk -F '"' '/^name/ { name = $2 } /^version/ { print name, $2 }' out/build/Cargo.lock |
    grep -E '^(tokio|async-channel|async-executor|futures-lite|embassy-sync) ' >&2
exec $programs/bench-threads "$rounds" "ours=$ours/out/bench_shared" "tokio=$programs/time_tokio" \
    "async-channel=$programs/time_async_channel" "embassy-sync=$upstream_program" "$@"
