#!/bin/sh
# Times Gorqymel beside the Rust original: bench/run.sh FOLDER
# FOLDER is the published source of the crate p3-util, with src/transpose/portable.rs in it. Needs rt and rustc.
set -eu
published=$(cd "${1:?usage: bench/run.sh FOLDER}" && pwd)
cd "$(dirname "$0")/.."
(cd crates/host && rt lib)
(cd crates/timing && rt lib)
work=$(mktemp -d)
trap 'rm -rf "$work"' EXIT
cp bench/driver.rs "$published/src/transpose/portable.rs" "$work/"
rustc --edition 2024 -C opt-level=3 -o "$work/driver" "$work/driver.rs" \
    -C link-arg=crates/host/out/libhost.a -C link-arg=crates/timing/out/libtiming.a
"$work/driver"
