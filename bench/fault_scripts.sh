#!/usr/bin/env bash
# Runs the scripts of four hundred commands whole: each program and erase fails in turn, alone and with the one or two after it; and one
# call of the bus fails, each in turn. The gate tries some of each, evenly apart. (The stops of `failing/stops.rt` it tries whole.) The tests are proved, built and run in a copy, in which the distances are 1; each may take a
# quarter of an hour. Takes what earlier checks kept of the libraries (out/rlib) and of device_tests, and proves the rest first. It
# prints the tests.
#
#     bench/fault_scripts.sh
set -eu
top="$(cd "$(dirname "$0")/.." && pwd)"
folder="$(mktemp -d)"
trap 'rm -rf "$folder"' EXIT
cd "$top"
git init -q "$folder"
tar cf - --exclude='crates/*/out/incremental' crates crates.txt HANDLES | tar xf - -C "$folder"

if [ -d crates/device_tests/out/incremental ]; then cp -a crates/device_tests/out/incremental "$folder/crates/device_tests/out/"; fi

# Puts a distance of 1 in the place of that of a constant.
tighten() {
    grep -q "^const $2: \w* = [0-9]*;" "$1"
    sed -i "s/^const $2: \(\w*\) = [0-9]*;/const $2: \1 = 1;/" "$1"
}

cd "$folder/crates/device_tests"
tighten src/tests/failing/fault_scripts.rt EACH
tighten src/tests/hostile/scripts.rt CALLS_APART
RT_SECONDS=900 rt test 2>&1 | grep '^\(test\|rt:\) '
