#!/usr/bin/env bash
# Times `nandctl sector` on a raw image of about 256 MiB with 4,096-byte pages, every page programmed, beside `cat` and
# `sha256sum` on the same file, and shows the most memory that each held. Fails where the scan takes more than 0.3 of the time of
# `sha256sum`, or more memory than the image and 8 MiB. The program is PROGRAM, or the one that `rt run` in crates/nandctl builds.
#
#     [PROGRAM=..] bench/scan.sh [REPEATS]
set -eu
top="$(cd "$(dirname "$0")/.." && pwd)"
repeats="${1:-5}"
program="${PROGRAM:-$top/crates/nandctl/out/nandctl}"
geometry=4096,128,64,992,60000
folder="$(mktemp -d)"
trap 'rm -rf "$folder"' EXIT
python3 "$top/bench/make_image.py" "$geometry" "$folder/image.bin" --full 70:data:5:99999:0:ab
most=$(($(stat -c %s "$folder/image.bin") + 8 * 1048576))
python3 "$top/bench/measure.py" "$repeats" "$folder/image.bin" "nandctl sector" 0.3 "$most" \
    "$program" sector "$geometry" "$folder/image.bin" 5
