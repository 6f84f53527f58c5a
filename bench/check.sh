#!/usr/bin/env bash
# Times `nandctl check` and `nandctl mount` beside `cat` and `sha256sum` on raw images of which every page is programmed: one of
# about 256 MiB with 4,096-byte pages, in either version of the record, and a die of 1,048,576 pages of 512 bytes; and `nandctl check` on a die of erased pages,
# of which it is refused. Fails where one takes more than 1.15 times as long as `sha256sum` (the erased die: reads less than
# 2 GiB a second), or where the check holds more than the certificate, 32 bytes a page and 4 MiB. The program is PROGRAM, or
# the one that `rt run` in crates/nandctl builds.
#
#     [PROGRAM=..] bench/check.sh [REPEATS]
set -eu
top="$(cd "$(dirname "$0")/.." && pwd)"
repeats="${1:-5}"
program="${PROGRAM:-$top/crates/nandctl/out/nandctl}"
folder="$(mktemp -d)"
trap 'rm -rf "$folder"' EXIT
# The bytes that a check may hold: the certificate, 32 bytes a page and 4 MiB.
most_of_check() {
    IFS=, read -r _ _ pages blocks _ <<< "$1"
    echo $(($(stat -c %s "$2") + 32 * pages * blocks + 4 * 1048576))
}
for case in 4096,128,64,992,60000:2 4096,128,64,992,60000:1 512,32,256,4096,700000:1; do
    geometry="${case%:*}" version="${case#*:}"
    echo "geometry $geometry, records of version $version"
    image="$folder/image.bin" cert="$folder/cert.bin"
    python3 "$top/bench/make_mounted.py" "$geometry" 4 "$image" "$cert" "$version"
    python3 "$top/bench/measure.py" "$repeats" "$image" "nandctl check" 1.15 "$(most_of_check "$geometry" "$cert")" \
        "$program" check "$geometry" 4 "$image" "$cert"
    # mount holds the image as well
    most=$(($(stat -c %s "$image") + 64 * 1048576))
    python3 "$top/bench/measure.py" "$repeats" "$image" "nandctl mount" 1.15 "$most" \
        "$program" mount "$geometry" 4 "$image" "$folder/made.bin"
    cmp "$cert" "$folder/made.bin"
done
geometry=4096,128,64,992,60000
python3 "$top/bench/make_mounted.py" "$geometry" 4 "$folder/image.bin" "$folder/cert.bin"
echo "an erased die, geometry $geometry"
tr '\0' '\377' < /dev/zero | head -c "$(stat -c %s "$folder/image.bin")" > "$folder/erased.bin"
python3 "$top/bench/measure.py" "$repeats" "$folder/erased.bin" --refused --mib-a-second 2048 \
    "nandctl check" 1.15 "$(most_of_check "$geometry" "$folder/cert.bin")" \
    "$program" check "$geometry" 4 "$folder/erased.bin" "$folder/cert.bin"
