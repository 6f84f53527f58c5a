#!/usr/bin/env bash
# Checks images that have no end: `/dev/zero`, and a pipe into which something writes without end. Each has to be refused as
# `WrongLength` within a second of time and, for the geometry 64,32,8,32,32, with no more than 64 MiB of address space. The program is
# PROGRAM, or the one that `rt run` in crates/nandctl builds.
#
#     [PROGRAM=..] bench/endless.sh
set -eu
top="$(cd "$(dirname "$0")/.." && pwd)"
program="${PROGRAM:-$top/crates/nandctl/out/nandctl}"
folder="$(mktemp -d)"
trap 'rm -rf "$folder"' EXIT
geometry=64,32,8,32,32
# A mount needs a formatted image: the die that the program itself formats.
tr '\0' '\377' < /dev/zero | head -c 24576 > "$folder/fresh.bin"
"$program" format "$geometry" "$folder/fresh.bin" "$folder/image.bin" > "$folder/out"
"$program" mount "$geometry" 4 "$folder/image.bin" "$folder/cert.bin" > "$folder/out"
"$program" check "$geometry" 4 "$folder/image.bin" "$folder/cert.bin"
hold() {
    name="$1"
    shift
    status=0
    (ulimit -v 65536; exec timeout 1 "$program" check "$geometry" 4 "$1" "$folder/cert.bin") > "$folder/out" 2> "$folder/err" || status=$?
    if [ "$status" -ne 1 ] || [ -s "$folder/out" ] || [ "$(cat "$folder/err")" != "refused image 1 WrongLength" ]; then
        echo "$name: status $status, standard error: $(cat "$folder/err")"
        exit 1
    fi
    echo "$name: $(cat "$folder/err")"
}
hold "/dev/zero" /dev/zero
mkfifo "$folder/endless"
cat "$folder/image.bin" /dev/zero > "$folder/endless" &
writer=$!
hold "an image with an endless rest, by a pipe" "$folder/endless"
wait "$writer" 2> /dev/null || true
