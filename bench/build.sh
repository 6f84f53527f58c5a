#!/usr/bin/env bash
# Builds a program, or the library for C, proved, and prints where it lies. One that was built of the same sources by the same kit is taken as it is.
#
#     bench/build.sh nandctl|nandlab|nanddisk
#     bench/build.sh ftl_c [x86_64|aarch64]
#     bench/build.sh --after-ci ftl_c     right after `rt ci` in this clone, with nothing edited since: over the libraries that it proved
#
# `rt ci` proves a static library, and builds none; and `rt lib` takes no library that `rt ci` left, but proves each below once more. So --after-ci calls the kit's `rattle build`, as `rt lib`
# does, over what stands in crates/*/out/rlib: the exports alone are proved a second time. Where one of these libraries is missing, or is of another command, it is `rt lib` after all.
#
# Beside what it built stands NAME.sum: the kit, and what was built. What was edited while it was built ends in a fault, so nobody takes it for what stands there.
set -euo pipefail
top=$(cd "$(dirname "$0")/.." && pwd)
after_ci=false
[ "${1:-}" != --after-ci ] || { after_ci=true; shift; }
name=${1:-}
target=${2:-x86_64}
folder=$top/crates/$name
made=$folder/out/$name
case $name:$target in
# `rt run` has no word for building alone, so a program is run once
nandctl:x86_64) words=(run -- sector "64,32,8,32,32" data/image.bin 5) ;;
nandlab:x86_64 | nanddisk:x86_64) words=(run -- --version) ;;
ftl_c:x86_64) words=(lib) ;;
ftl_c:aarch64) words=(lib --target aarch64-unknown-linux-gnu) ;;
*) echo "build.sh: nothing is built for $name $target" >&2; exit 2 ;;
esac
[ "$name" != ftl_c ] || made=$folder/out/$target/libftl_c.a
command -v rt >/dev/null || PATH="${RATTLE_KIT:-/opt/rattle}/bin:$PATH"

# the lines of crates.txt of the crate and of those that it stands on
crates() {
    awk -v crate="$name" '
        { sub(/#.*/, "") }
        split($0, side, ":") == 2 { split(side[1], word, " "); line[word[1]] = $0; below[word[1]] = side[2] }
        function see(it, each, count, at) {
            if (!(it in line) || it in seen) return
            seen[it]
            print line[it]
            count = split(below[it], each, " ")
            for (at = 1; at <= count; at++) see(each[at])
        }
        END { see(crate) }' "$top/crates.txt"
}

# a sum of the kit, these lines, and each source of these crates
sources() {
    {
        rt version
        echo "${RT_BACKEND:-}"
        crates
        crates | sed 's/[ :].*//' | while read -r crate; do
            (cd "$top/crates/$crate" && find . -name out -prune -o -type f \( -name '*.rt' -o -name '*.antt' \) -print0 | LC_ALL=C sort -z | xargs -0 sha256sum)
        done
    } | sha256sum
}

# whether all that stands below is as `rt ci` leaves it: built, and with no stamp of `rt lib`
is_of_ci() {
    local crate made
    for crate in $(crates | sed 's/[ :].*//'); do
        made=$top/crates/$crate/out/rlib
        [ "$crate" = "$name" ] || { [ -f "$made/$crate.rlib/format" ] && ! [ -e "$made/stamp" ]; } || return 1
    done
}

# proves the exports over these libraries, and builds the static library
build_over_them() {
    local kit crate words=()
    kit=$(dirname "$(rt doc)")
    for crate in $(crates | sed -n "s/^$name [^:]*://p"); do
        words+=(--extern "$crate=../$crate/out/rlib/$crate.rlib")
    done
    for crate in $(crates | sed 's/[ :].*//'); do
        [ "$crate" = "$name" ] || words+=(-L "dependency=../$crate/out/rlib")
    done
    "$kit/bin/rattle" build --crate-name "$name" src/lib.rt --extern "std=$kit/rlibs/std.rlib" -L "dependency=$kit/rlibs" "${words[@]}" \
        --antt-project "$kit/rattle/logic/antt-project.json" --logic-built "$kit/logic_built" --links "$name=" --crate-type staticlib \
        --toolchain "$kit/toolchain" --backend llvm -o "out/lib$name.a"
}

now=$(sources)
if ! [ "$(cat "$made.sum" 2>/dev/null)" = "$now $(sha256sum 2>/dev/null <"$made")" ]; then
    rm -f "$made.sum"
    mkdir -p "$folder/out"
    if $after_ci && [ "$name:$target" = ftl_c:x86_64 ] && is_of_ci; then
        (cd "$folder" && build_over_them) >&2
    else
        (cd "$folder" && rt "${words[@]}") >&2
    fi
    [ "$name" != ftl_c ] || install -D -m 644 "$folder/out/libftl_c.a" "$made"
    [ "$(sources)" = "$now" ] || { echo "build.sh: $name was edited while it was built" >&2; exit 1; }
    echo "$now $(sha256sum <"$made")" >"$made.sum"
fi
echo "$made"
