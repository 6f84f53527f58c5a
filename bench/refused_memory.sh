#!/usr/bin/env bash
# Refuses each allocation of a run of the program in turn, and looks that the run then ends in its named refusal (nothing on
# standard output, or a beginning of what the whole run prints, `refused image 3 OutOfMemory` on standard error, status 1), or, where a vector
# made do with a smaller growth, as if nothing had been refused; and that no file is left beside another one. The program is PROGRAM, or the
# one that `rt run` in crates/nandctl builds. The Nth call of malloc or realloc is refused by a library that is loaded before the C library.
#
#     bench/refused_memory.sh WORD..       the program's words, in a folder with the files of nandctl's and nandlab's stored runs (default:
#                                          the words of nandctl's)
set -eu
top="$(cd "$(dirname "$0")/.." && pwd)"
program="${PROGRAM:-$top/crates/nandctl/out/nandctl}"
folder="$(mktemp -d)"
trap 'rm -rf "$folder"' EXIT
cat > "$folder/refuse.c" <<'C'
#define _GNU_SOURCE
#include <dlfcn.h>
#include <fcntl.h>
#include <stdlib.h>
#include <unistd.h>

static long left = -1;

/* Whether this call is the one to refuse. The file REFUSED then says that it came. */
static int is_refused(void) {
    if (left < 0) left = atol(getenv("REFUSE"));
    if (left == 0 || --left != 0) return 0;
    close(open(getenv("REFUSED"), O_CREAT | O_WRONLY, 0600));
    return 1;
}

void *malloc(size_t size) {
    static void *(*next)(size_t);
    if (!next) next = dlsym(RTLD_NEXT, "malloc");
    return is_refused() ? NULL : next(size);
}

void *realloc(void *old, size_t size) {
    static void *(*next)(void *, size_t);
    if (!next) next = dlsym(RTLD_NEXT, "realloc");
    return is_refused() ? NULL : next(old, size);
}
C
cc -shared -fPIC -O1 -o "$folder/refuse.so" "$folder/refuse.c" -ldl
cp "$top"/crates/nandlab/data/* "$folder"
cp "$top"/crates/nandctl/data/* "$folder"
if [ $# -eq 0 ]; then mapfile -t words < "$top/crates/nandctl/args"; else words=("$@"); fi
cd "$folder"
wanted=0
"$program" "${words[@]}" > wanted.out 2> wanted.err || wanted=$?
named=0
begun=0
for ((n = 1; ; n++)); do
    rm -f refused
    status=0
    REFUSE=$n REFUSED=refused LD_PRELOAD="$folder/refuse.so" "$program" "${words[@]}" > out 2> err || status=$?
    [ -e refused ] || break
    if [ "$status" -eq 1 ] && [ "$(cat err)" = "refused image 3 OutOfMemory" ] && head -c "$(stat -c %s out)" wanted.out | cmp -s - out; then
        named=$((named + 1))
        if [ -s out ]; then begun=$((begun + 1)); fi
    elif [ "$status" -ne "$wanted" ] || ! cmp -s out wanted.out || ! cmp -s err wanted.err; then
        echo "allocation $n refused: status $status, $(wc -c < out) bytes out, standard error: $(cat err)"
        exit 1
    fi
    if compgen -G ".*-part" > /dev/null; then
        echo "allocation $n refused: left $(echo .*-part)"
        exit 1
    fi
done
echo "$((n - 1)) allocations, each refused in turn: $named ended in \`refused image 3 OutOfMemory\`, $begun of them with a beginning of the output, $((n - 1 - named)) as if none had been refused"
