#!/bin/sh
# Runs the program over a folder with thousands of older files, with few handles to open them by.
#
#     bench/many_files.sh PROGRAM [COUNT]
#
# The folder holds COUNT (2000) files of version 3 without a marker, which the run replaces, and as many foreign ones,
# which it leaves. The program may have 64 files open. It must end with 0, and leave the foreign files byte by byte and
# one file of its own. Prints the seconds that the run took.
program=$1
count=${2-2000}
if [ ! -x "$program" ]; then
    echo "usage: bench/many_files.sh PROGRAM [COUNT]" >&2
    exit 2
fi

folder=$(mktemp -d) || exit 1
trap 'rm -rf "$folder"' EXIT
seq 1 "$count" | while read -r n; do
    printf 'SNSS\003\000\000\000' >"$folder/Session_$n"
    printf 'another program has file %s' "$n" >"$folder/Session_$((count + n))"
done
foreign() {
    (cd "$folder" && seq $((count + 1)) $((2 * count)) | sed 's/^/Session_/' | xargs cat | cksum)
}
before=$(foreign)

begun=$(date +%s.%N)
answer=$(ulimit -n 64 && printf 'tab 1 2\n' | "$program" run "$folder")
status=$?
ended=$(date +%s.%N)

fail() {
    echo "many_files: $1" >&2
    exit 1
}
[ "$status" = 0 ] || fail "the run ended with $status: $answer"
[ "$(foreign)" = "$before" ] || fail "a foreign file was changed"
left=$(find "$folder" -type f | wc -l)
[ "$left" = $((count + 1)) ] || fail "$left files are left, not $((count + 1))"
echo "$((2 * count)) files, 64 handles: $answer, $(echo "$ended - $begun" | bc) s"
