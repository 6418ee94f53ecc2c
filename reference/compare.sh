#!/bin/sh
# Compares a program with listing.c on generated scenario files: standard output and exit status.
#
#     compare.sh PROGRAM COUNT SEED [--no-script]
#
# The status is 0 if all files agree, 1 if any differ, 2 if the comparison could not be made.
# CC names the C compiler, PYTHON the Python 3.

usage() {
    echo "usage: compare.sh PROGRAM COUNT SEED [--no-script]" >&2
    exit 2
}

if [ $# -lt 3 ] || [ $# -gt 4 ]; then usage; fi
if [ $# -eq 4 ] && [ "$4" != --no-script ]; then usage; fi
program=$1
count=$2
seed=$3
option=${4:-}
here=$(dirname "$0")

if ! command -v "$program" >/dev/null; then
    echo "compare.sh: no program $program" >&2
    exit 2
fi
work=$(mktemp -d) || exit 2
trap 'rm -rf "$work"' EXIT
trap 'exit 2' HUP INT TERM

"${CC:-cc}" -std=c11 -O2 -o "$work/listing" "$here/listing.c" || exit 2
"${PYTHON:-python3}" "$here/generate.py" ${option:+"$option"} "$work/files" "$count" "$seed" || exit 2

files=0
differ=0
for file in "$work"/files/*.txt; do
    [ -e "$file" ] || continue
    files=$((files + 1))
    "$work/listing" <"$file" >"$work/expected" 2>/dev/null
    expected=$?
    "$program" <"$file" >"$work/actual" 2>/dev/null
    actual=$?
    if [ $expected -ne $actual ] || ! cmp -s "$work/expected" "$work/actual"; then
        differ=$((differ + 1))
        if [ $differ -le 5 ]; then
            echo "$(basename "$file"): status $expected here, $actual there; first lines that differ:"
            diff "$work/expected" "$work/actual" | head -n 4
        fi
    fi
done

if [ $differ -gt 0 ]; then
    echo "generate.py ${option:+$option }DIR $count $seed writes these files again"
fi
echo "$files files, $differ differ"
[ $differ -eq 0 ]
