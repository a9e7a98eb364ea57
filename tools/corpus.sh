#!/usr/bin/env bash
# Runs the compiler over a folder of cases with known answers, and prints what differs:
# FOLDER/rNNN.c with FOLDER/rNNN.line, which has the top function's name and the line that `synth` puts.
# HLS names the program, else it is ./hls.
# Only the rules that are given behind the folder are compared; without them all are.
set -u
[ $# -ge 1 ] || { echo "usage: tools/corpus.sh FOLDER [RULE ..]" >&2; exit 2; }
root=$(cd "$(dirname "${BASH_SOURCE[0]}")/.." && pwd)
folder=$1; shift
rules=" $* "
export HLS_PLAIN=1
work=$(mktemp -d)
trap 'rm -rf "$work"' EXIT
same=0; differ=0; left=0
for source in "$folder"/r*.c; do
    read -r top line <"${source%.c}.line"
    rule=$(echo "$line" | cut -d' ' -f2)
    if [ "$rules" != "  " ] && [[ "$rules" != *" $rule "* ]]; then left=$((left + 1)); continue; fi
    found=$("${HLS:-$root/hls}" synth "$source" "$work/m.v" "$work/m.rep" --top "$top")
    if [ "$found" = "$line" ]; then same=$((same + 1)); else differ=$((differ + 1)); echo "$(basename "$source"): $line, found: $found"; fi
done
echo "corpus: $same same, $differ differ, $left left out"
[ "$differ" = 0 ]
