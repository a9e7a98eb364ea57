#!/usr/bin/env bash
# Runs the programs of a folder by their meaning, and compares results, arrays, undefined places and counts of points with the known ones: corpus_check.sh FOLDER. With the word `speed` it takes the time of a loop of a million points in a built program.
set -u
root=$(cd "$(dirname "${BASH_SOURCE[0]}")/.." && pwd)
for tool in rt python3; do
    command -v "$tool" >/dev/null || { echo "corpus check: $tool is not there, skipped"; exit 0; }
done
folder=${1:-}
[ "$folder" = speed ] || [ -d "$folder" ] || { echo "corpus check: no folder of programs, skipped"; exit 0; }
work=$(mktemp -d)
trap 'rm -rf "$work"' EXIT

# A repository of its own: the crates below, and a program that reads a case and runs it.
mkdir -p "$work/crates/corpus_probe"/{src,specs,proofs}
for crate in hls_base c_token c_lexer c_macro c_tree c_syntax c_parser c_value pieces c_meaning c_names c_calls c_types c_machine c_moves c_interpreter; do
    mkdir "$work/crates/$crate"
    cp -r "$root/crates/$crate/src" "$root/crates/$crate/specs" "$root/crates/$crate/proofs" "$work/crates/$crate/"
    grep "^$crate:" "$root/crates.txt" >>"$work/crates.txt"
done
echo "corpus_probe: hls_base c_token c_lexer c_macro c_tree c_parser c_value c_meaning c_types c_interpreter" >>"$work/crates.txt"
touch "$work/crates/corpus_probe"/{specs,proofs}/Lib.antt
cp "$root/tools/corpus/run.txt" "$work/crates/corpus_probe/src/main.rt"
cd "$work/crates/corpus_probe" || exit 1

if [ "$folder" = speed ]; then
    { echo f; echo 2000000; echo 'int f(int n,int a[64]){int s=0; for(int i=0;i<n;i++) s=s+a[i&63]; return s;}'; echo '=== run'; echo 'n = 333332'; printf 'a ='; for ((i = 0; i < 64; i++)); do printf ' 1'; done; echo; } >"$work/case"
    rt run <"$work/case" >"$work/first" 2>&1
    time out/corpus_probe <"$work/case"
    exit
fi

mkdir "$work/cases"
python3 "$root/tools/corpus/cases.py" make "$folder" "$work/cases"
rt try --cases "$work/cases" >"$work/answers" 2>&1
python3 "$root/tools/corpus/cases.py" compare "$folder" "$work/answers" || { echo "corpus check: FAILED"; exit 1; }
