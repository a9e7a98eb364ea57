#!/usr/bin/env bash
# Reads the modules and the reports of a folder of cases, and compares what the readers answer with what each case says. FOLDER/modules has NAME.v and FOLDER/reports NAME.rep, each beside NAME.line: `design` or `report`, or the rule and the place of the first fault.
set -u
root=$(cd "$(dirname "${BASH_SOURCE[0]}")/.." && pwd)
[ $# -eq 1 ] || { echo "usage: corpus_texts.sh FOLDER"; exit 2; }
[ -d "$1" ] || { echo "corpus of texts: $1 is not there, skipped"; exit 0; }
folder=$(cd "$1" && pwd)
command -v rt >/dev/null || { echo "corpus of texts: rt is not there, skipped"; exit 0; }
work=$(mktemp -d)
trap 'rm -rf "$work"' EXIT

# A repository of its own: the crates below, and a program that reads texts.
mkdir -p "$work/crates/corpus_texts"/{src,specs,proofs}
for crate in hls_base ir_core rtl_core verilog_print verilog_syntax verilog_read cycle_report; do
    mkdir "$work/crates/$crate"
    cp -r "$root/crates/$crate/src" "$root/crates/$crate/specs" "$root/crates/$crate/proofs" "$work/crates/$crate/"
    grep "^$crate:" "$root/crates.txt" >>"$work/crates.txt"
done
echo "corpus_texts: hls_base verilog_read cycle_report" >>"$work/crates.txt"
touch "$work/crates/corpus_texts"/{specs,proofs}/Lib.antt
cp "$root/tools/corpus/texts.txt" "$work/crates/corpus_texts/src/main.rt"
(cd "$work/crates/corpus_texts" && rt run) >"$work/log" 2>&1
program=$work/crates/corpus_texts/out/corpus_texts
[ -x "$program" ] || { cat "$work/log"; echo "corpus of texts: the program is not built, FAILED"; exit 1; }

# Compares the answers on the files of one sort, which end in this, with the lines beside them.
failed=0
compare() {
    local sort=$1 end=$2 files=("$folder/$1"/*."$2")
    [ -e "${files[0]}" ] || { echo "corpus of texts: no $sort in $folder, skipped"; return; }
    "$program" "$sort" "${files[@]}" >"$work/ours" || { echo "corpus of texts: $sort FAILED"; failed=1; return; }
    local wrong=0 i=0 ours theirs
    while read -r ours; do
        theirs=$(<"${files[i]%."$end"}.line")
        if [ "$ours" != "$theirs" ]; then
            echo "$(basename "${files[i]}"): $ours, and the case says $theirs"
            wrong=$((wrong + 1))
        fi
        i=$((i + 1))
    done <"$work/ours"
    echo "corpus of texts: $((i - wrong)) of ${#files[@]} $sort agree"
    { [ "$wrong" -eq 0 ] && [ "$i" -eq "${#files[@]}" ]; } || failed=1
}
compare modules v
compare reports rep
exit $failed
