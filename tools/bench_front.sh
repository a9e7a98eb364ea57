#!/usr/bin/env bash
# The processor time of the compiler on sources of the worst shapes that the limits allow, each beside the smallest source, in one run.
# None of them is a sum, so each is read to its end and then refused, by rule 37 or by its first fault.
set -u
root=$(cd "$(dirname "${BASH_SOURCE[0]}")/.." && pwd)
command -v python3 >/dev/null || { echo "bench: python3 is not there, skipped"; exit 0; }
work=$(mktemp -d)
trap 'rm -rf "$work"' EXIT
python3 - "$work" <<'PY'
import sys
work = sys.argv[1]
def put(name, text):
    open(f"{work}/{name}.c", "w").write(text)
put("smallest", "int f(void){return 7;}")
put("nesting", "int f(int a){" + "".join("return " + "(" * 60 + "a" + ")" * 60 + ";" for _ in range(130)) + "}")
put("tokens", "int f(int a){" + "a=a;" * 4080 + "}")
put("operators", "int f(int a){" + "".join("a=" + "a+" * 255 + "a;" for _ in range(30)) + "}")
put("comments", "int f(int a){return a;}" + "/*" + "*" * 65000 + "*/")
put("blanks", "int f(int a){return a;}" + " \n" * 32000)
put("names", "int f(int a){" + "".join(f"int {'x' * 56}{i:04d};" for i in range(980)) + "}")
chain = "#define m0 a\n" + "".join(f"#define m{i} m{i-1} + m{i-1}\n" for i in range(1, 13))
put("doubling", chain + "int f(int a){return m12;}")
ladder = "#define n0 a\n" + "".join(f"#define n{i} n{i-1}\n" for i in range(1, 256))
put("ladder", ladder + "int f(int a){" + "n255;" * 255 + "}")
put("empty", "#define e\n#define d " + "e " * 200 + "\nint f(int a){" + "d " * 320 + "}")
put("brackets", "int f(int a){return " + "(" * 16000 + "a")
put("choices", "int f(int a){return " + "(" * 3000 + "a" + "?a:a)" * 2600 + ";}")
long = [f"{'x' * 60}{i:04d}" for i in range(990)]
short = [f"z{i}" for i in range(8000)]
put("objects", "int f(void){int " + ",".join(short) + ";return 1;}")
put("long_names", "int " + ",".join(long) + ";int f(void){return 1;}")
put("labels", "int f(int a){switch(a){" + "".join(f"case {i}:;" for i in range(4000)) + "}return a;}")
put("calls", "int z0(void){return 1;}" + "".join(f"int {short[i]}(void){{" + f"{short[i - 1]}();" * 62 + "return 1;}" for i in range(1, 63)) + "int f(void){return z1();}")
put("arguments", "int f(int a){f(" + "a," * 7900 + "a);return 1;}")
put("changes", "int f(int a){f(" + "a++," * 5000 + "a);return 1;}")
put("subscripts", "int f(int a[1]){return a" + "[a[0]]" * 2700 + ";}")
PY
"$root/hls" >/dev/null || true
program=$root/crates/hls/out/hls
[ -x "$program" ] || { echo "bench: the program was not built" >&2; exit 1; }
TIMEFORMAT='%U %S'
for source in smallest nesting tokens operators comments blanks names doubling ladder empty brackets choices \
    objects long_names labels calls arguments changes subscripts; do
    used=$({ time "$program" synth "$work/$source.c" "$work/m.v" "$work/m.rep" --top f >"$work/line"; } 2>&1)
    read -r user system <<<"$used"
    printf '%-10s %7d bytes  %5d ms  %s\n' "$source" "$(stat -c %s "$work/$source.c")" $((10#${user/./} + 10#${system/./})) "$(cat "$work/line")"
done
