#!/usr/bin/env python3
"""The tables of rules in the documents are those of tools/rules.txt.

    tools/language_rules.py --check   says where they differ
    tools/language_rules.py --write   writes them

A table stands between the lines `<!-- rules GROUP -->` and `<!-- end -->`.
"""
import pathlib
import re
import sys

from explain import ROOT, RULES

PAGES = [ROOT / "docs" / name for name in ("LANGUAGE.md", "CIRCUIT.md", "REPORT.md")]
MARKED = re.compile(r"(<!-- rules (\w+) -->\n)(.*?)(<!-- end -->)", re.S)


def rows(group):
    yield "| Rule | Name | Rejected | Place | Example |"
    yield "|---|---|---|---|---|"
    for key, block in RULES.items():
        if block.get("group") == group:
            yield f"| {key.split()[1]} | {block['name']} | {block['refused']} | {block['place']} | {block['example']} |"


def main(words):
    if words not in (["--check"], ["--write"]):
        sys.exit(__doc__)
    groups, wrong = {block["group"] for block in RULES.values() if "group" in block}, 0
    for page in PAGES:
        text = page.read_text()
        made = MARKED.sub(lambda m: m.group(1) + "\n".join(rows(m.group(2))) + "\n" + m.group(4), text)
        groups -= {m.group(2) for m in MARKED.finditer(text)}
        if made != text:
            wrong += 1
            if words == ["--write"]:
                page.write_text(made)
            else:
                print(f"{page.relative_to(ROOT)}: its rules are not those of tools/rules.txt")
    for group in sorted(groups):
        wrong += 1
        print(f"no page has the rules of {group}")
    sys.exit(1 if wrong and words == ["--check"] else 0)


main(sys.argv[1:])
