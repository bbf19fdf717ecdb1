#!/usr/bin/env bash
# Runs the proved program bench with the words `menu time`: it takes 10 and 40 tokens of nested relative clauses, of verb phrases
# with `and`, and of `a part of a part of ..`, with 5,000 words in the lexicon, and 40 tokens by grammars of a few rules that give
# them millions of derivations. It says how many microseconds of processor time the last token and the menu after it took, and how
# much memory it has had at most, first before any chart.
# Then Marpa::R2 (Debian's package `libmarpa-r2-perl`) takes the 40 tokens of relative clauses by the rules of the same grammar
# without features, references, scopes and positions (marpa.pl). It knows no words, only their kinds, and so its menu has no words.
set -eu
root="$(cd "$(dirname "${BASH_SOURCE[0]}")/.." && pwd)"
program="$("$root/bench/program" bench)"
"$program" menu time
perl -MMarpa::R2 -e 1 2>/dev/null || { echo "menu.sh: Marpa::R2 is missing (Debian's libmarpa-r2-perl has it)"; exit 0; }
work="$(mktemp -d)"
trap 'rm -rf "$work"' EXIT
python3 - "$root/grammars/english.codeco" >"$work/rules" <<'PY'
import re, sys

with open(sys.argv[1], encoding="utf-8") as file:
    text = file.read()
for plain in [r"%.*", r"(?m)^feature [^.]*\.", r"\{\w+\}", r"\([^()]*\)"]:
    text = re.sub(plain, "", text)
text = re.sub(r"#\w+|//|>>? *\w+|/?<(\s*[+-]\w+)+", "", re.sub("-->|~~>", "=", text))
for rule in re.split(r"\.(?=\s)", text):
    print(*rule.split())
PY
again=' [that] $verb [something]'
tokens='$name $verb [something]'
for _ in {1..12}; do tokens+="$again"; done
for _ in 1 2 3; do perl "$root/bench/marpa.pl" "$work/rules" "$tokens [that]"; done
