"""Counts of the places that docs/DESIGN-PASS.md is about, in the code of a commit.

    python3 tools/design_counts.py [COMMIT] [--list NAME]

Without a commit: in the working tree. Each line has a name, the number of lines of crates/*/src in which its pattern stands,
comments and clauses left out, and the pattern. With --list the lines themselves are printed.
"""

import collections
import itertools
import pathlib
import re
import subprocess
import sys

PATTERNS = [
    ("1 enums", r"^\s*(pub |pub\(crate\) )?enum "),
    ("1 refusals as two numbers", r"\b(Refused|Fault|refusal|refuse|no_result|no_number)\((\w*u32|number|n|total|wide|[0-9]+)\b"),
    ("1 numbers of answers", r"\bnumber: (0|u32|u64|number|answer)"),
    ("1 flags in structs", r"^\s*(pub )?(\w+): bool,$"),
    ("2 conversions and halves by hand", r"\bfn (wide|upper|lower|pack|unpack|no_pick|one_if|or_else|room)\("),
    ("3 loops with a test", r"^\s*('\w+: )?(while|loop)\b"),
    ("3 for loops", r"^\s*for\b"),
    ("3 chains and methods in place of loops",
     r"\.(any|all|position|rposition|find|filter|fold|sum|count|fill|copy_from_slice|starts_with|map)\("),
    ("4 casts", r" as (u8|u16|u32|u64|usize)\b"),
    ("4 printing by hand", r"\bio::(write_all|print_decimal|decimal|read_full)\b"),
    ("4 comparisons by hand", r"\bfn (same_\w+|marked)\("),
    ("4 derives", r"derive\("),
    ("5 impl blocks", r"^\s*impl\b"),
    ("6 bundles of arrays", r"\[\[\w+; [0-9]+\]; [0-9]+\]"),
    ("6 rows of bundles named by constants", r"\w+\[[A-Z_]+\]\["),
    ("7 switches as parameters", r"\b(left|right|counted|recorded): bool,?"),
]


def sources(commit):
    if commit is None:
        for path in sorted(pathlib.Path("crates").glob("*/src/*.rt")):
            yield str(path), path.read_text()
        return
    names = subprocess.run(["git", "ls-tree", "-r", "--name-only", commit, "crates"], capture_output=True, text=True, check=True)
    for name in names.stdout.split():
        if name.endswith(".rt"):
            shown = subprocess.run(["git", "show", f"{commit}:{name}"], capture_output=True, text=True, check=True)
            yield name, shown.stdout


def code_lines(text):
    """The lines that are neither comments nor clauses nor imports of ghosts, numbered."""
    depth = 0
    for number, line in enumerate(text.split("\n"), 1):
        bare = line.strip()
        if depth == 0 and (bare.startswith("//") or bare.startswith("ghost ")):
            continue
        if depth or re.match(r"(requires|ensures)\b", bare):
            depth += line.count("{") - line.count("}")
            continue
        yield number, line


def parameters(text):
    for match in re.finditer(r"\bfn \w+(?:<[^>]*>)?\(([^)]*)\)", text):
        yield [p.split(":")[0].replace("mut ", "").strip(" &") for p in match.group(1).split(",") if p.strip()]


def main():
    arguments = sys.argv[1:]
    listed = None
    if "--list" in arguments:
        at = arguments.index("--list")
        listed = arguments[at + 1]
        del arguments[at : at + 2]
    commit = arguments[0] if arguments else None
    files = list(sources(commit))
    for name, pattern in PATTERNS:
        found = [(f, n, line) for f, text in files for n, line in code_lines(text) if re.search(pattern, line)]
        print(f"{name:42} {len(found):4}  {pattern}")
        if listed and listed in name:
            for f, n, line in found:
                print(f"    {f}:{n}: {line.strip()}")
    together = collections.Counter()
    all_parameters = [p for _, text in files for p in parameters(text)]
    for names in all_parameters:
        together.update(itertools.combinations(sorted(set(names) - {"self"}), 3))
    print(f"{'functions':42} {len(all_parameters):4}")
    print(f"{'5 functions of 7 or more parameters':42} {sum(len(p) > 6 for p in all_parameters):4}")
    print(f"{'5 threes of parameters in 8 or more':42} {sum(k > 7 for k in together.values()):4}")
    if listed and listed in "threes":
        for names, k in together.most_common(40):
            print(f"    {k:3} {' '.join(names)}")


if __name__ == "__main__":
    main()
