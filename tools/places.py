"""Counts the places that docs/DESIGN-PASS.md speaks of, in crates/*/src at a commit.

    python3 tools/places.py [--list] [COMMIT]

For each of the page's points, lines that the point's patterns find; a line that two
patterns of a point find counts once. Without a commit, the files as they are.
A pattern finds where to look, so some of the lines it finds are no place: the page says which.
"""

import re
import subprocess
import sys
from pathlib import Path

ROOT = Path(__file__).resolve().parent.parent

# Point, what is looked for, and the patterns.
POINTS = [
    (
        1,
        "own enums, numbers as errors, numbers for kinds and refusals, 0 for nothing",
        [
            r"\benum \w+",
            r"Result<[^=]*, (u8|u16|u32|usize)>",
            r"\b[Kk][Ii][Nn][Dd]\w*(\(\S*\))?( ->|:) u8|\(u8, u32\)",
            r"fn number\(self\)|Err\(\w+\) =>",
            r"=> 0\b|else \{ 0 \}|return 0;",
        ],
    ),
    (2, "functions whose text is one but for names, types and numbers", []),
    (
        3,
        "loops that count, and elements taken one by one",
        [
            r"^\s*(while|loop)\b",
            r"^\s*for .* in .*\.\.",
            r"\w\[[^\]]*[0-9]\](\.\w+\([^)]*\))?, \w+\[[^\]]*[0-9]\]",
        ],
    ),
    (
        4,
        "equality, order, copies, conversion and printing by hand",
        [
            r"fn \w+\(self\) -> (u8|u32|usize|&'static str)",
            r"impl(<.*>)? (\w+::)*(PartialEq|Eq|Ord|PartialOrd|Clone|Copy|Debug) for",
            r"\{[^}]*:02x\}|refused \{\} at|-> anyhow::Error",
            r"fn \w+\((line|first|word): &str|fn print_\w+",
            r"\w+\.(kind|root|count)\(\) [=!<>]=? \w+\.(kind|root|count)\(\)",
        ],
    ),
    (5, "clauses that stand three times, clauses wider than 100 columns, pairs of parameters in three functions", []),
    (
        6,
        "a buffer with a length beside it, an arena of indices",
        [
            r"^\s+(pub )?(held|used|end|at|len|length): (usize|&'\w+ mut usize),",
            r"\[(0)?\.\.\w*length\]",
            r"(Vec<|\[)Option<usize>|\[\[0; 32\]; 64\]",
        ],
    ),
    (7, "switches on a value, tables of functions", [r"match \w+ \{", r"\bdyn |: fn\("]),
]


def git(*words):
    """What git prints."""
    return subprocess.run(["git", *words], cwd=ROOT, check=True, capture_output=True, text=True).stdout


def files(commit):
    """Path and text of each source file."""
    if commit is None:
        for path in sorted(ROOT.glob("crates/*/src/**/*.rt")):
            yield str(path.relative_to(ROOT)), path.read_text()
        return
    for path in git("ls-tree", "-r", "--name-only", commit, "crates").split():
        if re.fullmatch(r"crates/[^/]+/src/.*\.rt", path):
            yield path, git("show", f"{commit}:{path}")


def functions(text):
    """Line, signature with clauses, and body of each function that has one."""
    lines = text.splitlines()
    for at, line in enumerate(lines):
        head = re.match(r"(\s*)(pub(\(crate\))? )?(const |final )?fn \w+", line)
        if not head:
            continue
        indent = head.group(1)
        opens = next((k for k in range(at, len(lines)) if lines[k].endswith((";", "{", "{}"))), None)
        if opens is None or not lines[opens].endswith("{"):
            continue
        end = next((k for k in range(opens, len(lines)) if lines[k] == indent + "}"), len(lines) - 1)
        yield at + 1, lines[at : opens + 1], lines[opens + 1 : end]


def shape(lines):
    """The text with a letter for each name, number and string."""
    text = " ".join(line for line in lines if not line.strip().startswith("//"))
    return re.findall(r"[A-Za-z]\w*(?=!?)|\d\w*|\"[^\"]*\"|\S", text)


def plain(word):
    if word in ("for", "in", "if", "else", "match", "return", "while", "let", "mut", "self", "Some", "None", "Ok", "Err"):
        return word
    if re.match(r"[A-Za-z]", word):
        return "x"
    return "0" if word[0].isdigit() else '""' if word[0] == '"' else word


def twins(sources):
    """Functions whose bodies have one shape, of ten words or more."""
    groups = {}
    for path, text in sources:
        for at, head, body in functions(text):
            form = tuple(plain(word) for word in shape(body))
            if len(form) >= 10:
                groups.setdefault(form, []).append((path, at, head[0]))
    for group in groups.values():
        if len(group) > 1:
            yield from group


def clauses(sources):
    """Lines of clauses that stand three times or more, or are too wide, and functions that share a pair of parameters with two others."""
    seen, pairs = {}, {}
    for path, text in sources:
        for at, line in enumerate(text.splitlines(), 1):
            if re.match(r"\s*(requires|ensures)\b", line):
                seen.setdefault(line.strip(), []).append((path, at, line))
        for at, head, _ in functions(text):
            names = re.findall(r"(\w+: [^,()]+)[,)]", " ".join(line.strip() for line in head if not re.match(r"\s*(requires|ensures)", line)))
            for pair in {(a, b) for k, a in enumerate(names) for b in names[k + 1 :]}:
                pairs.setdefault(pair, []).append((path, at, head[0]))
    places = {(path, at): (path, at, line) for where in seen.values() for path, at, line in where if len(where) >= 3 or len(line) > 100}
    places.update({(path, at): (path, at, line) for where in pairs.values() if len(where) >= 3 for path, at, line in where})
    yield from places.values()


def found(sources, patterns):
    pattern = re.compile("|".join(patterns))
    for path, text in sources:
        for at, line in enumerate(text.splitlines(), 1):
            if not line.strip().startswith("//") and pattern.search(line):
                yield path, at, line


def main(words):
    show = "--list" in words
    words = [word for word in words if word != "--list"]
    sources = list(files(words[0] if words else None))
    for point, name, patterns in POINTS:
        lines = list(found(sources, patterns) if patterns else twins(sources) if point == 2 else clauses(sources))
        print(f"{point}: {len(lines)} lines: {name}")
        if show:
            for path, at, line in lines:
                print(f"    {path}:{at}: {line.strip()[:110]}")


main(sys.argv[1:])
