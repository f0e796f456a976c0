"""Programs that must not compile.

Each crates/NAME/must-not-compile/LABEL.edit has four lines:

    file: src/main.rt
    old: TEXT, standing once in that file
    new: TEXT in its place (\\n for a line break)
    error: the name that the compiler gives the error in brackets

Each edit is made in a copy of the crates in a folder for the time, and
`rt check --only ''`, which compiles a crate and proves nothing of it, must
refuse the crate there with that error and no other. The same command must take
the crate as it stands, or the refusal shows nothing.
"""

import re
import shutil
import subprocess
import sys
import tempfile
import time
from pathlib import Path

ROOT = Path(__file__).resolve().parent.parent
KEYS = ["file", "old", "new", "error"]
ERROR = re.compile(r"^(?P<file>.*?):(?P<at>\d+:\d+): error(\[(?P<name>[^\]]*)\])?", re.MULTILINE)


class Bad(Exception):
    """Why an edit is not refused as it should be."""


def copy_repository(place):
    """Copies the crates, without what rt made of them."""
    shutil.copy(ROOT / "crates.txt", place)
    shutil.copytree(ROOT / "crates", place / "crates", ignore=shutil.ignore_patterns("out"))


def compile_crate(crate):
    """Compiles a crate of the copy, proving no more than what it depends on."""
    return subprocess.run(
        ["rt", "check", "--only", ""],
        cwd=crate,
        stdin=subprocess.DEVNULL,
        stdout=subprocess.PIPE,
        stderr=subprocess.STDOUT,
        encoding="utf-8",
        errors="replace",
    )


def last_lines(done):
    """The end of what rt said, for a report."""
    return "\n".join(("    " + line)[:300] for line in done.stdout.splitlines()[-5:])


def read_edit(file):
    """The four parts of an edit."""
    if file.suffix != ".edit" or not file.is_file():
        raise Bad("only .edit files (and .md files to be read) belong here")
    parts = {}
    for line in file.read_text(encoding="utf-8").splitlines():
        key, colon, text = line.partition(":")
        if not colon or key not in KEYS or key in parts:
            raise Bad(f"a line is none of {', '.join(KEYS)}, or stands twice: {line}")
        parts[key] = text.removeprefix(" ")
    for key in KEYS:
        if key not in parts or (key != "new" and not parts[key]):
            raise Bad(f"it has no line '{key}:'")
    return parts


def edited(crate, parts):
    """The file of the crate that an edit changes, as it stands and as it is to be."""
    file = crate / parts["file"]
    if not parts["file"].startswith("src/") or ".." in file.parts or not file.is_file():
        raise Bad(f"{parts['file']} is no source of the crate")
    text = file.read_text(encoding="utf-8")
    if text.count(parts["old"]) != 1:
        raise Bad(f"the old text stands {text.count(parts['old'])} times in {parts['file']}")
    return file, text, text.replace(parts["old"], parts["new"].replace("\\n", "\n"))


def hold_to(done, parts):
    """Sees that rt refused the crate for the wanted error alone, in the edited file; gives the error's place."""
    if done.returncode == 0:
        raise Bad("NOT REFUSED: it compiles")
    errors = list(ERROR.finditer(done.stdout))
    if done.returncode != 1 or not errors:
        raise Bad(f"rt ended with {done.returncode} and named no error\n{last_lines(done)}")
    for error in errors:
        if error["name"] != parts["error"]:
            raise Bad(f"refused for another reason, {error['name']}, and not {parts['error']}\n{last_lines(done)}")
        if error["file"] != parts["file"]:
            raise Bad(f"the error is in {error['file']}\n{last_lines(done)}")
    return f"{parts['error']} at {errors[0]['file']}:{errors[0]['at']}"


def try_edit(crate, edit):
    """Tries one edit in the copy, and takes it back; gives the error and its place."""
    parts = read_edit(edit)
    file, text, turned = edited(crate, parts)
    file.write_text(turned, encoding="utf-8")
    try:
        return hold_to(compile_crate(crate), parts)
    finally:
        file.write_text(text, encoding="utf-8")


def try_crate(crate, files):
    """Tries all edits of a crate of the copy; gives how many are refused as they should be."""
    name = crate.name
    unedited = compile_crate(crate)
    if unedited.returncode != 0:
        print(f"must not compile {name}: the crate as it stands is refused\n{last_lines(unedited)}")
        return 0
    refused = 0
    for file in files:
        began = time.monotonic()
        try:
            said = "refused, as it must be: " + try_edit(crate, file)
            refused += 1
        except Bad as bad:
            said = f"FAILED: {bad}"
        print(f"must not compile {name}/{file.stem}: {said} ({time.monotonic() - began:.1f} s)", flush=True)
    return refused


def main():
    """Tries all edits of the repository."""
    edits = {}
    for file in sorted(ROOT.glob("crates/*/must-not-compile/*")):
        if file.suffix != ".md":
            edits.setdefault(file.parent.parent.name, []).append(file)
    if not edits:
        print("must not compile: there are no edits")
        return 1
    with tempfile.TemporaryDirectory() as folder:
        place = Path(folder)
        copy_repository(place)
        refused = sum(try_crate(place / "crates" / name, files) for name, files in edits.items())
    failed = sum(len(files) for files in edits.values()) - refused
    if failed:
        print(f"must not compile: {refused} refused as expected, {failed} FAILED")
        return 1
    print(f"must not compile: {refused} refused as expected")
    return 0


if __name__ == "__main__":
    sys.exit(main())
