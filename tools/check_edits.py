#!/usr/bin/env python3
"""tools/check_edits.py [CRATE..]: reads the edits crates/NAME/must-fail/*.edit as `rt` reads them, and says of each `old:` text whether it stands
exactly once in its file, the earlier pairs of the edit done. Lists those that do not, with the lines of the file that are nearest. It proves
nothing: whether an edit is refused, `rt must-fail` and `rt ci` say. Last line: `N passed, M failed`."""
import difflib
import pathlib
import re
import sys

ROOT = pathlib.Path(__file__).resolve().parent.parent
WORDS = re.compile(r"\W+")


def pairs_of(text):
    """The pairs of an edit as (path, old, new), and what is wrong with its form."""
    path, old, pairs, wrong = "", None, [], []
    for line in text.split("\n"):
        if line.startswith("file: "):
            path = line[len("file: ") :].strip()
        elif line.startswith("old: "):
            old = line[len("old: ") :]
        elif line.startswith("new:"):
            if path and old:
                pairs.append((path, old, re.sub(r"\A ", "", line[len("new:") :])))
            else:
                wrong.append("  a 'new:' before its 'file:' or 'old:'")
            old = None
        elif line.strip() and not line.startswith(("#", "--", "//")):
            wrong.append(f"  a line that is not read: {line[:60]}")
    if old is not None:
        wrong.append("  an 'old:' without a 'new:'")
    if not pairs:
        wrong.append("  no pair")
    return pairs, wrong


def nearest(text, old):
    """The three lines of a text that are most like another one."""
    wanted = WORDS.sub(" ", old).strip()
    found = []
    for number, line in enumerate(text.split("\n"), 1):
        if line.strip():
            alike = difflib.SequenceMatcher(None, wanted, WORDS.sub(" ", line).strip(), autojunk=False).ratio()
            found.append((alike, f"    line {number}: {line}"))
    return [line for _, line in sorted(found, key=lambda it: -it[0])[:3]]


def faults(crate, edit):
    """What is wrong with an edit, nothing where it can be applied."""
    pairs, wrong = pairs_of(edit.read_text())
    texts = {}
    for path, old, new in pairs:
        file = crate / path
        if path not in texts and not file.is_file():
            wrong.append(f"  there is no file {path}")
            continue
        text = texts.setdefault(path, None) or file.read_text()
        if text.count(old) == 1 and old != new:
            text = text.replace(old, new)
        else:
            wrong.append(f"  {text.count(old)} times in {path}{', and unchanged' if old == new else ''}: {old}")
            wrong += nearest(text, old)
        texts[path] = text
    return wrong


def main(names):
    passed = failed = 0
    for edit in sorted((ROOT / "crates").glob("*/must-fail/*.edit")):
        crate = edit.parent.parent
        if names and crate.name not in names:
            continue
        wrong = faults(crate, edit)
        passed, failed = passed + (not wrong), failed + bool(wrong)
        if wrong:
            print(f"{crate.name}/{edit.name}:", *wrong, sep="\n")
    print(f"{passed} passed, {failed} failed")
    return 1 if failed or not passed else 0


if __name__ == "__main__":
    sys.exit(main(sys.argv[1:]))
