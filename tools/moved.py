#!/usr/bin/env python3
"""What moved and what stayed between two commits, as tables for docs/LANDINGS.md.

    moved.py OLD [NEW]      NEW is HEAD where it is not given

Counted are files and lines under crates/, blank lines and imports (use, ghost use) left out, of four kinds: definitions (the trusted files, by
docs/PROMISES.md of each commit or by their own head), contracts (requires and ensures in src/), proofs (all other files of specs/ and proofs/) and code (the
rest of src/); and must-fail edits. A renamed file is followed, by git's judgement. 'Elsewhere' are lines that are gone from one file and stand in another of
the same kind.
"""
import difflib
import io
import os
import re
import subprocess
import sys
import tarfile
from collections import Counter, defaultdict

KINDS = ["definitions", "contracts", "proofs", "code", "edits"]


def git(*words):
    return subprocess.run(["git", *words], check=True, stdout=subprocess.PIPE).stdout


def tree(commit):
    """The text of each file under crates/ that counts, and which are trusted."""
    files = {}
    with tarfile.open(fileobj=io.BytesIO(git("archive", commit, "crates"))) as archive:
        for member in archive:
            if member.isfile() and member.name.endswith((".rt", ".antt", ".edit")):
                files[member.name] = archive.extractfile(member).read().decode()
    promises = git("show", f"{commit}:docs/PROMISES.md")
    listed = subprocess.run(["tools/trusted.sh"], input=promises, check=True, stdout=subprocess.PIPE).stdout
    return files, set(listed.decode().split()) | {path for path, text in files.items() if says_trusted(path, text)}


def says_trusted(path, text):
    """Whether the comment at the head of a file of specs/ says that it is trusted."""
    head = re.match(r"(--.*\n)*", text).group()
    return "/specs/" in path and not path.endswith("/Lib.antt") and "Trusted:" in head


def split(path, text, trusted):
    """The lines of a file by kind."""
    lines = [line for line in text.splitlines() if line.strip() and not re.match(r"(ghost )?use ", line)]
    if path.endswith(".edit"):
        return {"edits": lines}
    if path.endswith(".antt"):
        return {"definitions" if path in trusted else "proofs": lines}
    parts = {"contracts": [], "code": []}
    depth = 0
    for line in lines:
        in_clause = depth > 0 or re.match(r"\s*(requires|ensures)\b", line)
        parts["contracts" if in_clause else "code"].append(line)
        depth = depth + line.count("{") - line.count("}") if in_clause else 0
    return parts


def renamed(old, new):
    """New path of each file that has another, by old path."""
    pairs = {}
    for line in git("diff", "--name-status", "-M40%", "-l0", old, new, "--", "crates").decode().splitlines():
        status, *paths = line.split("\t")
        if status.startswith("R"):
            pairs[paths[0]] = paths[1]
    return pairs


def differ(old, new):
    """Lines that are the same, those gone and those added."""
    if old == new:
        return len(old), [], []
    gone, added, same = [], [], 0
    for tag, a, b, c, d in difflib.SequenceMatcher(None, old, new, autojunk=False).get_opcodes():
        if tag == "equal":
            same += b - a
        else:
            gone += old[a:b]
            added += new[c:d]
    return same, gone, added


def main():
    if len(sys.argv) not in (2, 3):
        sys.exit(__doc__)
    old, new = sys.argv[1], (sys.argv + ["HEAD"])[2]
    top = git("rev-parse", "--show-toplevel").decode().strip()
    os.chdir(top)
    (before, trusted_before), (after, trusted_after) = tree(old), tree(new)
    to = renamed(old, new)
    pairs = [(path, to.get(path, path)) for path in before if to.get(path, path) in after]
    pairs += [(path, None) for path in before if to.get(path, path) not in after]
    paired = {path for _, path in pairs}
    pairs += [(None, path) for path in after if path not in paired]

    files = defaultdict(Counter)  # (crate, kind) -> same, renamed, changed, new, gone
    lines = defaultdict(Counter)  # (crate, kind) -> same, gone, added
    gone, added = defaultdict(Counter), defaultdict(Counter)  # kind -> the lines
    for was, now in pairs:
        crate = (now or was).split("/")[1]
        one = split(was, before[was], trusted_before) if was else {}
        other = split(now, after[now], trusted_after) if now else {}
        for kind in KINDS:
            if not one.get(kind) and not other.get(kind):
                continue
            same, out, into = differ(one.get(kind, []), other.get(kind, []))
            lines[crate, kind].update(same=same, gone=len(out), added=len(into))
            gone[kind].update(out)
            added[kind].update(into)
            if kind not in one or not one[kind]:
                fate = "new"
            elif kind not in other or not other[kind]:
                fate = "gone"
            elif out or into:
                fate = "changed"
            else:
                fate = "same" if was == now else "renamed"
            files[crate, kind][fate] += 1

    print(f"{git('rev-parse', '--short', old).decode().strip()} to {git('rev-parse', '--short', new).decode().strip()}, by kind:\n")
    print("| Kind | Files the same | Renamed | Changed | New | Gone | Lines the same | Gone | of them elsewhere | Added |")
    print("|---|---|---|---|---|---|---|---|---|---|")
    for kind in KINDS:
        f = sum((files[key] for key in files if key[1] == kind), Counter())
        n = sum((lines[key] for key in lines if key[1] == kind), Counter())
        elsewhere = sum((gone[kind] & added[kind]).values())
        fates = " | ".join(str(f[fate]) for fate in ("same", "renamed", "changed", "new", "gone"))
        print(f"| {kind} | {fates} | {n['same']} | {n['gone']} | {elsewhere} | {n['added']} |")
    print("\nBy crate, what changed (lines the same, gone, added):\n")
    print("| Crate | " + " | ".join(kind.capitalize() for kind in KINDS) + " |")
    print("|---" * (1 + len(KINDS)) + "|")
    stayed = []
    for crate in sorted({crate for crate, _ in files}):
        cells = []
        for kind in KINDS:
            n = lines.get((crate, kind))
            if n is None:
                cells.append("")
            elif n["gone"] or n["added"]:
                cells.append(f"{n['same']}, −{n['gone']}, +{n['added']}")
            else:
                cells.append("same" if set(files[crate, kind]) == {"same"} else "renamed")
        if any(cell not in ("", "same") for cell in cells):
            print(f"| `{crate}` | " + " | ".join(cells) + " |")
        else:
            stayed.append(f"`{crate}`")
    print("\nUnchanged: " + (", ".join(stayed) or "none") + ".")


if __name__ == "__main__":
    main()
