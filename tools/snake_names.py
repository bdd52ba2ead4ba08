#!/usr/bin/env python3
"""Brings the names of this repository's definitions and lemmas to snake case: usage: python3 tools/snake_names.py, at the top.

It was run once, after the kit's own port script: `taskAt` became `task_at`, and `rank-bit` became `rank_bit`. Types, variants and modules
keep their upper camel case. Words of the kit, functions of src/, strings, and names that the checker generates keep their spelling.
Two names that would fall together are told apart in APART. It reads which names are the repository's own from the signatures in
specs/ and proofs/, and running it again changes nothing.
"""

import os
import re

NAME = r"[A-Za-z_][A-Za-z0-9_'≡≢≤-]*"
SIGNATURE = re.compile(r"^\s*(?:pub |abbrev |unfoldable |\| )*(" + NAME + r") :")
TOKEN = re.compile(r"(?<![A-Za-z0-9_'≡≢≤-])" + NAME)
ALIAS = re.compile(r" as ([a-z]\w*[A-Z]\w*)")
LOCALS = ["in_List", "listed-j", "all-served", "all-ended", "holds-well"]
APART = {
    "pends-now": "pends_now_decides",
    "prompt-fits": "prompt_row_fits",
    "used-below": "used_below_rows",
    "items-bytes": "task_items_bytes",
    "goes_on": "turn_goes_on",
    "two_bytes": "two_bytes_back",
}


def snake(name):
    name = re.sub(r"(?<=[a-z0-9])_?([A-Z])", lambda m: "_" + m[1].lower(), name)
    return name.replace("-", "_").replace("′", "'")


def is_small(name):
    return not name[0].isupper()


def files(*endings):
    for folder, dirs, names in os.walk("crates"):
        dirs[:] = sorted(d for d in dirs if d != "out")
        for name in sorted(names):
            if name.endswith(endings):
                yield os.path.join(folder, name)


def in_answers(path):
    """Whether the file belongs to the proof of one function."""
    parts = path.split(os.sep)
    return parts[2] == "proofs" and len(parts) > 4


def own_names():
    found = set(LOCALS)
    for path in files(".antt", ".rt"):
        with open(path, encoding="utf-8") as f:
            for line in f:
                if ": goal." in line:
                    continue
                m = SIGNATURE.match(line.split("--")[0]) if path.endswith(".antt") else None
                found.update([m[1]] if m else [])
                if "use " in line:
                    found.update(ALIAS.findall(line))
    turned = {n for n in found if is_small(n) and snake(n) != n}
    return turned | {n for n in APART if n in found and n in map(snake, turned)}


def renamed(path, text, own):
    """The text of one stretch outside comments and strings."""

    def turn(m):
        name = m[0]
        behind_dot = m.start() > 0 and text[m.start() - 1] == "."
        if name not in own:
            return name
        if behind_dot and in_answers(path):
            return snake(name)
        return APART.get(name, snake(name))

    return TOKEN.sub(turn, text)


def commented(text, own):
    """A comment: a hyphen may be English there. What follows a column of names stays in its column."""
    camel = {n for n in own if "-" not in n and n not in APART}
    new = TOKEN.sub(lambda m: snake(m[0]) if m[0] in camel else m[0], text)
    grown = len(new) - len(text)
    return re.sub(r"(?<=\w) {" + str(grown + 2) + ",}", lambda m: m[0][grown:], new, count=1)


def turned(path, text, own):
    mark = "//" if path.endswith(".rt") else "--"
    out = []
    for line in text.split("\n"):
        at = line.find(mark)
        code, comment = (line, "") if at < 0 else (line[:at], line[at:])
        parts = re.split(r'("[^"]*")', code)
        code = "".join(p if p.startswith('"') else renamed(path, p, own) for p in parts)
        out.append(code + commented(comment, own))
    return "\n".join(out)


def main():
    own = own_names()
    for path in files(".antt", ".rt"):
        with open(path, encoding="utf-8") as f:
            old = f.read()
        new = turned(path, old, own)
        if new != old:
            with open(path, "w", encoding="utf-8") as f:
                f.write(new)
    print(f"{len(own)} names")


if __name__ == "__main__":
    main()
