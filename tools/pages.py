#!/usr/bin/env python3
"""Respells in the pages the names that port.py and tools/spelling.py respelled in crates/: in `code` alone, and only where crates/ has the new word
and not the old one.

usage: tools/pages.py PAGE..
"""

import os
import re
import sys

from spelling import WORD, files, snake


DASHED = re.compile(r"(?<=`)[a-z][a-z0-9]*(?:-[a-z0-9]+)+(?=`)")


def main(pages):
    words, dashed = set(), set()
    for path in files("."):
        with open(path, encoding="utf-8") as f:
            text = f.read()
        words |= set(re.findall(r"(?<![A-Za-z0-9_])[a-z][a-z0-9_]*", text))
        dashed |= set(re.findall(r"(?<![\w'-])[A-Za-z][\w'-]*", text))

    def new(m):
        return snake(m.group(0)) if snake(m.group(0)) in words else m.group(0)

    for folder in ("examples", "tests"):
        for _, dirs, names in os.walk(folder):
            dashed |= set(dirs) | set(names)

    def joined(m):
        word = m.group(0)
        return word.replace("-", "_") if word not in dashed and word.replace("-", "_") in words else word

    for page in pages:
        with open(page, encoding="utf-8") as f:
            parts = re.split(r"(^```.*?^```$)", f.read(), flags=re.S | re.M)
        for k in range(0, len(parts), 2):
            parts[k] = re.sub(r"`[^`\n]+`", lambda m: DASHED.sub(joined, WORD.sub(new, m.group(0))), parts[k])
        with open(page, "w", encoding="utf-8") as f:
            f.write("".join(parts))
    return 0


if __name__ == "__main__":
    raise SystemExit(main(sys.argv[1:]))
