#!/usr/bin/env python3
"""Lays out the paragraphs and list items of Markdown files at a width of 100 (tables, code, headings and comments
stay).

    tests/support/reflow.py FILE..            writes the files again
    tests/support/reflow.py --check FILE..    prints lines that are too long
"""
import re
import sys
import textwrap
from pathlib import Path

WIDTH = 100
ITEM = re.compile(r"^(\s*)([-*]|\d+\.)\s+")
STAYS = re.compile(r"^(#|\||<|\s*$|```)")


def parts(text):
    """The blocks of a text: lines that stay as they are, or the lines of a paragraph or an item."""
    block, is_code = [], False
    for line in text.split("\n"):
        is_fence = line.lstrip().startswith("```")
        if is_code or is_fence or STAYS.match(line):
            if block:
                yield True, block
            block = []
            yield False, [line]
            is_code = is_code != is_fence
        elif block and ITEM.match(line):
            yield True, block
            block = [line]
        else:
            block.append(line)
    if block:
        yield True, block


def laid_out(text):
    lines = []
    for flows, block in parts(text):
        if not flows:
            lines += block
            continue
        item = ITEM.match(block[0])
        first = item[0] if item else re.match(r"\s*", block[0])[0]
        rest = " " * len(first) if item else first
        words = " ".join(it.strip() for it in [block[0][len(first):], *block[1:]])
        lines += textwrap.wrap(words, WIDTH, initial_indent=first, subsequent_indent=rest, break_long_words=False,
                               break_on_hyphens=False)
    return "\n".join(lines)


def main():
    names = [it for it in sys.argv[1:] if it != "--check"]
    wrong = 0
    for name in names:
        text = Path(name).read_text()
        if "--check" in sys.argv:
            found = [it for it in laid_out(text).split("\n") if len(it) > WIDTH and not it.startswith("|")]
            wrong += text != laid_out(text)
            print(name, "isn't laid out" if text != laid_out(text) else "", *found, sep="\n")
        else:
            Path(name).write_text(laid_out(text))
    return 1 if wrong else 0


if __name__ == "__main__":
    sys.exit(main())
