#!/usr/bin/env python3
"""Lists the sentences of README.md, CHANGELOG.md and docs/*.md that have more words than so many: tools/long_sentences.py [24].

Blocks of code are left out, and what stands in backticks counts as one word. A list item, and a cell of a table, is looked at by
itself. It ends with status 1 where there is such a sentence.
"""
import pathlib, re, sys

TOP = pathlib.Path(__file__).resolve().parent.parent
END = re.compile(r"(?<=[.!?])\s+(?=[A-Z*(\"]|CODE)|(?<=[.!?])\*\* ")
ITEM = re.compile(r"([-*]|\d+\.) ")


def blocks(text):
    """Each paragraph, list item and cell, with the number of its first line."""
    text = re.sub(r"^```.*?^```", lambda m: "\n" * m[0].count("\n"), text, flags=re.M | re.S)
    start, lines = 0, []
    for number, line in enumerate([*text.split("\n"), ""], 1):
        words = line.strip()
        ends = not words or words[0] in "|#" or line.startswith("    ") or ITEM.match(words)
        if ends and lines:
            yield start, " ".join(lines)
            lines = []
        if words.startswith("|"):
            for cell in words.strip("|").split(" | "):
                yield number, cell
        elif not ends or ITEM.match(words):
            start = start if lines else number
            lines.append(words)


def main():
    most = int(sys.argv[1]) if len(sys.argv) > 1 else 24
    found = 0
    for page in [TOP / "README.md", TOP / "CHANGELOG.md", *sorted((TOP / "docs").glob("*.md"))]:
        for number, block in blocks(page.read_text()):
            block = re.sub(r"!?\[([^\]]*)\]\([^)]*\)", r"\1", re.sub(r"`[^`]*`", "CODE", block))
            for sentence in END.split(block):
                count = len(re.findall(r"[\w'’\-/,]+", sentence))
                if count > most:
                    found += 1
                    print(f"{page.relative_to(TOP)}:{number}: {count} words: {sentence}")
    print(f"{found} sentences above {most} words")
    sys.exit(1 if found else 0)


main()
