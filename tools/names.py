#!/usr/bin/env python3
"""Looks whether each name that the documents set in backticks stands in the tree, and each of their pieces of Rattle in a source.

    tools/names.py [DOCUMENT..]

A span in backticks is taken apart into its words: each has to stand in a file of the tree that is no document, in the name of a
file or folder, or in the list below. Words in capitals, which stand for values, and hex digits are passed over, and so are fenced
blocks, but for those marked `rust`: their lines have to stand in one file of crates/, as they are there. It prints each word and
each block that is nowhere with its document and line, and ends with 1 where there is one. It sees that a name is there, and not
that what is said of it is so.
"""
import pathlib
import re
import subprocess
import sys

ROOT = pathlib.Path(__file__).resolve().parent.parent

# Words of the kit, of Rust, of the shell and of the standards that no source of this tree has.
OTHERS = set("""
decodeQueueSize encodeQueueSize
ground hides hypotheses logic plant rattle tidy ulimit
""".split())

WORD = re.compile(r"(?<![A-Za-z0-9_])[A-Za-z_][A-Za-z0-9_]*")
SPAN = re.compile(r"(?<!`)`([^`\n]+)`(?!`)")


def tracked():
    out = subprocess.run(["git", "-C", str(ROOT), "ls-files"], capture_output=True, text=True, check=True)
    return out.stdout.splitlines()


def words_of_tree(files):
    words = set(OTHERS)
    for name in files:
        for part in pathlib.PurePath(name).parts:
            words.update(WORD.findall(part))
        if name.endswith((".md", ".png")):
            continue
        try:
            text = (ROOT / name).read_text(encoding="utf-8")
        except UnicodeDecodeError:
            continue
        words.update(WORD.findall(text))
    return words


def is_known(word, words):
    # a word in capitals stands for a value, and hex digits are bytes
    if word.isupper() or re.fullmatch(r"[0-9a-f]+", word):
        return True
    # the beginning or the end of names
    if word.endswith("_"):
        return any(w.startswith(word) for w in words)
    if word.startswith("_"):
        return any(w.endswith(word) for w in words)
    return word in words


def unknown(span, words):
    return [w for w in WORD.findall(span) if not is_known(w, words)]


def plain(lines):
    """Lines without the blanks around them."""
    return "\n".join(line.strip() for line in lines)


def rust_blocks(text):
    """The blocks marked `rust`, each with its line."""
    for found in re.finditer(r"^```rust\n(.*?)^```", text, re.M | re.S):
        yield text.count("\n", 0, found.start()) + 1, plain(found.group(1).splitlines())


def main():
    files = tracked()
    sources = [plain((ROOT / f).read_text(encoding="utf-8").splitlines()) for f in files if f.endswith(".rt")]
    documents = sys.argv[1:] or [f for f in files if f.endswith(".md")]
    words = words_of_tree(files)
    lost = 0
    for document in documents:
        fenced = False
        text = (ROOT / document).read_text(encoding="utf-8")
        for number, block in rust_blocks(text):
            if not any(block in source for source in sources):
                print(f"{document}:{number}: this block stands in no source")
                lost += 1
        for number, line in enumerate(text.splitlines(), 1):
            if line.lstrip().startswith("```"):
                fenced = not fenced
            if fenced:
                continue
            for span in SPAN.findall(line):
                for word in unknown(span, words):
                    print(f"{document}:{number}: `{span}`: {word} is nowhere in the tree")
                    lost += 1
    print(f"{len(documents)} documents, {lost} names or blocks that are nowhere")
    return 1 if lost else 0


if __name__ == "__main__":
    sys.exit(main())
