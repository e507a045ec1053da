#!/usr/bin/env python3
"""Brings the repository's own definitions and lemmas to snake case, in sources, specs, proofs, must-fail edits and documents.

usage: python3 tools/respell.py     at the top of the repository

Functions of src/, exported names, strings, inputs and outputs keep their names. Run again, it changes nothing.
"""

import os
import re

# names whose snake case stands for something else where they are used
OTHER = {
    "getD": "get_or",
    "is_IsWord": "is_word",
    "is_Block": "is_block",
}
# `putBack` is a list of stores in the image, and a number of a recovery's answer in a life and in a session
APART = {"putBack": (("crates/life/", "crates/console/", "crates/file_console/"), "put_back", "putting_back")}
# a lemma that would fall together with the definition that it speaks of
LEMMAS = {"taken_back": "taken_back-undone"}

NAMES = """
askOf asksTooMuch atBase blocksFor bytesFrom cacheModel calledFor carriedBy carriedPart copiedNumber cutPoint cutPoints fileBlocks fileByte
fileBytes filesFrom firstBytes hasPower hexDigit holdingOf imageModel inRun isBase isCache isDone isFound isOk isPart isReady isUnread
laggingModel leavingOf lettersThenZeros littleEndian logSlot mapOf nameIn nameWord newestOf noneLent oldRoot oneLess partModel pileModel
powerAfter readyAfter refusedReply replyOf rootBlocks rootWord shortRoot shownBy shownPart slotBlocks slotFile slotFiles takenBack
touchedBlocks touchedWords unlessOutside usedBlocks valuesAt waitingValue wellFormed withBytes withName withWord wordAt
putsBack tableOf pieceOf noPiece nameOf filesOf lengthOf byteOf bytesOf
""".split()


def snake(name):
    return re.sub(r"(?<=[a-z0-9])[A-Z]", lambda m: "_" + m.group(0).lower(), name)


def respelled(path, text):
    def lemma(m):
        return LEMMAS[m.group(0)]

    if path.startswith("crates/store/proofs/"):
        for old in LEMMAS:
            if re.search(r"(?<![\w'-])takenBack(?![\w'])", text):
                text = re.sub(r"(?<![\w'-])%s(?![\w'-])" % old, lemma, text)
    table = {n: snake(n) for n in NAMES} | OTHER
    for name, (folders, there, elsewhere) in APART.items():
        table[name] = there if path.startswith(folders) else elsewhere
    word = re.compile(r"(?<!\w)(" + "|".join(sorted(table, key=len, reverse=True)) + r")(?!\w)")
    return word.sub(lambda m: table[m.group(1)], text)


def main():
    changed = 0
    for top in ("crates", "docs"):
        for folder, dirs, files in os.walk(top):
            dirs[:] = sorted(d for d in dirs if d != "out")
            for name in sorted(files):
                path = os.path.join(folder, name)
                if not name.endswith((".rt", ".antt", ".edit", ".md")) or os.path.islink(path) or name.startswith("PORT"):
                    continue
                with open(path, encoding="utf-8") as f:
                    old = f.read()
                new = respelled(path, old)
                if new != old:
                    with open(path, "w", encoding="utf-8") as f:
                        f.write(new)
                    changed += 1
    print(f"respell: {changed} files changed")


main()
