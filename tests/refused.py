#!/usr/bin/env python3
"""Sees that each wrong program of crates/*/must-fail is refused where it is wrong.

usage: tests/refused.py [CRATE...]      at the top; without names, every crate

An edit holds wrong programs of one crate, each a paragraph in a function of its own, under a line

    wrong: LABEL, at FUNCTION

and `rt ci` asks only that the edit as a whole is refused. Here the edit is tried once more, in a copy of the crates
outside the repository, and what the check says is read: a function is proved from its own code and the promises of what
it calls, so each wrong program is refused by itself. The check must leave a goal of that function open, or refuse an
answer of it for more than a name or a step that its proof no longer finds. FUNCTION is written as in the code
(module::function, Type::method), or is a file of proofs where a definition was changed. A constant, a promise or a
definition that is changed may refuse other functions too: such a program shares a file only with functions that do not
use it. That a program is wrong is for the reader of the edit.

The last line counts the wrong programs. Each must be named in docs/PROMISES.md.
"""
import glob
import os
import queue
import re
import shutil
import subprocess
import sys
import tempfile
import threading

WORKERS = 2
WRONG = re.compile(r"(?m)^wrong: ([a-z0-9_]+), at (\S+)$")
# What a proof says of a name or a step that is gone, which says nothing of a fact.
GONE = re.compile(r"was not admitted|was rejected, was not checked|has no field|not in scope|has no `|no equation of the list|no occurrence of the path")


def copy(to):
    """The crates as they stand, without what was built of them."""
    shutil.copytree("crates", f"{to}/crates", ignore=shutil.ignore_patterns("out", "must-fail"))
    shutil.copy("crates.txt", to)


def edited(edit, folder):
    """The new text of each file that the edit changes, by its path."""
    path, old, texts = None, None, {}
    for line in open(edit, encoding="utf-8"):
        line = line.rstrip("\n")
        if line.startswith("file: "):
            path = f"{folder}/{line[len('file: '):].strip()}"
        elif line.startswith("old: "):
            old = line[len("old: "):]
        elif line.startswith("new:"):
            text = texts.get(path) or open(path, encoding="utf-8").read()
            if text.count(old) != 1:
                raise ValueError(f"an old text stands {text.count(old)} times in {path}, and not once: {old}")
            texts[path] = text.replace(old, line[len("new:"):].removeprefix(" "))
    return texts


def said(edit, crate, top):
    """What the check says of the crate with the edit in it."""
    folder = f"{top}/crates/{crate}"
    was = {}
    try:
        for path, text in edited(edit, folder).items():
            was[path] = open(path, encoding="utf-8").read()
            with open(path, "w", encoding="utf-8") as it:
                it.write(text)
        ran = subprocess.run(["rt", "check"], cwd=folder, stdin=subprocess.DEVNULL, stdout=subprocess.PIPE, stderr=subprocess.STDOUT, text=True, errors="replace")
        return ran.stdout
    finally:
        for path, text in was.items():
            with open(path, "w", encoding="utf-8") as it:
                it.write(text)


def is_refused(crate, at, log):
    """Whether the log has a fact against the function, or against the file of proofs."""
    if at.startswith("proofs/"):
        return any(line.startswith(f"./{at}:") and ": error: " in line and not GONE.search(line) for line in log)
    proofs = f"./proofs/{at.replace('::', '/')}/"
    if any(line.startswith(proofs) and ": error: " in line and not GONE.search(line) for line in log):
        return True
    # the lines between the one on the function before and its own
    mine = [n for n, line in enumerate(log) if re.match(rf"fn {re.escape(crate)}::{re.escape(at)}: (not proved|no proof: expected answers)", line)]
    for end in mine:
        start = end
        while start and not re.match(r"(fn|enum|struct) ", log[start - 1]):
            start -= 1
        if any("it is not proved that" in line for line in log[start:end]):
            return True
    return False


def verdicts(edit, crate, top, promises):
    """For each wrong program of the edit, its label and what is amiss, or nothing."""
    text = open(edit, encoding="utf-8").read()
    programs = WRONG.findall(text)
    places = [at for _, at in programs]
    paragraphs = [it for it in text.split("\n\n") if it.strip()]
    if len(programs) < len(paragraphs) or not all(WRONG.match(it.lstrip("\n")) for it in paragraphs) or len(set(places)) < len(places):
        return [("", "a paragraph does not start with 'wrong: LABEL, at FUNCTION', or two are of one function")]
    try:
        log = said(edit, crate, top).splitlines()
    except (OSError, ValueError) as error:
        return [("", str(error))]
    found = []
    for label, at in programs:
        if not is_refused(crate, at, log):
            found.append((label, f"is not refused at {at}"))
        elif not re.search(rf"\b{label}\b", promises):
            found.append((label, "is not in docs/PROMISES.md"))
        else:
            found.append((label, ""))
    return found


def main():
    os.chdir(os.path.join(os.path.dirname(os.path.abspath(__file__)), ".."))
    names = sys.argv[1:]
    edits = queue.Queue()
    for edit in sorted(glob.glob("crates/*/must-fail/*.edit")):
        if not names or edit.split("/")[1] in names:
            edits.put(edit)
    promises = open("docs/PROMISES.md", encoding="utf-8").read()
    counts, printing = {True: 0, False: 0}, threading.Lock()

    def work():
        with tempfile.TemporaryDirectory(prefix="kw-refused-") as top:
            copy(top)
            while True:
                try:
                    edit = edits.get_nowait()
                except queue.Empty:
                    return
                found = verdicts(edit, edit.split("/")[1], top, promises)
                with printing:
                    for label, amiss in found:
                        counts[not amiss] += 1
                        if amiss:
                            print(f"{edit}: {label} {amiss}".replace(":  ", ": "), flush=True)

    workers = [threading.Thread(target=work) for _ in range(WORKERS)]
    for worker in workers:
        worker.start()
    for worker in workers:
        worker.join()
    print(f"wrong programs {counts[True]} passed, {counts[False]} failed")
    return 0 if counts[True] and not counts[False] else 1


sys.exit(main())
