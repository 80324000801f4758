#!/usr/bin/env python3
"""Looks over what no proof keeps: the map and the README agree, heads, pages and sizes of files, edits a crate."""
import os
import re
import subprocess
import sys

FILE_LINES = 400
README_LINE = 200
PAGE_LINES = 40
PAGE_HEADS = ["What it gives", "What a contract sees", "Proved", "Only tested"]
EDITS = range(5, 7)

faults = []


def read(name):
    with open(name, encoding="utf-8") as file:
        return file.read()


def crates_of(text):
    """The crates of crates.txt in their order."""
    lines = [line.split("#")[0].strip() for line in text.split("\n")]
    return [line.split(":")[0].split()[0] for line in lines if ":" in line]


def root_of(crate):
    for name in ("lib", "main"):
        path = f"crates/{crate}/src/{name}.rt"
        if os.path.exists(path):
            return path
    return None


def head_of(path):
    """The first sentence of a crate's root file."""
    lines = read(path).split("\n")
    return lines[0].removeprefix("//! ").rstrip(".") if lines[0].startswith("//! ") else None


def look_at_crate(crate, rows):
    root = root_of(crate)
    if root is None:
        faults.append(f"{crate}: no src/lib.rt and no src/main.rt")
        return
    head = head_of(root)
    if head is None or not re.search(r"\btakes\b.*\bgives\b", head):
        faults.append(f"{root}: its first line doesn't say what it takes and gives")
    elif crate in rows and f"{rows[crate][0]}, gives {rows[crate][1]}" not in head.split("takes ", 1)[1]:
        faults.append(f"README.md: the row of {crate} isn't what {root} says")
    edits = [name for name in os.listdir(f"crates/{crate}") if name == "must-fail"]
    count = len(os.listdir(f"crates/{crate}/must-fail")) if edits else 0
    if root.endswith("lib.rt") and count not in EDITS:
        faults.append(f"{crate}: {count} must-fail edits, and not five or six")
    look_at_page(crate)


def look_at_page(crate):
    """The page of a crate: what it gives, what contracts see, what is proved, and what is only tested."""
    path = f"crates/{crate}/README.md"
    if not os.path.exists(path):
        faults.append(f"{crate}: no README.md")
        return
    lines = read(path).rstrip("\n").split("\n")
    if [line[3:] for line in lines if line.startswith("## ")] != PAGE_HEADS:
        faults.append(f"{path}: its heads aren't {', '.join(PAGE_HEADS)}")
    if len(lines) > PAGE_LINES:
        faults.append(f"{path}: more than {PAGE_LINES} lines")
    if any(len(line) > README_LINE for line in lines):
        faults.append(f"{path}: a line of more than {README_LINE} characters")


def headings_of(text, pattern):
    return re.findall(pattern, text, re.M)


def rows_of(readme):
    """The rows of the README's table of crates: name, what it takes, what it gives."""
    return re.findall(r"^\| \[(\w+)\]\(crates/\1\) \| (.+?) \| (.+?) \|$", readme, re.M)


def look():
    crates = crates_of(read("crates.txt"))
    readme = read("README.md")
    rows = rows_of(readme)
    if [row[0] for row in rows] != crates:
        faults.append("README.md: its table doesn't list the crates of crates.txt in their order")
    if headings_of(read("crates.txt"), r"^# -- (.+)$") != headings_of(readme, r"^\*\*(.+)\*\*$"):
        faults.append("README.md: its tables don't stand under the headings of crates.txt")
    table = {name: (takes, gives) for name, takes, gives in rows}
    for crate in crates:
        look_at_crate(crate, table)
    files = subprocess.run(["git", "ls-files"], capture_output=True, text=True).stdout.split()
    for path in files:
        if path.endswith((".rt", ".antt")) and read(path).count("\n") > FILE_LINES:
            faults.append(f"{path}: more than {FILE_LINES} lines")
        if path.endswith(".md") and "](../" in read(path):
            faults.append(f"{path}: a link that climbs out of its folder")
    for number, line in enumerate(readme.split("\n"), 1):
        if len(line) > README_LINE and not line.startswith("|"):
            faults.append(f"README.md:{number}: more than {README_LINE} characters")


look()
for fault in faults:
    print(f"look: {fault}")
print(f"look: {len(faults)} to mend")
sys.exit(1 if faults else 0)
