#!/usr/bin/env python3
"""Moves modules of a crate's specs/ to its proofs/, and names them there in every crate.

usage: tools/port/move_laws.py CRATE MODULE..    at the top; MODULE is a path below specs/ without .antt, as Below/Laws

A file that rests on definitions which a must-fail edit changes has to stand in proofs/: in specs/ the edit's check could not read it.
"""
import glob
import os
import re
import subprocess
import sys

crate, modules = sys.argv[1], sys.argv[2:]
root = f"crates/{crate}"


def read(path):
    return open(path, encoding="utf-8").read()


def write(path, text):
    os.makedirs(os.path.dirname(path), exist_ok=True)
    open(path, "w", encoding="utf-8").write(text)


def declare(module):
    """Declares a module in the node file above it, up to proofs/Lib.antt."""
    above, _, name = module.rpartition("/")
    node = f"{root}/proofs/{above or 'Lib'}.antt"
    text = read(node) if os.path.exists(node) else ""
    line = f"pub mod {name}"
    if line not in text.split("\n"):
        write(node, text.rstrip("\n") + ("\n" if text else "") + line + "\n")
    if above:
        declare(above)


for module in modules:
    old, new = f"{root}/specs/{module}.antt", f"{root}/proofs/{module}.antt"
    above, _, name = module.rpartition("/")
    node = f"{root}/specs/{above or 'Lib'}.antt"
    if os.path.exists(node):
        write(node, re.sub(rf"^(?:pub )?mod {name}\n", "", read(node), flags=re.M))
    if os.path.exists(new):
        # the node file that declared modules moved before
        declared = [m for m in re.findall(r"^pub mod \w+$", read(new), re.M)]
        os.remove(new)
    else:
        declared = []
    os.makedirs(os.path.dirname(new), exist_ok=True)
    subprocess.run(["git", "mv", old, new], check=True)
    text = read(new)
    missing = [m for m in declared if m not in text.split("\n")]
    if missing:
        write(new, text.rstrip("\n") + "\n" + "\n".join(missing) + "\n")
    declare(module)

names = "|".join(re.escape(m.replace("/", ".")) for m in sorted(modules, key=len, reverse=True))
path = re.compile(rf"\bRattle\.{crate}\.specs\.({names})(?![\w'])(?!\.[A-Z])")
for file in glob.glob("crates/*/*/**/*", recursive=True):
    if "/out/" in file or not file.endswith((".antt", ".rt", ".edit")):
        continue
    text = read(file)
    turned = path.sub(rf"Rattle.{crate}.proofs.\1", text)
    if turned != text:
        write(file, turned)
