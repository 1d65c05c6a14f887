#!/usr/bin/env python3
"""Puts the library's `if◌then◌else◌` in place of the repository's own, which said the same.

usage: port_choice.py      at the top of the repository, once
"""

import os
import re

OWN = re.compile(r"(?m)^((?:ghost )?use )Rattle\.common\.specs\.Choice\.\{([^}]*)\}(;?)\n")


def turned(m):
    names = [n.strip() for n in m.group(2).split(",")]
    if "if◌then◌else◌" not in names:
        return m.group(0)
    left = [n for n in names if n != "if◌then◌else◌"]
    out = f"{m.group(1)}Rattle.std.specs.Prelude.{{if◌then◌else◌}}{m.group(3)}\n"
    if left:
        out = f"{m.group(1)}Rattle.common.specs.Choice.{{{', '.join(left)}}}{m.group(3)}\n" + out
    return out


for folder, below, names in os.walk("crates"):
    below[:] = [d for d in below if d != "out"]
    for name in names:
        if name.endswith((".rt", ".antt")):
            path = os.path.join(folder, name)
            text = open(path, encoding="utf-8").read()
            new = OWN.sub(turned, text)
            # one line for the Prelude where the file has one already
            if new != text:
                at = re.search(r"(?m)^((?:ghost )?use Rattle\.std\.specs\.Prelude\.\{)(?!if◌then◌else◌\})([^}]*)(\};?)$", new)
                if at:
                    new = re.sub(r"(?m)^(?:ghost )?use Rattle\.std\.specs\.Prelude\.\{if◌then◌else◌\};?\n", "", new)
                    at = re.search(r"(?m)^((?:ghost )?use Rattle\.std\.specs\.Prelude\.\{)([^}]*)(\};?)$", new)
                    new = new[: at.end(2)] + ", if◌then◌else◌" + new[at.end(2) :]
                open(path, "w", encoding="utf-8").write(new)
