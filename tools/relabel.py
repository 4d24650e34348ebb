#!/usr/bin/env python3
"""In answers and invariants: the labels that Rattle makes from Rust names, with the names as the source spells them.

usage: tools/relabel.py [CRATE..]     at the top of the repository
"""

import os
import re
import sys

KIT = ["overflow_add", "overflow_sub", "overflow_mul", "overflow_cast", "overflow_shl", "overflow_shr", "overflow_step", "slice_bounds", "offset_bounds", "nonzero_div", "nonzero_rem", "in_ok", "in_err", "in_default", "type_inv", "to_le_bytes", "from_le_bytes", "copy_from_slice", "as_bytes", "as_slice", "is_ok", "is_err", "is_some", "is_none", "split_at_mut", "split_at", "iter_mut", "invariant_of", "saturating_add", "wrapping_add", "copy_within", "unwrap_or", "checked_sub", "saturating_sub"]
TOKEN = re.compile(r"(?<![\w'])([A-Za-z][\w']*(?:-[\w'+]+)+)")


def main(argv):
    names = set(KIT)
    for folder, dirs, files in os.walk("crates"):
        dirs[:] = [d for d in dirs if d != "out"]
        for f in files:
            if f.endswith(".rt"):
                names.update(re.findall(r"\b[a-zA-Z]\w*_\w*\b", open(os.path.join(folder, f), encoding="utf-8").read()))
    table = sorted(((n.replace("_", "-"), n) for n in names if not n.startswith("_") and not n.endswith("_")), key=lambda x: -len(x[0]))
    count = 0
    for folder, dirs, files in os.walk("crates"):
        dirs[:] = [d for d in dirs if d != "out"]
        if argv and folder.split("/")[1:2] and folder.split("/")[1] not in argv:
            continue
        for f in files:
            if f not in ("Answers.antt", "Invariants.antt"):
                continue
            p = os.path.join(folder, f)
            text = open(p, encoding="utf-8").read()
            library = set()
            for m in re.finditer(r"^use [^\n{]*\{([^}]*)\}", text, re.M):
                if ".Goals." not in m.group(0) and ".Given." not in m.group(0):
                    library.update(x.strip() for n in m.group(1).split(",") for x in n.split(" as "))

            def turn(m):
                t = m.group(1)
                if t in library:
                    return t
                for old, new in table:
                    if old in t:
                        t = re.sub(r"(?<![A-Za-z0-9_])" + re.escape(old) + r"(?![A-Za-z0-9_])", new, t)
                return t

            new = "\n".join(TOKEN.sub(turn, l.split("--")[0]) + l[len(l.split("--")[0]):] for l in text.split("\n"))
            if new != text:
                open(p, "w", encoding="utf-8").write(new)
                count += 1
    print(count, "files")


if __name__ == "__main__":
    main(sys.argv[1:])
