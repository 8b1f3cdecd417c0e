#!/usr/bin/env python3
"""Brings this repository's own names to the spelling of today's Rattle: definitions, lemmas and ghost fields in snake case.

usage: tools/respell.py [--list]      at the top of the repository, once, right after the toolchain's port.py

It reads what specs/ and proofs/ of each crate declare. A name with a dash or in lower camel case gets underscores; a type, a
record and a module keep their capitals, and functions of src/ keep their names. A module named `core`, which is the name of a
library now, becomes `kernel`. It writes .rt, .antt and .edit files below crates/, and says which names fall together.
--list prints the names, old and new, and writes nothing.
"""
import os
import re
import subprocess
import sys

SPLIT = re.compile(r"([\s(){}\[\],;.:\"`|]+)")
DECLARED = re.compile(r"^\s*(?:abbrev |unfoldable |opaque |rec )*(?:pub )?(?:abbrev |unfoldable |rec )*(?:field )?([^\s(){}\[\],;.:\"`|]+(?: [^\s(){}\[\],;.:\"`|]+)*) :(?:\s|$)")
WORDS = {"use", "pub", "let", "data", "record", "where", "unfolding", "module", "in", "elim", "--", "→", "="}


def files(root, ends):
    for folder, dirs, names in os.walk(os.path.join(root, "crates")):
        dirs[:] = sorted(d for d in dirs if d not in ("out", ".git"))
        for name in sorted(names):
            if name.endswith(ends):
                yield os.path.join(folder, name)


def read(path):
    with open(path, encoding="utf-8") as f:
        return f.read()


def snake(name):
    name = name.replace("-", "_")
    name = re.sub(r"([a-z0-9])([A-Z])", r"\1_\2", name)
    head, rest = name[0], name[1:]
    return head + rest.lower()


def is_own(path):
    """A file that declares definitions or lemmas: right in specs/ or proofs/ of a crate."""
    return bool(re.search(r"crates/[a-z0-9_]+/(specs|proofs)/[A-Za-z0-9_]+\.antt$", path))


def declared(root):
    found = {}
    for path in files(root, ".antt"):
        if not is_own(path):
            continue
        for line in read(path).split("\n"):
            m = DECLARED.match(line)
            if not m:
                continue
            names = m[1].split(" ")
            if WORDS & set(names):
                continue
            for name in names:
                found.setdefault(name, set()).add(path)
    return found


def imported(root):
    """Names that come from a library, and so keep their spelling."""
    own = set(os.listdir(os.path.join(root, "crates")))
    found = set()
    for path in files(root, (".antt", ".rt")):
        for m in re.finditer(r"^(?:ghost )?(?:pub )?use ([^\s{]+)\.\{([^}]*)\}", read(path), re.M):
            parts = m[1].split(".")
            if parts[0] == "Rattle" and len(parts) > 1 and parts[1] in own:
                continue
            found |= {n.split(" as ")[0].strip() for n in m[2].split(",")}
    return found


def homes(paths):
    """The crates of these files."""
    return {re.search(r"crates/([a-z0-9_]+)/", p)[1] for p in paths}


def table(root):
    names = {}
    library = imported(root)
    every = declared(root)
    for name in every:
        if not re.match(r"[a-z][A-Za-z0-9_'\-]*$", name) or snake(name) == name:
            continue
        if name in library:
            print(f"look: {name} is a library's name too, and stays")
            continue
        names[name] = snake(name)
    # A lemma that would have the name of a definition of its crate, or of one that its file speaks of, is told from it.
    for old, new in names.items():
        for other in every:
            if "-" not in old or other == old or names.get(other) != new:
                continue
            if homes(every[other]) & homes(every[old]) or any(other in SPLIT.split(read(p)) for p in every[old]):
                names[old] = new + "_lem"
    return names


def fallen(root, names):
    """New names that another name has already."""
    every = declared(root)
    said = []
    for old, new in sorted(names.items()):
        if new in every and every[new] & every[old]:
            said.append(f"{old} and {new}")
    by_new = {}
    for old, new in names.items():
        by_new.setdefault(new, []).append(old)
    return said + [" and ".join(sorted(v)) for v in by_new.values() if len(v) > 1]


STRING = re.compile(r'(b?"(?:\\.|[^"\\])*")')


def turned(text, names):
    return "".join(names.get(t, t) for t in SPLIT.split(text))


def turn_source(text, names):
    """A source file: what stands in string literals stays."""
    return "\n".join("".join(p if i % 2 else turned(p, names) for i, p in enumerate(STRING.split(line))) for line in text.split("\n"))


def turn_core(text, path):
    """A module named core: its paths, and the library's own list of words."""
    text = text.replace("Rattle.core.specs.Prelude", "Rattle.std.specs.Prelude")
    text = re.sub(r"(Rattle\.[a-z0-9_]+\.(?:proofs|specs\.declared|specs\.contracts|specs))\.core\b", r"\1.kernel", text)
    text = re.sub(r"(Rattle\u00b7[a-z0-9_]+\u00b7(?:proofs|specs)(?:\.[a-z]+)*)\.core\b", r"\1.kernel", text)
    if path.endswith((".rt", ".edit")):
        text = re.sub(r"\bmod core;", "mod kernel;", text)
        text = re.sub(r"(?<![A-Za-z0-9_])core::", "kernel::", text)
        text = re.sub(r"\bsrc/core\.rt\b", "src/kernel.rt", text)
        text = re.sub(r"^(pub )?use core\b", r"\1use kernel", text, flags=re.M)
    else:
        text = re.sub(r"(?<![A-Za-z0-9_])core::", "kernel::", text)
    return text


def main(argv):
    root = subprocess.run(["git", "rev-parse", "--show-toplevel"], capture_output=True, text=True, check=True).stdout.strip()
    names = table(root)
    for line in fallen(root, names):
        print("look: these fall together: " + line)
    if argv == ["--list"]:
        for old, new in sorted(names.items()):
            print(old, new)
        return 0
    if argv:
        print(__doc__)
        return 2
    for path in files(root, (".antt", ".rt", ".edit")):
        text = read(path)
        new = turn_source(text, names) if path.endswith((".rt", ".edit")) else turned(text, names)
        new = turn_core(new, path)
        if new != text:
            with open(path, "w", encoding="utf-8") as f:
                f.write(new)
    for crate in sorted(os.listdir(os.path.join(root, "crates"))):
        for part in ("src/core.rt", "src/core", "proofs/core", "must-fail/core"):
            old = os.path.join(root, "crates", crate, part)
            if os.path.exists(old):
                os.rename(old, os.path.join(os.path.dirname(old), os.path.basename(old).replace("core", "kernel")))
    print(f"turned: {len(names)} names")
    return 0


if __name__ == "__main__":
    raise SystemExit(main(sys.argv[1:]))
