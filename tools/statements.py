#!/usr/bin/env python3
"""statements.py OLD NEW: what differs between two checkouts in the functions, types and constants of src/ and in the statements of specs/ and proofs/,
old and new side by side, as Markdown. A statement begins with the parameters
of the modules around it. Goals of functions, in proof files, are left out."""
import collections
import os
import re
import sys

SIGNATURE = re.compile(r"^(\s*)((?:abbrev |unfoldable |pub )*)([^\s:(){}=]+)((?: \{[^}]*\})*) : (.*)$")
FUNCTION = re.compile(
    r"^(\s*)((?:pub(?:\(crate\))? )?(?:extern \"C\" )?fn (\w+)(?:[^;{\[]|\[[^\]]*\])*?)"
    r"(?:\{\n|\{ [^\n]*\}\n|((?:\n\s+(?:requires|ensures|ghost)[^\n]*)+)\n\s*\{\n)",
    re.M,
)
TYPE = re.compile(r"^((?:#\[[^\n]*\n)*)(pub(?:\(crate\))? )?(struct|enum) (\w+)[^{;]*\{(.*?)^\}", re.M | re.S)
CONSTANT = re.compile(r"^\s*((?:pub(?:\(crate\))? )?const (\w+): [^;]*;)", re.M)
MODULE = re.compile(r"^\s*module _ (.*)$")


def files(root, ending, folders):
    """The crate, path and path within the crate of each file below these folders of the crates."""
    for crate in sorted(os.listdir(os.path.join(root, "crates"))):
        top = os.path.join(root, "crates", crate)
        for folder in folders:
            for place, _, names in os.walk(os.path.join(top, folder)):
                for name in sorted(names):
                    if name.endswith(ending):
                        path = os.path.join(place, name)
                        yield crate, path, os.path.relpath(path, top)


def one_line(text):
    return re.sub(r"\s+", " ", text).strip()


def depth(line):
    return len(line) - len(line.lstrip())


def is_comment(line):
    return line.strip().startswith("--")


def statements(root):
    """Each record, data type, definition (with its equations) and theorem, by crate, file and name."""
    found = collections.OrderedDict()
    for crate, path, inside in files(root, ".antt", ["specs", "proofs"]):
        lines = open(path).read().split("\n")
        i = 0
        modules = []
        while i < len(lines):
            line = lines[i]
            i += 1
            if is_comment(line) or not line.strip():
                continue
            modules = [it for it in modules if it[0] < depth(line)]
            opens = MODULE.match(line)
            if opens:
                head = opens.group(1)
                while not head.rstrip().endswith("where"):
                    head += " " + lines[i].strip()
                    i += 1
                modules.append((depth(line), one_line(head.rstrip()[: -len("where")])))
                continue
            opened = re.match(r"^(\s*)(pub )?(record|data) ([^\s{]+)(.*)$", line)
            if opened:
                body = [line.split(" --")[0]]
                while i < len(lines) and (not lines[i].strip() or depth(lines[i]) > depth(line)):
                    if lines[i].strip() and not is_comment(lines[i]):
                        body.append(lines[i])
                    i += 1
                found[crate, inside, opened.group(4)] = one_line(" ; ".join(body))
                continue
            said = SIGNATURE.match(line)
            if not said or "{" in said.group(3) or line.strip().startswith(("use ", "module", "let ", "ruleset")):
                continue
            kind, name, body = said.group(2).strip(), said.group(3), [said.group(4) + " " + said.group(5)]
            while i < len(lines) and lines[i].strip() and depth(lines[i]) > depth(line):
                if not is_comment(lines[i]):
                    body.append(lines[i].strip())
                i += 1
            if "goal." in body[0] and inside.startswith("proofs"):
                continue
            equations = []
            if kind.startswith(("abbrev", "unfoldable")):
                for after in lines[i:]:
                    if not after.strip():
                        break
                    if not is_comment(after) and not after.strip().startswith("unfolding"):
                        equations.append(after.strip())
            found[crate, inside, name] = one_line(" ".join([it[1] + " →" for it in modules] + body)) + (" := " + one_line(" ".join(equations)) if equations else "")
    return found


def items(root):
    """Each function with its clauses, each type and each constant of src/."""
    found = collections.OrderedDict()
    for crate, path, inside in files(root, ".rt", ["src"]):
        text = re.sub(r"^\s*//[^\n]*\n", "", open(path).read(), flags=re.M)
        for m in FUNCTION.finditer(text):
            found[crate, inside, "fn " + m.group(3)] = one_line(m.group(2) + (m.group(4) or ""))
        for m in TYPE.finditer(text):
            found[crate, inside, m.group(3) + " " + m.group(4)] = one_line(m.group(0))
        for m in CONSTANT.finditer(text):
            found[crate, inside, "const " + m.group(2)] = one_line(m.group(1))
    return found


def show(what, old, new):
    gone = [it for it in old if it not in new]
    fresh = [it for it in new if it not in old]
    moved = []
    for it in list(gone):
        for other in fresh:
            if other[2] == it[2] and new[other] == old[it]:
                moved.append((it, other))
                gone.remove(it)
                fresh.remove(other)
                break
    changed = [it for it in old if it in new and old[it] != new[it]]
    same = sum(1 for it in old if new.get(it) == old[it])
    print(f"\n### {what}: {same} the same, {len(changed)} changed, {len(gone)} gone, {len(fresh)} new, {len(moved)} moved\n")
    for title, those in (("Changed", changed), ("Gone", gone), ("New", fresh)):
        if those:
            print(f"{title}:\n")
        for it in those:
            print(f"- `{it[0]}` {it[1]} `{it[2]}`")
            for word, side in (("old", old), ("new", new)):
                if it in side:
                    print(f"  - {word}: `{side[it]}`")
        if those:
            print()
    for it, other in moved:
        print(f"- moved: `{it[0]}` {it[1]} `{it[2]}` to `{other[0]}` {other[1]}")


before, after = sys.argv[1:3]
show("Functions, types and constants of src/", items(before), items(after))
show("Statements of specs/ and proofs/", statements(before), statements(after))
