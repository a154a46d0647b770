#!/usr/bin/env python3
"""The loops that count by hand: a 'while' or 'loop' in whose body a number that the test (of a 'loop': an 'if') looks at goes up or down by a fixed step. One line each, then how many."""
import glob, re
found = []
for path in sorted(glob.glob("crates/*/src/**/*.rt", recursive=True)):
    text = re.sub(r"//[^\n]*", "", open(path).read())
    name = ""
    for m in re.finditer(r"\bfn (\w+)|\bwhile ([^{]+)\{|\bloop \{", text):
        if m.group(1):
            name = m.group(1)
            continue
        depth, end = 1, m.end()
        while depth:
            depth += {"{": 1, "}": -1}.get(text[end], 0)
            end += 1
        body = text[m.end():end]
        test = m.group(2) or " ".join(re.findall(r"\bif ([^{]+)\{", body))
        steps = [v for v in re.findall(r"\b(\w+) [+-]= \d+;", body) if re.search(r"\b%s\b" % v, test)]
        if steps:
            found.append("%s:%d %s (%s)" % (path, text.count("\n", 0, m.start()) + 1, name, steps[0]))
print("\n".join(found))
print(len(found))
