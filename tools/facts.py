# The facts that stand in the requires of three functions or more: FACT COUNT. From the repository's root.
import collections, glob, re
where = collections.defaultdict(set)
for f in sorted(glob.glob("crates/*/src/**/*.rt", recursive=True)):
    name = ""
    for line in open(f):
        m = re.search(r"\bfn (\w+)", line)
        name = m.group(1) if m else name
        m = re.match(r"\s+requires(?: \w+)? \{ (.*) \}$", line)
        if not m: continue
        depth, part = 0, ""
        for token in re.split(r"(\(|\)| × )", m.group(1)):
            depth += (token == "(") - (token == ")")
            if token == " × " and depth == 0: where[part].add((f, name)); part = ""
            else: part += token
        where[part].add((f, name))
merged = collections.Counter()
for fact, at in where.items():
    fact = fact.strip()
    if fact.startswith("(") and fact.endswith(")"): fact = fact[1:-1]
    merged[fact] += len(at)
for fact, n in merged.most_common():
    if n >= 3: print(n, fact)
