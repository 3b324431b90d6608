#!/usr/bin/env python3
"""reach.py: which definitions of specs/ the public contracts reach, which the pages of `promises` add, and which serve code, counting or proofs alone.
Without words it prints them by crate, with their lines. With --check it fails where a definition that nobody reaches stands outside of specs/Inside.antt,
where one that is reached stands inside, and where docs/READING.md does not name a file that has a reached definition. It reads text, and proves nothing."""
import os, re, sys

TOP = os.path.join(os.path.dirname(os.path.abspath(__file__)), "..")
PAGES = "promises"
WORD = r"[^\s(){}\[\],;.λ⌜⌝\"]+"


def read(path):
    # `«x»` is x
    return re.sub("[«»]", "", open(path, encoding="utf-8").read())


def crates():
    # a line begins NAME: or NAME staticlib:
    return re.findall(r"^[ \t]*(\w+)[^#:\n]*:", read(f"{TOP}/crates.txt"), re.M)


class Module:
    """A file of specs/: what it brings in, and its definitions with their lines and the words that they use."""

    def __init__(self, crate, name, text):
        self.crate, self.name, self.names, self.whole = crate, name, {}, {}
        self.items = {}  # name -> [words, lines]
        bring_in(self, text)
        current = None
        for line in text.split("\n"):
            if re.match(r"(?:pub )?use |unfolding |--", line) or not line.strip():
                continue
            if not line[0].isspace():
                m = re.match(r"(?:unfoldable |abbrev )?(?:pub )?(?:record|data) (\S+)", line) or re.match(r"(?:unfoldable |abbrev )?(?:pub )?(\S+) :", line)
                if m:
                    current = m.group(1)
                    self.items.setdefault(current, [set(), 0])
                elif re.match(r"(?:pub )?(?:mod|infix|module|ruleset)\b", line):
                    current = None
                else:  # a clause
                    current = re.match(r"\S+", line).group(0)
                    self.items.setdefault(current, [set(), 0])
            if current is None or line.strip().startswith("--"):
                continue
            self.items[current][0] |= words(line.split(" -- ")[0])
            self.items[current][1] += 1
            # a constructor is reached with its type
            m = re.match(r"  (?:pub )?(\S+) : ", line)
            if m and m.group(1) not in self.items:
                self.items.setdefault("." + m.group(1), [{current}, 0])


def words(text):
    # names, and names behind a module's: x.name
    return set(re.findall(rf"{WORD}(?:\.{WORD})*", text))


def bring_in(host, text):
    for m in re.finditer(r"^ *(?:pub |ghost )?use Rattle\.(\w+)\.specs\.(\w+)(?:\.\{([^}]*)\}| as (\S+?));?$", text, re.M):
        crate, module, names, alias = m.groups()
        if module == "declared":
            continue
        if alias:
            host.whole[alias] = (crate, module)
        for part in (names or "").split(","):
            w = part.split()
            if w:
                host.names[w[-1]] = (crate, module, w[0])


def targets(host, used, modules):
    found = set()
    for w in used:
        # `m.f.x`: f of the module m, and a field x of it; else a name and its fields
        parts = w.split(".")
        if parts[0] == "Rattle" and parts[2:3] == ["specs"] and len(parts) > 4:  # by its whole path
            found.add((parts[1], parts[3], parts[4]))
            parts = parts[5:]
        elif len(parts) > 1 and parts[0] in host.whole:
            found.add(host.whole[parts[0]] + (parts[1],))
            parts = parts[2:]
        for n in parts:
            if n in host.names:
                found.add(host.names[n])
            elif isinstance(host, Module) and (n in host.items or "." + n in host.items):
                found.add((host.crate, host.name, n))
    return {(c, m, n) for c, m, n in found if (c, m) in modules}


def public_contracts(text):
    # what stands in the clauses of a public function, before its body; and of `named` and `tied`, which hold the public constants
    text = re.sub(r"//[^\n]*", "", text)
    for m in re.finditer(r'^ *(?:pub (?:const |unsafe |extern "C" )*fn \w+|fn (?:named|tied)\b)', text, re.M):
        at = m.end()
        while True:
            clause = OPENED.search(text, at)
            if not clause or not clause[1]:
                break
            at = behind(text, clause.end() - 1)
            if clause[1] != "ghost":
                yield text[clause.end() : at - 1]


# a clause's word with its name, if it has one, and the bracket behind it; or the bracket of a body
OPENED = re.compile(r"(?:\b(ghost|requires|ensures)\b\*?(?:\s+\w+)?\s*:?\s*)?\{")


def behind(text, i):
    # the place behind the group that opens at i
    depth = 0
    for k in range(i, len(text)):
        depth += (text[k] == "{") - (text[k] == "}")
        if depth == 0:
            return k + 1
    return len(text)


class Source:
    def __init__(self, text):
        self.names, self.whole = {}, {}
        bring_in(self, text)


def load():
    modules, roots, pages = {}, set(), set()
    for crate in crates():
        folder = f"{TOP}/crates/{crate}/specs"
        for f in sorted(os.listdir(folder)) if os.path.isdir(folder) else []:
            if f.endswith(".antt") and f != "Lib.antt":
                modules[crate, f[:-5]] = Module(crate, f[:-5], re.sub(r"\{-.*?-\}", "", read(f"{folder}/{f}"), flags=re.S))
    for crate in crates():
        path = f"{TOP}/crates/{crate}/src/lib.rt"
        if os.path.exists(path):
            text = read(path)
            source = Source(text)
            for contract in public_contracts(text):
                roots |= targets(source, words(contract), modules)
    for (crate, name), m in modules.items():
        if crate == PAGES:
            pages |= {(crate, name, n) for n in m.items if not n.startswith(".")}
    return modules, roots, pages


def reached(modules, start):
    seen, todo = set(), list(start)
    while todo:
        c, m, n = todo.pop()
        host = modules[c, m]
        if n not in host.items and "." + n in host.items:
            n = next(iter(host.items["." + n][0]))
        if (c, m, n) in seen or n not in host.items:
            continue
        seen.add((c, m, n))
        todo += targets(host, host.items[n][0], modules)
    return seen


def main():
    modules, roots, pages = load()
    wrong = []
    reading = read(f"{TOP}/docs/READING.md")
    by_contract = reached(modules, roots)
    by_page = reached(modules, roots | pages) - by_contract
    total = [0, 0, 0]
    for (crate, name), m in modules.items():
        groups = [[], [], []]
        for n, (_, lines) in m.items.items():
            if n.startswith("."):
                continue
            k = 0 if (crate, name, n) in by_contract else 1 if (crate, name, n) in by_page else 2
            groups[k].append(n)
            total[k] += lines
            if k == 2 and name != "Inside" and crate != PAGES:
                wrong.append(f"{crate}/specs/{name}: `{n}` is reached by no public contract and no page: it belongs into specs/Inside.antt, or into proofs/")
            if k < 2 and name == "Inside":
                wrong.append(f"{crate}/specs/Inside: `{n}` is reached: it does not serve the code alone")
        if (groups[0] or groups[1]) and not re.search(rf"\b{crate}/specs/[\w, /]*\b{name}\b", reading):
            wrong.append(f"docs/READING.md does not name {crate}/specs/{name}")
        if "--check" not in sys.argv:
            print(f"{crate}/specs/{name}")
            for title, g in zip(("contracts", "pages", "inside"), groups):
                if g:
                    print(f"  {title}: {', '.join(g)}")
    print(f"lines of definitions: {total[0]} by the public contracts, {total[1]} more by the pages, {total[2]} for code, counting or proofs alone")
    if "--check" in sys.argv:
        print("\n".join(wrong) if wrong else "each definition stands where it belongs, and docs/READING.md names each file")
        sys.exit(1 if wrong else 0)


main()
