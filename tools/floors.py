#!/usr/bin/env python3
"""floors.py [--check]: draws the floors of crates.txt between the two marks of docs/ARCHITECTURE.md; with --check it writes nothing, and ends with 1 where the drawing there is another.
A floor is the crates behind a line `# -- NAME`. It stands on floors before it; a crate that stands on a later floor's is an error, in both ways."""
import os, sys

top = os.path.join(os.path.dirname(os.path.abspath(__file__)), "..")
page = f"{top}/docs/ARCHITECTURE.md"
BEGIN, END = "<!-- floors: written by tools/floors.py -->", "<!-- floors end -->"


def read():
    # the floors in order, each with its crates, and what each crate's line names
    floors, on = [], {}
    for line in open(f"{top}/crates.txt", encoding="utf-8"):
        if line.startswith("# -- "):
            floors.append((line[5:].strip(), []))
            continue
        words, colon, rest = line.split("#")[0].partition(":")
        if not colon:
            continue
        name = words.split()[0]  # of a static library `staticlib` stands behind it
        if not floors:
            sys.exit(f"crates.txt: {name} stands before the first floor")
        floors[-1][1].append(name)
        on[name] = rest.split()
    # the kit's libraries are no crates of ours
    return floors, {name: [d for d in rest if d in on] for name, rest in on.items()}


def below(on):
    # of each crate all that it stands on, however far down
    reach = {}

    def visit(name, path):
        if name in path:
            sys.exit(f"crates.txt: {name} stands on itself")
        if name not in reach:
            reach[name] = set(on[name]).union(*(visit(d, path + [name]) for d in on[name]))
        return reach[name]

    for name in on:
        visit(name, [])
    return reach


def drawing(floors, on):
    reach = below(on)
    number = {name: i for i, (_, crates) in enumerate(floors) for name in crates}
    wide = max(map(len, on))
    rows = []
    for i, (title, crates) in reversed(list(enumerate(floors))):
        rows += [f"{i + 1:2}  {title}"]
        for name in crates:
            for d in on[name]:
                if number[d] > i:
                    sys.exit(f"crates.txt: {name} stands on {d}, which is on a later floor")
            # what another of its crates stands on already is left out
            direct = [d for d in on[name] if not any(d in reach[e] for e in on[name])]
            rows += [f"      {name:{wide}}  {', '.join(direct)}".rstrip()]
        rows += [""]
    return "\n".join(["```"] + rows[:-1] + ["```"])


def main(check):
    text = open(page, encoding="utf-8").read()
    if text.count(BEGIN) != 1 or text.count(END) != 1:
        sys.exit(f"docs/ARCHITECTURE.md: the marks `{BEGIN}` and `{END}` must stand there once each")
    front, rest = text.split(BEGIN)
    drawn = f"{front}{BEGIN}\n{drawing(*read())}\n{END}{rest.split(END)[1]}"
    if not check:
        open(page, "w", encoding="utf-8").write(drawn)
    elif drawn != text:
        sys.exit("docs/ARCHITECTURE.md: the floors are not what crates.txt says; tools/floors.py writes them")


main("--check" in sys.argv[1:])
