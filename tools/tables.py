#!/usr/bin/env python3
"""tables.py [--check]: writes the tables that say what the crates' files say, between their marks.
docs/PROMISES.md: from the edits' first lines the last two columns of the public functions, and the lists of definition edits and of theorem edits.
docs/PROVING.md: the lines, seconds and edits of each crate. The seconds are those of the older toolchain, whose `rt ci` printed them: they stay as they are, and a crate that came since has none.
It prints a line for each edit and row that is out of form, and ends with 1 if there is one. With --check it writes nothing, and prints what it would write otherwise, but for the seconds."""
import argparse, collections, os, re, sys, textwrap

parser = argparse.ArgumentParser(description=__doc__, formatter_class=argparse.RawDescriptionHelpFormatter)
parser.add_argument("--check", action="store_true")
options = parser.parse_args()
top = os.path.join(os.path.dirname(os.path.abspath(__file__)), "..")
wrong = []
# an edit: its crate and name, what its first line names (None if out of form), the words for the wrong program, and whether it changes a definition
Edit = collections.namedtuple("Edit", "crate name subject words defines")


def read(path):
    return open(f"{top}/{path}", encoding="utf-8").read()


def files(folder, end):
    # the texts of a folder's files of a kind
    return [open(f"{d}/{f}", encoding="utf-8").read() for d, _, fs in os.walk(folder) for f in fs if f.endswith(end)]


crates = re.findall(r"^[ \t]*(\w+)[^#:\n]*:", read("crates.txt"), re.M)  # a line begins NAME: or NAME staticlib:
# the public functions of each crate, methods and those of its impls among them; a program has none
functions = {c: set(re.findall(r'^(?:pub (?:const |unsafe |extern "C" )*|    (?:pub )?)fn (\w+)', "".join(files(f"{top}/crates/{c}/src", "lib.rt")), re.M)) for c in crates}


def is_declared(crate, name):
    # whether a theorem or record of this name stands in the crate's definitions or proofs
    start = re.compile(rf"^\s*(?:(?:pub|record|data|abbrev|unfoldable) )*{re.escape(name)}\s.*:", re.M)
    return any(start.search(t) for part in ("specs", "proofs") for t in files(f"{top}/crates/{crate}/{part}", ".antt"))


def edit_of(crate, name):
    path = f"crates/{crate}/must-fail/{name}.edit"
    text = read(path)
    head = text.split("\n")[0]
    form = re.fullmatch(r"# (?:(\w+)::)?([\w-]+): ([^|;]+)", head)
    subject = words = None
    if not form or len(head) >= 140:
        wrong.append(f"{path}: the first line is not `# CRATE::FUNCTION: the wrong program` or `# THEOREM: what would be wrong`, under 140 characters, without `;` and `|`")
    elif form[1] and form[1] != crate:
        wrong.append(f"{path}: names the crate {form[1]}")
    elif form[1] and form[2] not in functions[crate]:
        wrong.append(f"{path}: {crate} has no public function {form[2]}")
    elif not form[1] and not is_declared(crate, form[2]):
        wrong.append(f"{path}: {crate} has no theorem or record {form[2]}")
    else:
        subject, words = (f"{crate}::{form[2]}" if form[1] else form[2]), form[3]
    return Edit(crate, name, subject, words, "\nfile: specs/" in text)


def all_edits():
    for crate in crates:
        folder = f"{top}/crates/{crate}/must-fail"
        for f in sorted(os.listdir(folder)) if os.path.isdir(folder) else []:
            if f.endswith(".edit"):
                yield edit_of(crate, f[:-5])


edits = list(all_edits())
said = collections.Counter((e.subject, e.words) for e in edits if e.subject)
wrong += [f"{subject}: {n} edits for one wrong program: {words}" for (subject, words), n in said.items() if n > 1]


def row_of(typed, contract, ruled_out):
    # the first two cells are typed, and so is what may close the third: those of `CRATE::FUNCTION`, .., whose edits show the row's wrong answers too
    crate, names = typed.split("::")[0], re.findall(r"(\w+)(?:,|$)", typed)
    wrong.extend(f"docs/PROMISES.md: a row for {crate}::{n}, which is no public function" for n in names if n not in functions.get(crate, ()))
    programs, shown_by = [], []
    for n in names:
        here = [e for e in edits if e.subject == f"{crate}::{n}"]
        if here:
            programs.append((f"`{n}`: " if len(names) > 1 else "") + "; ".join(e.words for e in here))
            shown_by.append(", ".join(e.name for e in here))
    others = re.search(r"(?:^|; )(those of (?:`\w+::\w+`(?:, )?)+)$", ruled_out)
    if others:
        programs.append(others[1])
        wrong.extend(f"docs/PROMISES.md: the row of {typed} names those of {n}, and no edit does" for n in re.findall(r"`(.*?)`", others[1]) if not any(e.subject == n for e in edits))
    if not programs:
        wrong.append(f"docs/PROMISES.md: no edit for the row of {typed}")
    return f"| {typed} | {contract} | {'; '.join(programs)} | {'; '.join(shown_by)} |", {f"{crate}::{n}" for n in names}


def table_of_functions(old):
    lines, with_row = [], set()
    for line in old.split("\n"):
        cells = [c.strip() for c in line.split("|")]
        if len(cells) == 6 and "::" in cells[1]:
            line, named = row_of(*cells[1:4])
            with_row |= named
        lines.append(line)
    wrong.extend(f"docs/PROMISES.md: no row for {n}, which an edit names" for n in sorted({e.subject for e in edits if e.subject and "::" in e.subject} - with_row))
    return "\n".join(lines)


def definition_edits(old):
    # the words up to the first colon are typed; a crate of theorems alone has nothing but definitions to change
    parts = []
    for crate in sorted(crates):
        names = [e.name for e in edits if e.crate == crate and e.defines and functions[crate]]
        parts += [f"{crate} {', '.join(names)}"] if names else []
    return textwrap.fill(f"{old.split(':')[0].strip()}: {'; '.join(parts)}.", 178, break_long_words=False, break_on_hyphens=False)


def theorem_edits(_):
    lines = ["| Theorem | Would be wrong | Edit |", "|---|---|---|"]
    for crate, subject in dict.fromkeys((e.crate, e.subject) for e in edits if e.subject and "::" not in e.subject):
        es = [e for e in edits if (e.crate, e.subject) == (crate, subject)]
        lines.append(f"| `{subject}` of `{crate}` | {'; '.join(e.words for e in es)} | {', '.join(e.name for e in es)} |")
    return "\n".join(lines)


def count(folder, end):
    # all lines, comments and blank ones too
    return sum(t.count("\n") for t in files(f"{top}/crates/{folder}", end))


def table_of_lines(old):
    seconds = {c: n.replace(",", "") for c, n in re.findall(r"^\| (\w+) \|(?:[^|]*\|){3} ([\d,]+) \|", old, re.M)}
    rows = [(c, count(f"{c}/src", ".rt"), count(f"{c}/specs", ".antt"), count(f"{c}/proofs", ".antt"), int(seconds.get(c, 0)), sum(e.crate == c for e in edits)) for c in crates]
    rows.append((f"all {len(crates)}", *(sum(r[i] for r in rows) for i in range(1, 6))))
    lines = ["| Crate | Code | Definitions | Proofs | Check, s, older toolchain | Edits |", "|---|---|---|---|---|---|"]
    return "\n".join(lines + [f"| {r[0]} | {' | '.join(f'{n:,}' if n else '' for n in r[1:])} |" for r in rows])


def compared(text, mark):
    # a block's lines; of the table of lines without the seconds
    return ["|".join(c for i, c in enumerate(line.split("|")) if i != 5) if mark == "lines" else line for line in text.split("\n")]


def renew(page, mark, write):
    # what stands between the marks of a page is written anew
    text = read(page)
    block = re.search(rf"(<!-- {mark}: [^\n]*-->\n\n)(.*?)(\n\n<!-- {mark} end -->)", text, re.S)
    if not block:
        wrong.append(f"{page}: no marks `<!-- {mark}: .. -->` and `<!-- {mark} end -->`, each with an empty line inside")
        return
    new = write(block[2])
    there, due = compared(block[2], mark), compared(new, mark)
    if not options.check:
        open(f"{top}/{page}", "w", encoding="utf-8").write(text[:block.start(2)] + new + text[block.end(2):])
    elif there != due:
        late = [line for line in due + there if line not in there or line not in due] or ["the order of its lines"]
        wrong.extend(f"{page}, {mark}: not as tools/tables.py writes it: {start}" for start in dict.fromkeys(line[:60] if "|" not in line else line.split("|")[1].strip() for line in late))


renew("docs/PROMISES.md", "functions", table_of_functions)
renew("docs/PROMISES.md", "definition edits", definition_edits)
renew("docs/PROMISES.md", "theorem edits", theorem_edits)
renew("docs/PROVING.md", "lines", table_of_lines)
print("\n".join(wrong) if wrong else f"{len(edits)} edits, each with a function or theorem and its wrong program; the tables of docs/PROMISES.md and docs/PROVING.md are {'as they should be' if options.check else 'written'}")
sys.exit(1 if wrong else 0)
