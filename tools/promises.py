#!/usr/bin/env python3
# promises.py [TREE]: the public functions of the libraries that lack a promise, and the must-fail edits that docs/PROMISES.md does not name as they are.
# A public function has an `ensures`, a theorem `NAME_once` that any two outcomes of its own contract are equal, and a row in docs/PROMISES.md,
# which also justifies each `requires`. It prints a line for each that lacks one and ends with 1; without any it prints how many functions it saw.
# Four parts: the functions (src/), the theorems (proofs/), the page (docs/), and what is held against what.
import os, re, sys
from dataclasses import dataclass

# The contract of these is one definition of the crate's own specs/, of all that they are given and leave, and their theorem is over its name.
BY_NAME = {"walker::make": "Made", "walker::step": "Stepped", "map_records::fill": "Filled"}

# ---- The functions: .rt ----

RT_TOKEN = re.compile(
    r"""(?P<passed> \s+ | //[^\n]* | /\*.*?\*/ )
      | b?"(?:\\.|[^"\\])*"          # a string, of bytes or not
      | b?'(?:\\.|[^'\\])'           # a character; a lifetime has no second quote
      | \w+(?:\.\w+)* | -> | :: | .  # a name with its fields, as `s.now`, is one token""",
    re.X | re.S,
)
CLOSED_BY = {"(": ")", "[": "]", "{": "}"}
CLAUSES = ("ghost", "requires", "ensures")


@dataclass
class Function:
    name: str  # its path in the crate: `f`, `module::f`, `Type::f`
    parameters: list  # of (name, type's tokens)
    result: list  # the type's tokens; none for ()
    requires: list  # the clauses' tokens, without their names
    ensures: list
    names: dict = None  # what an imported name of a clause stands for

    def changed(self):
        # the parameters that it may write to
        return [name for name, kind in self.parameters if kind[:1] == ["&"] and "mut" in kind[1:4]]


def tokens_of(text):
    return [m.group() for m in RT_TOKEN.finditer(text) if m.lastgroup != "passed"]


def end_of(tokens, i):
    # behind the group that opens at i
    depth = 0
    while i < len(tokens):
        depth += (tokens[i] in CLOSED_BY) - (tokens[i] in CLOSED_BY.values())
        i += 1
        if depth == 0:
            break
    return i


def end_of_angles(tokens, i):
    # behind the <..> that opens at i, or i
    depth = 0
    while i < len(tokens) and (depth or tokens[i] == "<"):
        depth += (tokens[i] == "<") - (tokens[i] == ">")
        i += 1
    return i


def parameters_of(tokens):
    parts, start, i = [], 0, 0
    while i <= len(tokens):
        if i == len(tokens) or tokens[i] == ",":
            parts.append(tokens[start:i])
            start = i = i + 1
        else:
            i = end_of(tokens, i) if tokens[i] in CLOSED_BY else end_of_angles(tokens, i) if tokens[i] == "<" else i + 1
    found = []
    for part in filter(None, parts):
        if ":" in part:
            colon = part.index(":")
            found.append((part[colon - 1], part[colon + 1 :]))
        else:  # self, mut self, &self, &mut self
            found.append(("self", part[:-1]))
    return found


def function_at(tokens, i, within):
    # the function whose name stands at i, and where its body ends
    name = "::".join(within + [tokens[i]])
    i = end_of_angles(tokens, i + 1)
    end = end_of(tokens, i)
    f = Function(name, parameters_of(tokens[i + 1 : end - 1]), [], [], [])
    i = end
    answers = tokens[i : i + 1] == ["->"]
    while i < len(tokens) and tokens[i] not in CLAUSES + ("{", ";"):
        end = end_of(tokens, i) if tokens[i] in CLOSED_BY else i + 1
        f.result += tokens[i:end] if answers and tokens[i] != "->" else []
        i = end
    while i < len(tokens) and tokens[i] in CLAUSES:
        # a clause may have a name, and a star behind its word
        opened = next(k for k in range(i, len(tokens)) if tokens[k] in ("{", ";"))
        end = end_of(tokens, opened)
        if tokens[i] != "ghost":
            getattr(f, tokens[i]).append(tokens[opened + 1 : end - 1])
        i = end
    if f.result == ["(", ")"]:
        f.result = []
    return f, end_of(tokens, i)


def public_functions(tokens, within):
    # those of a file or a block; of a module that is not public too, as `pub use` may hand them on
    found, public, i = [], False, 0
    while i < len(tokens):
        word = tokens[i]
        if word == "pub":
            public = tokens[i + 1] != "("  # pub(crate) is not
            i = i + 1 if public else end_of(tokens, i + 1)
        elif word == "fn":
            f, i = function_at(tokens, i + 1, within)
            found += [f] if public else []
            public = False
        elif word in ("impl", "mod"):
            opened = next(k for k in range(i, len(tokens)) if tokens[k] in ("{", ";"))
            named = i + 1 if word == "mod" else end_of_angles(tokens, i + 1)
            end = end_of(tokens, opened)
            found += public_functions(tokens[opened + 1 : end - 1], within + [tokens[named]])
            public, i = False, end
        elif word in CLOSED_BY:
            public = public and word != "{"
            i = end_of(tokens, i)
        else:
            public = public and word != ";"
            i += 1
    return found


def functions_of(crate_folder):
    # of every file of a library's src/; none of a program, whose functions are its own
    src, found = f"{crate_folder}/src", []
    if not os.path.exists(f"{src}/lib.rt"):
        return []
    for path in files_below(src, ".rt"):
        module = os.path.relpath(path, src)[:-3].split(os.sep)
        within = [m for m in module if m not in ("lib", "mod")]
        text = read(path)
        for f in public_functions(tokens_of(text), within):
            f.names = imports_of(text)
            found.append(f)
    return found


# ---- The theorems: .antt ----


@dataclass
class Theorem:
    statement: list  # its type's tokens, with every imported name by its whole path
    declared: bool  # its file is one that the checker is told of


# The equality that std hands on is this one.
EQUAL = "mathlib.Core.Path.◌≡◌"
HANDED_ON = {f"Rattle.{crate}.{module}.◌≡◌": EQUAL for crate, module in (("core", "specs.Prelude"), ("std", "specs.Prelude"), ("std", "proofs.Common"))}
USE = re.compile(r"^[ \t]*(?:pub |ghost )?use ([^\s;{}]+?)(?:\.\{([^}]*)\}| as ([^\s;]+))?(?=[\s;]|\Z)", re.M)


def antt_tokens(text):
    # `(f x).Denot` is a field of what stands in brackets, `«x»` is x
    return re.findall(r"\)(?:\.[^\s().]+)*|\(|[^\s()]+", re.sub("[«»]", "", text))


def imports_of(text):
    # what a name of the file stands for; also of .rt, for its clauses
    names = {}
    for path, listed, alias in USE.findall(text):
        found = [] if listed else [(alias or path.rpartition(".")[2], path)]
        for item in filter(None, (i.strip() for i in listed.split(","))):
            name, _, alias = item.partition(" as ")
            found.append((alias or name, f"{path}.{name}"))
        for name, whole in found:  # one that stands for two things stands for neither
            names[name] = whole if names.get(name, whole) == whole else f"{names[name]} or {whole}"
    return names


def in_full(token, names):
    head, dot, rest = token.partition(".")
    whole = names.get(f"◌{token}◌") or names.get(head, head) + dot + rest
    return HANDED_ON.get(whole, whole)


def theorems_of(crate_folder):
    # by name, the theorems NAME_once of the crate's own files
    proofs, found = f"{crate_folder}/proofs", {}
    for path in files_below(proofs, ".antt"):
        text = re.sub(r"(^|\s)--[^\n]*", r"\1", re.sub(r"\{-.*?-\}", " ", read(path), flags=re.S))
        names = imports_of(text)
        node = f"{proofs}/Lib.antt" if os.path.dirname(path) == proofs else f"{os.path.dirname(path)}.antt"
        own = os.path.basename(path)[:-5]
        declared = os.path.exists(node) and re.search(rf"^(pub )?mod {re.escape(own)}\s*$", read(node), re.M) is not None
        for name, statement in re.findall(r"^pub (\S+_once) :(.*?)(?=^\S|\Z)", text, re.M | re.S):
            found[name] = Theorem([in_full(t, names) for t in antt_tokens(statement)], declared)
    return found


# ---- The page: docs/PROMISES.md ----


@dataclass
class Page:
    rows: set  # the functions of the table
    may_ask: set  # the functions that may ask something of their callers
    named: set  # the edits, as CRATE/EDIT
    defining: set  # those that it says to change a definition
    programs: set  # the crates that serve programs alone


def page_of(text):
    def section(title):
        return text.split(f"\n## {title}\n", 1)[1].split("\n## ", 1)[0] if f"\n## {title}\n" in text else ""

    def edits_in(words, crate):
        # "EDIT, EDIT" of a crate
        return {f"{crate}/{name.strip()}" for name in words.split(",") if name.strip()}

    rows, named = set(), set()
    for line in section("Public functions").split("\n"):
        cells = [c.strip() for c in line.split("|")]
        if "::" not in line or len(cells) < 5:
            continue
        crate = ""
        for part in cells[1].split(","):
            crate, name = part.strip().split("::", 1) if "::" in part else (crate, part.strip())
            rows.add(f"{crate}::{name}")
        for part in cells[4].split(";"):  # "EDIT, EDIT", of the row's crate or of one before a colon
            crate, edits = part.strip().split(": ", 1) if ": " in part else (crate, part)
            named |= edits_in(edits, crate)
    may_ask = set(re.findall(r"`(\w+(?:::\w+)+)`", section("Functions that ask")))
    about, defining = section("About the edits"), set()
    if "from the other side:" in about:  # "CRATE EDIT, EDIT; CRATE EDIT" up to the full stop
        listed = re.split(r"\.\s", about.split("from the other side:", 1)[1], maxsplit=1)[0]
        for crate, edits in re.findall(r"(\w+)\s+([^;]+)", listed):
            defining |= edits_in(edits, crate)
    for crate, edits in re.findall(r"^\| `[^`]+` of `(\w+)` \|[^|]*\|([^|]*)\|$", about, re.M):  # the edits that make a theorem false
        named |= edits_in(edits, crate)
    programs = re.search(r"crates of the programs alone are left out: (.*?)\.\s", section("Functions that ask"), re.S)
    return Page(rows, may_ask, named | defining, defining, set(re.findall(r"`(\w+)`", programs.group(1))) if programs else set())


# ---- The edits: must-fail/ ----


def edits_of(crate_folder):
    # the names of the crate's edits, and of those that change a definition
    found, defining = set(), set()
    for path in files_below(f"{crate_folder}/must-fail", ".edit"):
        name = os.path.basename(path)[:-5]
        found.add(name)
        if re.search(r"^file: specs/", read(path), re.M):
            defining.add(name)
    return found, defining


# ---- What is held against what ----

SPELLED = """(κs : contract.Lifetimes.Lfts {n}) (a : borrow.Fn.Kinds.Dens κs {kinds}.ps) (x y : (borrow.Fn.Kinds.res_t {kinds}.r κs).Denot)
    (s t : denote.Triple.Clauses.AtExit (borrow.Fn.Kinds.ended_of {n} {kinds}.ps {kinds}.r) κs) → {reads}.Post κs a x s → {reads}.Post κs a y t → {equal}"""


def all_equal(pairs):
    equations = [f"{one} {EQUAL} {other}" for one, other in pairs]
    return equations[0] if len(equations) == 1 else " × ".join(f"({e})" for e in equations)


def wanted(crate, f, n):
    # the statement that any two outcomes of the function's own contract are equal: its answer, or the part that it hands back, and all that it may write to
    own = f"Rattle.{crate}.proofs.{f.name.replace('::', '.')}"
    part = [("x.now", "y.now"), ("x.ref_ptr", "y.ref_ptr")]
    pairs = [] if not f.result else part if f.result[0] == "&" else [("x", "y")]
    pairs += [(f"s.{i}.now", f"t.{i}.now") for i in range(len(f.changed()))]
    if pairs in ([], [("x", "y")]):
        return antt_tokens(f"Rattle.plate.proofs.Outcome.OneAnswer {n} {own}.Kinds.ps {own}.Kinds.r {own}.Reads.Post")
    return antt_tokens(SPELLED.format(n=n, kinds=f"{own}.Kinds", reads=f"{own}.Reads", equal=all_equal(pairs)))


def is_own(crate, f, statement):
    # the number of lifetimes is the checker's to hold
    numbers = [t for t in statement if t.isdigit()]
    return bool(numbers) and statement == wanted(crate, f, numbers[0])


def arguments_of(f, contract):
    # how many arguments the contract has, those that come in first, if the `ensures` is just its name with every parameter as the call meets it,
    # the answer, and all that may be written to as the call leaves it
    if len(f.ensures) != 1 or f.ensures[0][:1] != [contract]:
        return None
    found = f.ensures[0][1:]
    entries = [[f"{n}.entry", f"{n}.old" if n in f.changed() else f"{n}.now"] if kind[:1] == ["&"] else [n] for n, kind in f.parameters]
    exits = [[f"{n}.new"] for n in f.changed()]
    asked = entries + ([["result"]] if f.result else []) + exits
    whole = len(found) == len(asked) and all(a in forms for a, forms in zip(found, asked))
    return (len(entries), len(asked)) if whole else None


BINDER = r"\( [^(){}:→]+ : (?:[^(){}→]|\( [^(){}→]* \))+ \) "


def is_over_name(crate, f, contract, statement):
    # "(names : type).. → Contract in.. out.. → Contract in.. out'.. → out ≡ out', each", with these names and no others
    inputs, all_of_them = arguments_of(f, contract)
    own = f.names.get(contract, "")
    held = re.fullmatch(rf"((?:{BINDER})+)→ {re.escape(own)} ([^→]*) → {re.escape(own)} ([^→]*) → ([^→]*)", " ".join(statement))
    if held is None or not own.startswith(f"Rattle.{crate}.specs."):
        return False
    given, one, two, equal = held.group(1), held.group(2).split(), held.group(3).split(), held.group(4)
    bound = [name for group in re.findall(r"\( ([^:()]*) :", given) for name in group.split()]
    names = one + two[inputs:]
    pairs = list(zip(one, two))[inputs:]
    return (
        len(one) == len(two) == all_of_them
        and one[:inputs] == two[:inputs]
        and sorted(names) == sorted(set(names)) == sorted(bound)
        and antt_tokens(equal) == antt_tokens(all_equal(pairs))
    )


def read(path):
    with open(path, encoding="utf-8") as f:
        return f.read()


def files_below(folder, ending):
    return sorted(os.path.join(root, f) for root, _, files in os.walk(folder) for f in files if f.endswith(ending))


def faults_of_function(crate, f, theorems, page):
    full, once = f"{crate}::{f.name}", f.name.replace("::", "_") + "_once"
    theorem, contract = theorems.get(once), BY_NAME.get(full)
    if not f.ensures:
        yield "no ensures"
    if theorem is None:
        yield f"no one-outcome theorem {once}"
    elif not theorem.declared:
        yield f"the file of {once} is declared nowhere, so nothing checks it"
    elif contract is None:
        if not is_own(crate, f, theorem.statement):
            yield f"{once} does not say that any two outcomes of its own contract are equal; wanted: " + " ".join(wanted(crate, f, "N"))
    elif arguments_of(f, contract) is None:
        yield f"its ensures is not just {contract} of its parameters, its answer and what it leaves"
    elif not is_over_name(crate, f, contract, theorem.statement):
        yield f"{once} does not say that any two outcomes that {contract} allows are equal"
    if full not in page.rows:
        yield "no row in docs/PROMISES.md"
    if f.requires and full not in page.may_ask:
        yield "a requires that docs/PROMISES.md does not justify"


def judge(top):
    # the faults of a tree, and what to say if it has none
    page = page_of(read(f"{top}/docs/PROMISES.md"))
    crates = re.findall(r"^[ \t]*(\w+)[^#:\n]*:", read(f"{top}/crates.txt"), re.M)  # a name, or NAME staticlib
    faults, seen, asking, edits, defining = [], set(), set(), set(), set()
    for crate in crates:
        folder = f"{top}/crates/{crate}"
        theorems = theorems_of(folder)
        functions = [] if crate in page.programs else functions_of(folder)
        for f in functions:
            seen.add(f"{crate}::{f.name}")
            asking |= {f"{crate}::{f.name}"} if f.requires else set()
            faults += [f"{crate}::{f.name}: {what}" for what in faults_of_function(crate, f, theorems, page)]
        found, changing = edits_of(folder)
        edits |= {f"{crate}/{e}" for e in found}
        defining |= {f"{crate}/{e}" for e in changing if functions}  # a crate without functions has definitions alone
    faults += [f"{name}: docs/PROMISES.md lets it ask, and it does not" for name in sorted(page.may_ask - asking)]
    faults += [f"{name}: docs/PROMISES.md has a row for it, and there is no such public function" for name in sorted(page.rows - seen)]
    faults += [f"{e}: docs/PROMISES.md names this edit, and there is none" for e in sorted(page.named - edits)]
    faults += [f"{e}: docs/PROMISES.md does not name this edit" for e in sorted(edits - page.named)]
    faults += [f"{e}: changes a definition, or does not, other than docs/PROMISES.md says" for e in sorted(page.defining ^ defining)]
    said = f"{len(seen)} public functions, each with an ensures, a one-outcome theorem of its own contract and a row in docs/PROMISES.md; "
    said += f"{len(asking)} ask something of their callers, as it justifies; {len(edits)} edits, each named there"
    return faults, said


if __name__ == "__main__":
    faults, said = judge(sys.argv[1] if len(sys.argv) > 1 else os.path.join(os.path.dirname(os.path.abspath(__file__)), ".."))
    print("\n".join(faults) if faults else said)
    sys.exit(1 if faults else 0)
