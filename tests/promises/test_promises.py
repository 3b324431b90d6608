#!/usr/bin/env python3
# tools/promises.py on small trees: a good one, and one for each fault that it is to find.
import contextlib, importlib.util, os, subprocess, sys, tempfile, unittest

sys.dont_write_bytecode = True  # nothing is left beside the script
SCRIPT = os.path.join(os.path.dirname(os.path.abspath(__file__)), "..", "..", "tools", "promises.py")
spec = importlib.util.spec_from_file_location("promises", SCRIPT)
promises = importlib.util.module_from_spec(spec)
spec.loader.exec_module(promises)

LIB = """// A library; `pub fn in_a_comment() -> u8 {` is none.
#![tactic(auto)]

pub const KIND: u8 = 0xBC;

#[derive(Clone, Copy)]
pub struct Point {
    pub at: usize,
}

fn own(x: u8) -> u8 {
    x
}

// The plain form.
pub fn plain_one(s: &[u8], at: usize) -> Point
    requires { at ≤ length s.now }
    ensures { result ≡ point_of s.now at }
{
    let braces = b"} pub fn in_a_string() {";
    Point { at }
}

#[unsafe(no_mangle)]
pub extern "C" fn put(out: &mut [u8], n: u64)
    ensures { out.new ≡ put_in out.old n }
{
    out[0] = 1;
}

pub fn part<'a>(s: &'a [u8]) -> &'a [u8]
    ensures { (result.now ≡ s.now) × (result.ref_ptr ≡ s.entry.ref_ptr) }
{
    s
}
"""

ONCE = """-- Any two outcomes are equal; pub in_a_comment_once : Unit
use mathlib.Core.Path.{◌≡◌, sym, ◌∙◌}
use contract.Lifetimes.{Lfts}
use borrow.Fn.Kinds.{ended_of, res_t, Dens}
use denote.Triple.Clauses.{AtExit}
use Rattle.plate.proofs.Outcome.{OneAnswer}
use Rattle.a.proofs.plain_one.Kinds as plain-kinds
use Rattle.a.proofs.plain_one.Reads as plain-reads
use Rattle.a.proofs.put.Kinds as put-kinds
use Rattle.a.proofs.put.Reads as put-reads
use Rattle.a.proofs.part.Kinds as part-kinds
use Rattle.a.proofs.part.Reads as part-reads

pub plain_one_once : OneAnswer 1 plain-kinds.ps plain-kinds.r plain-reads.Post
plain_one_once κs a x y s t p q = p ∙ sym q

pub put_once : (κs : Lfts 1) (a : Dens κs put-kinds.ps) (x y : (res_t put-kinds.r κs).Denot) (s t : AtExit (ended_of 1 put-kinds.ps put-kinds.r) κs)
    → put-reads.Post κs a x s → put-reads.Post κs a y t → s.0.now ≡ t.0.now
put_once κs a x y s t p q = p ∙ sym q

pub part_once : (κs : Lfts 1) (a : Dens κs part-kinds.ps) (x y : (res_t part-kinds.r κs).Denot) (s t : AtExit (ended_of 1 part-kinds.ps part-kinds.r) κs)
    → part-reads.Post κs a x s → part-reads.Post κs a y t → (x.now ≡ y.now) × (x.ref_ptr ≡ y.ref_ptr)
part_once κs a x y s t p q = (p.0 ∙ sym q.0, p.1 ∙ sym q.1)
"""

WALKER = """#![tactic(auto)]

ghost use Rattle.walker.specs.Walk.{Made, Stepped};

#[derive(Clone, Copy)]
pub struct Walker<'a> {
    pub stream: &'a [u8],
    pub at: usize,
}

pub fn step<'s, 'a>(w: &'s mut Walker<'a>) -> PacketAnswer
    ensures { Stepped w.old result w.new }
{
    w.at = 0;
    stay()
}
"""

WALKER_ONCE = """use mathlib.Core.Path.{◌≡◌, sym, ◌∙◌}
use Rattle.walker.specs.Walk.{Stepped}
use Rattle.walker.specs.declared.Walker.{Walker}
use Rattle.packet.specs.declared.PacketAnswer.{PacketAnswer}

pub step_once : (w : Walker) (r t : PacketAnswer) (u v : Walker) → Stepped w r u → Stepped w t v → (r ≡ t) × (u ≡ v)
unfolding Stepped
step_once w r t u v p q = (p.0 ∙ sym q.0, p.1 ∙ sym q.1)
"""

PAGE = """# Promises

## Public functions

| Function | Contract | Ruled out | Edit |
|---|---|---|---|
| a::plain_one, put | words | words | wrong, other; walker: moves |
| a::part | words | words | wrong |
| walker::step | words | words | moves |

## Functions that ask

| `a::plain_one` | the place is there |

## About the edits

They show it from the other side: a turned. Words.

| Theorem | Would be wrong | Edit |
|---|---|---|
| `Demand` of `newer` | words | known |
"""

EDIT = "# a wrong program\nfile: src/lib.rt\nold: x\nnew: y\n"

GOOD = {
    "crates.txt": "# one line a crate\na:\nwalker: a\nnewer: a\nprogram: a\n",
    "docs/PROMISES.md": PAGE,
    "crates/a/src/lib.rt": LIB,
    "crates/a/proofs/Lib.antt": "pub mod Once\n",
    "crates/a/proofs/Once.antt": ONCE,
    "crates/a/must-fail/wrong.edit": EDIT,
    "crates/a/must-fail/other.edit": EDIT,
    "crates/a/must-fail/turned.edit": EDIT.replace("src/lib.rt", "specs/A.antt"),
    "crates/walker/src/lib.rt": WALKER,
    "crates/walker/proofs/Lib.antt": "pub mod Once\n",
    "crates/walker/proofs/Once.antt": WALKER_ONCE,
    "crates/walker/must-fail/moves.edit": EDIT,
    "crates/newer/must-fail/known.edit": EDIT.replace("src/lib.rt", "specs/A.antt"),
    "crates/program/src/main.rt": "pub fn of_a_program() -> u8 {\n    0\n}\n",
}


@contextlib.contextmanager
def tree(files):
    with tempfile.TemporaryDirectory() as top:
        for name, text in files.items():
            path = os.path.join(top, name)
            os.makedirs(os.path.dirname(path), exist_ok=True)
            with open(path, "w", encoding="utf-8") as f:
                f.write(text)
        yield top


class Promises(unittest.TestCase):
    def good(self, files):
        with tree(files) as top:
            faults, said = promises.judge(top)
        self.assertEqual(faults, [])
        return said

    def faulty(self, files, *wanted):
        # these faults and no others, each told by how its line begins
        with tree(files) as top:
            lines, _ = promises.judge(top)
        self.assertEqual(len(lines), len(wanted), lines)
        for line, want in zip(lines, wanted):
            self.assertTrue(line.startswith(want), f"{line!r} for {want!r}")

    def changed(self, name, old, new):
        self.assertEqual(GOOD[name].count(old), 1, old)
        return {**GOOD, name: GOOD[name].replace(old, new)}

    def added(self, text, name="crates/a/src/lib.rt"):
        return {**GOOD, name: GOOD.get(name, "") + text}

    # ---- functions ----

    def lacking_all(self, name):
        return [f"{name}: no ensures", f"{name}: no one-outcome theorem", f"{name}: no row"]

    def test_good(self):
        self.assertTrue(self.good(GOOD).startswith("4 public functions, "))

    def test_status_and_lines(self):
        bad = self.added("\npub fn bare(x: u8) -> u8 { x }\n")
        for files, status, lines in ((GOOD, 0, 1), (bad, 1, 3)):
            with tree(files) as top:
                done = subprocess.run([sys.executable, "-B", SCRIPT, top], capture_output=True, encoding="utf-8")
            self.assertEqual((done.returncode, done.stdout.count("\n"), done.stderr), (status, lines, ""))

    def test_brace_on_its_line(self):
        self.faulty(self.added("\npub fn bare(x: u8) -> u8 { x }\n"), *self.lacking_all("a::bare"))

    def test_in_an_impl(self):
        self.faulty(self.added("\nimpl Point {\n    fn own() {}\n    pub fn new(n: usize) -> Self { Self { at: n } }\n}\n"), *self.lacking_all("a::Point::new"))
        self.faulty(self.added("\nimpl<'a> Held<'a> {\n    pub fn step(&mut self) -> u8 { 0 }\n}\n"), *self.lacking_all("a::Held::step"))

    def test_in_a_module(self):
        self.faulty(self.added("\nmod inner {\n    pub fn f() -> u8 {\n        0\n    }\n}\n"), *self.lacking_all("a::inner::f"))

    def test_in_another_file(self):
        self.faulty(self.added("pub fn f() -> u8 {\n    0\n}\n", "crates/a/src/more.rt"), *self.lacking_all("a::more::f"))

    def test_for_c(self):
        self.faulty(self.added('\npub extern "C" fn f(s: &[u8]) -> u8 {\n    0\n}\n'), *self.lacking_all("a::f"))

    def test_behind_a_constant_or_a_struct(self):
        # `pub` of one item is not that of the next
        self.good(self.added("\npub const N: u8 = 1;\n\nfn own_two() {}\n\npub struct S {\n    pub x: u8,\n}\n\nfn own_three() {}\n"))

    def test_of_a_module_with_all(self):
        files = self.added("pub fn f() -> u8\n    ensures { result ≡ 0 }\n{\n    0\n}\n", "crates/a/src/more.rt")
        files["crates/a/proofs/Once.antt"] += "\npub more_f_once : OneAnswer 0 Rattle.a.proofs.more.f.Kinds.ps Rattle.a.proofs.more.f.Kinds.r Rattle.a.proofs.more.f.Reads.Post\n"
        files["docs/PROMISES.md"] = PAGE.replace("| a::part |", "| a::part, a::more::f |")
        self.good(files)

    def test_no_ensures(self):
        self.faulty(self.changed("crates/a/src/lib.rt", "    ensures { result ≡ point_of s.now at }\n", ""), "a::plain_one: no ensures")

    # two clauses of a kind have each a name, and a `ghost` and a `where` may stand before them
    NAMED = """
pub fn clamp<T>(n: usize, most: usize) -> usize
    where T: Copy
    ghost top: { ℕ }
    requires some { 0 < most }
    requires fits { most < 2 ^ 32 }
    ensures same { n ≤ most → result ≡ n }
    ensures capped { most < n → result ≡ most }
{
    if n < most { n } else { most }
}
"""

    def named(self, clauses=NAMED):
        files = self.added(clauses)
        files["crates/a/proofs/Once.antt"] += "\npub clamp_once : OneAnswer 0 Rattle.a.proofs.clamp.Kinds.ps Rattle.a.proofs.clamp.Kinds.r Rattle.a.proofs.clamp.Reads.Post\n"
        files["docs/PROMISES.md"] = PAGE.replace("| a::part |", "| a::part, clamp |").replace("| `a::plain_one` |", "| `a::plain_one`, `a::clamp` |")
        return files

    def test_named_clauses(self):
        said = self.good(self.named())
        self.assertTrue(said.startswith("5 public functions, "))
        self.assertIn("; 2 ask something ", said)
        one = self.NAMED.replace("    ensures same { n ≤ most → result ≡ n }\n", "")
        self.good(self.named(one))
        self.faulty(self.named(one.replace("    ensures capped { most < n → result ≡ most }\n", "")), "a::clamp: no ensures")
        self.faulty({**self.named(), "docs/PROMISES.md": self.named()["docs/PROMISES.md"].replace(", `a::clamp`", "")}, "a::clamp: a requires that")
        asks_nothing = self.NAMED.replace("    requires some { 0 < most }\n", "").replace("    requires fits { most < 2 ^ 32 }\n", "")
        self.faulty(self.named(asks_nothing), "a::clamp: docs/PROMISES.md lets it ask")

    def test_static_library(self):
        files = {**self.added("\npub fn bare(x: u8) -> u8 { x }\n"), "crates.txt": GOOD["crates.txt"].replace("a:\n", "a staticlib:\n", 1)}
        self.faulty(files, *self.lacking_all("a::bare"))

    # ---- theorems ----

    def of_theorem(self, old, new, want):
        self.faulty(self.changed("crates/a/proofs/Once.antt", old, new), want)

    def test_no_theorem(self):
        self.of_theorem("pub plain_one_once", "pub plain_two_once", "a::plain_one: no one-outcome theorem")

    def test_theorem_of_nothing(self):
        self.of_theorem("OneAnswer 1 plain-kinds.ps plain-kinds.r plain-reads.Post", "Unit", "a::plain_one: plain_one_once does not say")

    def test_theorem_of_another_contract(self):
        self.of_theorem("plain-kinds.r plain-reads.Post", "plain-kinds.r put-reads.Post", "a::plain_one: plain_one_once does not say")
        self.of_theorem("use Rattle.a.proofs.plain_one.Reads", "use Rattle.b.proofs.plain_one.Reads", "a::plain_one: plain_one_once does not say")

    def test_one_answer_of_its_own(self):
        self.of_theorem("use Rattle.plate.proofs.Outcome.{OneAnswer}\n", "", "a::plain_one: plain_one_once does not say")
        self.of_theorem("use Rattle.plate.proofs.Outcome.{OneAnswer}", "use Rattle.a.proofs.Mine.{OneAnswer}", "a::plain_one: plain_one_once does not say")

    def test_name_from_two_places(self):
        self.of_theorem("use Rattle.plate.proofs.Outcome.{OneAnswer}\n", "use Rattle.plate.proofs.Outcome.{OneAnswer}\nuse Rattle.a.proofs.Mine.{Weak as OneAnswer}\n", "a::plain_one: plain_one_once does not say")

    def test_theorem_in_a_comment(self):
        self.of_theorem("pub plain_one_once :", "{- pub\npub plain_one_once : Unit -}\npub plain_two_once :", "a::plain_one: no one-outcome theorem")

    def test_equality_that_std_hands_on(self):
        for module in ("specs.Prelude", "proofs.Common"):
            self.good(self.changed("crates/a/proofs/Once.antt", "use mathlib.Core.Path.{◌≡◌, ", f"use Rattle.std.{module}.{{◌≡◌}}\nuse mathlib.Core.Path.{{"))

    def test_equality_of_its_own(self):
        files = self.changed("crates/a/proofs/Once.antt", "use mathlib.Core.Path.{◌≡◌, ", "use Rattle.a.proofs.Mine.{◌≡◌, ")
        self.faulty(files, "a::put: put_once does not say", "a::part: part_once does not say")

    def test_buffer_left_out(self):
        self.of_theorem("→ s.0.now ≡ t.0.now", "→ x ≡ y", "a::put: put_once does not say")
        text = ONCE.split("pub put_once")[0] + "pub put_once : OneAnswer 1 put-kinds.ps put-kinds.r put-reads.Post\n\npub part_once" + ONCE.split("pub part_once")[1]
        self.faulty({**GOOD, "crates/a/proofs/Once.antt": text}, "a::put: put_once does not say")

    def test_answer_left_out(self):
        # the function answers now, and its theorem speaks of the buffer alone
        self.faulty(self.changed("crates/a/src/lib.rt", "n: u64)\n", "n: u64) -> u8\n"), "a::put: put_once does not say")

    def test_second_buffer_left_out(self):
        self.faulty(self.changed("crates/a/src/lib.rt", "(out: &mut [u8], n: u64)", "(out: &mut [u8], more: &mut [u8])"), "a::put: put_once does not say")

    def test_place_of_a_part_left_out(self):
        self.of_theorem("(x.now ≡ y.now) × (x.ref_ptr ≡ y.ref_ptr)", "x.now ≡ y.now", "a::part: part_once does not say")

    def test_one_more_premise(self):
        self.of_theorem("put-reads.Post κs a y t → s", "put-reads.Post κs a y t → Never → s", "a::put: put_once does not say")

    def test_one_outcome_twice(self):
        self.of_theorem("put-reads.Post κs a y t", "put-reads.Post κs a x s", "a::put: put_once does not say")

    def test_file_not_declared(self):
        files = {**GOOD, "crates/a/proofs/Lib.antt": "-- pub mod Once\n"}
        self.faulty(files, *[f"a::{f}: the file of {f}_once is declared nowhere" for f in ("plain_one", "put", "part")])

    # ---- whose theorem is over a name ----

    def of_walker(self, name, old, new, want):
        self.faulty(self.changed(f"crates/walker/{name}", old, new), want)

    def test_weakened_by_hand(self):
        ensures = "Stepped w.old result w.new"
        weaker = (f"({ensures}) ⊎ Unit", "Stepped w.old result w.old", "Stepped w.new result w.new", "Stepped w.old w.new result", "Stepped w.old w.new w.new", "Stepped w.old result", f"Never → {ensures}", "Unit")
        for said in weaker:
            self.of_walker("src/lib.rt", ensures, said, "walker::step: its ensures is not just Stepped")
        clause = f"    ensures {{ {ensures} }}\n"
        whole, moves = clause.replace("{", "whole {", 1), "    ensures moves { w.new.at ≡ 0 }\n"
        self.good(self.changed("crates/walker/src/lib.rt", clause, whole))
        for both in (moves + whole, whole + moves):
            self.of_walker("src/lib.rt", clause, both, "walker::step: its ensures is not just Stepped")

    def test_by_hand_over_another_name(self):
        self.of_walker("proofs/Once.antt", "→ Stepped w r u →", "→ Made w r u →", "walker::step: step_once does not say")
        for name, path in (("proofs/Once.antt", "Walk.{Stepped}"), ("src/lib.rt", "Walk.{Made, Stepped}")):
            self.of_walker(name, f"Rattle.walker.specs.{path}", f"Rattle.walker.specs.Weak{path}", "walker::step: step_once does not say")
            self.of_walker(name, f"Rattle.walker.specs.{path}", f"Rattle.a.specs.{path}", "walker::step: step_once does not say")
        files = {name: text.replace("Rattle.walker.specs.Walk.", "Rattle.a.specs.Walk.") for name, text in GOOD.items()}
        self.faulty(files, "walker::step: step_once does not say")

    def test_by_hand_too_weak(self):
        self.of_walker("proofs/Once.antt", "(r ≡ t) × (u ≡ v)", "r ≡ t", "walker::step: step_once does not say")
        self.of_walker("proofs/Once.antt", "(r ≡ t) × (u ≡ v)", "(r ≡ t) × (u ≡ u)", "walker::step: step_once does not say")
        self.of_walker("proofs/Once.antt", "→ Stepped w t v →", "→ Stepped w t v → Never →", "walker::step: step_once does not say")
        for premise in ("(p : Never) ", "{p : Never} ", "{{p : Never}} ", "⦃p : Never⦄ ", "(w : Walker) → (Never) → ", "(w : Walker) → Never → "):
            self.of_walker("proofs/Once.antt", "step_once : (w", f"step_once : {premise}(w", "walker::step: step_once does not say")
        self.of_walker("proofs/Once.antt", "→ Stepped w t v → (r ≡ t) × (u ≡ v)", "→ Stepped w r u → (r ≡ r) × (u ≡ u)", "walker::step: step_once does not say")
        # `«u»` is u
        self.of_walker("proofs/Once.antt", "(u v : Walker) → Stepped w r u → Stepped w t v → (r ≡ t) × (u ≡ v)", "(u «u» : Walker) → Stepped w r u → Stepped w t «u» → (r ≡ t) × (u ≡ «u»)", "walker::step: step_once does not say")

    # ---- the page ----

    def of_page(self, old, new, *wanted):
        self.faulty(self.changed("docs/PROMISES.md", old, new), *wanted)

    def test_rows(self):
        self.of_page("a::plain_one, put", "a::plain_one", "a::put: no row")
        self.of_page("a::plain_one, put", "a::plain_one, put, gone", "a::gone: docs/PROMISES.md has a row")
        self.of_page("| a::plain_one, put |", "| walker::plain_one, a::put |", "a::plain_one: no row", "walker::plain_one: docs/PROMISES.md has a row")

    def test_asking(self):
        self.of_page("| `a::plain_one` |", "| `a::put`, `a::plain_one` |", "a::put: docs/PROMISES.md lets it ask")
        self.of_page("| `a::plain_one` |", "| `walker::plain_one` |", "a::plain_one: a requires that", "walker::plain_one: docs/PROMISES.md lets it ask")

    def test_edit_not_named(self):
        self.faulty({**GOOD, "crates/a/must-fail/new.edit": EDIT}, "a/new: docs/PROMISES.md does not name")

    def test_edit_of_a_name_that_another_crate_has(self):
        for name in ("wrong", "known", "turned"):
            self.faulty({**GOOD, f"crates/walker/must-fail/{name}.edit": EDIT}, f"walker/{name}: docs/PROMISES.md does not name")

    def test_edit_that_is_not_there(self):
        self.of_page("wrong, other;", "wrong, other, gone;", "a/gone: docs/PROMISES.md names this edit")
        self.of_page("| known |", "| known, gone |", "newer/gone: docs/PROMISES.md names this edit")

    def test_edit_of_a_definition(self):
        self.faulty({**GOOD, "crates/a/must-fail/wrong.edit": EDIT.replace("src/lib.rt", "specs/A.antt")}, "a/wrong: changes a definition, or does not")
        self.faulty({**GOOD, "crates/a/must-fail/turned.edit": EDIT}, "a/turned: changes a definition, or does not")


if __name__ == "__main__":
    unittest.main()
