"""tools/promises over small repositories: it is silent where all is there, and says what is not."""
import re
import sys
from importlib.machinery import SourceFileLoader

from common import ROOT, Case, run

sys.path.insert(0, str(ROOT / "tools"))
words = SourceFileLoader("words", str(ROOT / "tools" / "words")).load_module()
SOURCE = """\
//! A crate.
pub use calls::{Thing, first};

pub fn first(a: u32) -> u32
    requires small { a < 10 }
    ensures value { result ≡ a }
{
    a
}

pub struct Thing {
    a: u32,
}

impl<S: Store> Thing {
    /// A method.
    pub fn second(&self) -> u32
        ensures { result ≡ self.now.a }
    {
        self.a
    }
}
"""
TESTS = """\
#[test]
fn it_is_so(rt: HostRuntime) {
    let a = first(3);
    assert_eq!(rt; a, 3);
}
"""
PAGE = """\
# Promises

- The first is so (`low::first`: `value`; `Thing::second` (its clause)).
- It is shown (`low::tests`: `it_is_so`).
- A wrong body (`low`: `wrong-body`).

## What is trusted

| What | By whom |
|---|---|
| The kit | you |

## What is only tested

| What | Test |
|---|---|
| It is so | `crates/low/src/tests.rt`: `it_is_so` |
| All of it | `tools/all`, by hand |

## Errors

| Call | Error |
|---|---|
| `first` | none |
"""
OWN = """\
# low

It gives what it got (`first`: `value`, `Thing::second`: its clause).

## Example

From `crates/low/src/tests.rt`, `it_is_so`:

```rust
let a = first(3);
```

## What is proved

- All of it.

## What is not proved

- Nothing.
"""
PROVED = "## What is proved"
LAW = """\
-- Laws.
use Rattle.std.specs.Prelude.{Unit}

-- a law
abbrev pub IsLaw : Type 0
IsLaw = Unit
"""
TOP = """\
pub use db::Db;

impl Db {
    ghost use Rattle.trajdb.specs.Promises.{RunCall};
    ghost use Rattle.trajdb.specs.Run.{Runs};

    /// Runs it.
    pub fn run(&mut self)
        // it ran
        ensures ok { Runs self.old self.new }
        ensures call { RunCall self.old self.new }
    {}

    /// Opens it.
    pub fn open(&mut self)
        ensures { RunCall self.old self.new }
    {}
}
"""
CALLS = """\
use Rattle.trajdb.specs.Run.{Runs, is_open}

-- what a run promises
pub record RunCall (old new : \u2115) : Type 0 where
  pub stays : Runs old new
  -- the book is open
  pub book : is_open new
"""
RUNS = """\
use Rattle.std.specs.Prelude.{\u2115, \u25cc\u2261\u25cc}

-- it is 1
abbrev pub is_open : \u2115 \u2192 Type 0
is_open n = n \u2261 one

-- the first
abbrev pub one : \u2115
one = 1

abbrev pub Runs : \u2115 \u2192 \u2115 \u2192 Type 0
Runs old new = old \u2261 new
"""
DB = """\
/// A database.
pub struct Db {
    size: Size,
    none: Size,
}

/// A size.
struct Size {
    size: u32,
}

impl Model for Size {
    ghost use Rattle.std.specs.Prelude.{\u2115};

    ghost Value = { \u2115 };

    ghost view = { \u03bb a. a.size };
}

impl Model for Db {
    ghost use Rattle.trajdb.specs.Seen.{DbView};

    ghost Value = { DbView };

    ghost view = { \u03bb a.
        record { size = a.size; none = a.none } };
}

impl Db {
    ghost use Rattle.trajdb.specs.Seen.{has_size};
"""
SEEN = """\
use Rattle.std.specs.Prelude.{\u2115}

-- a database
pub record DbView : Type 0 where
  pub size : \u2115
  pub none : \u2115

-- its size
abbrev pub has_size : DbView \u2192 \u2115
has_size db = db.size
"""
TOPS = {
    "crates/trajdb/src/lib.rt": TOP,
    "crates/trajdb/specs/Promises.antt": CALLS,
    "crates/trajdb/specs/Run.antt": RUNS,
    "crates/trajdb/README.md": "# trajdb\n",
}
FILES = {
    "README.md": "# It\n\nSee [the promises](docs/proof/PROMISES.md#promises) and `crates/low/src/lib.rt`.\n",
    "CONTRIBUTING.md": "# Picking it up\n",
    "docs/proof/PROMISES.md": PAGE,
    "docs/proof/THEOREM.md": "# The theorem\n",
    "crates/low/README.md": OWN,
    "tools/all": "#!/bin/sh\n",
    "crates/low/src/lib.rt": SOURCE,
    "crates/low/src/tests.rt": TESTS,
    "crates/low/must-fail/wrong-body.edit": "file: src/lib.rt\n",
    "crates/low/specs/Law.antt": LAW,
}


class Promises(Case):
    def put(self, others):
        """A repository in which some files are others."""
        for name, text in {**FILES, **others}.items():
            path = self.folder / name
            path.parent.mkdir(parents=True, exist_ok=True)
            path.write_text(text)

    def make(self):
        ended = run("reference", str(self.folder), folder=self.folder)
        self.assertEqual((ended.returncode, ended.stderr), (0, ""))

    def told(self):
        """What the tool says, but for its last line."""
        ended = run("promises", str(self.folder), folder=self.folder)
        *said, last = ended.stdout.splitlines()
        faults = [line for line in said if "in READING" not in line]
        self.assertEqual(ended.stderr, "")
        self.assertEqual(ended.returncode, 1 if faults else 0)
        self.assertTrue(last.endswith(f"{len(faults)} faults"), last)
        return said

    def said(self, **others):
        """What the tool says of a repository in which some files are others, whose reference was made."""
        self.put(others)
        (self.folder / "tools").mkdir(exist_ok=True)
        self.make()
        return self.told()

    def page(self, old, new):
        self.assertIn(old, PAGE)
        return self.said(**{"docs/proof/PROMISES.md": PAGE.replace(old, new)})

    def made(self, name):
        return (self.folder / "docs" / name).read_text()

    def test_all_is_there(self):
        self.assertEqual(self.said(), [])

    def test_what_the_page_names_and_is_not_there(self):
        own, lib = "`crates/low/src/tests.rt`", "`crates/low/src/lib.rt`"
        for old, new, told in [
            ("`low::first`: `value`", "`low::first`: `value`, `valve`", "3: low::first has no clause valve"),
            (
                "`low::first`: `value`;",
                "`low::second`: `value`; `low::first`: `value`;",
                "3: there is no low::second; there is low::Thing::second",
            ),
            ("`low::tests`: `it_is_so`", "`low::tests`: `it_is_not_so`", "4: low::tests has no it_is_not_so"),
            (f"{own}: `it_is_so`", f"{lib}: `first`", "17: crates/low/src/lib.rt has no test first"),
            (own, "`crates/low/src/tosts.rt`", "17: there is no file crates/low/src/tosts.rt"),
            ("`tools/all`", "`tools/none`", "18: there is no file tools/none"),
            ("## What is only tested", "## What is tested", "0: has no table of what is only tested"),
            ("`wrong-body`", "`wronger-body`", "5: low has no must-fail edit wronger-body"),
        ]:
            with self.subTest(told):
                self.assertEqual(self.page(old, new), [f"docs/proof/PROMISES.md:{told}"])

    def test_what_is_only_tested_names_a_test(self):
        told = "docs/proof/PROMISES.md:17: 'It is so' is said to be tested, and names no test"
        for named in ("", "by hand", "`crates/low/src/tests.rt`", "`low::first`: `value`"):
            self.assertEqual(self.page("`crates/low/src/tests.rt`: `it_is_so`", named), [told])

    def test_a_crate_without_a_page(self):
        (self.folder / "crates" / "high" / "src").mkdir(parents=True)
        self.assertEqual(self.said(), ["crates/high/README.md:0: is not there"])

    def test_a_crate_that_is_not_among_the_crates(self):
        place = "docs/dev/ARCHITECTURE.md"
        self.assertEqual(self.said(**{place: "# It\n"}), [f"{place}:0: has no link to crates/low/README.md"])
        self.assertEqual(self.said(**{place: "# It\n\nThe crate [low](../../crates/low/README.md).\n"}), [])

    def test_a_line_of_an_example_that_no_test_has(self):
        said = self.said(**{"crates/low/README.md": OWN.replace("first(3)", "first(4)")})
        self.assertEqual(said, ["crates/low/README.md:10: crates/low/src/tests.rt has no line let a = first(4);"])

    def test_the_form_of_a_crates_page(self):
        example = OWN[OWN.index("From") : OWN.index(PROVED)]
        rest = "What is proved, What is not proved"
        other = f"```rust\nlet b = 1;\n```\n\n{PROVED}"
        for old, new, told in [
            (example, "See the tests.\n\n", "has no example"),
            ("From `crates/low/src/tests.rt`, `it_is_so`:", "So:", "has no example"),
            (PROVED, other, "an example does not say from which source it is"),
            ("## Example", "## A caller", f"has the heads low, A caller, {rest}, and not low, Example, {rest}"),
            ("- Nothing.", "- Nothing. " + "w " * 400, "has 438 words, and at most 400 may be"),
        ]:
            with self.subTest(told):
                self.assertIn(old, OWN)
                said = self.said(**{"crates/low/README.md": OWN.replace(old, new)})
                self.assertEqual(said, [f"crates/low/README.md:1: {told}"])

    def test_an_example_stands_in_a_source_that_the_gate_compiles(self):
        for place in ("python/tests.rt", "crates/low/tests/tests.rt"):
            with self.subTest(place):
                own = OWN.replace("crates/low/src/tests.rt", place)
                said = self.said(**{"crates/low/README.md": own, place: TESTS})
                self.assertIn(f"crates/low/README.md:10: the gate does not compile {place}", said)
            (self.folder / place).unlink()

    def test_lines_of_an_example_stand_one_behind_another(self):
        swapped = "assert_eq!(rt; a, 3);\nlet a = first(3);"
        said = self.said(**{"crates/low/README.md": OWN.replace("let a = first(3);", swapped)})
        told = "crates/low/src/tests.rt has no line let a = first(3); behind the line before it"
        self.assertEqual(said, [f"crates/low/README.md:11: {told}"])
        apart = swapped.replace("\n", "\n//...\n")
        self.assertEqual(self.said(**{"crates/low/README.md": OWN.replace("let a = first(3);", apart)}), [])

    def test_a_file_and_a_link_that_are_not_there(self):
        text = "# It\n\nSee `crates/low/src/tost.rt`, [them](docs/proof/PROMISES.md#none)\nand [it](docs/NONE.md).\n"
        said = self.said(**{"README.md": text})
        self.assertEqual(
            said,
            [
                "README.md:3: there is no file crates/low/src/tost.rt",
                "README.md:3: docs/proof/PROMISES.md has no heading none",
                "README.md:4: the link docs/NONE.md leads nowhere",
            ],
        )

    def test_definitions_on_the_page_of_a_crate_stand_in_its_files(self):
        own = "## Definitions\n\n**A law** (`Law.antt`). `IsLaw`, `is_more`.\n\n**None** (`No.antt`).\n\n## More\n\n`is_less`.\n"
        *said, heads = self.said(**{"crates/low/README.md": f"{OWN}\n{own}"})
        self.assertEqual(
            said,
            [
                "crates/low/README.md:23: crates/low has no definition is_more",
                "crates/low/README.md:25: there is no file crates/low/specs/No.antt",
            ],
        )
        self.assertIn(
            "has the heads low, Example, What is proved, What is not proved, Definitions, More, and not", heads
        )

    def test_a_clause_of_a_record_of_calls_can_be_cited(self):
        files = {**TOPS, "docs/MORE.md": "It stays (`trajdb::Db::run`: `stays`, `gone`).\n"}
        said = self.said(**files)
        self.assertIn("docs/MORE.md:1: trajdb::Db::run has no clause gone", said)
        self.assertNotIn("stays", "".join(said))

    def test_the_reference_has_the_clauses_with_their_comments(self):
        self.said(**TOPS)
        page = self.made("reference/CLAUSES.md")
        self.assertIn(
            "### `Db::run`\n\n`lib.rt`\n\nRuns it.\n\n```rust\npub fn run(&mut self)\n    // it ran\n    ensures ok {",
            page,
        )
        self.assertIn("### Clauses of `RunCall`\n\n`Promises.antt`\n\nwhat a run promises\n\n```text\npub record", page)
        self.assertLess(page.index("## low"), page.index("## trajdb"))

    def test_the_reference_has_the_definitions(self):
        self.said()
        self.assertIn(
            "## low\n\n### Law.antt\n\nLaws.\n\n```text\n-- a law\nabbrev pub IsLaw : Type 0\nIsLaw = Unit\n```",
            self.made("reference/DEFINITIONS.md"),
        )

    def test_the_reading_has_what_is_needed_first(self):
        self.said(**TOPS)
        heads = re.findall(r"^##+ (.*)", self.made("proof/READING.md"), re.M)
        self.assertEqual(
            heads, ["run: ok", "`Runs`", "open: book", "`one`", "`is_open`", "`RunCall`", "Names of the kit"]
        )
        left = "  -- 1 further promises: docs/reference/CLAUSES.md\n"
        self.assertIn(
            f"where\n  -- the book is open\n  pub book : is_open new\n{left}```", self.made("proof/READING.md")
        )

    def reading(self, **others):
        """The page of what is to be read, of a repository in which some files of the database are others."""
        self.said(**{**TOPS, **{f"crates/trajdb/{name}": text for name, text in others.items()}})
        return self.made("proof/READING.md")

    def test_the_reading_says_what_a_name_means(self):
        use = "use Rattle.low.specs.Law.{IsLaw as Other}\nuse Rattle.low.specs.Law as law\n"
        calls = use + CALLS.replace("is_open new", "Other \u00d7 law.IsLaw")
        page = self.reading(**{"specs/Promises.antt": calls})
        said = "`Other` is `IsLaw` of `crates/low/specs/Law.antt`, `law.` begins names of `crates/low/specs/Law.antt`"
        self.assertIn(f"```\n\nHere {said}.\n", page)

    def test_the_reading_says_what_a_clause_needs(self):
        clause = "OnOk result (IsLaw \u2192 (a : \u2115) \u2192 Runs self.old a \u2192 Runs a self.new)"
        top = TOP.replace("ensures ok { Runs self.old self.new }", f"ensures ok {{ {clause} }}")
        page = self.reading(**{"src/lib.rt": top})
        signature = f"```rust\npub fn run(&mut self)\n    ensures ok {{ {clause} }}\n```\n"
        self.assertIn(f"{signature}\nIt needs: `result` is `Ok`; `IsLaw`; `Runs self.old a`.\n", page)

    def test_the_reading_opens_a_name_for_what_it_needs(self):
        runs = RUNS.replace("Runs old new = old", "Runs old new = is_open new \u2192 old")
        self.assertIn("It needs: `is_open self.new`.\n", self.reading(**{"specs/Run.antt": runs}))

    def test_the_reading_has_what_contracts_see_of_a_type(self):
        top = TOP.replace("impl Db {\n", DB).replace(
            "Runs self.old self.new }", "Runs (has_size self.old) (has_size self.new) }"
        )
        page = self.reading(**{"src/lib.rt": top, "specs/Seen.antt": SEEN})
        self.assertIn(
            "### `Size`\n\n`crates/trajdb/src/lib.rt`: A size.\n\nContracts see it as `\u2115`: `\u03bb a. a.size`.\n",
            page,
        )
        self.assertIn(
            "### `Db`\n\n`crates/trajdb/src/lib.rt`: A database.\n\nContracts see it as `DbView`, field by field.\n",
            page,
        )
        self.assertIn(
            "  pub size : \u2115\n  pub none : \u2115\n```\n\nNo text on this page reads `none` by itself.\n", page
        )
        self.assertLess(page.index("### `DbView`"), page.index("### `Db`"))

    def test_a_comment_that_leans_on_the_one_above_it(self):
        runs = RUNS.replace("-- the first", "-- or what it is to be")
        page = self.reading(**{"specs/Run.antt": runs})
        self.assertIn("`crates/trajdb/specs/Run.antt`: (after `is_open`: it is 1) or what it is to be\n", page)

    def test_a_headline_clause_that_is_not_there(self):
        said = self.said(**TOPS)
        self.assertIn("tools/reading.py:0: there is no headline clause trajdb::Db::close: holds", said)
        self.assertNotIn("Db::run: ok", "".join(said))

    def test_names_that_mean_two_things(self):
        run = RUNS.replace("one", "IsLaw").replace("Prelude.{", "Prelude.{Unit, ")
        use = "use Rattle.low.specs.Law.{IsLaw as Other}\n"
        calls = use + CALLS.replace("is_open new", "is_open new \u00d7 Other")
        said = self.said(**{**TOPS, "crates/trajdb/specs/Run.antt": run, "crates/trajdb/specs/Promises.antt": calls})
        self.assertIn("IsLaw means 2 things in READING: crates/trajdb/specs/Run.antt, crates/low/specs/Law.antt", said)

    def test_a_reference_that_lags(self):
        self.said()
        self.put({"crates/low/specs/Law.antt": LAW.replace("= Unit", "= Bool")})
        self.assertEqual(
            self.told(), ["docs/reference/DEFINITIONS.md:0: is not what the sources say: run tools/reference"]
        )
        self.make()
        self.assertEqual(self.told(), [])

    def test_clauses_and_definitions_without_a_comment_may_not_grow(self):
        self.assertEqual(self.said(), [])
        self.put({"crates/low/specs/Law.antt": LAW.replace("-- a law\n", "")})
        self.make()
        said = self.told()
        self.assertEqual(
            said,
            ["tools/bare.txt:0: 1 public definitions have no comment, where 0 may; tools/promises --bare names them"],
        )
        listed = run("promises", "--bare", str(self.folder), folder=self.folder).stdout
        self.assertIn("no comment: crates/low/specs/Law.antt:4: IsLaw\n", listed)

    def test_two_lines_of_a_number_that_two_branches_left(self):
        self.assertEqual(self.said(**{"tools/bare.txt": "definitions: 3\ndefinitions: 2\nclauses: 9\n"}), [])
        self.assertIn("clauses: 2\ndefinitions: 0\n", (self.folder / "tools" / "bare.txt").read_text())


class Words(Case):
    def gate(self, *texts):
        """The status and the last lines, of pages of these texts alone."""
        for number, text in enumerate(texts):
            self.write(f"page{number}.md", text)
        ended = run("words", "--gate", str(self.folder), folder=self.folder)
        _, _, said = ended.stdout.partition("in all\n")
        return ended.returncode, said.replace(f"{self.folder}/", "")

    def test_words_and_long_sentences(self):
        long = "This " + "goes on " * 13 + "far.\n"
        ended = run("words", str(ROOT / "CONTRIBUTING.md"), folder=self.folder)
        self.assertIn("CONTRIBUTING.md", ended.stdout)
        self.assertEqual(words.sentences("# A head\n\n" + long)[0].words(), 28)
        self.assertEqual(
            [
                one.words()
                for one in words.sentences(
                    "One `a b c` is. Two are so.\n\n- Three [are here](x.md)\n- four\n\n    code is none\n"
                )
            ],
            [3, 3, 3],
        )

    def test_the_gate_passes_pages_at_its_limits(self):
        long = "It is " + "so " * 38 + "\n\nNo more.\n\nNor less.\n"
        self.assertEqual(self.gate(long, "w " * 18 + "\n"), (0, "short enough\n"))

    def test_the_gate_names_a_long_sentence_and_a_long_mean(self):
        status, said = self.gate("It is so.\n\nIt is " + "so " * 39 + "\n", "w " * 19 + "\n")
        self.assertEqual(status, 1)
        told = ["page0.md has a mean of 22.0 words", "page1.md has a mean of 19.0 words", "page0.md:3 has 41 words"]
        self.assertEqual(said.splitlines(), [*told, "too long: 3 faults"])

    def test_a_manual_page(self):
        text = ".SH SYNOPSIS\n.B it\n.SH OPTIONS\n.TP\n.B all\nTakes\n.BR all ,\nand more.\nThen ends.\n.nf\nno code\n.fi\n"
        found = words.sentences(words.read_manual(text))
        self.assertEqual([(one.line, one.text) for one in found], [(6, "Takes all , and more."), (6, "Then ends.")])
        self.write("it.1", ".SH NAME\nIt is " + "so " * 39 + "\n.PP\nNo more.\n")
        self.assertEqual(
            self.gate("It is so.\n"), (1, "it.1 has a mean of 21.5 words\nit.1:2 has 41 words\ntoo long: 2 faults\n")
        )

    def test_the_gate_counts_all_pages_together(self):
        text = "Two words.\n\n" * 8000
        self.assertEqual(self.gate(text, text), (0, "short enough\n"))
        status, said = self.gate(text, text + "More.\n")
        self.assertEqual(status, 1)
        self.assertEqual(said, "all pages have 32001 words, and at most 32000 may be\ntoo long: 1 faults\n")
