"""Tests tools/rename, on a table and texts by hand.

usage: python3 tools/test_rename.py

It changes no file."""
import importlib.machinery
import importlib.util
import os
import sys
import unittest

sys.dont_write_bytecode = True
PATH = os.path.join(os.path.dirname(os.path.realpath(__file__)), "rename")
LOADER = importlib.machinery.SourceFileLoader("rename", PATH)
rename = importlib.util.module_from_spec(importlib.util.spec_from_loader("rename", LOADER))
LOADER.exec_module(rename)

TABLE = """
crate homes bin_store
name Given KeyArg entries *.rt
name Spot SlotRef lean chm
name Spot InPlace chm
name call_lying call_in_place chm
word spot slot_ref lean
code growth resizer chm
say its_part its_share lean
module spot slot lean
module step walks/step chm
module clear walks/clear chm
"""
LEAN = "crates/lean/src/a.rt"
PATHS = ["crates/lean/src/spot.rt", "crates/chm/src/lib.rt", "crates/chm/src/step.rt"]


class Renames(unittest.TestCase):
    def setUp(self):
        rename.use(TABLE, PATHS)

    def is_made(self, path, *pairs):
        """Each text of a file becomes the other, which stays as it is."""
        for old, new in pairs:
            self.assertEqual(rename.new_text(old, path), new)
            self.assertEqual(rename.new_text(new, path), new)

    def test_words_are_whole(self):
        self.is_made(LEAN, ("Spot::of(spot, IsSpot, Spots, spot_there)", "SlotRef::of(slot_ref, IsSpot, Spots, spot_there)"))

    def test_a_crate_alone_renames_what_it_says(self):
        self.is_made("crates/other/src/a.rt", ("Spot::of(spot) // spot", "Spot::of(spot) // spot"))

    def test_crates(self):
        self.is_made(LEAN, ("use homes::Home; let homes = s.homes;", "use bin_store::Home; let homes = s.homes;"))
        self.is_made("crates.txt", ("# homes, first\nhomes: lean\nchm: lean homes\n", "# homes, first\nbin_store: lean\nchm: lean bin_store\n"))

    def test_ghost_paths_go_by_their_own_crate(self):
        self.is_made(
            "crates/chm/src/a.rt",
            ("ghost use Rattle.lean.specs.declared.spot.Spot.{Spot};", "ghost use Rattle.lean.specs.declared.slot.SlotRef.{SlotRef};"),
            ("ghost use Rattle.chm.proofs.Spot.{some};", "ghost use Rattle.chm.proofs.InPlace.{some};"),
            ("ghost use Rattle.other.specs.Spot.{spot};", "ghost use Rattle.other.specs.Spot.{spot};"),
            ("ghost use Rattle.homes.specs.Homes.{homes};", "ghost use Rattle.bin_store.specs.Homes.{homes};"),
        )

    def test_a_proof_knows_its_goals_by_the_names_that_the_prover_made(self):
        self.is_made(
            "crates/entries/proofs/chain/dealt/Invariants.antt",
            ("use Rattle.entries.proofs.chain.dealt.Given as goal", "use Rattle.entries.proofs.chain.dealt.Given as goal"),
        )
        self.is_made(
            "crates/chm/proofs/map/Map/make/Answers.antt",
            ("pub call_lying-made-requires : goal.call_lying-made-requires", "pub call_in_place-made-requires : goal.call_in_place-made-requires"),
        )

    def test_comments_are_prose(self):
        self.is_made(
            LEAN,
            ("let spot = 1; // Spot of `Spot`: a spot. Spots with its part.", "let slot_ref = 1; // Slot ref of `SlotRef`: a slot ref. Spots with its share."),
            ("///     Spot::of(spot)", "///     SlotRef::of(slot_ref)"),
        )
        self.is_made("crates/chm/src/a.rt", ("self.growth // growth as by `call_lying`", "self.resizer // growth as by `call_in_place`"))

    def test_modules(self):
        self.is_made(LEAN, ("mod spot;\npub use spot::Spot;\nuse crate::spot::Spot;", "mod slot;\npub use slot::SlotRef;\nuse crate::slot::SlotRef;"))
        self.is_made("tools/edits/lean/a.edit", ("file: src/spot.rt\nold: spot // spot", "file: src/slot.rt\nold: slot_ref // slot_ref"))
        self.is_made("crates/chm/proofs/Lib.antt", ("pub mod Spot", "pub mod InPlace"))

    def test_a_module_goes_into_a_folder(self):
        self.is_made(
            "crates/chm/src/lib.rt",
            ("mod map;\nmod step;\npub(crate) mod clear;\nmod walks;\n\npub use step::Step;", "mod map;\nmod walks;\n\npub use walks::step::Step;"),
        )
        self.is_made(
            "crates/chm/src/map.rt",
            ("use crate::step::Step;\nuse super::step::{Step};", "use crate::walks::step::Step;\nuse crate::walks::step::{Step};"),
            ("let a = step::of(b);", "let a = step::of(b);"),
        )
        self.is_made("crates/chm/src/walks.rt", ("mod step;", "mod step;"))
        self.is_made(
            "crates/other/proofs/A.antt",
            ("use Rattle.chm.specs.declared.step.Step.{Step}", "use Rattle.chm.specs.declared.walks.step.Step.{Step}"),
            ("use Rattle.chm.specs.contracts.step.Step as Step", "use Rattle.chm.specs.contracts.walks.step.Step as Step"),
            ("use Rattle.chm.proofs.step.go.Goals as goal", "use Rattle.chm.proofs.walks.step.go.Goals as goal"),
            ("use Rattle.chm.proofs.Steps.{step}", "use Rattle.chm.proofs.Steps.{step}"),
        )
        self.is_made("tools/edits/chm/a.edit", ("file: src/step.rt\nold: step", "file: src/walks/step.rt\nold: step"))
        self.is_made("docs/A.md", ("[step.rt](../crates/chm/src/step.rt#L3)", "[step.rt](../crates/chm/src/walks/step.rt#L3)"))
        for old, new in (
            ("crates/chm/src/step.rt", "crates/chm/src/walks/step.rt"),
            ("crates/chm/proofs/step/Step/go/Answers.antt", "crates/chm/proofs/walks/step/Step/go/Answers.antt"),
            ("crates/chm/proofs/map/Map/step/Answers.antt", "crates/chm/proofs/map/Map/step/Answers.antt"),
        ):
            self.assertEqual(rename.new_file(old), new)
            self.assertEqual(rename.new_file(new), new)

    def test_a_folder_says_its_modules(self):
        here = {"crates/chm/src/walks/step.rt": "", "crates/chm/src/walks/clear.rt": "use crate::walks::clear::A;", "crates/chm/src/lib.rt": "pub use walks::step::Step;"}
        both = "mod clear;\npub(crate) mod step;\n"
        for old, new in (
            ("//! Walks.\n", f"//! Walks.\n\n{both}"),
            ("//! Walks.\n\nuse a::B;\npub use c::D;\n\nfn f() {}\n", f"//! Walks.\n\n{both}\nuse a::B;\npub use c::D;\n\nfn f() {{}}\n"),
            ("//! Walks.\nghost use a.B;\n\nmod clear;\nmod visit;\n", f"//! Walks.\nghost use a.B;\n\n{both}mod visit;\n"),
        ):
            texts = {**here, "crates/chm/src/walks.rt": old}
            for _ in range(2):
                rename.with_folders(texts)
                self.assertEqual(texts["crates/chm/src/walks.rt"], new)
        rename.with_folders(here)
        self.assertEqual(here["crates/chm/src/walks.rt"], both)

    def test_a_folder_of_proofs_may_be_that_of_a_function_of_the_root(self):
        self.assertEqual(rename.new_file("crates/chm/proofs/call_lying/Answers.antt"), "crates/chm/proofs/call_in_place/Answers.antt")
        self.is_made("crates/chm/proofs/A.antt", ("use Rattle.chm.proofs.call_lying.Goals as goal", "use Rattle.chm.proofs.call_in_place.Goals as goal"))
        rename.use(TABLE, ["crates/chm/src/call_lying.rt"])
        self.assertEqual(rename.new_file("crates/chm/proofs/call_lying/Answers.antt"), "crates/chm/proofs/call_lying/Answers.antt")

    def test_an_alias_stands_for_its_path(self):
        use, by_name = "use Rattle.lean.specs.declared.slot.Kind.TheVariants as kind\n", "use Rattle.chm.proofs.A.Given as kind\n"
        self.is_made(
            "crates/other/specs/A.antt",
            (f"{use}IsSpot (kind.Spot s) = a.kind.Spot × other.Spot", f"{use}IsSpot (kind.SlotRef s) = a.kind.Spot × other.Spot"),
            (f"{by_name}IsSpot (kind.Spot s)", f"{by_name}IsSpot (kind.Spot s)"),
        )

    def test_files_and_folders(self):
        for old, new in (
            ("crates/bin_store/src/spot.rt", "crates/bin_store/src/spot.rt"),
            ("crates/lean/src/spot.rt", "crates/lean/src/slot.rt"),
            ("crates/lean/proofs/spot/Spot/spot/Answers.antt", "crates/lean/proofs/slot/SlotRef/slot_ref/Answers.antt"),
            ("crates/chm/proofs/Spot.antt", "crates/chm/proofs/InPlace.antt"),
            ("tools/edits/homes/a.edit", "tools/edits/bin_store/a.edit"),
            ("docs/spot.md", "docs/spot.md"),
        ):
            self.assertEqual(rename.new_file(old), new)

    def test_pages(self):
        self.is_made(
            "docs/A.md",
            ("[`Spot::of`](../crates/lean/src/spot.rt#L3), `Spot` in a spot", "[`SlotRef::of`](../crates/lean/src/slot.rt#L3), `SlotRef` in a spot"),
            ("[homes](../crates/bin_store/README.md) `homes`", "[bin_store](../crates/bin_store/README.md) `bin_store`"),
            ("[`Spot`](../crates/other/src/a.rt)", "[`Spot`](../crates/other/src/a.rt)"),
            ("        homes           of both", "        bin_store       of both"),
        )
        self.is_made("crates/lean/README.md", ("A spot, [`Spot`](src/spot.rt).", "A slot ref, [`SlotRef`](src/slot.rt)."))

    def test_tables(self):
        self.is_made(
            "docs/wrong_bodies.csv",
            ("homes,a spot,Spot::of,spot,,\nlean,\"a, spot\",Spot::of,spot,,\n", "bin_store,a spot,Spot::of,spot,,\nlean,\"a, slot ref\",SlotRef::of,slot_ref,,\n"),
        )
        self.is_made("docs/refusals.csv", ("lean/src/spot.rt,spot,1,a reason\n", "lean/src/slot.rt,slot_ref,1,a reason\n"))

    def test_long_lines_of_proofs_are_broken(self):
        long = "lemma : " + " → ".join(["IsGiven at"] * 14)
        made = rename.new_text(long, "crates/lean/specs/A.antt")
        self.assertTrue(all(len(it.encode()) <= 160 for it in made.splitlines()))
        self.assertEqual(made.replace("\n    → ", " → "), long)
        use = "use Rattle.other.specs.A.{" + ", ".join(f"a_name_{n}" for n in range(18)) + "}"
        made = rename.new_text(use, "crates/lean/specs/A.antt")
        self.assertEqual({it[:26] for it in made.splitlines()}, {use[:26]})
        self.assertEqual([name for it in made.splitlines() for name in it[26:-1].split(", ")].sort(), use[26:-1].split(", ").sort())

    def test_a_crate_that_defines_both_names_is_refused(self):
        both = {LEAN: "pub struct Spot {\n}\npub(crate) struct SlotRef<'a> {\n}\n"}
        self.assertEqual(list(rename.clashes(both)), ["lean defines both Spot and SlotRef"])
        self.assertEqual(list(rename.clashes({LEAN: "pub struct SlotRef {\n}\nfn of(x: Spot) {}\n"})), [])
        files = {"crates/lean/src/spot.rt": "", "crates/lean/src/slot.rt": ""}
        self.assertEqual(list(rename.clashes(files)), ["crates/lean/src/spot.rt and crates/lean/src/slot.rt are both there"])


if __name__ == "__main__":
    unittest.main()
