#!/usr/bin/env python3
"""Changed machines against the law: bench/wrong_machines.py [NAME ..]
Each changes one definition of ct_machine in a copy, and there a clause of the law is proved to be false of one run. On
the machine as it is the same proof is refused, and what the clause comes to at that script is proved. A line for each
machine; the status is 1 where one isn't refuted."""
import os
import re
import shutil
import subprocess
import sys
import tempfile

ROOT = os.path.dirname(os.path.dirname(os.path.abspath(__file__)))
SPECS = ["Entrances", "States", "Events", "Acts", "Runs", "Serial", "Laws"]

HEAD = """-- A run, and what the law says of it.
use Rattle.std.proofs.Common.{◌≡◌, ℕ, ◌<◌, List, [], ◌∷◌, ◌++◌, Bool, true, false, not, ◌&&◌, ◌==◌, Option, None, Some}
use Rattle.std.proofs.Common.{replicate, slice_index_or, ap, sym, refl, arith}
use Rattle.ct_word.specs.declared.names.Ha.TheVariants as ha
use Rattle.ct_word.specs.declared.names.Node.TheVariants.{A, B}
use Rattle.ct_cdb.specs.declared.op.Attr2.TheVariants.{Simple, Head}
use Rattle.ct_tmf.specs.declared.function.Function.TheVariants.{AbortTask, ClearTaskSet, LunReset, QueryTask}
use Rattle.ct_tmf.specs.declared.function.Outcome.{Outcome}
use Rattle.ct_tmf.specs.declared.function.Outcome.TheVariants.{Complete}
use Rattle.ct_book.specs.declared.event.Event.{Event}
use Rattle.ct_book.specs.declared.event.Event.TheVariants as event
use Rattle.ct_book.specs.declared.event.Logged.{Logged}
use Rattle.ct_book.specs.declared.work.Work.TheVariants as work
use Rattle.ct_book.specs.Journals.{KeptWork}
use Rattle.ct_machine.specs.declared.act.Opening.{Opening}
use Rattle.ct_machine.specs.Runs.{Move, replay}
use Rattle.ct_machine.specs.Serial.{serial_disk}
use Rattle.ct_machine.specs.Laws.Journals.{has, is_asked, is_begin, is_entry, comes_first, made_by}
use Rattle.ct_machine.specs.Laws.Cells.{beside}
use Rattle.ct_machine.specs.Laws.Orderly.{IsOrderly}
use Rattle.ct_machine.specs.Laws.Reorders.{ReordersAtRest}
use Rattle.ct_machine.specs.Laws.Prefix.{RecordsPrefix}
use Rattle.ct_machine.specs.Laws.Once.{EachOnce}
use Rattle.ct_machine.specs.Laws.Cells.{IsByCells, MakesPlans}
use Rattle.ct_machine.specs.Laws.Timely.{IsTimely, due_of}
use Rattle.ct_machine.specs.Laws.Functions.{TellsOfCuts, AnswersFunctions}
use Rattle.ct_machine.specs.Laws.{IsLawful}
use Rattle.ct_machine.specs.Laws.Functions.{WaitsForFunctions as WaitsForFunctionsIn, ClosesByNumber as ClosesByNumberIn}
use Rattle.ct_machine.specs.Laws.Kinds.{IsTyped as IsTypedJournal}
use Rattle.ct_machine.proofs.Samples.Parts.{machine, unit_of, command, comes, write10, write, read, bytes}
use Rattle.ct_machine.proofs.Samples.Parts.{asks, step, deliver, next, preempted, aborts, sets_tas, no_read, played}

abbrev unit : Opening
unit = unit_of ha.MODE 16

abbrev script : List Move
script = SCRIPT

abbrev journal : List Logged
journal = played unit script

differ : true ≡ false → ⊥
differ e = cc

abbrev begins_with_zero : List (List ℕ) → Bool
begins_with_zero blocks = slice_index_or (slice_index_or blocks 0 []) 0 0 == 0

abbrev IsTyped : Opening → List Logged → Type 0
IsTyped o journal = IsTypedJournal journal

abbrev WaitsForFunctions : Opening → List Logged → Type 0
WaitsForFunctions o journal = WaitsForFunctionsIn journal

abbrev ClosesByNumber : Opening → List Logged → Type 0
ClosesByNumber o journal = ClosesByNumberIn journal

not_below : 5 < 4 → ⊥
not_below less = omega (arith, less)

abbrev is_complete : Outcome → Bool
is_complete Complete = true
is_complete _ = false

abbrev is_complete_at : ℕ → Event → Bool
is_complete_at wanted (event.Closed number outcome) = number == wanted && is_complete outcome
is_complete_at wanted _ = false

abbrev is_asked_for : Option KeptWork → Bool
is_asked_for (Some (work.Ask ask)) = true
is_asked_for _ = false

abbrev is_cut : ℕ → Event → Bool
is_cut wanted (event.Cut number puts why told) = number == wanted
is_cut wanted _ = false

abbrev is_even : Option ℕ → Bool
is_even None = true
is_even (Some offset) = false

abbrev is_silent : Event → Bool
is_silent (event.Cut number puts why told) = not told
is_silent _ = false

"""


class Machine:
    def __init__(self, name, module, was, becomes, mode, script, clause, proof, kept, uses="", before=""):
        self.name, self.module, self.was, self.becomes, self.uses, self.before = name, module, was, becomes, uses, before
        self.mode, self.script, self.clause, self.proof, self.kept = mode, script, clause, proof, kept

    def title(self):
        return "".join(word.capitalize() for word in self.name.split("-"))

    def head(self):
        script = " ∷ ".join(self.script + ["[]"])
        return HEAD.replace("MODE", self.mode).replace("SCRIPT", f"{self.before} ({script})" if self.before else script)

    def refutation(self):
        refuted = f"refuted : {self.clause} unit journal → ⊥\nunfolding machine beside due_of\nrefuted law = {self.proof}\n"
        return self.head() + refuted

    def keeping(self):
        return f"{self.head()}kept : {self.kept}\nunfolding machine beside due_of\nkept = refl\n"


# the events of the two commands that take the unit attentions, on one node and on two
ON_ONE_NODE, ON_TWO_NODES = 6, 8


def at(event, rest, law="law"):
    """What the law says of an event, counted from 0."""
    return law + ".1" * event + ".0" + rest


def false_is_true(term):
    return f"differ (sym ({term}))"


def false_is_true_of(test, term):
    """A test passes what an event is said to be, and not the event."""
    return false_is_true(f"ap ({test}) ({term})")


ABORT = "asks 10 A 0 (AbortTask (record { 0 = 1 }))"
GRANTED = ["write 10 B 1 2 0 6 0x77", "deliver A", "step 3 1"]
STARTED = GRANTED + ["deliver B", "step 3 2"]
# two commands of a nexus that is removed wait, and one of another between them
# (`preempted` puts moves before those that it is given)
ABORTED = ["aborts 14", "read 15 A 1 2 0 1", "no_read 16 A 0 6", "read 17 A 1 3 1 1", "next"]
# the events behind which the first of them is cut
BEFORE_THE_CUTS = ON_ONE_NODE + 18
CUT = "cut_at (By by) _ task s = leaves task.no (record s { functions = noted by task.no s.functions })"

MACHINES = [
    # a HEAD OF QUEUE write begins beside a begun read of its block
    Machine(
        "head-waits-for-none", "Acts",
        "blocked_by [] s task = blocker_of (task_set_of s) (held_of (length s.blocks) task)",
        "blocked_by [] s task =\n"
        "    if is_head task.command.attr then None else blocker_of (task_set_of s) (held_of (length s.blocks) task)",
        "None",
        ["read 8 A 0 1 0 2", "step 3 1", "comes A (command 10 A 1 1 Head (write10 0 1) (bytes 0x22 1))", "step 4 1"],
        "IsOrderly", false_is_true(
            at(ON_ONE_NODE + 6, " refl 3 _ _ (λ e. differ (ap (λ (n : ℕ). n == 3) e)) refl refl refl refl")),
        "has (is_begin 4) journal ≡ false",
        "use Rattle.ct_matrix.specs.Conflicts.{is_head}\n"),
    # a MODE SELECT begins beside a write that has begun, and changes the modifier
    Machine(
        "selects-beside-a-write", "Acts",
        "blocked_by [] s task = blocker_of (task_set_of s) (held_of (length s.blocks) task)",
        "blocked_by [] s task =\n"
        "    if slice_index_or task.command.cdb 0 0 == 0x15 then None\n"
        "    else blocker_of (task_set_of s) (held_of (length s.blocks) task)",
        "None",
        ["write 8 A 0 1 0 8 0x33", "step 3 3", "comes A (command 10 A 1 1 Simple (0x15 ∷ 0x10 ∷ 0 ∷ 0 ∷ 16 ∷ 0 ∷ [])"
         " (replicate 4 0 ++ 0x0a ∷ 0x0a ∷ 0 ∷ 0x10 ∷ replicate 8 0))", "step 4 1"],
        "ReordersAtRest", f"differ ({at(ON_ONE_NODE + 6, ' 3 refl refl refl')})",
        "has (is_entry 4) journal ≡ false",
        "use Rattle.std.specs.Prelude.{slice_index_or}\n"),
    # a begun command that an abort hits isn't cut, and moves after the answer
    Machine(
        "abort-cuts-later", "Acts",
        "if is_hit ask task && is_here task.stage then says (event.Cut",
        "if is_hit ask task && is_here task.stage && (done_at task.stage == 0) then says (event.Cut",
        "None", ["write 8 A 0 1 0 8 0x33", "step 3 3", ABORT, "step 3 5"],
        "RecordsPrefix", false_is_true(at(ON_ONE_NODE + 6, " _ 3 _ refl refl refl refl refl")),
        "comes_first (is_entry 3) (is_entry 4) journal ≡ true",
        uses="use Rattle.std.specs.Prelude.{◌==◌}\n"),
    # a cut command stays and moves after its entry
    Machine(
        "cut-moves-on", "Events", CUT,
        "cut_at (By by) _ task s = record s { functions = noted by task.no s.functions }",
        "None", ["write 8 A 0 1 0 8 0x33", "step 3 3", ABORT, "step 3 5"],
        "RecordsPrefix", f"differ ({at(ON_ONE_NODE + 8, '')})",
        "made_by 3 journal ≡ 3"),
    # an aborted write is undone, though its cut counts the blocks that it put
    Machine(
        "cut-rolls-back", "Events", CUT,
        "cut_at (By by) _ task s = leaves task.no (record s {\n"
        "  functions = noted by task.no s.functions;\n"
        "  blocks = (after_all (map (λ (byte : ℕ). 0) task.command.out) (plan_in (length s.blocks) task.command)\n"
        "      (record { blocks = s.blocks; got = [] })).blocks;\n"
        "})",
        "None", ["write 8 A 0 1 0 8 0x33", "step 3 5", ABORT],
        "IsLawful",
        "differ (ap begins_with_zero (law.blocks (record { each = "
        + "(refl, " * (ON_ONE_NODE + 8) + "tt" + ")" * (ON_ONE_NODE + 8) + "; last = refl }) refl))",
        "begins_with_zero (replay unit journal).blocks ∷ begins_with_zero (serial_disk unit journal).blocks ∷ []"
        " ≡ false ∷ false ∷ []",
        uses="use Rattle.std.specs.Prelude.{map, length}\nuse Rattle.ct_plan.specs.Cells.{after_all}\n"
        "use Rattle.ct_exec.specs.Executions.{plan_in}\n"),
    # a function awaits no granted command
    Machine(
        "closes-beside-a-grant", "Events",
        "awaited_by ask tasks = map (λ (task : Task). task.no) (filter (is_awaited ask) tasks)",
        "awaited_by ask tasks = []",
        "Serialise", GRANTED + ["deliver B", "step 3 2", "asks 15 A 0 LunReset"],
        "RecordsPrefix", false_is_true(at(ON_TWO_NODES + 8, " _ 3 _ refl refl refl refl refl")),
        "has (is_entry 4) journal ≡ false"),
    # node B steps a command before its grant comes
    Machine(
        "begins-before-its-grant", "Acts",
        "stepping_at Granted task count fault s = unchanged (answer.Away task.no) s",
        "stepping_at Granted task count fault s = moved task s (moving (There 0 []) task count fault s)",
        "Serialise", GRANTED + ["step 3 2"],
        "IsByCells", "differ (ap begins_with_zero law.blocks)",
        "begins_with_zero (replay unit journal).blocks ∷ begins_with_zero (beside unit 0 journal).blocks ∷ []"
        " ≡ true ∷ true ∷ []"),
    # a command that an abort cuts leaves without an event
    Machine(
        "cut-without-entry", "Events",
        "stopped = s.stopped ++ awaited_by ask s.tasks;",
        "stopped = s.stopped ++ awaited_by ask s.tasks;\n"
        "  tasks = filter (λ (task : Task). not (is_hit ask task && is_here task.stage)) s.tasks;",
        "None", ["write 8 A 0 1 0 8 0x33", "step 3 3", ABORT],
        "EachOnce",
        false_is_true("law.all (record { tasks = refl; functions = refl; to_a = refl; to_b = refl }) 3 refl"),
        "has (is_entry 3) journal ≡ true"),
    # a read ends behind its first piece
    Machine(
        "read-ends-early", "Acts",
        "(moved_to progress.difference (nat_le (length plan) done')",
        "(moved_to progress.difference (nat_le 1 done')",
        "None", ["read 8 A 0 1 0 8", "step 3 1"],
        "MakesPlans", false_is_true_of("λ (n : ℕ). n == 8", at(ON_ONE_NODE + 4, " refl refl _ refl")),
        "has (is_entry 3) journal ≡ false"),
    # a compare goes on behind the difference that it found
    Machine(
        "compares-on", "Acts",
        "(moved_to progress.difference (nat_le (length plan) done')",
        "(moved_to None (nat_le (length plan) done')",
        "None", ["comes A (command 8 A 0 1 Simple (0x89 ∷ replicate 12 0 ++ 2 ∷ 0 ∷ 0 ∷ []) (bytes 0x11 4))", "step 3 1",
                 "step 3 1"],
        "MakesPlans", false_is_true_of("is_even", at(ON_ONE_NODE + 4, "")),
        "has (is_entry 3) journal ≡ true"),
    # a command that ends at once is answered as a function is
    Machine(
        "command-is-closed", "Acts",
        "followed (replies (event.Ended task.no) execution.reply s) (λ ended",
        "followed (says (event.Closed task.no Complete) s) (λ ended",
        "None", ["no_read 8 A 0 1", "step 3 1"],
        "IsTyped", false_is_true_of("is_asked_for", at(4, ".work.1")),
        "has (is_entry 3) journal ≡ true",
        uses="use Rattle.ct_tmf.specs.declared.function.Outcome.TheVariants.{Complete}\n"),
    # an abort says that another work cut the command, which never came
    Machine(
        "cut-by-nobody", "Acts",
        "says (event.Cut task.no (puts_of task s) (By by) (is_told s ask task)) s",
        "says (event.Cut task.no (puts_of task s) (By 99) (is_told s ask task)) s",
        "None", ["read 8 A 0 1 0 2", ABORT],
        "IsTyped", false_is_true(at(ON_ONE_NODE + 4, ".by")),
        "has (is_cut 3) journal ≡ true"),
    # a function is answered that was never taken up
    Machine(
        "closed-unasked", "Acts",
        "else taking_up number ask s",
        "else says (event.Closed number Complete) s",
        "None", [ABORT],
        "IsTyped", false_is_true(at(ON_ONE_NODE + 1, ".closed")),
        "comes_first (is_asked 3) (is_entry 3) journal ≡ true"),
    # functions that close in one act close in the order in which they were taken up
    Machine(
        "closes-by-age", "Events",
        "with_function new (function ∷ functions) = if nat_lt new.no function.no then new ∷ function ∷ functions else"
        " function ∷ with_function new functions",
        "with_function new (function ∷ functions) = function ∷ with_function new functions",
        "Serialise",
        STARTED + ["asks 15 B 1 LunReset", "asks 16 A 0 LunReset", "deliver A", "deliver B", "deliver A"],
        "ClosesByNumber", f"not_below ({at(ON_TWO_NODES + 15, ' 5 refl')})",
        "comes_first (is_entry 4) (is_entry 5) journal ≡ true"),
    # a command begins while a function is open
    Machine(
        "begins-beside-a-reset", "Acts",
        "blocked_by (function ∷ functions) s task = Some function.no",
        "blocked_by (function ∷ functions) s task = blocker_of (task_set_of s) (held_of (length s.blocks) task)",
        "Serialise", STARTED + ["asks 15 A 0 LunReset", "no_read 16 A 0 3", "step 5 1"],
        "WaitsForFunctions", false_is_true(at(ON_TWO_NODES + 10, " refl 4 refl")),
        "has (is_entry 5) journal ≡ false"),
    # a command that its own nexus aborts is told so, where TAS is 1
    Machine(
        "tells-its-own-nexus", "Events",
        "is_told s ask task = tells_aborts s.control && not (is_same_nexus ask.nexus task.command.nexus)",
        "is_told s ask task = tells_aborts s.control",
        "None", ["sets_tas 8", "next", "read 9 A 0 1 0 2", "asks 11 A 0 ClearTaskSet"],
        "TellsOfCuts", "differ (" + at(ON_ONE_NODE + 7, " _ _ refl refl") + ")",
        "has is_silent journal ≡ true"),
    # a query finds a command of another nexus
    Machine(
        "query-finds-another", "Acts",
        "is_sought ask task = seeks ask task.command.nexus task.command.tag",
        "is_sought ask task = seeks ask ask.nexus task.command.tag",
        "None", ["no_read 8 A 0 1", "asks 9 A 1 (QueryTask (record { 0 = 1 }))"],
        "AnswersFunctions",
        "differ (sym (ap is_complete (" + at(ON_ONE_NODE + 4, " _ refl") + ")))",
        "has (is_complete_at 4) journal ≡ true"),
    # PREEMPT AND ABORT cuts the commands from the end of the queue
    Machine(
        "cuts-from-the-end", "Acts",
        "followed (clearing by cleared (task_of number s.tasks) s) (clearing_all by cleared numbers)",
        "followed (clearing_all by cleared numbers s) (λ cut. clearing by cleared (task_of number cut.tasks) cut)",
        "None", ABORTED, "IsTimely",
        false_is_true_of("is_cut 7", at(BEFORE_THE_CUTS, "", "law.each")),
        "comes_first (is_entry 7) (is_entry 9) journal ≡ true", before="preempted"),
    # it cuts the waiting commands of a nexus that it didn't remove
    Machine(
        "cuts-another-nexus", "Events",
        "is_cleared cleared task = is_waiting task.stage && contains cleared task.command.nexus",
        "is_cleared cleared task = is_waiting task.stage && contains cleared (record { port = 0; init = 1 })",
        "None", ABORTED, "IsTimely",
        false_is_true_of("is_cut 9", at(BEFORE_THE_CUTS + 1, "", "law.each")),
        "has (is_entry 8) journal ≡ false", before="preempted"),
    # it says that the initiators are told, though TAS is 0
    Machine(
        "tells-without-tas", "Acts",
        "says (event.Cut task.no 0 (By by) (tells_aborts s.control)) s",
        "says (event.Cut task.no 0 (By by) true) s",
        "None", ABORTED, "IsTimely",
        false_is_true_of("is_silent", at(BEFORE_THE_CUTS, "", "law.each")),
        "has is_silent journal ≡ true", before="preempted"),
]


def below(lines, crate):
    """The libraries under a crate and the crate itself, those of this repository."""
    reached = []
    for name in lines[crate]:
        if name in lines:
            reached += [below_it for below_it in below(lines, name) if below_it not in reached]
    return reached + [crate]


def copy(scratch):
    """The crates under ct_machine, and of ct_machine the definitions and the parts of samples."""
    with open(os.path.join(ROOT, "crates.txt"), encoding="utf-8") as file:
        lines = dict(line.strip().split(":") for line in file if line.strip() and not line.startswith("#"))
    lines = {name: libraries.split() for name, libraries in lines.items()}
    crates = below(lines, "ct_machine")
    with open(os.path.join(scratch, "crates.txt"), "w", encoding="utf-8") as file:
        file.writelines(f"{name}: {' '.join(lines[name])}\n" for name in crates)
    for name in crates:
        shutil.copytree(os.path.join(ROOT, "crates", name), os.path.join(scratch, "crates", name), symlinks=True)
    crate = os.path.join(scratch, "crates", "ct_machine")
    for folder, kept in (("src", ["act.rt"]), ("specs", SPECS + [f"{module}.antt" for module in SPECS])):
        for name in set(os.listdir(os.path.join(crate, folder))) - set(kept):
            path = os.path.join(crate, folder, name)
            shutil.rmtree(path) if os.path.isdir(path) else os.remove(path)
    lib = "//! The written machine.\n#![tactic(auto)]\n\nmod act;\n\npub use act::{Act, Answer, Opening};\n"
    put(crate, "src/lib.rt", lib)
    put(crate, "specs/Lib.antt", "".join(f"pub mod {module}\n" for module in SPECS))
    parts = read(crate, "proofs/Samples/Parts.antt")
    shutil.rmtree(os.path.join(crate, "proofs"))
    put(crate, "proofs/Samples/Parts.antt", parts)
    return crate


def read(crate, path):
    with open(os.path.join(crate, path), encoding="utf-8") as file:
        return file.read()


def put(crate, path, text):
    os.makedirs(os.path.dirname(os.path.join(crate, path)), exist_ok=True)
    with open(os.path.join(crate, path), "w", encoding="utf-8") as file:
        file.write(text)


def files(crate, module):
    """The files of a module of the definitions, its folder's among them."""
    folder = os.path.join(crate, "specs", module)
    below = sorted(os.listdir(folder)) if os.path.isdir(folder) else []
    return [f"specs/{module}.antt"] + [f"specs/{module}/{name}" for name in below]


def check(crate, proofs):
    """Checks the crate with these proofs alone; the names of those that are refused, or None where all else failed."""
    put(crate, "proofs/Lib.antt", "pub mod Samples\n" + "".join(f"pub mod {name}\n" for name in proofs))
    put(crate, "proofs/Samples.antt", "pub mod Parts\n")
    for name, text in proofs.items():
        put(crate, f"proofs/{name}.antt", text)
    run = subprocess.run(["rt", "check"], cwd=crate, capture_output=True, text=True, check=False)
    for name in proofs:
        os.remove(os.path.join(crate, f"proofs/{name}.antt"))
    output = run.stdout + run.stderr
    refused = re.findall(r"^(?:\./)?(\S+\.antt):[\d:]+ error: (.*)$", output, re.MULTILINE)
    names = {f"proofs/{name}.antt": name for name in proofs}
    if any(path not in names for path, _ in refused) or (run.returncode == 0) != (not refused):
        return None, output
    return {names[path]: error for path, error in refused}, output


def main():
    wanted = [machine for machine in MACHINES if not sys.argv[1:] or machine.name in sys.argv[1:]]
    failed = False
    with tempfile.TemporaryDirectory() as scratch:
        crate = copy(scratch)
        proofs = {}
        for machine in wanted:
            proofs[machine.title()] = machine.refutation()
            proofs[machine.title() + "Kept"] = machine.keeping()
        as_it_is, output = check(crate, proofs)
        if as_it_is is None:
            sys.exit("the machine as it is:\n" + output)
        for machine in wanted:
            places = [path for path in files(crate, machine.module) if machine.was in read(crate, path)]
            said = []
            if len(places) != 1 or read(crate, places[0]).count(machine.was) != 1:
                said.append(f"the text to change doesn't stand once in {machine.module}")
            else:
                path = places[0]
                text = read(crate, path)
                put(crate, path, text.replace("\nuse ", "\n" + machine.uses + "use ", 1).replace(machine.was, machine.becomes))
                refused, output = check(crate, {machine.title(): machine.refutation()})
                put(crate, path, text)
                if refused is None:
                    said.append("the changed machine isn't accepted:\n" + output)
                elif refused:
                    said.append("not refuted: " + refused[machine.title()])
            if machine.title() not in as_it_is:
                said.append("the machine as it is is refuted too")
            if machine.title() + "Kept" in as_it_is:
                said.append("the machine as it is: " + as_it_is[machine.title() + "Kept"])
            failed = failed or bool(said)
            print(f"{machine.name}: {'; '.join(said) or 'refuted'}", flush=True)
    sys.exit(1 if failed else 0)


main()
