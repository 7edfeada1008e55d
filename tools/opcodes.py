#!/usr/bin/env python3
"""Writes the long lists of crates/x86_opcode from tools/opcodes.txt.

    python3 tools/opcodes.py           writes them
    python3 tools/opcodes.py --check   writes nothing, shows how each file differs from what it would write, and fails
                                       where one does

These are, in src/: the enum of opcodes and of each part (lib.rt), a file for each part with its constants, names and
conditions, the list of all opcodes (list.rt) and where the opcode of a name stands (slots.rt); in specs/: the numbers,
the names, the constants, the conditions and the VEX opcodes, with the lemmas that go opcode by opcode; in proofs/: the
tags. No file of the crate is written in part by hand and in part by this script. The numbers of the opcodes for C
(include/vex_opcodes.h) are written too.
"""
import argparse
import difflib
import itertools
import re
import sys
from pathlib import Path

HERE = Path(__file__).resolve().parent
CRATE = HERE.parent / "crates" / "x86_opcode"
NOTE = "written by tools/opcodes.py"
VEX_PARTS = ("Integer", "Float", "Fused")
ALTERNATIVES = 25  # of one arm of a match
REST = 50  # a last condition with more names than this is the arm for the rest
WIDTH = 100  # of a line of code
SHOWN = 20  # lines of the difference of a file


class Part:
    def __init__(self, name, doc):
        self.name = name
        self.low = name.lower()
        self.enum = name + "Opcode"
        self.doc = doc
        self.lower_doc = doc[0].lower() + doc[1:-1] if doc[1].islower() else doc[:-1]
        self.groups = {}  # names by condition
        self.first = 0  # the number of its first opcode

    def names(self):
        return [name for names in self.groups.values() for name in names]

    def conditions(self):
        """The conditions with their names, and the condition of the rest, or None."""
        groups = list(self.groups.items())
        last, names = groups[-1]
        return (groups[:-1], last) if len(names) > REST else (groups, None)


def read(path):
    """The parts, and the number of opcodes."""
    parts = []
    for line in path.read_text().splitlines():
        if line.startswith("#") or not line.strip():
            continue
        if line.startswith("part "):
            name, doc = line.removeprefix("part ").split(": ")
            parts.append(Part(name, doc))
        else:
            if ":" in line:
                condition, line = line.split(":")
                into = parts[-1].groups.setdefault(condition, [])
            into += line.split()
    first = 2  # after Invalid and BSF
    for part in parts:
        part.first = first
        first += len(part.names())
    return parts, first


def all_names(parts):
    return ["Invalid", "BSF"] + [name for part in parts for name in part.names()]


# ---- src/

# What the root file begins with, after its first line. The example is that of src/example.rt.
HEAD = """//!
//! Each opcode has a name, a number, and the condition under which settings permit it.
//!
//! ```
//! use x86_opcode::{Condition, Opcode};
//!
//! let opcode = Opcode::named("RORX").ok_or("a name")?;
//! assert!(rt; opcode.is(Opcode::RORX));
//! assert_eq!(rt; opcode.name(), "RORX");
//! assert_eq!(rt; opcode.condition(), Condition::Bmi2);
//! ```
#![tactic(auto)]

mod condition;
#[cfg(test)]
mod example;"""


def enums(parts):
    text = [f"//! The names of x86 opcodes that the decoder and its settings speak of: the types, {NOTE}."]
    text += HEAD.splitlines()
    modules = [part.low for part in parts] + ["list", "name", "number", "slots"]
    text += sorted(["pub mod laws;", *(f"mod {name};" for name in modules)], key=lambda line: line.split()[-1])
    text += ["#[cfg(test)]", "mod tests;", ""]
    text += ["pub use condition::Condition;", ""]
    text += ["/// An opcode: an enum of parts by subject, with one constant for each name, as `Opcode::VADDPS`."]
    text += ["#[derive(Clone, Copy, PartialEq, Eq, Default)]", "pub enum Opcode {"]
    text += ["    /// No instruction: what an entry announces where a group or the operand decides."]
    text += ["    #[default]", "    Invalid,"]
    text += ["    /// Bit scan forward: what a `TZCNT` is without the setting `bmi1`.", "    BSF,"]
    for part in parts:
        text += [f"    /// {part.doc}", f"    {part.name}({part.enum}),"]
    text += ["}"]
    for part in parts:
        text += ["", f"/// {part.doc}", "#[derive(Clone, Copy, PartialEq, Eq)]"]
        text += [f"pub enum {part.enum} {{", *(f"    {name}," for name in part.names()), "}"]
    return text


def listing(parts, count):
    text = [f"// The list of all opcodes, {NOTE}.", "use crate::Opcode;", ""]
    text += ["// The number of the first opcode of each part."]
    for part in parts:
        text += [f"pub(crate) const FIRST_{part.name.upper()}: u16 = {part.first};", ""]
    text += ["/// All opcodes, in the order of their numbers."]
    text += [f"pub(crate) static ALL: [Opcode; {count}] = ["]
    return text + [*(f"    Opcode::{name}," for name in all_names(parts)), "];"]


def condition_arms(part):
    groups, rest = part.conditions()
    for condition, names in groups:
        for at in range(0, len(names), ALTERNATIVES):
            some = [f"{part.enum}::{name}" for name in names[at : at + ALTERNATIVES]]
            line = f"            {' | '.join(some)} => Condition::{condition},"
            if len(line) <= WIDTH:
                yield line
            elif len("            " + " | ".join(some) + " => {") <= WIDTH:
                yield f"            {' | '.join(some)} => {{"
                yield f"                Condition::{condition}"
                yield "            }"
            else:
                yield f"            {some[0]}"
                yield from (f"            | {name}" for name in some[1:-1])
                yield f"            | {some[-1]} => Condition::{condition},"
    if rest:
        yield f"            _ => Condition::{rest},"


def part_file(part):
    conditional = len(part.groups) > 1
    text = [f"// The constants, the names and the conditions of a part, {NOTE}."]
    text += ["ghost use Rattle.std.specs.Prelude.{◌≡◌, Some};"]
    if conditional:
        text += ["ghost use Rattle.x86_opcode.specs.Condition.{opcode_condition};"]
    text += ["ghost use Rattle.x86_opcode.specs.Name.{opcode_name};"]
    text += [f"ghost use Rattle.x86_opcode.specs.declared.Opcode.TheVariants.{{{part.name}}};", ""]
    used = sorted(["Opcode", part.enum] + (["Condition"] if conditional else []))
    text += [f"use crate::{{{', '.join(used)}}};", "use std::fmt;"]
    text += ["", f"/// {part.doc}", "impl Opcode {"]
    for name in part.names():
        text += [f"    pub const {name}: Opcode = Opcode::{part.name}({part.enum}::{name});", ""]
    text[-1] = "}"
    text += ["", f"impl {part.enum} {{"]
    text += ["    /// The opcode's name, spelled as its variant."]
    text += ["    #[tactic(auto, unfolding(crate::specs::Name::opcode_name))]"]
    text += ["    pub fn name(&self) -> &'static str"]
    text += [f"        ensures {{ result.now ≡ opcode_name ({part.name} self.now) }}"]
    text += ["    {", "        match self {"]
    text += [f'            {part.enum}::{name} => "{name}",' for name in part.names()]
    text += ["        }", "    }"]
    if conditional:
        text += ["", "    /// What the settings must say to permit the opcode without the EVEX mark."]
        text += ["    #[tactic(auto, unfolding(crate::specs::Condition::opcode_condition))]"]
        text += ["    pub fn condition(self) -> Condition"]
        text += [f"        ensures {{ result ≡ opcode_condition ({part.name} self) }}"]
        text += ["    {", "        match self {", *condition_arms(part), "        }", "    }"]
    text += ["}", "", f"impl fmt::Debug for {part.enum} {{"]
    text += [f"    ghost debug_output = {{ λ opcode. Some (opcode_name ({part.name} opcode)) }};", ""]
    text += ["    fn fmt<W: fmt::Write>(&self, f: &mut fmt::Formatter<W>) -> fmt::Result {"]
    return text + ["        f.write_str(self.name())", "    }", "}"]


# The hash of a name and the place that it leads to, as in specs/Slots.antt.
FACTOR, MODULUS, BUCKETS, SLOTS = 35, 1 << 20, 256, 768


def hash_of(name):
    value = 0
    for byte in name.encode():
        value = (value * FACTOR + byte) % MODULUS
    return value


def places(names):
    """How far each bucket is moved on, and the name on each slot: the first shift that leaves each slot to one name."""
    buckets = {}
    for name in names:
        buckets.setdefault(hash_of(name) % BUCKETS, []).append(name)
    shifts, slots = [0] * BUCKETS, {}
    for bucket, some in sorted(buckets.items(), key=lambda item: (-len(item[1]), item[0])):
        for shift in range(SLOTS):
            wanted = [(hash_of(name) // BUCKETS + shift) % SLOTS for name in some]
            if len(set(wanted)) == len(some) and not any(slot in slots for slot in wanted):
                shifts[bucket] = shift
                slots.update(zip(wanted, some))
                break
        else:
            raise SystemExit("no shift is left for a bucket of names: take another FACTOR")
    return shifts, slots


def slot_file(parts):
    shifts, slots = places(all_names(parts))
    text = [f"// Where the opcode of a name stands, {NOTE}.", "use crate::Opcode;", ""]
    text += ["/// How far the names of a bucket are moved on."]
    text += [f"pub(crate) static SHIFTS: [u16; {BUCKETS}] = ["]
    line = "   "
    for shift in shifts:
        if len(line) + len(f" {shift},") >= WIDTH:
            text += [line]
            line = "   "
        line += f" {shift},"
    text += [line, "];", "", "/// The one opcode whose name can lead to a slot, and `Invalid` where there is none."]
    text += [f"pub(crate) static SLOTS: [Opcode; {SLOTS}] = ["]
    text += [f"    Opcode::{slots.get(slot, 'Invalid')}," for slot in range(SLOTS)]
    return text + ["];"]


# ---- specs/ and proofs/


def imports(parts, body):
    """The lines that bring in the types and the variants that the body speaks of."""
    text = "\n".join(body)

    def has(word):
        return re.search(rf"(?<![\w.]){word}(?!\w)", text)

    heads = [name for name in ["Invalid", "BSF"] + [part.name for part in parts] if has(name)]
    if has("Opcode"):
        yield "use Rattle.x86_opcode.specs.declared.Opcode.{Opcode}"
    if heads:
        yield f"use Rattle.x86_opcode.specs.declared.Opcode.TheVariants.{{{', '.join(heads)}}}"
    for part in parts:
        if has(part.enum):
            yield f"use Rattle.x86_opcode.specs.declared.{part.enum}.{{{part.enum}}}"
        if re.search(rf"(?<![\w.]){part.low}\.", text):
            yield f"use Rattle.x86_opcode.specs.declared.{part.enum}.TheVariants as {part.low}"


def by_part(parts, what, kind, meaning, value):
    """For each part the definition of `what`, with a line for each opcode."""
    for part in parts:
        yield from ["", f"-- {meaning}: {part.lower_doc}"]
        yield f"abbrev pub {part.low}_{what} : {part.enum} → {kind}"
        for place, name in enumerate(part.names()):
            yield f"{part.low}_{what} {part.low}.{name} = {value(place, name)}"


def numbers(parts):
    body = [*by_part(parts, "number", "ℕ", "the place of an opcode in its part", lambda place, _: place)]
    body += ["", "-- the number of an opcode: the parts stand one after another"]
    body += ["unfoldable pub opcode_number : Opcode → ℕ"]
    body += ["opcode_number Invalid = 0", "opcode_number BSF = 1"]
    for part in parts:
        body += [f"opcode_number ({part.name} o) = {part.first} + {part.low}_number o"]
    body += ["", "-- whether two opcodes are one, told by their numbers"]
    body += ["unfoldable pub same_opcode : Opcode → Opcode → Bool"]
    body += ["same_opcode a b = opcode_number a == opcode_number b"]
    text = [f"-- The numbers of opcodes, {NOTE}.", "pub mod Listed", "pub mod Lemmas"]
    text += ["use Rattle.std.specs.Prelude.{ℕ, ◌+◌, Bool, ◌==◌}"]
    return text + [*imports(parts, body), *body]


def names(parts):
    body = [*by_part(parts, "name", "List ℕ", "the name of an opcode", lambda _, name: f'codes "{name}"')]
    body += ["", "-- the name of an opcode, spelled as its constant"]
    body += ["unfoldable pub opcode_name : Opcode → List ℕ"]
    body += ['opcode_name Invalid = codes "Invalid"', 'opcode_name BSF = codes "BSF"']
    body += [f"opcode_name ({part.name} o) = {part.low}_name o" for part in parts]
    text = [f"-- The names of opcodes, {NOTE}.", "use Rattle.std.specs.Prelude.{ℕ, List, codes}"]
    return text + [*imports(parts, body), *body]


def constants(parts):
    text = [f"-- The constants of opcodes, {NOTE}."]
    text += ["use Rattle.std.specs.Prelude.{ℕ, List, [], ◌∷◌, codes}"]
    text += ["use Rattle.x86_opcode.specs.declared.Opcode.{Opcode}"]
    text += ["use Rattle.x86_opcode.specs.declared.TheConstants.Opcode as constant"]
    text += ["", "-- each constant, with the name that it is called by"]
    text += ["unfoldable pub constants : List (Opcode × List ℕ)", "constants ="]
    every = [name for part in parts for name in part.names()]
    return text + [*(f'    (constant.{name}, codes "{name}") ∷' for name in every), "    []"]


def conditions(parts):
    body = []
    for part in parts:
        groups, rest = part.conditions()
        body += ["", f"-- the condition of an opcode: {part.lower_doc}"]
        body += [f"abbrev pub {part.low}_condition : {part.enum} → Condition"]
        for condition, some in groups:
            body += [f"{part.low}_condition {part.low}.{name} = on.{condition}" for name in some]
        if rest:
            body += [f"{part.low}_condition _ = on.{rest}"]
    body += ["", "-- the condition under which settings permit an opcode without the EVEX mark"]
    body += ["unfoldable pub opcode_condition : Opcode → Condition"]
    body += ["opcode_condition Invalid = on.Always", "opcode_condition BSF = on.Always"]
    body += [f"opcode_condition ({part.name} o) = {part.low}_condition o" for part in parts]
    text = [f"-- The conditions of opcodes without the EVEX mark, {NOTE}.", *imports(parts, body)]
    text += ["use Rattle.x86_opcode.specs.declared.condition.Condition.{Condition}"]
    text += ["use Rattle.x86_opcode.specs.declared.condition.Condition.TheVariants as on"]
    return text + body


def vex_opcodes(parts):
    body = ["", "-- the opcodes that an instruction with a VEX prefix has"]
    body += ["unfoldable pub vex_opcodes : List Opcode", "vex_opcodes ="]
    for part in parts:
        if part.name in VEX_PARTS:
            body += [f"    {part.name} {part.low}.{name} ∷" for name in part.names()]
    body += ["    []", "", "-- whether an opcode is one of these"]
    body += ["unfoldable pub is_vex : Opcode → Bool", "is_vex o = list_any (same_opcode o) vex_opcodes"]
    text = [f"-- The VEX opcodes, {NOTE}.", "pub mod Parts", "pub mod Lemmas"]
    text += ["use Rattle.std.specs.Prelude.{Bool, List, [], ◌∷◌}", "use Rattle.std.specs.List.{list_any}"]
    text += [*imports(parts, body), "use Rattle.x86_opcode.specs.Number.{same_opcode}"]
    return text + body


def by_cases(part, lemma, statement, *head, pub=""):
    """A lemma that computes at each opcode of a part."""
    yield from ["", f"{pub}{lemma} : (o : {part.enum}) → {statement}", *head]
    for name in part.names():
        yield f"{lemma} {part.low}.{name} = refl"


def listed(parts):
    body = []
    for part in parts:
        found = f"slice_get ALL ({part.first} + {part.low}_number o) ≡ Some ({part.name} o)"
        body += by_cases(part, f"{part.low}-listed", found)
    body += ["", "pub listed : (o : Opcode) → slice_get ALL (opcode_number o) ≡ Some o"]
    body += ["unfolding opcode_number", "listed Invalid = refl", "listed BSF = refl"]
    body += [f"listed ({part.name} o) = {part.low}-listed o" for part in parts]
    text = [f"-- Each opcode stands in the list of all at its number, {NOTE}."]
    text += ["use Rattle.std.proofs.Common.{◌≡◌, ◌+◌, Some, slice_get, refl}", *imports(parts, body)]
    text += ["use Rattle.x86_opcode.specs.declared.list.TheConstants.{ALL}"]
    number = ", ".join(f"{part.low}_number" for part in parts)
    return text + [f"use Rattle.x86_opcode.specs.Number.{{opcode_number, {number}}}"] + body


def tags(parts):
    body = []
    for part in parts:
        equal = f"tag_of the_{part.low}.the_type o ≡ {part.low}_number o"
        body += by_cases(part, f"{part.low}_tag", equal, pub="pub ")
    body += ["", "pub ruleset tags = (" + ", ".join(f"{part.low}_tag" for part in parts) + ")"]
    text = [f"-- A variant's place in its enum is its number there, {NOTE}."]
    text += ["use Rattle.std.proofs.Common.{◌≡◌, refl}", "use denote.Enum.Declared.{tag_of}"]
    for part in parts:
        text += [f"use Rattle.x86_opcode.specs.contracts.{part.enum} as the_{part.low}"]
    number = ", ".join(f"{part.low}_number" for part in parts)
    text += [*imports(parts, body), f"use Rattle.x86_opcode.specs.Number.{{{number}}}"]
    return text + body


def vex_parts(parts):
    body = ["", "-- whether an opcode is one of the VEX opcodes, by its part"]
    body += ["abbrev pub vex_part : Opcode → Bool"]
    body += [f"vex_part ({part.name} _) = true" for part in parts if part.name in VEX_PARTS]
    body += ["vex_part _ = false"]
    unfolding = "unfolding is_vex vex_opcodes same_opcode opcode_number"
    for part in parts:
        equal = f"is_vex ({part.name} o) ≡ vex_part ({part.name} o)"
        body += by_cases(part, f"{part.low}-is_vex", equal, unfolding)
    body += ["", "pub is_vex-vex_part : (o : Opcode) → is_vex o ≡ vex_part o", unfolding]
    body += ["is_vex-vex_part Invalid = refl", "is_vex-vex_part BSF = refl"]
    body += [f"is_vex-vex_part ({part.name} o) = {part.low}-is_vex o" for part in parts]
    text = [f"-- Which opcodes are VEX opcodes, {NOTE}."]
    text += ["use Rattle.std.proofs.Common.{◌≡◌, Bool, true, false, refl}", *imports(parts, body)]
    text += ["use Rattle.x86_opcode.specs.Number.{opcode_number, same_opcode}"]
    text += ["use Rattle.x86_opcode.specs.Vex.{is_vex, vex_opcodes}"]
    return text + body


def header(parts):
    """The numbers of the opcodes, for C."""
    text = [f"/* The numbers of the opcodes, {NOTE}. They never change; new ones come at the end. */"]
    text += ["#ifndef VEX_OPCODES_H", "#define VEX_OPCODES_H", "", "enum vex_opcode {"]
    text += [f"    VEX_OPCODE_{name.upper()} = {number}," for number, name in enumerate(all_names(parts))]
    return text + [f"    VEX_OPCODE_COUNT = {len(all_names(parts))}", "};", "", "#endif"]


def settle(files, script, check):
    """Writes the lines of each file, or with `check` shows how each differs. Answers 1 where one does, and else 0."""
    status = 0
    for path, lines in files.items():
        before, text = path.read_text() if path.exists() else "", "\n".join(lines) + "\n"
        if not check:
            path.write_text(text)
        elif before != text:
            status = 1
            name = path.relative_to(HERE.parent)
            print(f"{name} isn't what {script} writes", file=sys.stderr)
            difference = difflib.unified_diff(before.splitlines(), lines, str(name), "written", lineterm="")
            for line in itertools.islice(difference, SHOWN):
                print(line, file=sys.stderr)
    return status


def only_check(doc):
    """Whether --check was given to a script with this doc; it takes nothing else."""
    arguments = argparse.ArgumentParser(description=doc.splitlines()[0])
    arguments.add_argument("--check", action="store_true", help="write nothing, and fail where a file would change")
    return arguments.parse_args().check


def main():
    check = only_check(__doc__)
    parts, count = read(HERE / "opcodes.txt")
    files = {
        "src/lib.rt": enums(parts),
        "src/list.rt": listing(parts, count),
        "src/slots.rt": slot_file(parts),
        "specs/Number.antt": numbers(parts),
        "specs/Number/Listed.antt": listed(parts),
        "specs/Name.antt": names(parts),
        "specs/Constants.antt": constants(parts),
        "specs/Condition.antt": conditions(parts),
        "specs/Vex.antt": vex_opcodes(parts),
        "specs/Vex/Parts.antt": vex_parts(parts),
        "proofs/Tags.antt": tags(parts),
    }
    files |= {f"src/{part.low}.rt": part_file(part) for part in parts}
    paths = {CRATE / name: lines for name, lines in files.items()}
    paths[HERE.parent / "include" / "vex_opcodes.h"] = header(parts)
    return settle(paths, "tools/opcodes.py", check)


if __name__ == "__main__":
    sys.exit(main())
