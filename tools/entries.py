#!/usr/bin/env python3
"""Writes the indexes of the table of entries in crates/vex_rows from src/table.rt.

These are the cells by map, implied prefix, opcode byte, W and L (src/cells.rt and specs/Cells.antt), and the places of
each opcode's entries and of its sizes by the opcode's number (src/places.rt), which tools/opcodes.txt gives. The check
of vex_rows proves what is written here, and compares it with the table and with src/sizes.rt. From src/forms.rt it
writes crates/vex_forms/src/shapes.rt (form_shapes.py), which the check of vex_forms proves. Run it after each change
of those three and of tools/opcodes.txt; with --check it writes nothing and fails where a file isn't as it would write
it. Both ways it names, and fails for, the entries that share a key or stand out of order, the opcodes that have more
than four entries, and those whose sizes stand at two places, which the check of vex_rows refuses too.
"""
import re
import sys
from collections import Counter

from form_shapes import opcodes_by_form, shapes_code
from opcodes import HERE, all_names, only_check, read, settle

CRATE = HERE.parent / "crates" / "vex_rows"
FORMS_CRATE = HERE.parent / "crates" / "vex_forms"
NOTE = "written by tools/entries.py"
MAPS = ("Map0F", "Map0F38", "Map0F3A")
PREFIXES = ("Plain", "Prefix66", "PrefixF3", "PrefixF2")
RULES = ("Any", "Zero", "One")
NONE = 65535
ENTRY = re.compile(r"entry!\((\w+) (\w+) 0x([0-9A-F]{2}) (\w+) (\w+) (\w+) (\w+)\)")
LIST = re.compile(r"= &\[(.*?)\];", re.DOTALL)
SIZE = re.compile(r"\(Opcode::(\w+), ")


def entries(by_form):
    """Map, implied prefix, byte, W rule, L rule and opcodes of each line of the table."""
    text = (CRATE / "src" / "table.rt").read_text()
    table = text[text.index("pub static TABLE") :]
    for map_name, prefix, byte, w, l, form, opcode in ENTRY.findall(table):
        yield map_name, prefix, int(byte, 16), w, l, by_form.get(form, [opcode])


def size_lists():
    """The opcodes of each list of sizes, in order."""
    return [SIZE.findall(sizes) for sizes in LIST.findall((CRATE / "src" / "sizes.rt").read_text())]


def faults(table, lists_of_sizes):
    """What the check of vex_rows would refuse, in words."""
    order = [
        (MAPS.index(map_name), PREFIXES.index(prefix), byte, RULES.index(w), RULES.index(l))
        for map_name, prefix, byte, w, l, _ in table
    ]
    for last, entry, key, next_key in zip(table, table[1:], order, order[1:]):
        if key >= next_key:
            yield f"out of order: {entry} after {last}"
    holders = {}
    for entry in table:
        map_name, prefix, byte, w, l, _ = entry
        for key in [(map_name, prefix, byte, w_bit, l_bit) for w_bit in allowed(w) for l_bit in allowed(l)]:
            if key in holders:
                yield f"one key: {holders[key]} and {entry}"
            holders[key] = entry
    for name, count in Counter(name for *_, names in table for name in names).items():
        if count > 4:
            yield f"{count} entries of {name}"
    places = {}
    for names in lists_of_sizes:
        for place, name in enumerate(names):
            if places.setdefault(name, place) != place:
                yield f"two places: the sizes of {name}"


def allowed(rule):
    return {"Any": (0, 1), "Zero": (0,), "One": (1,)}[rule]


def cells(table):
    """For each map and implied prefix that has entries, the place of each key's entry."""
    lists = {}
    for place, (map_name, prefix, byte, w, l, _) in enumerate(table):
        of_keys = lists.setdefault((map_name, prefix), [NONE] * 1024)
        for w_bit in allowed(w):
            for l_bit in allowed(l):
                of_keys[4 * byte + 2 * w_bit + l_bit] = place
    return lists


def places_of_entries(table, opcodes):
    """The places of each opcode's entries one after another, and where those of each opcode begin."""
    lists = {name: [] for name in opcodes}
    for place, (*_, names) in enumerate(table):
        for name in names:
            lists[name].append(place)
    starts = [0]
    for of_opcode in lists.values():
        starts.append(starts[-1] + len(of_opcode))
    return [place for of_opcode in lists.values() for place in of_opcode], starts


def places_of_sizes(lists_of_sizes, opcodes):
    """Where the size of each opcode stands in the lists that have it."""
    places = {name: place for names in lists_of_sizes for place, name in enumerate(names)}
    return [places.get(name, NONE) for name in opcodes]


def name_of(map_name, prefix):
    return f"CELLS_{map_name.removeprefix('Map')}_{prefix.removeprefix('Prefix')}".upper()


def static(doc, name, numbers, public):
    lines = [f"/// {doc}", "#[rattlefmt::skip]"]
    lines.append(f"{public}static {name}: [u16; {len(numbers)}] = [")
    for i in range(0, len(numbers), 16):
        lines.append("    " + ", ".join(map(str, numbers[i : i + 16])) + ",")
    return lines + ["];", ""]


def cells_code(lists):
    lines = [
        f"//! The cells of the direct index, {NOTE}.",
        "//!",
        "//! The cell at 4 * byte + 2 * W + L holds the place in table order of the entry that has the key, and 65535",
        "//! where none has it.",
        "",
        "ghost use Rattle.std.specs.Prelude.{◌≡◌};",
        "ghost use Rattle.vex_rows.specs.Cells.{cells_of};",
        "",
        "use crate::key::{Map, Pp};",
        "",
    ]
    for (map_name, prefix), numbers in lists.items():
        doc = f"The cells of `{map_name}` and `{prefix}`."
        lines += static(doc, name_of(map_name, prefix), numbers, "")
    lines += [
        "/// The cells of an opcode map and an implied prefix, none where it has no entries.",
        "#[tactic(auto, unfolding(crate::specs::Cells::cells_of))]",
        "pub fn cells_at(map: Map, pp: Pp) -> &'static [u16]",
        "    ensures { result.now ≡ cells_of map pp }",
        "{",
        "    match (map, pp) {",
    ]
    for map_name in MAPS:
        for prefix in PREFIXES:
            constant = "&" + name_of(map_name, prefix) if (map_name, prefix) in lists else "&[]"
            lines.append(f"        (Map::{map_name}, Pp::{prefix}) => {constant},")
    return lines + ["    }", "}"]


def cells_specs(lists):
    names = [name_of(*key) for key in lists]
    lines = [
        f"-- The cells of the direct index, {NOTE}.",
        "use Rattle.std.specs.Prelude.{ℕ, List" + (", []" if len(lists) < 12 else "") + "}",
        "use Rattle.vex_rows.specs.declared.key.Map.{Map}",
        "use Rattle.vex_rows.specs.declared.key.Map.TheVariants.{" + ", ".join(MAPS) + "}",
        "use Rattle.vex_rows.specs.declared.key.Pp.{Pp}",
        "use Rattle.vex_rows.specs.declared.key.Pp.TheVariants.{" + ", ".join(PREFIXES) + "}",
        *(
            "use Rattle.vex_rows.specs.declared.cells.TheConstants.{" + ", ".join(names[i : i + 4]) + "}"
            for i in range(0, len(names), 4)
        ),
        "",
        "-- the cells of an opcode map and an implied prefix, none where it has no entries",
        "unfoldable pub cells_of : Map → Pp → List ℕ",
    ]
    for map_name in MAPS:
        for prefix in PREFIXES:
            constant = name_of(map_name, prefix) if (map_name, prefix) in lists else "[]"
            lines.append(f"cells_of {map_name} {prefix} = {constant}")
    return lines


def places_code(places, starts, of_sizes):
    lines = [
        f"//! The places in table order of each opcode's entries, and that of its sizes, {NOTE}.",
        "",
    ]
    doc = "The places of the entries of opcode 0, then those of opcode 1, and so on."
    lines += static(doc, "PLACES", places, "pub ")
    doc = "Where in `PLACES` those of each opcode begin, by the opcode's number, and at last where they end."
    lines += static(doc, "STARTS", starts, "pub ")
    doc = "Where the size of each opcode stands in each list of sizes that has it, by the opcode's number, and 65535"
    doc += " for none."
    return (lines + static(doc, "SIZE_PLACES", of_sizes, "pub "))[:-1]


def main():
    check = only_check(__doc__)
    forms = (CRATE / "src" / "forms.rt").read_text()
    table, lists_of_sizes = list(entries(opcodes_by_form(forms))), size_lists()
    opcodes = all_names(read(HERE / "opcodes.txt")[0])
    lists = cells(table)
    places = places_of_entries(table, opcodes)
    files = {
        CRATE / "src" / "cells.rt": cells_code(lists),
        CRATE / "specs" / "Cells.antt": cells_specs(lists),
        CRATE / "src" / "places.rt": places_code(*places, places_of_sizes(lists_of_sizes, opcodes)),
        FORMS_CRATE / "src" / "shapes.rt": shapes_code(forms, NOTE),
    }
    found = list(faults(table, lists_of_sizes))
    for fault in found:
        print(fault, file=sys.stderr)
    return settle(files, "tools/entries.py", check) or (1 if found else 0)


if __name__ == "__main__":
    sys.exit(main())
