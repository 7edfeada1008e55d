"""What the rows of each form are at a W, an L and a place of the operand E, from crates/vex_rows/src/forms.rt.

tools/entries.py writes it as crates/vex_forms/src/shapes.rt; the check of vex_forms proves that it is what the table of
forms says.
"""
import re

ROW = re.compile(r"FormRow \{(.*?)\.\.(\w+)\s*\}", re.DOTALL)
CONST = re.compile(r"(?:pub )?const (\w+): FormRow = (FormRow \{.*?\});", re.DOTALL)
OPCODES = re.compile(r"const (\w+): (?:Few<\(u8, Opcode\)>|Option<\(Opcode, Opcode\)>) = (.*?);", re.DOTALL)
SIZE = re.compile(r"const (\w+): SizeRule = (.*?);", re.DOTALL)
FIELD = re.compile(r"(\w+): (\w+(?:::\w+)?(?:\((?:[^()]|\([^()]*\))*\))?),")
SLOT = re.compile(r"(VInRegister|G|V|E|R4)\((\w+)\)|(U8|I8)")
COUNT = re.compile(r"(Nothing|Is|CountByL|CountByW)(?:\((\d+)(?:, (\d+))?\))?")

# What the file begins with, after its first line, and the list of shapes before its declaration.
HEAD = """\
//!
//! Those of a form stand one after another, in the order of `Form`: by W, then L, then the place of the operand E.

use crate::shape::ShapeSize::{Always, ByOpcode};
use crate::shape::{
    ELEMENT_ROW, GATHER_ROW, GROUP_ROW, NO_GATHER_ROW, NO_GROUP_ROW, NO_ROW, ROW, RowShape,
    ShapeSize,
};
use crate::slot::Slot::{E, G, I8, R4, U8, V};
use crate::slot::VvvvRule::{Free, Named, Zero};
use vex_rows::ByteCount::{ByL, Is};
use vex_rows::SizeList;
use x86_operand::RegisterBank::{D, Q, X, Y};

// The sizes that go by the opcode, as the table of forms names them.
"""
SHAPES_HEAD = """\
/// The shapes of all forms: that of a form at W, L and a place of the operand E, 1 in memory, stands at 8 times the
/// form's number + 4 * W + 2 * L + place.
#[rattlefmt::skip]
"""


def fields(text):
    return dict(FIELD.findall(text))


def form_rows(text):
    """Each form with its fields, those of the constant at the end of its row filled in."""
    bases = {}
    for name, row in CONST.findall(text):
        inherited = ROW.fullmatch(row)
        bases[name] = {**bases[inherited[2]], **fields(inherited[1])} if inherited else fields(row)
    for own, name in ROW.findall(text[text.index("pub static FORMS") :]):
        yield {**bases[name], **fields(own)}


def opcodes_by_form(text):
    """The opcodes that the rows of a form give, of each form whose entries announce none."""
    lists = {name: re.findall(r"Opcode::(\w+)", opcodes) for name, opcodes in OPCODES.findall(text)}
    named = {row["form"]: lists.get(row["groups"]) or lists.get(row["opcodes"]) for row in form_rows(text)}
    return {form.removeprefix("Form::"): opcodes for form, opcodes in named.items() if opcodes}


def checks(row, *steps):
    return [check for step in steps for check in re.findall(r"V0|L0|Reg|Mem|Group|VifMem", row[step])]


def is_row(row, l, memory):
    """Whether the operand E can be there and no check but that of the reg field refuses it."""
    has_modrm = row["modrm"] == "true"
    refused = {
        "L0": l == 1,
        "Reg": memory or not has_modrm,
        "Mem": not memory or not has_modrm,
    }
    all_checks = checks(row, "before_modrm", "after_modrm", "after_address")
    return (has_modrm or not memory) and not any(refused.get(check, False) for check in all_checks)


def bank(rule, w, l):
    """The bank by W and L; where the opcode says which it is, there is one for each that it may be."""
    return {"ByL": "XY"[l], "ByW": "DQ"[w], "Element": "DQ"[w], "Gather": "XY"[l]}.get(rule, rule)


def slots(row, w, l, in_memory):
    found = []
    for kind, rule, immediate in SLOT.findall(row["slots"]):
        if immediate:
            found.append(immediate)
        elif kind != "VInRegister":
            found.append(f"{kind}({bank(rule, w, l)})")
        elif not in_memory:
            found.append(f"V({bank(rule, w, l)})")
    return found


def base(row, l, memory):
    """The constant that says whether there is a row, whether it has a group, and which banks go by the opcode."""
    rules = [rule for _, rule, _ in SLOT.findall(row["slots"])]
    name = next((rule.upper() + "_ROW" for rule in ("Element", "Gather") if rule in rules), "ROW")
    if "Group" in checks(row, "after_modrm"):
        name = "GROUP_ROW"
    return name if is_row(row, l, memory) else "NO_" + name


def vvvv(row, in_memory):
    named = [kind for kind, _, _ in SLOT.findall(row["slots"])]
    if "V" in named or "VInRegister" in named and not in_memory:
        return "Named"
    demands = checks(row, "before_modrm", "after_address")
    return "Zero" if "V0" in demands or "VifMem" in demands and in_memory else "Free"


def count(text, w, l):
    kind, first, second = COUNT.fullmatch(text).groups()
    if kind == "Nothing":
        return "None"
    return f"Some({first if kind == 'Is' or (l if kind == 'CountByL' else w) == 0 else second})"


def size(row, sizes, w, l, in_memory):
    """The size: the form's constant where it goes by the opcode, or one for all opcodes with W and L put in."""
    if not in_memory:
        return f"Always({count(row['register_size'], w, l)})"
    always = re.fullmatch(r"Always\((.*)\)", sizes.get(row["size"], row["size"]))
    return f"Always({count(always[1], w, l)})" if always else row["size"]


def shape(row, sizes, w, l, memory):
    in_memory = memory and row["modrm"] == "true"
    named = slots(row, w, l, in_memory)
    four = ", ".join(named + ["U8"] * (4 - len(named)))
    return (
        f"    RowShape {{ slots: ({four}), slot_count: {len(named)}, vvvv: {vvvv(row, in_memory)}, "
        f"size: {size(row, sizes, w, l, in_memory)}, ..{base(row, l, memory)} }},"
    )


def shapes_code(text, note):
    rows = list(form_rows(text))
    sizes = dict(SIZE.findall(text))
    lines = [f"//! The shapes of the rows of each form, {note}.", *HEAD.splitlines()]
    for name, rule in sizes.items():
        if rule.startswith("ByOpcode"):
            lines += [f"const {name}: ShapeSize = {rule.replace('CountBy', 'By')};", ""]
    lines += [*SHAPES_HEAD.splitlines(), f"pub static SHAPES: [RowShape; {8 * len(rows)}] = ["]
    for row in rows:
        lines.append(f"    // {row['form'].removeprefix('Form::')}")
        for place in range(8):
            lines.append(shape(row, sizes, place // 4, place // 2 % 2, place % 2))
    return lines + ["];"]
