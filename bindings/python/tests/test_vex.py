"""What the package answers: examples, errors, runs, names, and the layout of each struct."""
import ctypes
import unittest

import vex

ROWS = (
    ("default", "c4e17058c2", "5 VADDPS x0 x1 x2 0 c5f058c2"),
    ("default", "c4c17828c0", "5 VMOVAPS x0 x8 0 c57829c0"),
    ("default", "c5f82800", "4 VMOVAPS x0 mq0/-/0 16 c5f82800"),
    ("haswell", "c5f877ffff", "3 VZEROUPPER 0 c5f877"),
)


class Calls(unittest.TestCase):
    def test_rows_are_decoded(self):
        for settings, code, line in ROWS:
            one = vex.decode(bytes.fromhex(code), vex.named(settings))
            self.assertEqual(f"{one.length} {one} {bytes(one).hex()}", line)

    def test_refusals_are_raised_by_name(self):
        for code, error in (("33c0", vex.Outside), ("c5e877", vex.InvalidOperand), ("", vex.ExhaustedInput),
                            ("c4e47858c2", vex.InvalidOpcode)):
            with self.assertRaises(error):
                vex.decode(bytes.fromhex(code))
        with self.assertRaises(vex.InvalidOpcode):
            vex.decode(bytes.fromhex("c5f058c2"), vex.named("minimal"))
        with self.assertRaises(vex.BadText):
            vex.parse("VADDPS x0 x1 x99 0")
        with self.assertRaises(vex.NoSuchName):
            vex.named("i486")
        with self.assertRaises(vex.NoSpelling):
            vex.parse("VADDPS x0 0").encode()
        self.assertTrue(issubclass(vex.Outside, vex.Error))

    def test_a_run_is_gone_through(self):
        code = bytes.fromhex("c5f877 c5f058c2 c5fa1007") * 700
        self.assertEqual([i.length for i in vex.decode_all(code)], [3, 4, 4] * 700)
        names = []
        with self.assertRaises(vex.Outside) as refused:
            for one in vex.decode_all(code[:11] + b"\x33"):
                names.append(one.name)
        self.assertEqual(names, ["VZEROUPPER", "VADDPS", "VMOVSS"])
        self.assertEqual(refused.exception.place, 11)

    def test_spellings_are_listed(self):
        spellings = vex.decode(bytes.fromhex("c5f058c2")).spellings()
        self.assertEqual([s.hex() for s in spellings],
                         ["c4a17058c2", "c4a1f058c2", "c4e17058c2", "c4e1f058c2", "c5f058c2"])

    def test_a_text_is_read_again(self):
        one = vex.parse("VADDPS y0 y1 mq0/q1*4/-16 32")
        address = one.operands[2]
        self.assertEqual((one.name, one.operand_count, one.size, one.length), ("VADDPS", 3, 32, 0))
        self.assertEqual((address.kind, address.base.number, address.index.number, address.scale, address.displacement),
                         (vex.KIND_MEMORY, 0, 1, 4, -16))
        again = vex.decode(one.encode())
        self.assertEqual(str(again), str(one))

    def test_what_is_needed_permits(self):
        code = bytes.fromhex("c5fa1007 c4e37bf0c105")
        needs = vex.needed(code)
        self.assertEqual(len(list(vex.decode_all(code, needs))), 2)
        self.assertEqual(vex.needed(b""), vex.named("minimal"))

    def test_opcodes_have_names(self):
        for number in range(551):
            self.assertEqual(vex.opcode_named(vex.opcode_name(number)), number)
        for number in (551, 65535, 65536, -1):
            with self.assertRaises(vex.NoSuchNumber):
                vex.opcode_name(number)

    def test_errors_have_their_names(self):
        room = ctypes.create_string_buffer(64)
        for number, error in vex._BY_NUMBER.items():
            self.assertEqual(vex._library.vex_error_name(number, room, 64), 0)
            self.assertEqual(room.value.decode(), error.__name__)
        self.assertEqual(vex._library.vex_error_name(len(vex._BY_NUMBER) + 1, room, 64), vex.NoSuchNumber.number)
        self.assertTrue(vex.version().startswith("vex "))

    def test_the_layout_is_that_of_c(self):
        for struct, size, places in (
            (vex.Settings, 16, {"low": 0, "high": 8}),
            (vex.Register, 2, {"bank": 0, "number": 1}),
            (vex.Operand, 16, {"kind": 0, "scale": 1, "reg": 2, "base": 4, "index": 6, "displacement": 8,
                               "immediate": 12}),
            (vex.Instruction, 72, {"opcode": 0, "mark": 2, "operand_count": 3, "size": 4, "length": 5, "reserved": 6,
                                   "operands": 8}),
            (vex._Encoding, 16, {"length": 0, "bytes": 1}),
            (vex._Taken, 16, {"instructions": 0, "bytes": 8}),
        ):
            self.assertEqual(ctypes.sizeof(struct), size)
            self.assertEqual({name: getattr(struct, name).offset for name, _ in struct._fields_}, places)


if __name__ == "__main__":
    unittest.main()
