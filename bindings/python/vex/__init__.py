"""A proved decoder and shortest encoder of 64-bit VEX instructions, by ctypes over libvex.so.

    >>> import vex
    >>> one = vex.decode(bytes.fromhex("c4e17058c2"))
    >>> str(one), one.length, one.encode().hex()
    ('VADDPS x0 x1 x2 0', 5, 'c5f058c2')

What a call refuses is raised as an error with the name of include/vex.h, as `vex.InvalidOpcode`; each is a `vex.Error`.
The library is looked for at the path of the environment variable LIBVEX, then in out/ of the repository that this file
is in, and then where the system looks for libvex.so.0.
"""
import ctypes
import os
import pathlib
from ctypes import POINTER, c_char, c_char_p, c_int32, c_size_t, c_uint8, c_uint16, c_uint32, c_uint64

__all__ = ["Error", "Instruction", "Operand", "Register", "Settings", "decode", "decode_all", "default", "needed",
           "named", "opcode_name", "opcode_named", "parse", "version"]

KIND_NONE, KIND_REGISTER, KIND_SIGNED, KIND_UNSIGNED, KIND_MEMORY = range(5)
BANKS = ("", "Q", "D", "X", "Y", "Z", "RIP")
PLAIN = 0
TEXT_ROOM = 256
ROOM = 1024  # instructions that one call decodes


class Settings(ctypes.Structure):
    """Which instructions are permitted: 128 bits in two words, `low` and `high`."""
    _fields_ = [("low", c_uint64), ("high", c_uint64)]

    def __eq__(self, other):
        return isinstance(other, Settings) and (self.low, self.high) == (other.low, other.high)

    def __hash__(self):
        return hash((self.low, self.high))

    def __repr__(self):
        return f"Settings(low={self.low:#x}, high={self.high:#x})"


class Register(ctypes.Structure):
    """A register: the number of its bank, 0 where there is none, and its number there."""
    _fields_ = [("bank", c_uint8), ("number", c_uint8)]

    def __bool__(self):
        return self.bank != 0

    def __repr__(self):
        return f"Register({BANKS[self.bank] if self.bank < len(BANKS) else self.bank}, {self.number})"


class Operand(ctypes.Structure):
    """An operand: its kind, and each part in a field of its own."""
    _fields_ = [("kind", c_uint8), ("scale", c_uint8), ("reg", Register), ("base", Register), ("index", Register),
                ("displacement", c_int32), ("immediate", c_int32)]


class _Encoding(ctypes.Structure):
    _fields_ = [("length", c_uint8), ("bytes", c_uint8 * 15)]

    def __bytes__(self):
        return bytes(self.bytes[:self.length])


class _Taken(ctypes.Structure):
    _fields_ = [("instructions", c_size_t), ("bytes", c_size_t)]


class Instruction(ctypes.Structure):
    """An instruction: `opcode` (a number), `mark`, `operand_count`, `size`, `length` and four `operands`."""
    _fields_ = [("opcode", c_uint16), ("mark", c_uint8), ("operand_count", c_uint8), ("size", c_uint8),
                ("length", c_uint8), ("reserved", c_uint16), ("operands", Operand * 4)]

    @property
    def name(self):
        """The name of the opcode, as VADDPS."""
        return opcode_name(self.opcode)

    @property
    def plain(self):
        """The text of the instruction, as VADDPS x0 x1 x2 0."""
        return _text(_library.vex_format, ctypes.byref(self), PLAIN)

    def __str__(self):
        return self.plain

    def __repr__(self):
        return f"<vex.Instruction {self.plain}>"

    def __eq__(self, other):
        return isinstance(other, Instruction) and bytes(memoryview(self)) == bytes(memoryview(other))

    def __hash__(self):
        return hash(bytes(memoryview(self)))

    def encode(self):
        """The shortest bytes of the instruction's meaning."""
        encoding = _Encoding()
        _raise(_library.vex_encode(ctypes.byref(self), ctypes.byref(encoding)))
        return bytes(encoding)

    def __bytes__(self):
        return self.encode()

    def spellings(self):
        """All bytes that have the instruction's meaning, in ascending order."""
        after = _Encoding()
        while True:
            following = _Encoding()
            error = _library.vex_next_spelling(ctypes.byref(self), ctypes.byref(after), ctypes.byref(following))
            if error == NoSpelling.number:
                return
            _raise(error)
            yield bytes(following)
            after = following


class Error(ValueError):
    """What a call refuses; `number` is that of include/vex.h."""
    number = 0


_ERRORS = ("ExhaustedInput", "InvalidOpcode", "InvalidOperand", "Outside", "NoSpelling", "BadInstruction",
           "BadEncoding", "BadText", "BadSyntax", "NoRoom", "NoSuchName", "NoSuchNumber", "Marked")
_BY_NUMBER = {number: type(name, (Error,), {"number": number, "__module__": __name__})
              for number, name in enumerate(_ERRORS, 1)}
globals().update({error.__name__: error for error in _BY_NUMBER.values()})
NoSpelling = _BY_NUMBER[5]
__all__ += _ERRORS


def _raise(number):
    if number:
        raise _BY_NUMBER[number](_BY_NUMBER[number].__name__)


def _load():
    here = pathlib.Path(__file__).resolve().parents[3] / "out" / "libvex.so"
    library = ctypes.CDLL(os.environ.get("LIBVEX") or (str(here) if here.exists() else "libvex.so.0"))
    settings, instruction, encoding = POINTER(Settings), POINTER(Instruction), POINTER(_Encoding)
    for name, arguments in {
        "vex_settings_named": [c_char_p, c_size_t, settings],
        "vex_decode": [settings, c_char_p, c_size_t, instruction],
        "vex_recode": [settings, c_char_p, c_size_t, instruction, encoding],
        "vex_encode": [instruction, encoding],
        "vex_next_spelling": [instruction, encoding, encoding],
        "vex_decode_all": [settings, c_char_p, c_size_t, instruction, c_size_t, POINTER(_Taken)],
        "vex_format": [instruction, c_uint32, POINTER(c_char), c_size_t],
        "vex_parse": [c_uint32, c_char_p, c_size_t, instruction, POINTER(c_size_t)],
        "vex_settings_needed": [c_char_p, c_size_t, settings],
        "vex_opcode_name": [c_uint16, POINTER(c_char), c_size_t],
        "vex_opcode_named": [c_char_p, c_size_t, POINTER(c_uint16)],
        "vex_error_name": [c_uint32, POINTER(c_char), c_size_t],
        "vex_version": [POINTER(c_char), c_size_t],
    }.items():
        call = getattr(library, name)
        call.argtypes, call.restype = arguments, c_uint32
    return library


_library = _load()


def _text(call, *arguments):
    """What a call writes into room for a text."""
    room = ctypes.create_string_buffer(TEXT_ROOM)
    _raise(call(*arguments, room, TEXT_ROOM))
    return room.value.decode()


def named(name):
    """The settings of `default`, `minimal` or a microarchitecture, as haswell."""
    settings, written = Settings(), name.encode()
    _raise(_library.vex_settings_named(written, len(written), ctypes.byref(settings)))
    return settings


default = named("default")


def decode(code, settings=default):
    """The instruction at the front of bytes."""
    code, instruction = bytes(code), Instruction()
    _raise(_library.vex_decode(ctypes.byref(settings), code, len(code), ctypes.byref(instruction)))
    return instruction


def decode_all(code, settings=default):
    """One instruction after another of bytes, until none is left. Where bytes are refused, their error is raised after
    the instructions before them; `place`, an attribute of it, is how many bytes stand before."""
    code, place = bytes(code), 0
    while place < len(code):
        places, taken = (Instruction * ROOM)(), _Taken()
        rest = code[place:]
        error = _library.vex_decode_all(ctypes.byref(settings), rest, len(rest), places, ROOM, ctypes.byref(taken))
        for i in range(taken.instructions):
            yield Instruction.from_buffer_copy(places[i])
        place += taken.bytes
        if error:
            refused = _BY_NUMBER[error](f"{_BY_NUMBER[error].__name__} at {place}")
            refused.place = place
            raise refused


def parse(text):
    """The instruction, of length 0, that a text writes, as VADDPS x0 x1 x2 0."""
    written, instruction, place = text.encode(), Instruction(), c_size_t()
    error = _library.vex_parse(PLAIN, written, len(written), ctypes.byref(instruction), ctypes.byref(place))
    _raise(error)
    return instruction


def needed(code):
    """The least settings that permit each instruction of a run of bytes."""
    code, settings = bytes(code), Settings()
    _raise(_library.vex_settings_needed(code, len(code), ctypes.byref(settings)))
    return settings


def opcode_name(number):
    """The name of an opcode's number."""
    if not 0 <= number < 1 << 16:
        raise _BY_NUMBER[12]("NoSuchNumber")
    return _text(_library.vex_opcode_name, number)


def opcode_named(name):
    """The number of the opcode of a name."""
    number, written = c_uint16(), name.encode()
    _raise(_library.vex_opcode_named(written, len(written), ctypes.byref(number)))
    return number.value


def version():
    """The version of the library, with the toolchain and the logic that it is proved with."""
    return _text(_library.vex_version)
