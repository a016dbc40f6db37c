"""The verified machine of Soilannual in Python: compile a text, open its image, and take ticks.

    import sct

    with sct.Machine.of_text(open("examples/abro.chart").read()) as abro:
        abro.react()  # the first tick enters the chart
        abro.react(A=True)
        assert abro.react(B=True)["O"] is True

It stands on the shared library libsct.so, which tools/install makes of libsct.a where there is a C compiler. It is looked for
where the environment's SCT_LIBRARY says, beside this file, in ../../../lib of it (where tools/install puts both), and where the
system looks.
"""
from __future__ import annotations

import ctypes
import enum
import os
from ctypes import POINTER, byref, c_char, c_char_p, c_int, c_int32, c_size_t, c_uint8, c_uint64, c_void_p
from types import TracebackType
from typing import Callable, Dict, List, Mapping, NamedTuple, Optional, Type, Union

Value = Union[bool, int]

__all__ = [
    "Kind", "Role", "Variable", "Machine", "compile_text", "SctError", "TextFault", "ImageFault", "MemoryRefused", "NoSuchVariable",
    "NotAnInput", "WrongKind", "WrongControl", "Closed",
]


class Kind(enum.IntEnum):
    """The kind of a variable."""

    BOOL = 0
    INT = 1


class Role(enum.IntEnum):
    """Who writes a variable, and who sees it."""

    INPUT = 0
    OUTPUT = 1
    LOCAL = 2


class Variable(NamedTuple):
    """A variable of a machine."""

    number: int
    name: str
    kind: Kind
    role: Role


class SctError(Exception):
    """A call was refused; nothing has changed."""


class MemoryRefused(SctError, MemoryError):
    """Memory was refused (E52)."""


class Refused(SctError, ValueError):
    """A text or an image is refused. `words` is the line that the program `sct` prints, and `number` that of the fault."""

    def __init__(self, words: str, number: int, line: int, column: int) -> None:
        super().__init__(words if not line else f"{words} (line {line}, column {column})")
        self.words, self.number, self.line, self.column = words, number, line, column


class TextFault(Refused):
    """A text spells no program, or one that has no image (E01 to E14). `line` and `column` count from 1; 0 where there is no place."""


class ImageFault(Refused):
    """Bytes spell no valid image (E21 to E40)."""


class NoSuchVariable(SctError, KeyError):
    """No variable has this name or number."""


class NotAnInput(SctError, ValueError):
    """The variable is no input."""


class WrongKind(SctError, TypeError):
    """The value is of another kind than the variable, or out of the range of 32 bits."""


class WrongControl(SctError, ValueError):
    """The bytes hold no configuration in which the machine rests."""


class Closed(SctError, ValueError):
    """The machine was closed."""


class _Fault(ctypes.Structure):
    _fields_ = [("number", c_int32), ("line", c_uint64), ("column", c_uint64), ("words", c_char * 256)]


_OK, _NULL, _MEMORY, _TEXT, _IMAGE, _NUMBER, _ROLE, _KIND, _BUFFER, _CONTROL = range(10)
_ERRORS: Dict[int, Type[SctError]] = {
    _NULL: Closed, _MEMORY: MemoryRefused, _NUMBER: NoSuchVariable, _ROLE: NotAnInput, _KIND: WrongKind, _CONTROL: WrongControl,
}
_SIGNATURES = {
    "sct_status_words": (c_char_p, [c_int]),
    "sct_compile": (c_int, [c_char_p, c_size_t, c_void_p, c_size_t, POINTER(c_size_t), POINTER(_Fault)]),
    "sct_open": (c_int, [c_char_p, c_size_t, POINTER(c_void_p), POINTER(_Fault)]),
    "sct_close": (None, [c_void_p]),
    "sct_variable_count": (c_size_t, [c_void_p]),
    "sct_variable_name": (c_char_p, [c_void_p, c_size_t]),
    "sct_variable_kind": (c_int, [c_void_p, c_size_t, POINTER(c_int)]),
    "sct_variable_role": (c_int, [c_void_p, c_size_t, POINTER(c_int)]),
    "sct_set_bool": (c_int, [c_void_p, c_size_t, c_int]),
    "sct_set_int": (c_int, [c_void_p, c_size_t, c_int32]),
    "sct_react": (c_int, [c_void_p, POINTER(c_uint64)]),
    "sct_get_bool": (c_int, [c_void_p, c_size_t, POINTER(c_int)]),
    "sct_get_int": (c_int, [c_void_p, c_size_t, POINTER(c_int32)]),
    "sct_open_text": (c_int, [c_char_p, c_size_t, POINTER(c_void_p), POINTER(_Fault)]),
    "sct_state_count": (c_size_t, [c_void_p]),
    "sct_state_name": (c_char_p, [c_void_p, c_size_t]),
    "sct_active": (c_int, [c_void_p, c_size_t, POINTER(c_int)]),
    "sct_save": (c_int, [c_void_p, c_void_p, c_size_t, POINTER(c_size_t)]),
    "sct_restore": (c_int, [c_void_p, c_char_p, c_size_t]),
    "sct_reset": (c_int, [c_void_p]),
}


def _load() -> ctypes.CDLL:
    here = os.path.dirname(os.path.abspath(__file__))
    places = [os.environ.get("SCT_LIBRARY"), os.path.join(here, "libsct.so"), os.path.join(here, "..", "..", "..", "lib", "libsct.so")]
    for place in places:
        if place and os.path.exists(place):
            break
    else:
        place = "libsct.so"
    library = ctypes.CDLL(place)
    for name, (result, arguments) in _SIGNATURES.items():
        call = getattr(library, name)
        call.restype, call.argtypes = result, arguments
    return library


_library = _load()


def _check(status: int, about: object = None, fault: Optional[_Fault] = None) -> None:
    """Raises the exception of a status."""
    if status == _OK:
        return
    if status in (_TEXT, _IMAGE) and fault is not None:
        raise (TextFault if status == _TEXT else ImageFault)(fault.words.decode(), fault.number, fault.line, fault.column)
    words = _library.sct_status_words(status).decode()
    raise _ERRORS.get(status, SctError)(words if about is None else f"{words}: {about}")


def compile_text(text: str) -> bytes:
    """The bytes of the image of a chart, an extended chart or an SCL program. TextFault: it is refused."""
    spelt, length, fault = text.encode(), c_size_t(), _Fault()
    status = _library.sct_compile(spelt, len(spelt), None, 0, byref(length), byref(fault))
    if status != _BUFFER:
        _check(status, fault=fault)
    image = (c_uint8 * length.value)()
    _check(_library.sct_compile(spelt, len(spelt), image, length.value, byref(length), byref(fault)), fault=fault)
    return bytes(image)


class Machine:
    """A machine of an image, between two ticks. It is used by one thread at a time."""

    def __init__(self, image: bytes) -> None:
        """Opens an image, before its first tick. ImageFault: the bytes spell no valid one."""
        self._open(_library.sct_open, image)

    @classmethod
    def of_text(cls, text: str) -> "Machine":
        """Compiles a chart, an extended chart or an SCL program, and opens its image. TextFault: the text is refused."""
        machine = cls.__new__(cls)
        machine._open(_library.sct_open_text, text.encode())
        return machine

    def _open(self, call: Callable[..., int], spelt: bytes) -> None:
        self._at = c_void_p()
        fault = _Fault()
        _check(call(spelt, len(spelt), byref(self._at), byref(fault)), fault=fault)
        self._variables = [self._variable(number) for number in range(_library.sct_variable_count(self._at))]
        self._by_name = {variable.name: variable for variable in self._variables}
        self._states = [_library.sct_state_name(self._at, number).decode() for number in range(_library.sct_state_count(self._at))]

    def _variable(self, number: int) -> Variable:
        kind, role = c_int(), c_int()
        _check(_library.sct_variable_kind(self._at, number, byref(kind)), number)
        _check(_library.sct_variable_role(self._at, number, byref(role)), number)
        name = _library.sct_variable_name(self._at, number).decode()
        return Variable(number, name, Kind(kind.value), Role(role.value))

    def _named(self, name: str) -> Variable:
        if name not in self._by_name:
            raise NoSuchVariable(name)
        return self._by_name[name]

    def close(self) -> None:
        """Gives its memory back. A closed machine refuses each further call, with Closed."""
        _library.sct_close(self._at)
        self._at = c_void_p()

    def __enter__(self) -> "Machine":
        return self

    def __exit__(self, kind: Optional[Type[BaseException]], error: Optional[BaseException], trace: Optional[TracebackType]) -> None:
        self.close()

    def __del__(self) -> None:
        if getattr(self, "_at", None):
            self.close()

    @property
    def variables(self) -> List[Variable]:
        """Its variables, in the order of their numbers."""
        return list(self._variables)

    def set(self, name: str, value: Value) -> None:
        """Gives a value to an input for the next tick. NoSuchVariable, NotAnInput, WrongKind."""
        variable = self._named(name)
        if isinstance(value, bool):
            _check(_library.sct_set_bool(self._at, variable.number, int(value)), name)
            return
        if not isinstance(value, int) or not -(2**31) <= value < 2**31:
            raise WrongKind(f"{name} = {value}")
        _check(_library.sct_set_int(self._at, variable.number, value), name)

    def get(self, name: str) -> Value:
        """The value of a variable after the last tick, or before the first. NoSuchVariable."""
        variable = self._named(name)
        if variable.kind is Kind.BOOL:
            truth = c_int()
            _check(_library.sct_get_bool(self._at, variable.number, byref(truth)), name)
            return bool(truth.value)
        number = c_int32()
        _check(_library.sct_get_int(self._at, variable.number, byref(number)), name)
        return number.value

    def tick(self) -> int:
        """One tick under the inputs that were given since the last one, and how many steps it took."""
        steps = c_uint64()
        _check(_library.sct_react(self._at, byref(steps)))
        return steps.value

    def outputs(self) -> Dict[str, Value]:
        """The values of the outputs."""
        return {variable.name: self.get(variable.name) for variable in self._variables if variable.role is Role.OUTPUT}

    def react(self, inputs: Optional[Mapping[str, Value]] = None, **named: Value) -> Dict[str, Value]:
        """Gives these inputs, takes a tick, and gives the outputs. Inputs that are not given are False or 0."""
        for name, value in {**(inputs or {}), **named}.items():
            self.set(name, value)
        self.tick()
        return self.outputs()

    @property
    def states(self) -> List[str]:
        """The names of the states of its chart, in the order of the text. None where it was not opened from the text of a chart."""
        return list(self._states)

    def active(self) -> List[str]:
        """The names of the states that are active between two ticks."""
        return [name for number, name in enumerate(self._states) if self._is_active(number)]

    def _is_active(self, number: int) -> bool:
        active = c_int()
        _check(_library.sct_active(self._at, number, byref(active)), number)
        return bool(active.value)

    def save(self) -> bytes:
        """Its configuration as bytes, which any machine of the same image takes."""
        length = c_size_t()
        status = _library.sct_save(self._at, None, 0, byref(length))
        if status != _BUFFER:
            _check(status)
        saved = (c_uint8 * length.value)()
        _check(_library.sct_save(self._at, saved, length.value, byref(length)))
        return bytes(saved)

    def restore(self, saved: bytes) -> None:
        """Puts it into a configuration. WrongControl: it cannot rest there."""
        _check(_library.sct_restore(self._at, saved, len(saved)))

    def reset(self) -> None:
        """Puts it before its first tick."""
        _check(_library.sct_reset(self._at))
