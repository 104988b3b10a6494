"""libchi.so: where it is looked for, the types of its calls, the names that it knows, and how it refuses a request."""

from __future__ import annotations

import ctypes
import os
import pathlib

# Seen from this folder: itself, out/ of the repository, and lib/ of the prefix where this is share/chi/python/chi.
_FOLDERS = [".", "../../out", "../../../../lib"]
_ROOM = 20
_BYTE, _SHORT, _RESULT, _LONG, _SIZE = ctypes.c_uint8, ctypes.c_uint16, ctypes.c_uint32, ctypes.c_uint64, ctypes.c_size_t
_FIELDS = [_BYTE, _BYTE, _LONG, _BYTE, _SHORT, ctypes.c_char_p]
_REPLY = [ctypes.c_char_p, ctypes.POINTER(_BYTE)]
# What each call answers, and its arguments (include/chi.h).
_CALLS = {
    "chi_serve": (_RESULT, [ctypes.POINTER(_LONG), _SIZE, _LONG, *_FIELDS, *_REPLY]),
    "chi_apply": (_RESULT, [_LONG, _SHORT, *_FIELDS, _LONG, ctypes.POINTER(_LONG), *_REPLY]),
    "chi_decode": (_RESULT, [_LONG, _SHORT, _BYTE, _BYTE, _LONG, _SHORT, *[ctypes.POINTER(_BYTE)] * 3, ctypes.POINTER(_SHORT)]),
    "chi_op_name": (_SIZE, [_BYTE, ctypes.c_char_p, _SIZE]),
    "chi_result_name": (_SIZE, [_RESULT, ctypes.c_char_p, _SIZE]),
    "chi_version": (_SIZE, [ctypes.c_char_p, _SIZE]),
}


def _load() -> ctypes.CDLL:
    """The library that CHI_LIBRARY names; or else that of the first of the folders that has one, or the one that the system finds."""
    named = os.environ.get("CHI_LIBRARY")
    here = pathlib.Path(__file__).resolve().parent
    places = [os.path.normpath(here / folder / "libchi.so") for folder in _FOLDERS]
    path = named or next(filter(os.path.exists, places), "libchi.so")
    try:
        library = ctypes.CDLL(path)
        for name, (answer, arguments) in _CALLS.items():
            call = getattr(library, name)
            call.restype, call.argtypes = answer, arguments
    except (OSError, AttributeError) as fault:
        looked = f"CHI_LIBRARY names {named}" if named else f"looked at {', '.join(places)} and where the system has libraries"
        how = "make lib in the repository makes out/libchi.so, and CHI_LIBRARY may name it"
        raise ImportError(f"no libchi.so: {fault}; {looked}; {how}", name="chi", path=path) from None
    return library


library = _load()


def want_bits(**numbers: tuple[int, int]) -> None:
    """Refuses a number that C would cut off: each is given with its width in bits.

    >>> want_bits(be=(0x10000, 16))
    Traceback (most recent call last):
    ValueError: be is 0x10000, and a number of 16 bits is wanted
    """
    for name, (number, bits) in numbers.items():
        if not 0 <= number < 1 << bits:
            raise ValueError(f"{name} is {number:#x}, and a number of {bits} bits is wanted")


def op_name(opcode: int) -> str:
    """The name of an opcode, or Unknown.

    >>> op_name(0x30)
    'AtomicLoad.ADD'
    """
    want_bits(opcode=(opcode, 8))
    name = ctypes.create_string_buffer(_ROOM)
    library.chi_op_name(opcode, name, _ROOM)
    return name.value.decode()


def result_name(number: int) -> str:
    """The name of a result, or nothing where no call answers it.

    >>> result_name(4)
    'Misaligned'
    """
    want_bits(result=(number, 32))
    name = ctypes.create_string_buffer(_ROOM)
    library.chi_result_name(number, name, _ROOM)
    return name.value.decode()


def version() -> str:
    """The version of the library.

    >>> version()
    '0.1.0'
    """
    name = ctypes.create_string_buffer(_ROOM)
    library.chi_version(name, _ROOM)
    return name.value.decode()


class Refused(Exception):
    """A request that is refused, or a region that is none: number is 1 to 6, or 17 to 19 (docs/FROM-C.md).

    >>> str(Refused(4))
    'Misaligned'
    """

    def __init__(self, number: int) -> None:
        super().__init__(result_name(number))
        self.number = number
