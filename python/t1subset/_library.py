"""The shared library: where it is found, and what its calls take and answer."""

from __future__ import annotations

import ctypes
import os
from typing import Any, Dict, List

NAME = "libt1subset.so.0"


class Given(ctypes.Structure):
    """t1subset_bytes, as a caller gives it."""

    _fields_ = [("data", ctypes.c_char_p), ("size", ctypes.c_size_t)]


class Answer(ctypes.Structure):
    """t1subset_answer. Its data is no c_char_p: ctypes would read that up to a NUL, and none stands at its end."""

    _fields_ = [
        ("detail", ctypes.c_uint64),
        ("input", ctypes.c_int64),
        ("data", ctypes.c_void_p),
        ("size", ctypes.c_size_t),
    ]


class Limits(ctypes.Structure):
    """t1subset_limits."""

    _fields_ = [("tokens", ctypes.c_uint64)]


_FILE: List[Any] = [ctypes.c_char_p, ctypes.c_size_t]
_LIST: List[Any] = [ctypes.POINTER(Given), ctypes.c_size_t]
_FORM: List[Any] = [ctypes.c_uint32]
_LIMITS: List[Any] = [ctypes.POINTER(Limits)]

# What stands before the answer in each call, or before the answers of t1subset_level.
_CALLS: Dict[str, List[Any]] = {
    "t1subset_check": _FILE,
    "t1subset_list": _FILE,
    "t1subset_list_full": _FILE,
    "t1subset_show": _FILE + _FILE,
    "t1subset_convert": _FILE + _FORM,
    "t1subset_mend": _FILE + _FORM,
    "t1subset_mends": _FILE,
    "t1subset_subset": _FILE + _LIST + _FORM,
    "t1subset_subset_codes": _FILE + _LIST + _FILE + _FORM,
    "t1subset_merge": _LIST + _FORM,
    "t1subset_rejoin": _LIST + _FORM,
    "t1subset_subset_within": _FILE + _LIST + _FILE + _FORM + _LIMITS,
    "t1subset_merge_within": _LIST + _FORM + _LIMITS,
    "t1subset_rejoin_within": _LIST + _FORM + _LIMITS,
    "t1subset_diff": _FILE + _FILE,
    "t1subset_diff_within": _FILE + _FILE + _LIMITS,
    "t1subset_join": _FILE + _FILE,
    "t1subset_pool": _LIST + _FORM,
    "t1subset_level": _LIST,
    "t1subset_fonts": _LIST,
    "t1subset_extract": _FILE + _LIST,
}


def _places() -> List[str]:
    """Where the library may be, in the order in which it is sought."""
    named = os.environ.get("LIBT1SUBSET")
    if named:
        return [os.path.abspath(named)]
    tree = os.path.dirname(os.path.dirname(os.path.dirname(os.path.abspath(__file__))))
    places = [NAME]
    # Only the repository has the header there: an installed package takes no library from the folders above it.
    if os.path.isfile(os.path.join(tree, "include", "t1subset.h")):
        places.append(os.path.join(tree, "lib", NAME))
    return places


def _load() -> ctypes.CDLL:
    """The library, by CDLL, which releases the interpreter's lock during each call."""
    failures = []
    for place in _places():
        try:
            return ctypes.CDLL(place)
        except OSError as failure:
            failures.append(str(failure))
    raise ImportError(
        f"t1subset needs the library {NAME}: install it, or set LIBT1SUBSET to its path ({'; '.join(failures)})"
    )


def _declare(library: ctypes.CDLL) -> None:
    """Says what each call takes and answers."""
    for name, arguments in _CALLS.items():
        call = getattr(library, name)
        call.argtypes = [*arguments, ctypes.POINTER(Answer)]
        call.restype = ctypes.c_uint32
    library.t1subset_free.argtypes = [ctypes.POINTER(Answer)]
    library.t1subset_free.restype = None
    library.t1subset_version.argtypes = []
    library.t1subset_version.restype = ctypes.c_uint32


library = _load()
try:
    _declare(library)
except AttributeError as failure:
    raise ImportError(f"t1subset needs a whole {NAME}, and this is none: {failure}") from failure
