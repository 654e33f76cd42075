"""The tests of the package. They load the library that the repository built, unless LIBT1SUBSET names one."""

import os
import warnings

_BUILT = os.path.join(os.path.dirname(__file__), "..", "..", "lib", "libt1subset.so.0")
if os.path.exists(_BUILT):
    os.environ.setdefault("LIBT1SUBSET", _BUILT)


def left_out(what: str) -> None:
    """Says what this machine can't try: on standard error, or in pytest's summary, which would keep a mere line."""
    warnings.warn(f"left out: {what}", stacklevel=2)
