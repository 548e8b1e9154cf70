"""The library: where it is, the calls that it has, and the statuses that they answer."""
import ctypes
import os
import pathlib
from ctypes import POINTER, byref, c_bool, c_size_t, c_ubyte, c_uint16, c_uint32, c_uint64, c_void_p
from typing import Any, Optional

from .kernel import PredWeights
from .records import (Doubt, Edit, Frame, GroupReceipt, Handle, Job, JobInput, JobReference, JournalEdit, LeftOut, LoadReceipt,
                      Outcome, Receipt, Request)

DONE, NO_SESSION, TOO_SMALL, NO_SUCH_PLACE, NO_SUCH_SLICE = 0, 100, 103, 104, 106
NOTHING_DUE, STALE, NOT_HELD, PENDING, HAS_FAULT, NO_PICTURE, NO_WEIGHTS = 108, 110, 111, 112, 113, 114, 116
PLAN, FAULT, EMPTY = 0, 1, 2
INSERT_FIRST, INSERT_AFTER, DELETE, REPLACE = 0, 1, 2, 3

SONAME = "libcupdaisy.so.0"
# The least version that has all calls, as cupdaisy_version tells it.
LEAST = 3000
HANDLE, TEXT, SIZE, OUT_SIZE = POINTER(Handle), (c_void_p, c_size_t), c_size_t, POINTER(c_size_t)
OUT_ID, OUT_NUMBER = POINTER(c_uint32), POINTER(c_uint64)
FILLED = (*TEXT, OUT_SIZE)
# The types of each call's parameters after the handle, in the header's order.
CALLS: dict[str, tuple[Any, ...]] = {
    "open": (c_uint16,), "close": (),
    "insert_first": (*TEXT, POINTER(Receipt)), "insert_after": (c_uint32, *TEXT, POINTER(Receipt)),
    "insert_last": (*TEXT, POINTER(Receipt)), "delete": (c_uint32, POINTER(Receipt)),
    "replace": (c_uint32, *TEXT, POINTER(Receipt)),
    "group": (POINTER(Edit), SIZE, *TEXT, OUT_ID, SIZE, POINTER(GroupReceipt)), "load": (*TEXT, POINTER(LoadReceipt)),
    "units": (OUT_SIZE,), "id_at": (SIZE, OUT_ID), "place": (c_uint32, OUT_SIZE), "position": (c_uint32, OUT_SIZE),
    "unit_at": (SIZE, OUT_ID), "outcome_of": (c_uint32, POINTER(Outcome)),
    "doubts": (SIZE, POINTER(Doubt), SIZE, OUT_SIZE), "key": (c_uint32, OUT_NUMBER),
    "in_use": (c_uint64, OUT_ID), "mark": (), "is_altered": (c_uint32, OUT_ID),
    "show": (c_uint32, OUT_NUMBER), "take": (POINTER(Job),), "take_for": (c_uint32, POINTER(Job)),
    "land": (c_uint64, c_uint64), "give_back": (c_uint64,), "drop_picture": (c_uint32, OUT_NUMBER), "uncache": (OUT_NUMBER,),
    "released": (OUT_NUMBER, SIZE, OUT_SIZE),
    "job_input_of": (c_uint64, POINTER(JobInput)), "job_reference": (c_uint64, SIZE, POINTER(JobReference)),
    "unit_request": (c_uint32, SIZE, POINTER(Request)), "unit_weights": (c_uint32, SIZE, POINTER(PredWeights)),
    "job_request": (c_uint64, SIZE, POINTER(Request)), "job_weights": (c_uint64, SIZE, POINTER(PredWeights)),
    "unit_bytes": (c_uint32, SIZE, *FILLED), "job_bytes": (c_uint64, SIZE, *FILLED),
    "unit_frame": (c_uint32, POINTER(Frame)), "job_frame": (c_uint64, POINTER(Frame)),
    "unit_frame_bytes": (c_uint32, c_bool, *FILLED), "job_frame_bytes": (c_uint64, c_bool, *FILLED),
    "journal": (OUT_SIZE,), "journal_entry": (SIZE, OUT_SIZE), "journal_edit_at": (SIZE, SIZE, POINTER(JournalEdit)),
    "journal_text": (SIZE, SIZE, *FILLED),
}
# The same of the calls that have no handle.
NAMES: dict[str, tuple[Any, ...]] = {
    "mend": (*TEXT, *FILLED, POINTER(LeftOut), SIZE, OUT_SIZE), "status_name": (c_uint32, *FILLED),
    "fault_name": (c_uint32, *FILLED), "why_name": (c_uint32, *FILLED), "version_text": FILLED,
}


def places() -> list[str]:
    """Where the library may be: what CUPDAISY_LIBRARY names, alone; else beside this module, in the build/ of a repository that the
    module lies in, and where the system has it."""
    named = os.environ.get("CUPDAISY_LIBRARY")
    if named:
        return [named]
    here = pathlib.Path(__file__).resolve().parent
    found = [here / SONAME]
    if (here.parent / "pyproject.toml").exists():
        found.append(here.parent.parent / "build" / SONAME)
    return [str(path) for path in found if path.exists()] + [SONAME]


def loaded() -> ctypes.CDLL:
    """The library, from the first place that has it."""
    why: list[str] = []
    for place in places():
        try:
            library = ctypes.CDLL(place)
        except OSError as fault:
            why.append(str(fault))
            continue
        if library.cupdaisy_version() >= LEAST:
            return library
        why.append(f"{place} is older than 0.3")
    raise ImportError(f"{SONAME} of version 0.3 isn't there: install it (`make install`, or Debian's package libcupdaisy0), or name it by "
                      f"CUPDAISY_LIBRARY: {'; '.join(why)}")


LIBRARY = loaded()
for _name, _types in {**NAMES, **{_name: (HANDLE, *_types) for _name, _types in CALLS.items()}}.items():
    _call = getattr(LIBRARY, f"cupdaisy_{_name}")
    _call.argtypes, _call.restype = _types, c_uint32


class Refused(Exception):
    """A call's status isn't DONE; `index` is which edit of a group, or access unit of a stream, it is for."""

    def __init__(self, status: int, index: Optional[int] = None) -> None:
        super().__init__(f"{status} {status_name(status)}" + ("" if index is None else f" at {index}"))
        self.status, self.index = status, index


def called(name: str, *operands: Any) -> int:
    """The status of a call."""
    status: int = getattr(LIBRARY, f"cupdaisy_{name}")(*operands)
    return status


def text_of(text: bytes) -> tuple[Any, int]:
    """The two parameters of a text that is read."""
    return (c_ubyte * max(len(text), 1)).from_buffer_copy(text or b"\0"), len(text)


def filled(name: str, *operands: Any) -> tuple[int, bytes]:
    """The status of a call, and the bytes that it writes into a buffer, once this has as much room as is needed."""
    needed = c_size_t(256)
    while True:
        buffer = (c_ubyte * max(needed.value, 1))()
        status = called(name, *operands, buffer, len(buffer), byref(needed))
        if status != TOO_SMALL:
            return status, bytes(buffer[:needed.value])


def status_name(status: int) -> str:
    """The name of a status, empty where it has none."""
    found, name = filled("status_name", status)
    return name.decode() if found == DONE else ""


def fault_name(fault: int) -> str:
    """The name of a fault, empty where it has none."""
    found, name = filled("fault_name", fault)
    return name.decode() if found == DONE else ""


def why_name(why: int) -> str:
    """The name of a reason why bytes are left out of a text that is mended, empty where it has none."""
    found, name = filled("why_name", why)
    return name.decode() if found == DONE else ""


def version() -> str:
    """The library's version."""
    return filled("version_text")[1].decode()
