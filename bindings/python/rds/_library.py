"""The library, as `rds.h` declares it."""
from __future__ import annotations

import ctypes
from ctypes import POINTER, Structure, c_char_p, c_int64, c_size_t, c_uint8, c_uint32, c_uint64, c_void_p
from pathlib import Path
from typing import Any, Dict, List

OK, MEMORY, BAD_KEY, BAD_PATH, BAD_SCALAR, DEVICE, UNSURE, NO_ROOM, NOT_UTF8 = 0, 1, 3, 4, 5, 24, 29, 66, 67

# The last number that a fault may have: only of these the library has words to give.
LAST_FAULT = 63


class Slot(Structure):
    """`rds` of the header."""

    _fields_ = [("is_open", c_uint64), ("at", c_void_p)]


class FileSlot(Structure):
    """`rds_file` of the header."""

    _fields_ = [("replica", Slot), ("held", c_void_p)]


class EditedSlot(Structure):
    """`rds_edited` of the header."""

    _fields_ = [("has_dot", c_uint64), ("number", c_uint64), ("killed", c_uint64)]


_REPLICA, _FILE, _EDITED = POINTER(Slot), POINTER(FileSlot), POINTER(EditedSlot)
_BYTES: List[Any] = [c_char_p, c_size_t]
_ROOM: List[Any] = [c_char_p, c_size_t, POINTER(c_size_t)]
_TAKEN = POINTER(c_uint64)

_CALLS: Dict[str, List[Any]] = {
    "new": [_REPLICA, *_BYTES, c_uint8],
    "open": [_REPLICA, *_BYTES],
    "clear": [_REPLICA, *_BYTES, _EDITED],
    "inc": [_REPLICA, *_BYTES, c_uint64, _EDITED],
    "dec": [_REPLICA, *_BYTES, c_uint64, _EDITED],
    "edit_lines": [_REPLICA, *_BYTES, *_ROOM],
    "view": [_REPLICA, *_BYTES, *_ROOM],
    "get": [_REPLICA, *_BYTES, *_ROOM],
    "conflicts": [_REPLICA, *_BYTES, *_ROOM],
    "dump": [_REPLICA, *_BYTES, *_ROOM],
    "status_json": [_REPLICA, *_ROOM],
    "mark": [_REPLICA, *_ROOM],
    "snapshot": [_REPLICA, *_ROOM],
    "ask": [_REPLICA, *_ROOM],
    "answer": [_REPLICA, *_BYTES, *_ROOM],
    "take": [_REPLICA, *_BYTES, *_BYTES, _TAKEN],
    "merge": [_REPLICA, *_BYTES, _TAKEN],
    "grow": [_REPLICA, *_BYTES],
    "told": [_REPLICA, *_ROOM],
    "open_file": [_FILE, *_BYTES],
    "make_file": [_FILE, *_BYTES],
    "keep": [_FILE],
}
for _verb in ("set", "add", "del"):
    _CALLS[f"{_verb}_text"] = [_REPLICA, *_BYTES, *_BYTES, _EDITED]
    _CALLS[f"{_verb}_int"] = [_REPLICA, *_BYTES, c_int64, _EDITED]
    _CALLS[f"{_verb}_bool"] = [_REPLICA, *_BYTES, c_uint8, _EDITED]
    _CALLS[f"{_verb}_null"] = [_REPLICA, *_BYTES, _EDITED]


def _load() -> ctypes.CDLL:
    file = Path(__file__).with_name("librds.so")
    if not file.exists():
        raise ImportError(f"{file} isn't there: bindings/build makes it")
    library = ctypes.CDLL(str(file), use_errno=True)
    for name, arguments in _CALLS.items():
        call = getattr(library, f"rds_{name}")
        call.argtypes, call.restype = arguments, c_uint32
    library.rds_close.argtypes, library.rds_close.restype = [_FILE], None
    for name in ("rds_status_name", "rds_status_text"):
        call = getattr(library, name)
        call.argtypes, call.restype = [c_uint32], c_char_p
    return library


LIB = _load()
