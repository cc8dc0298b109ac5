"""Plain values: what a document shows as one, and the edits by which it comes to hold one."""
from __future__ import annotations

import json
from typing import TYPE_CHECKING, Any, Dict, Iterable, Iterator, List, Mapping

from ._faults import fault
from ._library import BAD_KEY, BAD_PATH, BAD_SCALAR, NOT_UTF8

if TYPE_CHECKING:
    from ._replica import Edit

_KEYS, _KEY_BYTES, _TEXT_BYTES = 8, 64, 1024
_INTS = range(-(1 << 63), 1 << 63)
_NOTHING: Dict[str, Any] = {"maps": {}, "regs": {}, "sets": {}}


def plain_of(shown: Dict[str, Any]) -> Dict[str, Any]:
    """What is shown, as a dict in the order of its keys. At one key a map stands before a set, that before a register,
    and a counter last. Of a register's values the last stands."""
    found: Dict[str, Any] = dict(shown.get("counters", {}))
    found.update((key, values[-1]) for key, values in shown["regs"].items())
    found.update(shown["sets"])
    found.update((key, plain_of(below)) for key, below in shown["maps"].items())
    return {key: found[key] for key in sorted(found)}


def edits_of(mapping: Mapping[str, Any], shown: Dict[str, Any], path: str) -> Iterator[Edit]:
    """The edits by which what is shown at a path comes to hold a mapping. Raises what no document can hold."""
    for key, value in mapping.items():
        at = _below(path, key)
        if isinstance(value, Mapping):
            yield from edits_of(value, shown["maps"].get(key, _NOTHING), at)
        elif isinstance(value, (list, tuple, set, frozenset)):
            yield from _added(value, shown["sets"].get(key, []), at)
        elif [_text_of(value, at)] != [json.dumps(one) for one in _values(shown, key)]:
            yield "set", at, value


def _added(values: Iterable[Any], elements: List[Any], at: str) -> Iterator[Edit]:
    """The edits that add to a set what it doesn't have."""
    there = set(map(json.dumps, elements))
    for value in values:
        text = _text_of(value, at)
        if text not in there:
            there.add(text)
            yield "add", at, value


def _values(shown: Dict[str, Any], key: str) -> List[Any]:
    """The values of the register at a key; where there is none, that of the counter, if any."""
    counters = shown.get("counters", {})
    values: List[Any] = shown["regs"].get(key, [counters[key]] if key in counters else [])
    return values


def _below(path: str, key: Any) -> str:
    """The path of a key below a path."""
    at = f"{path}/{key}" if path else f"{key}"
    if not isinstance(key, str):
        raise TypeError(f"{at!r}: a key is a str, and not {type(key).__name__}")
    if not key or "/" in key or _length(key, at) > _KEY_BYTES:
        raise fault(BAD_KEY, f"BadKey: {key!r} is no key", at)
    if at.count("/") >= _KEYS:
        raise fault(BAD_PATH, given=at)
    return at


def _text_of(value: Any, at: str) -> str:
    """The text of a scalar, by which True isn't 1."""
    if not (value is None or isinstance(value, (int, str))):
        raise TypeError(f"{at!r}: a value is None, a bool, an int or a str, and not {type(value).__name__}")
    is_long = isinstance(value, str) and _length(value, at) > _TEXT_BYTES
    if is_long or isinstance(value, int) and int(value) not in _INTS:
        raise fault(BAD_SCALAR, given=at)
    return json.dumps(value)


def _length(text: str, at: str) -> int:
    """How many bytes a text has as UTF-8."""
    try:
        return len(text.encode())
    except UnicodeEncodeError:
        raise fault(NOT_UTF8, given=at) from None
