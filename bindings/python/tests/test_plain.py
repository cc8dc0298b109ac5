"""Plain values out of documents, and mappings that are put in."""
import enum
import json
from typing import Any, Dict, List, Tuple, Type

import pytest

from rds import BadKey, BadPath, BadScalar, Edit, NotUtf8, RdsError, Replica

SETTINGS: Dict[str, Any] = {
    "log": {"level": "debug", "to": {"file": None, "size": 10}},
    "on": True,
    "ports": [80, 443],
    "tags": [],
    "users": {},
}
# The edits that this takes in an empty document, and what then is there: sets are in order, and what is empty is none.
EDITS: List[Edit] = [
    ("set", "log/level", "debug"),
    ("set", "log/to/file", None),
    ("set", "log/to/size", 10),
    ("set", "on", True),
    ("add", "ports", 80),
    ("add", "ports", 443),
]
PLAIN = {"log": {"level": "debug", "to": {"file": None, "size": 10}}, "on": True, "ports": [80, 443]}


def test_a_mapping_goes_in_and_comes_out(shop: Replica) -> None:
    assert shop.update(SETTINGS) == EDITS
    assert shop.plain() == PLAIN
    assert list(shop.plain()) == ["log", "on", "ports"]
    assert shop["log"].plain() == PLAIN["log"] and shop["log/to/size"].plain() == 10
    assert shop.dump() == EDITS


def test_what_stands_there_makes_no_dots(shop: Replica) -> None:
    shop.update(SETTINGS)
    shop["sacks"].increase(3)
    before = bytes(shop)
    assert shop.update(SETTINGS) == [] and shop.update(shop.plain()) == []
    assert shop.update({"ports": {443}}) == [] and shop["log"].update({"to": {"size": 10}}) == []
    assert bytes(shop) == before


def test_an_update_changes_what_differs(shop: Replica) -> None:
    shop.update(SETTINGS)
    edits = shop.update({"log": {"level": "info", "to": {"size": 10}}, "ports": (443, 8080, 8080)})
    assert edits == [("set", "log/level", "info"), ("add", "ports", 8080)]
    assert shop.plain()["log"] == {"level": "info", "to": {"file": None, "size": 10}}
    assert shop["ports"].plain() == [80, 443, 8080]
    assert shop.status().dead == 1


# What stands in a register and a set, what is put in, and how many edits that takes.
TYPES: List[Tuple[Any, Any, int]] = [
    (1, True, 2),
    (True, 1, 2),
    (0, False, 2),
    (None, False, 2),
    ("1", 1, 2),
    ("", None, 2),
    ("ü\n\0", "ü\n\0", 0),
    (None, None, 0),
    (-(1 << 63), -(1 << 63), 0),
]


@pytest.mark.parametrize("old, new, count", TYPES)
def test_values_of_other_types_differ(shop: Replica, old: Any, new: Any, count: int) -> None:
    shop.update({"k": old, "s": [old]})
    assert len(shop.update({"k": new, "s": [new]})) == count
    assert shop["k"].register == [new] and type(shop["k"].register[0]) is type(new)
    assert len(shop["s"].values) == 1 + count // 2


def test_a_register_with_several_values_is_set(pair: Tuple[Replica, Replica]) -> None:
    shop, store = pair
    shop["k"].set(1)
    store["k"].set(2)
    shop.pull(store)
    store.pull(shop)
    assert shop.plain() == store.plain() == {"k": 2} and shop["k"].plain() == 2
    assert shop.update({"k": 2}) == [("set", "k", 2)]
    assert shop["k"].register == [2] and shop.conflicts() == {}


def test_an_element_that_was_added_elsewhere_stays(pair: Tuple[Replica, Replica]) -> None:
    shop, store = pair
    shop.update({"s": ["a"]})
    store.update({"s": ["b"], "k": 1})
    store.pull(shop)
    assert store.plain() == {"k": 1, "s": ["a", "b"]}


# What is edited at one key, one after the other, and what the key then has as a plain value.
AT_ONE_KEY: List[Tuple[Edit, Any]] = [
    (("inc", "x", 4), 4),
    (("set", "x", "r"), "r"),
    (("add", "x", 2), [2]),
    (("set", "x/y", 3), {"y": 3}),
]


def test_at_one_key_what_holds_more_stands(shop: Replica) -> None:
    for edit, due in AT_ONE_KEY:
        shop.edit([edit])
        assert shop.plain() == {"x": due} and shop["x"].plain() == due
    before = bytes(shop)
    assert shop.update({"x": {"y": 3}}) == shop.update({"x": [2]}) == shop.update({"x": "r"}) == []
    assert bytes(shop) == before


def test_a_number_sets_a_register_beside_a_counter(shop: Replica) -> None:
    shop["n"].increase(4)
    shop["m/n"].set(1)
    assert shop.update({"n": 4}) == []
    assert shop.update({"n": 5, "m": {"n": 1}}) == [("set", "n", 5)]
    assert shop["n"].counter == 4 and shop.plain() == {"m": {"n": 1}, "n": 5}


def test_nothing_is_deleted(shop: Replica) -> None:
    shop.update({"a": {"b": 1}, "s": ["x"]})
    assert shop.update({"a": 2, "s": {"y": 3}}) == [("set", "a", 2), ("set", "s/y", 3)]
    assert shop["a"].register == [2] and shop["a/b"].register == [1] and shop["s"].values == ["x"]


def test_what_is_empty_leaves_nothing(shop: Replica) -> None:
    before = bytes(shop)
    empties: List[Dict[str, Any]] = [{}, {"a": {}}, {"a": {"b": []}, "c": set(), "d": ()}]
    for empty in empties:
        assert shop.update(empty) == []
    assert bytes(shop) == before
    assert shop.plain() == {} and shop["a"].plain() == {} and shop["a/b"].plain() == {}


def test_subclasses_are_what_they_are(shop: Replica) -> None:
    class Size(enum.IntEnum):
        SMALL = 1

    class Text(str):
        pass

    assert len(shop.update({"size": Size.SMALL, "texts": frozenset([Text("t")])})) == 2
    assert shop.plain() == {"size": 1, "texts": ["t"]}
    assert shop.update({"size": 1, "texts": ["t"]}) == []


DEEPEST = {"1": {"2": {"3": {"4": {"5": {"6": {"7": {"8": (1 << 63) - 1}}}}}}}}
LONGEST: Dict[str, Any] = {"k" * 64: "x" * 1024, "ü" * 32: "ü" * 512, **DEEPEST}


def test_the_longest_go_in(shop: Replica) -> None:
    assert len(shop.update(LONGEST)) == 3
    assert shop.plain() == LONGEST
    assert shop["1/2/3/4/5/6/7"].update({"8": 0, "\x7f\0\\\"": 1}) == [
        ("set", "1/2/3/4/5/6/7/8", 0), ("set", "1/2/3/4/5/6/7/\x7f\0\\\"", 1)
    ]


# What is put in at m, the error, and the path that it names.
REFUSED: List[Tuple[Any, Type[Exception], str]] = [
    ({"f": 1.5}, TypeError, "m/f"),
    ({"f": float("nan")}, TypeError, "m/f"),
    ({"a": {"f": b"x"}}, TypeError, "m/a/f"),
    ({"s": [1, [2]]}, TypeError, "m/s"),
    ({"s": [{"x": 1}]}, TypeError, "m/s"),
    ({"s": (1.0,)}, TypeError, "m/s"),
    ({"o": object()}, TypeError, "m/o"),
    ({"g": iter([1])}, TypeError, "m/g"),
    ({1: 2}, TypeError, "m/1"),
    ({None: 2}, TypeError, "m/None"),
    ({"": 1}, BadKey, "m/"),
    ({"": {}}, BadKey, "m/"),
    ({"a": {"b/c": 1}}, BadKey, "m/a/b/c"),
    ({"/": []}, BadKey, "m//"),
    ({"k" * 65: 1}, BadKey, "m/" + "k" * 65),
    ({"ü" * 33: 1}, BadKey, "m/" + "ü" * 33),
    ({"2": {"3": {"4": {"5": {"6": {"7": {"8": {"9": 1}}}}}}}}, BadPath, "m/2/3/4/5/6/7/8/9"),
    ({"i": 1 << 63}, BadScalar, "m/i"),
    ({"i": [-(1 << 63) - 1]}, BadScalar, "m/i"),
    ({"i": 10**5000}, BadScalar, "m/i"),
    ({"t": "x" * 1025}, BadScalar, "m/t"),
    ({"t": {"ü" * 513}}, BadScalar, "m/t"),
    ({"t": "\ud800"}, NotUtf8, "m/t"),
    ({"\ud800": 1}, NotUtf8, "m/\ud800"),
]


@pytest.mark.parametrize("mapping, kind, path", REFUSED)
def test_what_no_document_holds_changes_nothing(shop: Replica, mapping: Any, kind: Type[Exception], path: str) -> None:
    shop["m/a"].set(1)
    before = bytes(shop)
    for at, given in ("m", {"before": 1, **mapping, "behind": 2}), ("", {"before": 1, "m": mapping, "behind": 2}):
        with pytest.raises(kind) as caught:
            shop[at].update(given)
        assert str(caught.value).startswith(f"{path!r}: ")
        assert not isinstance(caught.value, RdsError) or caught.value.given == path
    assert bytes(shop) == before


def test_words_of_refusals(shop: Replica) -> None:
    with pytest.raises(TypeError, match="^'a/b': a value is None, a bool, an int or a str, and not float$"):
        shop.update({"a": {"b": 0.5}})
    with pytest.raises(BadKey, match="^'a/b/c': BadKey: 'b/c' is no key$"):
        shop.update({"a": {"b/c": 1}})
    with pytest.raises(TypeError, match="^what is put in is a mapping, and not list$"):
        shop.update([("a", 1)])  # type: ignore[arg-type]


def test_a_place_that_is_none(shop: Replica) -> None:
    refused: List[Tuple[str, Type[RdsError]]] = [("a//b", BadKey), ("/".join("abcdefghi"), BadPath)]
    for path, kind in refused:
        with pytest.raises(kind):
            shop[path].plain()
        with pytest.raises(kind):
            shop[path].update({})


def test_a_file_of_settings(shop: Replica) -> None:
    text = '{"b": [2, 1], "a": {"x": "é", "y": -1}}'
    shop.update(json.loads(text))
    assert json.dumps(shop.plain(), ensure_ascii=False) == '{"a": {"x": "é", "y": -1}, "b": [1, 2]}'
