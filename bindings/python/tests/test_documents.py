"""What edits do, and what documents show."""
from typing import List, Type

import pytest

from rds import BadKey, BadLine, BadPath, BadScalar, Edit, Edited, NotUtf8, RdsError, Replica, Scalar


def test_registers(shop: Replica) -> None:
    price = shop["apples/price"]
    assert price.register == []
    assert price.set(3) == Edited(dot=1, killed=0)
    assert price.set("dear") == Edited(dot=2, killed=1)
    assert price.register == ["dear"]
    assert price.values == [] and price.counter is None


def test_sets(shop: Replica) -> None:
    tags = shop["apples"]["tags"]
    assert tags.add("red") == Edited(1, 0)
    assert tags.add("green") == Edited(2, 0)
    assert tags.values == ["green", "red"]
    assert tags.add("red") == Edited(3, 1)
    assert tags.delete("red") == Edited(None, 1)
    assert tags.delete("blue") == Edited(None, 0)
    assert tags.values == ["green"]


def test_counters(shop: Replica) -> None:
    apples = shop["apples"]
    assert apples.counter is None
    assert apples.increase(10) == Edited(None, 0)
    assert apples.decrease(13) == Edited(None, 0)
    assert apples.increase() == Edited(None, 0)
    assert apples.counter == -2
    with pytest.raises(ValueError):
        apples.increase(-1)
    assert apples.counter == -2


VALUES = [None, False, True, 0, -1, (1 << 63) - 1, -(1 << 63), "", "ü", "\n\"\\\0", "x" * 1024]


@pytest.mark.parametrize("value", VALUES)
def test_values_come_back(shop: Replica, value: Scalar) -> None:
    shop["r"].set(value)
    shop["s"].add(value)
    assert shop["r"].register == [value] and shop["s"].values == [value]
    assert type(shop["r"].register[0]) is type(value)
    assert shop["s"].delete(value) == Edited(None, 1)


def test_values_are_in_order(shop: Replica) -> None:
    values: List[Scalar] = ["b", 2, True, None, "a", -1, False]
    for value in values:
        shop["s"].add(value)
    assert shop["s"].values == [None, False, True, -1, 2, "a", "b"]


def test_clear_leaves_counters(shop: Replica) -> None:
    shop["a/b"].set(1)
    shop["a/c/d"].add(2)
    shop["a"].increase(3)
    assert shop["a"].clear() == Edited(None, 2)
    assert shop.show() == {"counters": {"a": 3}, "maps": {}, "regs": {}, "sets": {}}


def test_keys(shop: Replica) -> None:
    shop["b/x"].set(1)
    shop["b"].set(1)
    shop["a"].add(1)
    shop["c"].increase(1)
    assert list(shop) == ["a", "b", "c"]
    assert list(shop["b"]) == ["x"]
    assert "a" in shop and "d" not in shop


def test_show(shop: Replica) -> None:
    shop["apples/tags"].add("red")
    shop["apples"].increase(10)
    below = {"maps": {}, "regs": {}, "sets": {"tags": ["red"]}}
    assert shop["apples"].show() == below
    assert shop.show() == {"counters": {"apples": 10}, "maps": {"apples": below}, "regs": {}, "sets": {}}


def test_status(shop: Replica) -> None:
    shop["a"].set(1)
    shop["a"].set(2)
    shop["n"].increase(3)
    status = shop.status()
    assert (status.group, status.own, status.names) == ("inventory", "shop", ["shop", "store"])
    assert (status.live, status.dead, status.counters) == (1, 1, 1)
    # Those of the snapshot, without the record of its checksum.
    assert status.bytes == len(bytes(shop)) - 69


def test_many_edits_in_one_call(shop: Replica) -> None:
    edits: List[Edit] = [("set", "k", 1), ("add", "a//b", 2), ("add", "s", "ü\n"), ("inc", "n", 3), ("dec", "n", 5)]
    done = shop.edit([*edits, ("set", "k", 4), ("clear", "s"), ("dance", "k")])
    refused = [it for it in done if isinstance(it, RdsError)]
    assert [type(it) for it in refused] == [BadKey, BadLine]
    assert [it.given for it in refused] == ["a//b", "k"]
    counted = Edited(None, 0)
    assert done[0] == Edited(1, 0)
    assert done[2:7] == [Edited(2, 0), counted, counted, Edited(3, 1), Edited(None, 1)]
    assert shop["k"].register == [4] and shop["n"].counter == -2 and shop["s"].values == []
    assert shop.edit([]) == []


def test_a_dump_makes_the_document(shop: Replica) -> None:
    shop["k"].set(4)
    shop["m/s"].add("ü")
    shop["n"].decrease(7)
    assert shop.dump() == [("set", "k", 4), ("add", "m/s", "ü"), ("dec", "n", 7)]
    with Replica.new("other", ["a"], "a") as other:
        assert not any(isinstance(it, RdsError) for it in other.edit(shop.dump()))
        assert other.show() == shop.show()


def test_long_texts_are_given_whole(shop: Replica) -> None:
    shop.edit(("add", "many", number) for number in range(5000))
    assert shop["many"].values == list(range(5000))
    with Replica.from_bytes(bytes(shop)) as again:
        assert again["many"].values == list(range(5000))


BAD_KEYS = ["a//b", "/a", "a/", "k" * 65]
BAD_PATHS = ["", "/".join("abcdefghi")]
REFUSED = [*((path, BadKey) for path in BAD_KEYS), *((path, BadPath) for path in BAD_PATHS), ("\ud800", NotUtf8)]


@pytest.mark.parametrize("path, kind", REFUSED)
def test_paths_that_are_none(shop: Replica, path: str, kind: Type[RdsError]) -> None:
    before = bytes(shop)
    for edit in (shop[path].set, shop[path].add, shop[path].delete):
        with pytest.raises(kind) as caught:
            edit(1)
        assert caught.value.given == path
    assert bytes(shop) == before


@pytest.mark.parametrize("value", [1 << 63, -(1 << 63) - 1, "x" * 1025, "ü" * 513])
def test_values_that_are_none(shop: Replica, value: Scalar) -> None:
    with pytest.raises(BadScalar) as caught:
        shop["k"].set(value)
    assert caught.value.given == "k"
    assert shop["k"].register == []


def test_types_that_are_none(shop: Replica) -> None:
    for value in (1.5, b"x", [1]):
        with pytest.raises(TypeError):
            shop["k"].set(value)  # type: ignore[arg-type]


def test_a_refusal_says_what_was_given(shop: Replica) -> None:
    with pytest.raises(BadKey, match="'a//b': BadKey: the text is no key") as caught:
        shop["a//b"].set(1)
    assert (caught.value.number, caught.value.given, caught.value.words) == (3, "a//b", "BadKey: the text is no key")
