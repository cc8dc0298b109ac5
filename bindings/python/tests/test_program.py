"""The library beside the program `rds_node`, where that was built: the same files, locks, questions and answers."""
import json
import subprocess
import time
from pathlib import Path

import pytest

from node_program import NODE
from rds import Busy, Replica

if not NODE.exists():
    pytest.skip("rds_node isn't built", allow_module_level=True)

NAMES = ["shop", "store"]


def node(*words: object, given: bytes = b"") -> bytes:
    """What the program writes."""
    ran = subprocess.run([str(NODE), *map(str, words)], input=given, capture_output=True)
    assert ran.returncode == 0, ran
    return ran.stdout


@pytest.fixture
def file(tmp_path: Path) -> Path:
    node("init", tmp_path / "store.rds", "inventory", "store", *NAMES)
    node("add", tmp_path / "store.rds", "apples/tags", '"red"')
    return tmp_path / "store.rds"


def test_files(file: Path) -> None:
    with Replica.open(file) as store:
        assert store["apples/tags"].values == ["red"]
        store["apples"].increase(10)
        store["b"].set("ü")
        store.keep()
        assert json.loads(node("show", file)) == store.show()
        assert json.loads(node("status", file))["bytes"] == store.status().bytes
    node("del", file, "apples/tags", '"red"')
    with Replica.open(file) as store:
        assert store["apples/tags"].values == [] and store["b"].register == ["ü"]


def test_questions_and_answers(file: Path, tmp_path: Path) -> None:
    with Replica.new("inventory", NAMES, "shop") as shop:
        question = shop.ask()
        assert shop.take(question, node("answer", file, given=question)) == 1
        assert shop["apples/tags"].values == ["red"]
        shop["a"].set(1)
        (tmp_path / "q").write_bytes(node("ask", file))
        (tmp_path / "r").write_bytes(shop.answer((tmp_path / "q").read_bytes()))
        assert json.loads(node("take", file, tmp_path / "q", tmp_path / "r")) == {"taken": 1}
        assert json.loads(node("show", file)) == shop.show()


def test_the_program_waits_for_the_lock(file: Path) -> None:
    with Replica.open(file) as store:
        store["a"].set(1)
        with subprocess.Popen([str(NODE), "set", str(file), "b", "2"], stdout=subprocess.PIPE) as waits:
            time.sleep(0.5)
            assert waits.poll() is None
            store.keep()
            time.sleep(0.5)
            assert waits.poll() is None
            store.close()
            assert waits.wait(20) == 0
    with Replica.open(file) as store:
        assert store["a"].register == [1] and store["b"].register == [2]


def test_a_refused_opener_keeps_no_lock(file: Path) -> None:
    with Replica.open(file):
        with pytest.raises(Busy):
            Replica.open(file)
    node("set", file, "a", 1)
