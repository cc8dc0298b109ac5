"""Replicas in files, and who may have them."""
import fcntl
import hashlib
import os
import stat
import subprocess
import sys
from pathlib import Path
from typing import List

import pytest

from rds import Beside, BadText, Busy, Closed, Exists, Linked, RdsError, Replaced, Replica, TooLong, Unsure
from rds._faults import fault

NAMES = ["shop", "store"]


@pytest.fixture
def file(tmp_path: Path) -> Path:
    path = tmp_path / "shop.rds"
    with Replica.new("inventory", NAMES, "shop", path) as shop:
        shop["a"].set("ü")
        shop.keep()
    return path


def names_in(folder: Path) -> List[str]:
    return sorted(it.name for it in folder.iterdir())


def sha256(text: bytes) -> bytes:
    return hashlib.sha256(text).digest()


def held_by(file: Path) -> bytes:
    """A new file of the replica that a file holds."""
    with Replica.from_bytes(file.read_bytes()) as held:
        return bytes(held)


def change_much(replica: Replica) -> None:
    """Sets so much that no record has it: the file is written anew."""
    for number in range(100):
        replica[f"much/{number}"].set("x" * 1000)


def test_a_file_is_kept(file: Path) -> None:
    with Replica.open(file) as shop:
        assert shop["a"].register == ["ü"]
        assert held_by(file) == bytes(shop)
        shop["b"].set(1)
        assert list(Replica.from_bytes(file.read_bytes())) == ["a"]
        shop.keep()
        assert list(Replica.from_bytes(file.read_bytes())) == ["a", "b"]
        shop["c"].set(1)
    with Replica.open(str(file)) as shop:
        assert list(shop) == ["a", "b"]
    assert names_in(file.parent) == ["shop.rds"]


def test_what_changed_is_appended(file: Path) -> None:
    with Replica.open(file) as shop:
        for number in range(50):
            before = file.read_bytes()
            shop["b"].set(number)
            shop.keep()
            after = file.read_bytes()
            # As the first record of the example in docs/FORMATS.md, and 16 bytes for the gap before its dot.
            assert after.startswith(before) and len(after) == len(before) + 90 + 16
            assert held_by(file) == bytes(shop)
        change_much(shop)
        shop.keep()
        assert file.read_bytes() == bytes(shop)
        shop["b"].clear()
        shop["n"].increase(3)
        shop.grow("depot")
        shop.keep()
        assert file.read_bytes() != bytes(shop)
    with Replica.open(file) as again:
        assert (again["b"].register, again["n"].counter, again.status().names[-1]) == ([], 3, "depot")


def test_an_end_that_was_torn(file: Path) -> None:
    with Replica.open(file) as shop:
        whole = file.read_bytes()
        shop["b"].set(1)
        shop.keep()
        longer = file.read_bytes()
    for length in range(len(whole), len(longer)):
        file.write_bytes(longer[:length])
        with Replica.open(file) as shop:
            assert shop["b"].register == []
            assert file.read_bytes() == longer[:length]
            shop["b"].set(1)
            shop.keep()
            assert file.read_bytes() == longer
    damaged = bytearray(longer + longer[len(whole) :])
    damaged[len(longer) - 1] ^= 1
    file.write_bytes(damaged)
    with pytest.raises(BadText):
        Replica.open(file)
    assert file.read_bytes() == damaged


def test_a_changed_byte_of_the_snapshot(file: Path) -> None:
    """A file begins with its snapshot and the record of its checksum, by which changed bytes are told."""
    with Replica.open(file) as shop:
        text = bytes(shop)
    file.write_bytes(text)
    front = len(text) - 69
    assert text[front:] == (33).to_bytes(4, "big") + sha256(b"\3" + sha256(text[:front])) + b"\3" + sha256(text[:front])
    with Replica.open(file) as shop:
        shop["b"].set(1)
        shop.keep()
    longer = file.read_bytes()
    for at in range(len(text)):
        for whole in (text, longer):
            changed = bytearray(whole)
            changed[at] ^= 1
            file.write_bytes(changed)
            if at >= front and whole is text:
                # The record of the checksum is none any more: it is a torn end.
                with Replica.open(file) as shop:
                    assert list(shop) == ["a"]
                continue
            with pytest.raises(BadText):
                Replica.open(file)
            assert file.read_bytes() == changed
    # An older program writes a snapshot alone.
    file.write_bytes(text[:front] + longer[len(text) :])
    with Replica.open(file) as shop:
        assert list(shop) == ["a", "b"]


def test_what_goes_to_others_is_kept_first(file: Path) -> None:
    with Replica.open(file) as shop, Replica.new("inventory", NAMES, "store") as store:
        shop["b"].set(1)
        store.pull(shop)
        with Replica.from_bytes(file.read_bytes()) as kept:
            assert kept["b"].register == [1]
        store["c"].set(2)
        assert shop.pull(store) == 1
        shop.ask()
        with Replica.from_bytes(file.read_bytes()) as kept:
            assert kept["c"].register == [2]


def test_one_at_a_time(file: Path) -> None:
    with Replica.open(file) as shop:
        with pytest.raises(Busy) as caught:
            Replica.open(file)
        assert caught.value.given == str(file)
        shop["b"].set(1)
        shop.keep()
        with pytest.raises(Busy):
            Replica.open(file)
        code = "import sys, rds\ntry: rds.Replica.open(sys.argv[1])\nexcept rds.Busy: print('busy')"
        ran = subprocess.run([sys.executable, "-c", code, str(file)], capture_output=True, text=True)
        assert ran.stdout == "busy\n"
    Replica.open(file).close()


def test_the_lock_is_that_of_the_program(file: Path) -> None:
    with open(file) as other:
        fcntl.flock(other, fcntl.LOCK_EX)
        with pytest.raises(Busy):
            Replica.open(file)
    with Replica.open(file) as shop:
        for _ in range(2):
            with open(file) as other, pytest.raises(BlockingIOError):
                fcntl.flock(other, fcntl.LOCK_EX | fcntl.LOCK_NB)
            shop["b"].set(1)
            shop.keep()


def test_one_who_waited_for_the_old_file(file: Path) -> None:
    with open(file) as old:
        with Replica.open(file) as shop:
            change_much(shop)
            shop.keep()
            # The old file is free, but it is no longer the one of that name.
            fcntl.flock(old, fcntl.LOCK_EX | fcntl.LOCK_NB)
            assert os.fstat(old.fileno()).st_nlink == 0
            with pytest.raises(Busy):
                Replica.open(file)


def test_the_mode_stays(file: Path) -> None:
    file.chmod(0o640)
    with Replica.open(file) as shop:
        shop["b"].set(1)
        shop.keep()
    assert stat.S_IMODE(file.stat().st_mode) == 0o640


def test_a_mode_that_lets_nobody_write(file: Path) -> None:
    file.chmod(0o444)
    with pytest.raises(PermissionError) as caught:
        Replica.open(file)
    assert caught.value.filename == str(file)


def test_a_link_is_followed(file: Path, tmp_path: Path) -> None:
    (tmp_path / "far").mkdir()
    link = tmp_path / "far" / "link"
    link.symlink_to("../shop.rds")
    with Replica.open(link) as shop:
        shop["b"].set(1)
        shop.keep()
        with pytest.raises(Busy):
            Replica.open(file)
    assert link.is_symlink() and names_in(link.parent) == ["link"]
    with Replica.open(file) as shop:
        assert shop["b"].register == [1]
    link.unlink()
    link.symlink_to("nowhere")
    with pytest.raises(FileNotFoundError):
        Replica.open(link)
    with pytest.raises(Exists):
        Replica.new("inventory", NAMES, "shop", link)


def test_several_names(file: Path, tmp_path: Path) -> None:
    os.link(file, tmp_path / "other")
    for name in (file, tmp_path / "other"):
        with pytest.raises(Linked):
            Replica.open(name)
    (tmp_path / "other").unlink()
    with Replica.open(file) as shop:
        os.link(file, tmp_path / "other")
        shop["b"].set(1)
        with pytest.raises(Linked):
            shop.keep()
        (tmp_path / "other").unlink()
        shop.keep()


def test_a_file_that_was_replaced(file: Path, tmp_path: Path) -> None:
    with Replica.open(file) as shop:
        shop["b"].set(1)
        file.rename(tmp_path / "away")
        with pytest.raises(Replaced):
            shop.keep()
        file.write_bytes(b"another")
        with pytest.raises(Replaced):
            shop.keep()
        assert file.read_bytes() == b"another"
        (tmp_path / "away").replace(file)
        shop.keep()
    with Replica.open(file) as shop:
        assert shop["b"].register == [1]


def test_another_working_folder(file: Path, tmp_path: Path, monkeypatch: pytest.MonkeyPatch) -> None:
    monkeypatch.chdir(tmp_path)
    with Replica.open("shop.rds") as shop:
        monkeypatch.chdir("/")
        shop["b"].set(1)
        shop.keep()
    with Replica.open(file) as shop:
        assert shop["b"].register == [1]


def test_files_that_are_none(tmp_path: Path) -> None:
    with pytest.raises(FileNotFoundError):
        Replica.open(tmp_path / "none")
    with pytest.raises(FileNotFoundError):
        Replica.open("")
    with pytest.raises(IsADirectoryError):
        Replica.open(tmp_path)
    with pytest.raises(OSError):
        Replica.open("/dev/null")
    os.mkfifo(tmp_path / "pipe")
    with pytest.raises(OSError):
        Replica.open(tmp_path / "pipe")
    for text in (b"", b"RDS", b"nonsense"):
        (tmp_path / "text").write_bytes(text)
        with pytest.raises(BadText) as caught:
            Replica.open(tmp_path / "text")
        assert caught.value.given == str(tmp_path / "text")
    with open(tmp_path / "long", "wb") as it:
        it.truncate(268_435_456 + 69 + 1)
    with pytest.raises(TooLong):
        Replica.open(tmp_path / "long")


def test_names_of_files_beside(file: Path, tmp_path: Path) -> None:
    with pytest.raises(Beside):
        Replica.new("inventory", NAMES, "shop", tmp_path / "a.new")
    with pytest.raises(Beside):
        Replica.open(tmp_path / "a.new")
    left = tmp_path / "shop.rds.new"
    left.write_bytes(b"left behind")
    left.chmod(0o400)
    with Replica.open(file) as shop:
        shop["b"].set(1)
        shop.keep()
        assert names_in(tmp_path) == ["shop.rds", "shop.rds.new"]
        change_much(shop)
        shop.keep()
    assert names_in(tmp_path) == ["shop.rds"]
    left.mkdir()
    with Replica.open(file) as shop:
        shop["c"].set(1)
        change_much(shop)
        with pytest.raises(OSError):
            shop.keep()
        left.rmdir()
        shop.keep()
    with Replica.open(file) as shop:
        assert list(shop) == ["a", "b", "c", "much"]


def test_a_new_file_replaces_nothing(file: Path) -> None:
    before = file.read_bytes()
    with pytest.raises(Exists) as caught:
        Replica.new("inventory", NAMES, "shop", file)
    assert caught.value.given == str(file)
    assert file.read_bytes() == before


def test_a_replica_without_a_file(shop: Replica) -> None:
    with pytest.raises(Closed):
        shop.keep()


def test_an_end_at_any_time_leaves_a_whole_file(file: Path) -> None:
    code = "import sys, rds\nr = rds.Replica.open(sys.argv[1])\n"
    code += "for n in range(10**6):\n  r['n'].set(n)\n  r.keep()\n  print(n, flush=True)"
    told = -1
    for _ in range(20):
        with subprocess.Popen([sys.executable, "-c", code, str(file)], stdout=subprocess.PIPE, text=True) as child:
            assert child.stdout is not None
            lines = [child.stdout.readline() for _ in range(3)]
            child.kill()
            lines += child.stdout.readlines()
        told = max(int(it) for it in lines if it.endswith("\n"))
        with Replica.open(file) as shop:
            (found,) = shop["n"].register
            assert isinstance(found, int) and found - told in (0, 1)


def test_what_may_not_last(file: Path) -> None:
    """The folder of a file can't be synced: what is kept is there, and the call says so."""
    source = Path(__file__).with_name("unsynced.c")
    library = file.with_name("unsynced.so")
    if subprocess.run(["cc", "-shared", "-fPIC", "-o", str(library), str(source), "-ldl"]).returncode:
        pytest.skip("there is no C compiler")
    code = "import sys, rds; shop = rds.Replica.open(sys.argv[1]); shop['b'].set(2); print('open', flush=True)\n"
    code += "for n in range(100): shop[f'much/{n}'].set('x' * 1000)\nshop.keep()"
    words = [sys.executable, "-c", code, str(file)]
    ran = subprocess.run(words, env={**os.environ, "LD_PRELOAD": str(library)}, capture_output=True, text=True)
    assert (ran.returncode, ran.stdout) == (1, "open\n")
    assert "Unsure: it is written, and may not last: read before you repeat" in ran.stderr
    with Replica.open(file) as shop:
        assert shop["b"].register == [2]


def test_statuses_have_their_names() -> None:
    assert type(fault(29)) is Unsure and fault(29).words.startswith("Unsure: ")
    assert type(fault(30)) is RdsError and fault(30).words.startswith("Unknown: ")
