"""Commands that name a node in place of a file: they answer what the same command answers of a file."""
import json
import os
import subprocess

from node_fakes import Fake, by_target, response, says
from node_visits import at, nodes_of
from plain_files import SUM, change_text, file_text, read_file, record
from plain_model import State, begun
from serving import LIMIT, TOKEN, running, want

# Each is done on a file that nobody holds and at a node whose file is the same: words behind the program, with the
# place of the file between them, and the input.
SAME = [
    (["set"], ["apples/price", "3"], b""),
    (["set"], ["apples/price", "--text", 'say "so" / 100%'], b""),
    (["set"], ["a b/\u00fc?#[%2F]", "true"], b""),
    (["add"], ["apples/tags", '"red"'], b""),
    (["add"], ["apples/tags", "null"], b""),
    (["del"], ["apples/tags", "null"], b""),
    (["inc"], ["apples", "18446744073709551615"], b""),
    (["inc"], ["apples", "10"], b""),
    (["dec"], ["apples", "3"], b""),
    (["get"], ["apples/price"], b""),
    (["get"], ["a b/\u00fc?#[%2F]"], b""),
    (["get"], ["apples"], b""),
    (["get"], ["nothing/here"], b""),
    (["get"], ["x//y"], b""),
    (["get"], ["apples/price", "--raw"], b""),
    (["get"], ["apples/tags", "--raw"], b""),
    (["get"], ["apples", "--raw", "--counter"], b""),
    (["get"], ["apples", "--raw", "--set"], b""),
    (["get"], ["nothing/here", "--raw"], b""),
    (["get"], ["x//y", "--raw"], b""),
    (["set"], ["apples/tags", "1"], b""),
    (["get"], ["apples/tags", "--raw"], b""),
    (["get"], ["apples/tags", "--raw", "--reg"], b""),
    (["show"], ["--pretty"], b""),
    (["show"], ["apples", "--pretty"], b""),
    (["show"], ["x//y", "--pretty"], b""),
    (["show"], [], b""),
    (["show"], ["apples"], b""),
    (["show"], ["a b"], b""),
    (["conflicts"], [], b""),
    (["conflicts"], ["apples"], b""),
    (["edit"], [], b'["set","x/1",1]\n\n["inc","n",2]\n["add","x/s","t"]'),
    (["edit"], [], b'["set","x/1",1.5]\n["set","x/2",2]\n[1]\nnone\n'),
    (["edit"], [], b""),
    (["set"], ["x//y", "1"], b""),
    (["set"], ["x", "1.5"], b""),
    (["set"], ["x", "hello"], b""),
    (["set"], ["1/2/3/4/5/6/7/8/9", "1"], b""),
    (["inc"], ["x", "-1"], b""),
    (["inc"], ["x/y", "1"], b""),
    (["clear"], ["apples"], b""),
    (["show"], [], b""),
    (["clear"], [""], b""),
    (["show"], [], b""),
    (["clear", "--all"], [], b""),
    (["show"], [], b""),
]

# Names that a file and a node of the group a, b, c are given: where one is refused, none is put in.
GROWTHS = [["d"], ["e", "f"], ["d"], ["a"], ["d", "g"], ["C"], ["C", "g"], [""], ["g" * 17], ["g" * 16], []]
# New files and their replicas, which are made of a file and of a node.
NEW = [
    ("d.rds", "d"), ("d.rds", "d"), ("d.rds", "e"), ("e.rds", "e"), ("x.rds", "a"), ("x.rds", "b"), ("x.rds", "van"),
    ("x.rds", "C"), ("x.rds", ""), ("d.rds", "C"), ("d.rds", "van"), ("x.new", "f"), ("none/x.rds", "f"), (".", "f"),
]


def command(node, words, place, rest, data=b"", token=None):
    """What a command comes to: the status, what it writes, and standard error."""
    words = [node.program, *words, place, *rest]
    known = {name: value for name, value in os.environ.items() if name != "RDS_TOKEN_FILE"}
    known |= {"RDS_TOKEN_FILE": token} if token else {}
    ran = subprocess.run(words, cwd=node.folder, input=data, env=known, capture_output=True, timeout=LIMIT * node.slow)
    return ran.returncode, ran.stdout, ran.stderr.decode()


def comes_to(node, words, place, rest, status, written, *notes, token=None):
    found = command(node, words, place, rest, token=token)
    is_due = found[:2] == (status, written) and all(note in found[2] for note in notes)
    want(is_due, f"{words} {place} {rest} comes to {found}, where {status}, {written} and {notes} are due")


def try_same(asked, folder):
    """A node answers what a file does, and does the same."""
    node, file = nodes_of(asked, folder, ["a", "a2"])
    with running(node):
        for words, rest, data in SAME:
            here = command(file, words, "a.rds", rest, data)
            there = command(node, words, at(node.port), rest, data)
            want(there[:2] == here[:2], f"{words} {rest} of a node comes to {there}, and of a file to {here}")
        want(node.document() == file.shown(), "a node and a file differ after the same commands")
        status = command(node, ["status"], at(node.port), [])
        want(status[0] == 0 and status[1].startswith(b'{"group":"'), f"status of a node is {status}")
        for place in f"http://localhost:{node.port}", f"{at(node.port)}/":
            here = command(file, ["set"], "a.rds", ["y", "1"])
            there = command(node, ["set"], place, ["y", "1"])
            want(there[:2] == here[:2], f"'set {place} y 1' comes to {there}, and of a file to {here}")
    return f"{len(SAME)} commands come to the same as of a file"


def try_letters(asked, folder):
    """What a node asks, answers and takes goes by files, as between two replicas that nobody serves."""
    node, other = nodes_of(asked, folder, "ab")
    node.told("set", "a.rds", "x", "1")
    other.told("set", "a.rds", "y", "2")
    with running(node):
        place = at(node.port)
        (other.folder / "copy.rds").write_bytes((node.folder / "a.rds").read_bytes())
        for asks, answers in ((other, "a.rds"), (node, place)), ((node, place), (other, "a.rds")):
            question = command(asks[0], ["ask"], asks[1], [])
            want(question[0] == 0 and question[1], f"'ask {asks[1]}' comes to {question}")
            answer = command(answers[0], ["answer"], answers[1], [], question[1])
            want(answer[0] == 0 and answer[1], f"'answer {answers[1]}' comes to {answer}")
            for name, bytes_of in ("question", question[1]), ("answer", answer[1]):
                (asks[0].folder / name).write_bytes(bytes_of)
            comes_to(asks[0], ["take"], asks[1], ["question", "answer"], 0, b'{"taken":1}\n')
        want(node.document() == other.shown(), "a node and a file differ after each took the other's answer")
        # What is refused is so by the fault that a file has for it; 'copy.rds' is the node's file as it was.
        for name in "question", "answer":
            (other.folder / name).write_bytes((node.folder / name).read_bytes())
        for data in b"", b"RDSQ", question[1] + b"x", answer[1]:
            here, there = command(other, ["answer"], "copy.rds", [], data), command(node, ["answer"], place, [], data)
            want(there[:2] == here[:2], f"'answer' of {data} of a node comes to {there}, and of a file to {here}")
        for rest in ["answer", "question"], ["question", "question"], ["question", "none"]:
            here, there = command(other, ["take"], "copy.rds", rest), command(node, ["take"], place, rest)
            want(there[:2] == here[:2], f"'take' of {rest} of a node comes to {there}, and of a file to {here}")
    return "questions and answers go by files"


def try_joins(asked, folder):
    """Names are put into the group of a node, and files of new replicas are made of it, as of a file."""
    node, file, other = nodes_of(asked, folder, ["a", "a2", "b"])
    other.told("set", "a.rds", "z", "2")
    for each in node, file:
        each.told("edit", "a.rds", given=b'["set","x/y",1]\n["set","x/y",2]\n["inc","n",10]\n')
        (each.folder / "b.rds").write_bytes((other.folder / "a.rds").read_bytes())
        each.told("merge", "a.rds", "b.rds")
    with running(node):
        place = at(node.port)
        for names in GROWTHS:
            here, there = command(file, ["grow"], "a.rds", names), command(node, ["grow"], place, names)
            want(there[:2] == here[:2], f"'grow {names}' at a node comes to {there}, and of a file to {here}")
        comes_to(node, ["grow"], place, ["north", "d", "south"], 1, b"fault 6: BadRoster\n", "north")
        file.told("grow", "a.rds", "north")
        names, due = node.status()["names"], json.loads(file.told("status", "a.rds"))["names"]
        want(names == due == [*"abcdef", "g" * 16, "north"], f"a node's names are {names}, and a file's {due}")
        held = read_file((file.folder / "a.rds").read_bytes()).replica
        for new, own in NEW:
            here = command(file, ["init", new, "--from"], "a.rds", [own])
            there = command(node, ["init", new, "--from"], place, [own])
            want(there[:2] == here[:2], f"'init {new} --from' a node {own} comes to {there}, and of a file to {here}")
            is_due = here[0] or (node.folder / new).read_bytes() == file_text(begun(held, own))
            want(is_due, f"'init {new} --from' a node {own} makes another file than is due")
        made = {each.name for each in node.folder.iterdir()} - {each.name for each in file.folder.iterdir()}
        want(made <= {"a.rds.node", "errors"}, f"a node's growth and its new replicas leave {made}")
        hint = f"'van' is no name of the group: 'grow {place} van' adds it\n"
        comes_to(node, ["init", "x.rds", "--from"], place, ["van"], 1, b"fault 26: NoSuch\n", hint)
        node.told("set", "d.rds", "from/d", "3")
        comes_to(node, ["sync"], "d.rds", [place], 0, b'{"taken":0}\n')
        comes_to(node, ["get"], place, ["from/d", "--raw"], 0, b"3\n")
        comes_to(node, ["init", "x.rds", "--from"], place, ["d"], 1, b"fault 21: SameReplica\n")
    return "names are put in, and new replicas made, as of a file"


def try_conflicts(asked, folder):
    """Conflicts are listed with status 3."""
    node, other = nodes_of(asked, folder, "ab")
    node.told("set", "a.rds", "m/x", "1")
    other.told("set", "a.rds", "m/x", "2")
    (node.folder / "b.rds").write_bytes((other.folder / "a.rds").read_bytes())
    node.told("pair", "a.rds", "b.rds")
    with running(node):
        comes_to(node, ["conflicts"], at(node.port), [], 3, b'{"path":"m/x","values":[1,2]}\n')
        comes_to(node, ["conflicts"], at(node.port), ["m"], 3, b'{"path":"m/x","values":[1,2]}\n')
        comes_to(node, ["conflicts"], at(node.port), ["n"], 0, b"")
        comes_to(node, ["get"], at(node.port), ["m/x", "--raw"], 0, b"1\n2\n")
    return "conflicts are listed"


# What a new replica is made by.
JOINS = (["grow"], ["d"]), (["init", "c.rds", "--from"], ["c"])


def try_tokens(asked, folder):
    """A node that asks for a token."""
    node, _ = nodes_of(asked, folder, "ab", TOKEN)
    (node.folder / "wrong").write_text(TOKEN[::-1])
    (node.folder / "short").write_text("x")
    with running(node):
        place = at(node.port)
        for words, rest in (["get"], ["x"]), (["set"], ["x", "1"]), *JOINS:
            comes_to(node, words, place, rest, 1, b"fault 23: PeerEnded\n", "refused: 401: the token is due: none or a wrong one was given\n")
            comes_to(node, words, place, rest, 1, b"fault 23: PeerEnded\n", "refused: 401", token="wrong")
            comes_to(node, words, place, rest, 2, b"fault 27: Usage\n", "short holds no token", token="short")
            comes_to(node, words, place, rest, 1, b"fault 24: Device\n", "cannot read none", token="none")
        comes_to(node, ["set"], place, ["x", "1"], 0, b'{"dot":["a",1],"killed":0}\n', token="token")
        comes_to(node, ["get"], place, ["x"], 0, b'{"counter":null,"reg":[1],"set":[]}\n', token="token")
        for words, rest in JOINS:
            comes_to(node, words, place, rest, 0, b'{"ok":true}\n', token="token")
    return "a node's token is due"


def try_none(asked, folder):
    """What is no node, and a node that isn't there."""
    node, _ = nodes_of(asked, folder, "ab")
    for place in "", "/", "h", "h:", "h:0", "h:1/x", "u@h:1":
        for words, rest in (["get"], ["x"]), *JOINS:
            comes_to(node, words, f"http://{place}", rest, 2, b"fault 27: Usage\n", "is no host and port")
    for words, rest in (["set"], ["x", "1"]), *JOINS:
        comes_to(node, words, at(node.port), rest, 1, b"fault 24: Device\n", "Connection refused")
    known = response(b'{"fault":16,"name":"TooManyDots"}', status=b"400 Bad Request")
    ahead = response(b'{"fault":10,"name":"OwnAhead"}', status=b"409 Conflict")
    wordless = response(b"no", status=b"503 Service Unavailable")
    worded = response(b'{"status":500,"text":"no (1)"}', status=b"500 Internal Server Error")
    hostile = response(b'{"status":500,"text":"\x1b[2J"}', status=b"500 Internal Server Error")
    page = response(b"<!doctype html><title>ok</title>\n", kind=b"text/html")
    for answer, due, note in (
        (known, b"fault 16: TooManyDots\n", "refused: 400: 16 TooManyDots"),
        (ahead, b"fault 23: PeerEnded\n", "refused: 409: 10 OwnAhead"),
        (wordless, b"fault 23: PeerEnded\n", "refused: 503\n"),
        (worded, b"fault 23: PeerEnded\n", "refused: 500: no (1)\n"),
        (hostile, b"fault 23: PeerEnded\n", "refused: 500\n"),
        (b"no HTTP\r\n\r\n", b"fault 22: OutOfTurn\n", "is no HTTP/1.1"),
        (page, b"fault 22: OutOfTurn\n", "is no node: its response has another type"),
    ):
        with Fake(says(answer)) as fake:
            for words, rest in (["set"], ["x", "1"]), *JOINS:
                comes_to(node, words, at(fake.port), rest, 1, due, note)
    return "what is no node is refused"


def try_wrong_snapshots(asked, folder):
    """What gives no snapshot, of which no file is made, and what gives one: its bytes are read as those of a file."""
    node, _ = nodes_of(asked, folder, "ab")
    text = (node.folder / "a.rds").read_bytes()
    more, snapshot, flipped = record(change_text(0, State())), text[:-SUM], text.replace(b"a", b"d", 1)
    for body in b"", b"RDS2", b'{"ok":true}\n', snapshot[:-1], flipped, flipped + more, text + more[:-1] + b"x" + more:
        with Fake(says(response(body))) as fake:
            found = command(node, ["init", "c.rds", "--from"], at(fake.port), ["c"])
        is_due = found[0] == 1 and found[1].startswith(b"fault ") and found[2]
        want(is_due, f"'init --from' of what gives {body} comes to {found}")
        want(not (node.folder / "c.rds").exists(), f"a file is made of {body}")
    due = file_text(begun(read_file(text).replica, "c"))
    for number, body in enumerate([text, text + b"x", text + more, text[:-1], snapshot, snapshot + more]):
        with Fake(by_target(snapshot=response(body))) as fake:
            comes_to(node, ["init", f"c{number}.rds", "--from"], at(fake.port), ["c"], 0, b'{"ok":true}\n')
        want((node.folder / f"c{number}.rds").read_bytes() == due, f"of {body} another file is made than is due")
    return "what is no snapshot is refused"


PARTS = [try_same, try_letters, try_joins, try_conflicts, try_tokens, try_none, try_wrong_snapshots]


def try_commands(asked, folder):
    return "; ".join([part(asked, folder / part.__name__) for part in PARTS])
