"""Requests to a node, one by one, and what each is due to be answered, by hand."""
import hashlib
import itertools
import json
import os
import re
import shutil
import signal
import socket
import struct
import subprocess
import time

from plain_files import appended, change_text, file_text, read_file
from plain_model import Replica, State, edited, grown, mark_of
from plain_texts import tag_of
from serving import HOST, LIMIT, NOBODY, TOKEN, UPGRADE, Node, Noted, killed, listener, running, soon, want

# A request, and below it the status, the kind of content and the body that are due. '|' ends a line of a body, and
# '..' is anything. A line with four spaces before it goes on where the last one ended.
REQUESTS = """
GET /doc
  200 json {"counters":{},"maps":{},"regs":{},"sets":{}}
POST /edits ["set","apples/price",3]|["add","apples/tags","red"]||["inc","apples",10]|
  200 x-ndjson {"dot":["a",1],"killed":0}|{"dot":["a",2],"killed":0}|{"dot":null,"killed":0}|
GET /doc
  200 json {"counters":{"apples":10},
    "maps":{"apples":{"maps":{},"regs":{"price":[3]},"sets":{"tags":["red"]}}},"regs":{},"sets":{}}
GET /doc/apples
  200 json {"maps":{},"regs":{"price":[3]},"sets":{"tags":["red"]}}
GET /here
  200 json {"counters":{"apples":10},"maps":{"apples":{"maps":{},"regs":{},"sets":{}}},"regs":{},"sets":{}}
GET /here/apples
  200 json {"maps":{},"regs":{"price":[3]},"sets":{"tags":["red"]}}
GET /value/apples
  200 json {"counter":10,"reg":[],"set":[]}
GET /value/apples/price?x=/y%
  200 json {"counter":null,"reg":[3],"set":[]}
GET /value/app%6ces%2Fprice
  200 json {"counter":null,"reg":[3],"set":[]}
GET /value
  400 json {"fault":4,"name":"BadPath","text":".."}
POST /edits ["set","a b/ü%20","é"]
  200 x-ndjson {"dot":["a",3],"killed":0}|
GET /value/a%20b/%C3%BC%2520
  200 json {"counter":null,"reg":["é"],"set":[]}
GET /doc/a//b
  400 json {"fault":3,"name":"BadKey","text":".."}
GET /doc/%FF
  400 json {"fault":3,"name":"BadKey","text":".."}
GET /doc/1/2/3/4/5/6/7/8/9
  400 json {"fault":4,"name":"BadPath","text":".."}
POST /edits ["set","",1]|oops|["del","apples/tags","red"]|
  200 x-ndjson {"fault":4,"name":"BadPath","line":1}|{"fault":25,"name":"BadLine","line":2}|{"dot":null,"killed":1}|
POST /edits ["set","",1]||oops|
  400 x-ndjson {"fault":4,"name":"BadPath","line":1}|{"fault":25,"name":"BadLine","line":3}|
POST /edits oops|["del","apples/tags","blue"]
  200 x-ndjson {"fault":25,"name":"BadLine","line":1}|{"dot":null,"killed":0}|
POST /edits
  200 x-ndjson
GET /conflicts
  200 x-ndjson
GET /status
  200 json {"group":"g","own":"a","names":["a","b"],"live":2,"dead":1,"counters":1,"components":4,..,
    "peers":{"named":0,"met":0,"forked":0,"each":[]},"callers":{"forked":0},"behind":false,"unwritable":false}
HEAD /doc
  200 json
HEAD /ask
  200 octet-stream
HEAD /snapshot
  200 octet-stream
HEAD /nothing
  404 json
GET /nothing
  404 json {"status":404,"text":"no such resource"}
GET /status/x
  404 json {"status":404,"text":"no such resource"}
POST /doc x
  405 json {"status":405,"text":".."}
GET /edits
  405 json {"status":405,"text":".."}
DELETE /live
  405 json {"status":405,"text":".."}
POST /ask x
  405 json {"status":405,"text":".."}
POST /snapshot x
  405 json {"status":405,"text":".."}
GET /snapshot/x
  404 json {"status":404,"text":"no such resource"}
GET /grow
  405 json {"status":405,"text":".."}
HEAD /grow
  405 json
POST /grow/c c
  404 json {"status":404,"text":"no such resource"}
POST /answer oops
  400 json {"fault":13,"name":"Bad","text":".."}
POST /take oops
  400 json {"fault":..,"name":"..","text":".."}
POST /take
  400 json {"fault":..,"name":"..","text":".."}
""".replace("\n    ", "")

# Who may come, at a node without a token and at one with it: a status, a request, and lines of its head.
MAY_COME = """
200 GET /doc | Host: localhost:PORT
200 GET /doc | Host: [::1]:PORT
200 GET /doc | Host: LocalHost:PORT
403 GET /doc | Host: 127.0.0.1
403 GET /doc | Host: example.org
403 GET /doc | Host: example.org:PORT
403 GET /ask | Host: example.org:PORT
403 GET /snapshot | Host: example.org:PORT
403 GET / | Host: example.org:PORT
403 POST /edits | Host: example.org:PORT
403 POST /grow | Host: example.org:PORT
403 POST /edits/x | Host: example.org:PORT
403 PUT /value/x | Host: example.org:PORT
200 GET /doc | Origin: http://example.org
200 GET /snapshot | Origin: http://example.org
200 POST /edits | Origin: http://127.0.0.1:PORT
400 POST /grow | Origin: http://127.0.0.1:PORT
200 POST /edits | Origin: https://localhost:PORT | Host: localhost:PORT
403 POST /edits | Origin: http://localhost:PORT
403 POST /edits | Origin: http://example.org
403 POST /edits | Origin: null
403 POST /edits | Origin:
403 POST /take | Origin: http://127.0.0.1
403 POST /grow | Origin: http://example.org
403 POST /grow | Origin: null
403 POST /edits/x | Origin: http://example.org
403 PUT /value/x | Origin: http://example.org
403 PUT /value/x | Origin: null
400 PUT /value/x | Origin: http://127.0.0.1:PORT
403 GET /live | Origin: http://example.org:PORT | UPGRADE
"""
MAY_COME_WITH_TOKEN = """
200 GET / | Cookie: a=b
401 GET /doc | Cookie: a=b
401 HEAD /status | Cookie: a=b
401 GET /ask | Cookie: a=b
401 GET /snapshot | Cookie: a=b
401 HEAD /snapshot | Cookie: a=b
401 POST /grow | Cookie: a=b
401 GET /nothing | Cookie: a=b
401 POST /edits | Cookie: a=b
401 POST /edits/x | Cookie: a=b
401 PUT /value/x | Cookie: a=b
401 POST /edits | Cookie: rds_PORT=
401 POST /edits | Cookie: rds_PORT=TOKENx
401 POST /edits | Cookie: rds=TOKEN
401 POST /edits | Cookie: rds_1PORT=TOKEN
401 POST /edits | Authorization: Bearer
401 POST /edits | Authorization: Bearer 0123456789abcdef-._
401 POST /edits | Authorization: Basic TOKEN
401 POST /edits | Authorization: Bearers TOKEN
401 POST /edits | Authorization: bearer TOKENx
401 POST /edits | Authorization: bearerTOKEN
401 GET /live | Cookie: a=b | UPGRADE
403 POST /edits | Authorization: Bearer TOKEN | Origin: http://example.org
403 POST /login | Origin: http://example.org
403 POST /grow | Authorization: Bearer TOKEN | Origin: http://example.org
403 PUT /value/x | Authorization: Bearer TOKEN | Origin: http://example.org
200 POST /edits | Authorization: Bearer TOKEN
200 POST /edits | Authorization: bearer TOKEN
200 POST /edits | Authorization: BEARER TOKEN
400 POST /grow | Authorization: Bearer TOKEN
200 POST /edits/x | Authorization: Bearer TOKEN
400 PUT /value/x | Authorization: Bearer TOKEN
200 GET /snapshot | Authorization: Bearer TOKEN
200 POST /edits | Cookie: a=b; rds_PORT=TOKEN; c=d
200 POST /edits | Cookie: rds_1PORT=other; rds_PORT=TOKEN
200 GET /doc | Host: example.org:PORT
"""


def judge(what, answer, due):
    """Compares an answer with a status, a kind and a body."""
    status, kind, body = (due.split(" ", 2) + ["", ""])[:3]
    pattern = re.escape(body.replace("|", "\n")).replace(r"\.\.", ".*")
    found = answer.body.decode(errors="replace")
    found = found.removesuffix("\n") if kind == "json" else found
    has_kind = answer.headers.get("content-type", "").startswith(f"application/{kind}")
    is_due = (str(answer.status), has_kind) == (status, True) and re.fullmatch(pattern, found)
    want(is_due, f"{what} is answered {answer}, where {due} is due")


def judge_table(node):
    """Makes each request of the table, all over one connection."""
    rows, noted = REQUESTS.strip().split("\n"), Noted()
    with node.link() as link:
        for asked, due in zip(rows[::2], rows[1::2]):
            method, target, *body = asked.split(" ", 2)
            given = "".join(body).replace("|", "\n").encode() if method == "POST" else None
            answer = link.answer(node.text(method, target, given), method == "HEAD")
            with noted:
                judge(asked, answer, due.strip())
                want(answer.status != 405 or "allow" in answer.headers, f"{asked} is answered {answer}, without Allow")
    noted.end()


def judge_comers(node, table):
    """Makes each request of such a table, each over a connection of its own."""
    noted = Noted()
    for row in table.strip().split("\n"):
        row = row.replace("PORT", f"{node.port}").replace("TOKEN", TOKEN).replace("UPGRADE", " | ".join(UPGRADE))
        first, *lines = row.split(" | ")
        status, method, target = first.split()
        answer = node.answer(method, target, b"" if method in ("POST", "PUT") else None, *lines)
        asks = answer.headers.get("www-authenticate")
        with noted:
            want(answer.status == int(status), f"{row} is answered {answer}")
            want(answer.status != 401 or asks == "Bearer", f"{row} is answered WWW-Authenticate: {asks}")
    noted.end()


# The lines of a family of numbers: what it is, in a sentence, and its type.
HELPED = r"# HELP (\w+) [A-Z].*\.\n# TYPE \1 "


def judge_heads(node):
    """The page, and the numbers."""
    page = node.answer("GET", "/")
    want(page.status == 200 and page.body.lower().startswith(b"<!doctype html>"), f"GET / is answered {page}")
    due = {
        "content-type": "text/html; charset=utf-8",
        "x-content-type-options": "nosniff",
        "referrer-policy": "no-referrer",
        "cache-control": "no-cache",
    }
    for name, value in due.items():
        want(page.headers.get(name) == value, f"the page has {name}: {page.headers.get(name)}")
    policy = page.headers.get("content-security-policy", "")
    want("default-src 'none'" in policy, f"the page has the policy {policy}")
    head = node.answer("HEAD", "/")
    want(head.headers == page.headers, f"HEAD / has {head.headers}, and GET / {page.headers}")
    due = {"rds_edits_total": 6, "rds_edits_refused_total": 5, "rds_live_entries": 2}
    due |= {"rds_peers": 0, "rds_peers_met": 0, "rds_caller_forks_total": 0, "rds_behind": 0, "rds_unwritable": 0}
    for name, number in due.items():
        want(node.count(name) == number, f"{name} is {node.count(name)}, where {number} is due")
    text = node.answer("GET", "/metrics").body.decode()
    families, helped = (re.findall(rf"^{line}", text, re.M) for line in (r"# TYPE (\w+) (?:counter|gauge)$", HELPED))
    told = f"the metrics are {families}, and those that tell what they are {helped}"
    want(len(families) == 20 and families == helped, told)


def judge_pipes(node):
    """How requests stand behind one another on a connection, and how it ends."""
    page = node.answer("GET", "/")
    places = [b"apples", b"apples/price", b"nothing"] * 100
    with node.link() as link:
        link.socket.sendall(b"".join(node.text("GET", f"/value/{place.decode()}") for place in places))
        bodies = [link.answer().body for _ in places]
        is_due = len(set(bodies)) == 3 and bodies == bodies[:3] * 100
        want(is_due, "requests that come at once are answered out of order")
        link.socket.sendall(node.text("HEAD", "/") + node.text("GET", "/") * 300 + node.text("GET", "/value/apples"))
        want(link.answer(b"", True).status == 200, "a HEAD before other requests isn't answered")
        want({link.answer().body for _ in range(300)} == {page.body}, "300 pages that are asked for at once differ")
        want(link.answer().body == bodies[0], "a request behind 300 pages isn't answered")
        chunks = b'12\r\n["set","chunked/ax\r\n8\r\n/b",true\r\n2\r\n]\n\r\n0\r\n\r\n'
        answer = link.answer(node.text("POST", "/edits", None, "Transfer-Encoding: chunked") + chunks)
        judge("a body in chunks", answer, '200 x-ndjson {"dot":["a",4],"killed":0}|')
        answer = link.answer(node.text("POST", "/edits", b"\n", "Expect: 100-continue"))
        answer = link.answer() if answer.status == 100 else answer
        want(answer.status == 200, f"a request that expects 100 is answered {answer}")
    for line in "Connection: close", "Connection: Close, x":
        with node.link() as link:
            answer = link.answer(node.text("GET", "/doc", None, line))
            want(answer.status == 200 and link.is_ended(5), f"{line} is answered {answer}, and the connection stays")
    with node.link() as link:
        answer = link.answer(node.text("GET", "/doc").replace(b"HTTP/1.1", b"HTTP/1.0"))
        want(answer.status == 200 and link.is_ended(5), f"HTTP/1.0 is answered {answer}, and the connection stays")


def of_length(node, length):
    """A request to edit that is so long as a whole. Its one line is refused."""
    body = b" " * max(length * 7 // 8, length - 8_000)
    return node.text("POST", "/edits", body, "x: " + "y" * (length - len(node.text("POST", "/edits", body, "x: "))))


def judge_pieces(node):
    """Requests that come in pieces, cut anywhere: each is answered once it is whole, whatever else has come."""
    first, second = node.text("GET", "/value/apples"), node.text("POST", "/edits", b"\n\n")
    due = node.answer("GET", "/value/apples").body
    with node.link() as link:
        link.socket.settimeout(5)
        for cut in range(1, len(second)):
            answer = link.answer(first + second[:cut])
            want((answer.status, answer.body) == (200, due), f"before {second[:cut]} a request is answered {answer}")
            answer = link.answer(second[cut:])
            want(answer.status == 200, f"a request that comes as {second[:cut]} and its rest is answered {answer}")
        for length in 8191, 8192, 8193, 16_383, 16_384, 16_385, 24_576, 65_536, 1 << 20:
            text = of_length(node, length)
            want(len(text) == length, f"a request of {length} bytes has {len(text)}")
            statuses = [link.answer(text).status, link.answer(text + first).status, link.answer().status]
            want(statuses == [400, 400, 200], f"requests of {length} bytes are answered {statuses}")
    for cut, late in itertools.product([0, 1, len(second) - 1], [0, 0.05]):
        with node.link() as link:
            link.socket.sendall(first + second[:cut])
            time.sleep(late)
            link.socket.shutdown(socket.SHUT_WR)
            is_due = link.answer().body == due and link.is_ended(5)
            want(is_due, f"who ends after a request and {second[:cut]} isn't answered, or the connection stays")


def judge_texts(node):
    """What two replicas ask and answer each other, the one by requests and the other by commands."""
    node.told("init", "b.rds", "g", "b", "a", "b")
    node.told("set", "b.rds", "m/x", "7")
    question = node.told("ask", "a.rds")
    response = node.told("answer", "b.rds", given=question)
    answer = node.answer("POST", "/take", struct.pack(">I", len(question)) + question + response)
    judge("POST /take", answer, '200 json {"taken":1}')
    answer = node.answer("GET", "/ask")
    is_due = (answer.status, answer.body) == (200, node.told("ask", "a.rds"))
    want(is_due and "octet-stream" in answer.headers["content-type"], f"GET /ask is answered {answer}")
    (node.folder / "q").write_bytes(node.told("ask", "b.rds"))
    answer = node.answer("POST", "/answer", (node.folder / "q").read_bytes())
    is_due = answer.status == 200 and answer.headers["content-type"] == "application/octet-stream"
    want(is_due, f"POST /answer is answered {answer}")
    taken = json.loads(node.told("take", "b.rds", "q", "-", given=answer.body))["taken"]
    want(taken > 1, f"of an answer {taken} are taken")
    want(json.loads(node.told("show", "b.rds")) == node.document(), "two replicas that have met differ")
    same = node.answer("POST", "/answer", node.told("ask", "a.rds"))
    judge("a question of the node's own", same, '409 json {"fault":21,"name":"SameReplica","text":".."}')
    node.told("init", "c.rds", "other", "b", "a", "b")
    other = node.answer("POST", "/answer", node.told("ask", "c.rds"))
    judge("a question of another group", other, '409 json {"fault":19,"name":"WrongGroup","text":".."}')


def judge_tagged(node):
    """What goes by the tag of a question: the node and another replica are level, and then each has something new."""
    asked, theirs = node.answer("GET", "/ask"), node.told("ask", "b.rds")
    tag, unknown = asked.headers["etag"].encode(), b'"%s-%s"' % (b"0" * 64, b"0" * 32)
    node.told("set", "b.rds", "m/y", "8")
    node.answer("POST", "/edits", b'["set","m/z",9]\n')
    response = node.told("answer", "b.rds", given=asked.body)
    push = lambda body: node.answer("POST", "/push", body)
    pull = lambda body: node.answer("POST", "/pull", body)
    no_tag = '412 json {"status":412,"text":"the tag is of no question that is known"}'
    bad = '400 json {"fault":13,"name":"Bad","text":".."}'
    for what, body in ("an unknown tag", unknown + response), ("half a tag", tag[:50]), ("no tag", b"oops"):
        judge(f"a push of {what}", push(body), no_tag)
    judge("a push of no response", push(tag + b"oops"), bad)
    judge("a push of half a response", push(tag + response[:-1]), '400 json {"fault":12,"name":"Cut","text":".."}')
    judge("a push of a question", push(tag + theirs), bad)
    for time in "first", "second":
        judge(f"the {time} push of a response", push(tag + response), '200 json {"taken":1}')
    want(json.loads(node.answer("GET", "/value/m/y").body)["reg"] == [8], "what was pushed isn't there")
    answer, due = pull(tag + b"\1"), node.answer("POST", "/answer", theirs)
    is_due = answer.status == 200 and answer.headers["content-type"] == "application/octet-stream"
    want(is_due and answer.body == due.body, f"a pull is answered {answer}")
    (node.folder / "q").write_bytes(theirs)
    node.told("take", "b.rds", "q", "-", given=answer.body)
    want(json.loads(node.told("show", "b.rds")) == node.document(), "two replicas differ that have met by tags")
    for what, body in ("an unknown tag", unknown + b"\1"), ("no tag", b"oops"):
        judge(f"a pull of {what}", pull(body), no_tag)
    for what, behind in ("no number", b""), ("two numbers", b"\1\1"):
        judge(f"a pull with {what}", pull(tag + behind), bad)
    judge("a pull of the node's own", pull(tag + b"\0"), '409 json {"fault":21,"name":"SameReplica","text":".."}')


# What looks at the document, and requests that are refused whatever tag they show.
LOOKS = ["/doc", "/doc/apples", "/here", "/here/apples", "/value/apples", "/value/nothing", "/conflicts"]
REFUSED = {"/doc/a//b": 400, "/here/%FF": 400, "/value": 400, "/nothing": 404}


def tag_of_text(text):
    """The tag of what stands at a place, by the text that is told of it."""
    return f'"{hashlib.sha256(text).hexdigest()[:32]}"'


def judge_tags(node):
    """What a client that has something already is answered: 304 where it is what stands there."""
    noted = Noted()
    with node.link() as link:
        asked = lambda *request: link.answer(node.text(*request), request[0] == "HEAD")
        mark = f'"{node.status()["mark"]}"'
        old = f'"{"0" * 32}"'
        for target in LOOKS:
            tag = tag_of_text(asked("GET", target).body) if target.startswith("/value/") else mark
            rows = [("GET", None, 200), ("HEAD", None, 200), ("GET", old, 200), ("GET", tag[1:-1], 200)]
            rows += [("GET", tag, 304), ("HEAD", tag, 304)]
            rows += [("GET", shown, 304) for shown in ("*", f"W/{tag}", f"{old}, {tag}", f"{old},{tag} , {old}")]
            for method, shown, status in rows:
                answer = asked(method, target, None, *([f"If-None-Match: {shown}"] if shown else []))
                found = answer.status, answer.headers.get("etag"), answer.headers.get("cache-control")
                with noted:
                    want(found == (status, tag, "no-cache"), f"{method} {target} with {shown} is answered {answer}")
                    want(not answer.body or status == 200, f"{method} {target} with {shown} is answered {answer}")
        for target, status in REFUSED.items():
            answer = asked("GET", target, None, "If-None-Match: *")
            with noted:
                want(answer.status == status, f"GET {target} with * is answered {answer}")
        for target in "/status", "/metrics", "/snapshot", "/":
            answer = asked("GET", target, None, f"If-None-Match: {mark}")
            with noted:
                want(answer.status == 200, f"GET {target} with a tag is answered {answer}")
        answer = asked("POST", "/edits", b'["set","tagged",1]\n', f"If-None-Match: {old}")
        with noted:
            want(answer.status == 200 and b"dot" in answer.body, f"an edit with another tag is answered {answer}")
        answer = asked("GET", "/doc", None, f"If-None-Match: {mark}")
        with noted:
            want(answer.status == 200 and answer.headers["etag"] != mark, f"after an edit a tag is answered {answer}")
    noted.end()


def judge_matches(node):
    """Edits and growths that are wanted only where the document is as it was seen, or isn't: else 412."""
    noted, edit = Noted(), b'["inc","matched",1]\n'
    unmet = '412 json {"status":412,"text":"the document\'s tag doesn\'t meet the condition"}'
    mark = lambda: node.status()["mark"]
    with node.link() as link:
        asked = lambda target, body, *lines: link.answer(node.text("POST", target, body, *lines))
        tag, old = f'"{mark()}"', f'"{"0" * 32}"'
        for shown in old, f"W/{tag}", tag[1:-1], f"{old}, W/{tag}", '"*"', "":
            for target, body in ("/edits", edit), ("/edits", b"oops"), ("/grow", b"matched"):
                answer = asked(target, body, f"If-Match: {shown}")
                with noted:
                    judge(f"{target} if {shown}", answer, unmet)
                    want(f'"{mark()}"' == tag, f"after {target} if {shown} the document is another")
        for values in ["NOW"], ["*"], [f"{old} , NOW"], [old, "NOW"], ["NOW,"]:
            now = f'"{mark()}"'
            lines = ["If-Match: " + value.replace("NOW", now) for value in values]
            grown, edited = asked("/grow", b"a", *lines), asked("/edits", edit, *lines)
            with noted:
                judge(f"/grow with {lines}", grown, '400 json {"fault":6,"name":"BadRoster","text":".."}')
                judge(f"/edits with {lines}", edited, '200 x-ndjson {"dot":null,"killed":0}|')
        for shown in "*", "NOW", "W/NOW", f"{old}, NOW", f"NOW,{old}":
            lines = "If-None-Match: " + shown.replace("NOW", f'"{mark()}"'), "If-Match: *"
            for target, body, heads in ("/edits", edit, lines[:1]), ("/grow", b"a", lines[:1]), ("/edits", edit, lines):
                answer = asked(target, body, *heads)
                with noted:
                    judge(f"{target} with {heads}", answer, unmet)
        for shown in old, f"W/{old}", "NOW"[1:], "":
            with noted:
                answer = asked("/edits", edit, f"If-None-Match: {shown}")
                judge(f"if not {shown}", answer, '200 x-ndjson {"dot":null,"killed":0}|')
        for method, target in ("GET", "/doc"), ("POST", "/answer"):
            due = link.answer(node.text(method, target, b"oops" if method == "POST" else None)).status
            answer = link.answer(node.text(method, target, b"oops" if method == "POST" else None, f"If-Match: {old}"))
            with noted:
                want(answer.status == due, f"{method} {target} if {old} is answered {answer}")
    noted.end()


# Requests for a place: the method, the target, a body, a condition, and the status, the kind of content and the body
# that are due. NOW is the tag of what stands there, and BEFORE that of what stood there before the last one was done.
UNMET = '412 json {"status":412,"text":"what stands there doesn\'t meet the condition"}'
DOT, KILLED = ('200 x-ndjson {"dot":["a",..],"killed":%d}|' % number for number in (0, 1))
NO_DOT = '200 x-ndjson {"dot":null,"killed":0}|'
BAD_LINE = '400 x-ndjson {"fault":25,"name":"BadLine","line":1}|'
BAD_SCALAR = '400 x-ndjson {"fault":5,"name":"BadScalar","line":1}|'
BAD_KEY, BAD_PATH = ('400 json {"fault":%d,"name":"%s","text":".."}' % of for of in ((3, "BadKey"), (4, "BadPath")))
NOT_ALLOWED = '405 json {"status":405,"text":".."}'
NO_JSON, NO_SCALAR = ["", "oops", "1 2", '1],["x"', '1\n["clear",""]', "'x'"], ["[1]", "{}", "1.0", "-0", f"{1 << 63}"]
ANN, CREATED = "/edits/u/ann/mail", '["set","u/ann/mail","a@b.c"]'
PLACES = [
    ("POST", ANN, CREATED, "If-Match: *", UNMET), ("POST", ANN, CREATED, "If-None-Match: *", DOT),
    ("POST", ANN, CREATED, "If-None-Match: *", UNMET), ("POST", ANN, CREATED, "If-None-Match: W/NOW", UNMET),
    ("POST", ANN, CREATED, "If-Match: W/NOW", UNMET), ("POST", ANN, "oops", "If-Match: BEFORE", UNMET),
    ("POST", ANN, "oops", "If-Match: NOW", BAD_LINE), ("POST", ANN, "oops", "", BAD_LINE),
    ("POST", ANN, '["set","u/ann/mail","d@e.f"]', 'If-Match: "x", NOW', KILLED),
    ("POST", ANN, '["set","u/ann/mail","g@h.i"]', "If-Match: BEFORE", UNMET),
    ("POST", ANN, '["set","u/ann/mail","g@h.i"]', "If-None-Match: BEFORE", KILLED),
    ("POST", "/edits/u%2Fann/m%61il", '["set","u/bob/mail","b@b.c"]', "If-Match: NOW", DOT),
    ("POST", "/edits/u/ann", '["inc","n",1]', "If-Match: *", UNMET),
    ("POST", "/edits/u/ann", '["inc","n",1]', "If-None-Match: *", NO_DOT),
    ("POST", "/edits/u/ann", "", "If-Match: NOW", "200 x-ndjson "),
    ("POST", "/edits/left", '["inc","left",3]', "If-None-Match: *", NO_DOT),
    ("POST", "/edits/left", '["dec","left",3]', "If-Match: NOW", NO_DOT),
    ("POST", "/edits/left", '["dec","left",3]', "If-Match: BEFORE", UNMET),
    ("POST", "/edits/left", '["inc","left",3]', "If-None-Match: *", UNMET),
    ("POST", "/edits/left", '["inc","left",3]', "If-Match: *", NO_DOT),
    ("POST", "/edits/%FC/x", CREATED, "If-None-Match: *", BAD_KEY), ("POST", "/edits/a//b", "", "", BAD_KEY),
    ("POST", "/edits/", CREATED, "If-Match: *", BAD_PATH), ("POST", "/edits/1/2/3/4/5/6/7/8/9", "", "", BAD_PATH),
    ("GET", "/edits/u", None, "", NOT_ALLOWED), ("PUT", "/edits/u", "1", "", NOT_ALLOWED),
    ("PUT", "/value/u/b%C3%BCb/%2520", '"x"', "If-Match: *", UNMET),
    ("PUT", "/value/u/b%C3%BCb/%2520", '"x"', "If-None-Match: *", DOT),
    ("PUT", "/value/u/b%C3%BCb/%2520", '"y"', "If-None-Match: *", UNMET),
    ("PUT", "/value/u/b%C3%BCb/%2520", " null\n", "If-Match: NOW", KILLED),
    ("PUT", "/value/u/b%C3%BCb/%2520", "true", "If-Match: BEFORE", UNMET),
    ("PUT", "/value/u/b%C3%BCb/%2520", "-9223372036854775808", "", KILLED),
    ("PUT", "/value/u/b%C3%BCb/%2520", "oops", "If-Match: BEFORE", UNMET),
    *(("PUT", "/value/u/ann/mail", body, "", BAD_LINE) for body in NO_JSON),
    *(("PUT", "/value/u/ann/mail", body, "", BAD_SCALAR) for body in NO_SCALAR),
    ("PUT", "/value/u/ann/mail", '"%s"' % ("x" * 1_024), "", KILLED),
    ("PUT", "/value/u/ann/mail", '"%s"' % ("x" * 1_025), "", BAD_SCALAR),
    ("PUT", "/value/u/ann/mail", "1" + " " * 65_535, "", KILLED),
    ("PUT", "/value/u/ann/mail", "1" + " " * 65_536, "", BAD_LINE),
    ("PUT", "/value", "1", "", BAD_PATH), ("PUT", "/value/", "1", "", BAD_PATH),
    ("PUT", "/value/%FF", "1", "", BAD_KEY),
    ("PUT", "/doc/u", "1", "", NOT_ALLOWED), ("POST", "/value/u", "1", "", NOT_ALLOWED),
    ("DELETE", "/value/u", None, "", NOT_ALLOWED), ("PUT", "/edits", "1", "", NOT_ALLOWED),
]
ALLOWED = {"edits": "POST", "value": "GET, HEAD, PUT", "doc": "GET, HEAD"}


def judge_places(node):
    """Edits and values that are wanted only where what stands at a place is as it was seen, or isn't: else 412."""
    noted, before = Noted(), {}
    with node.link() as link:
        asked = lambda *request: link.answer(node.text(*request))
        mark = lambda: asked("GET", "/here").headers["etag"]
        for method, target, body, condition, due in PLACES:
            resource, _, place = target[1:].partition("/")
            now, was = tag_of_text(asked("GET", f"/value/{place}").body), mark()
            line = condition.replace("NOW", now).replace("BEFORE", before.get(place, '"x"'))
            answer = asked(method, target, body if body is None else body.encode(), *([line] if line else []))
            with noted:
                what = f"{method} {target} {body and body[:40]} {line}"
                judge(what, answer, due)
                want(answer.status == 200 or mark() == was, f"after {what}, which is refused, the document is another")
                allowed = ALLOWED[resource] if answer.status == 405 else None
                want(answer.headers.get("allow") == allowed, f"{what} is answered {answer}, where {allowed} is due")
            if answer.status == 200:
                before[place] = now
    with noted:
        judge_put(node)
    noted.end()


def judge_put(node):
    """A value that is put counts as an edit, and is told to who listens: beside a set and a counter, which stay."""
    node.answer("POST", "/edits", b'["add","put","x"]\n["inc","put",2]')
    counts = [node.count(name) for name in ("rds_edits_total", "rds_edits_refused_total")]
    heard = listener(node)
    for body in b"7", b"oops", b"8":
        node.answer("PUT", "/value/put", body)
    for _ in range(2):
        news = json.loads(heard.frame(LIMIT)[1])
        want(news["paths"] == ["put"], f"who listens is told of a value that is put by {news}")
    heard.socket.close()
    told = [node.count(name) - count for name, count in zip(("rds_edits_total", "rds_edits_refused_total"), counts)]
    want(told == [2, 1], f"two values that are put and a refused one are counted as {told}")
    due = b'{"counter":2,"reg":[8],"set":["x"]}'
    for method, text in ("GET", due), ("HEAD", b""):
        answer = node.answer(method, "/value/put")
        is_due = (answer.body, answer.headers["etag"]) == (text, tag_of_text(due))
        want(is_due, f"{method} of a value that was put is answered {answer}")


# Names that a node of the group a, b is given, one after the other, and what each is due to be answered.
DONE = '200 json {"ok":true}'
NO_NAME = '400 json {"fault":2,"name":"BadName","text":".."}'
NO_PLACE = '400 json {"fault":6,"name":"BadRoster","text":".."}'
NAMES = [
    (b"c", DONE), (b"c", NO_PLACE), (b"a", NO_PLACE), (b"b", NO_PLACE), (b"d-9", DONE), (b"e" * 16, DONE),
    (b"", NO_NAME), (b"Cart", NO_NAME), (b"cArt", NO_NAME), (b"9d", NO_NAME), (b"-d", NO_NAME), (b"d_9", NO_NAME),
    (b"d\n", NO_NAME), (b"c\n", NO_NAME), (b" d", NO_NAME), (b"c d", NO_NAME), (b'"d"', NO_NAME), (b"\1d", NO_NAME),
    (b"e" * 17, NO_NAME), (b"e" * 100_000, NO_NAME), (b"d\xff", NO_NAME), ("d\u00fc".encode(), NO_NAME),
]


def judge_held(node, held):
    """Whether a node holds this replica: by its snapshot, and by what it tells of itself."""
    answer, due = node.answer("GET", "/snapshot"), file_text(held)
    found = answer.status, answer.headers.get("content-type"), answer.headers.get("etag"), answer.body
    is_due = found == (200, "application/octet-stream", tag_of_text(due), due)
    want(is_due, f"of {held.names} GET /snapshot is answered {answer}, where {due} is due")
    head = node.answer("HEAD", "/snapshot")
    want((head.status, head.headers) == (200, answer.headers), f"HEAD /snapshot has {head}, and GET {answer.headers}")
    status, tag = node.status(), '"{}-{}"'.format(*(half.hex() for half in tag_of(held)))
    found = status["names"], status["mark"], node.answer("HEAD", "/ask").headers["etag"]
    want(found == (held.names, mark_of(held.state), tag), f"a node of {held.names} tells of itself {found}")


def judge_growth(node):
    """Names that are put into the group of a node, by a record each, and the snapshots that it gives."""
    edits = b'["set","m/x",7]\n["set","m/x",8]\n["add","s","r"]\n["inc","n",10]\n'
    held = Replica("g", ["a", "b"], 0, State())
    for verb, *of in ("set", ("m", "x"), (3, 7)), ("set", ("m", "x"), (3, 8)), ("add", ("s",), (4, "r")):
        held = edited(held, verb, *of)[0]
    held = edited(held, "inc", ("n",), amount=10)[0]
    judge_held(node, Replica("g", ["a", "b"], 0, State()))
    node.answer("POST", "/edits", edits)
    judge_held(node, held)
    file = node.folder / "a.rds"
    with node.link() as link:
        for name, due in NAMES:
            before, answer = file.read_bytes(), link.answer(node.text("POST", "/grow", name))
            judge(f"POST /grow {name[:20]}", answer, due)
            is_done, text = due == DONE, before
            if is_done:
                held = grown(held, [name.decode()])
                text = appended(before, change_text(0, State(), held))
            want(answer.body.endswith(b"}\n") or not is_done, f"POST /grow {name} is answered {answer}")
            want(file.read_bytes() == text, f"after POST /grow {name[:20]} the file isn't as due")
        judge_held(node, held)
        killed(node.child)
        node.start()
        judge_held(node, held)
    with node.link() as link:
        for number in range(256 - len(held.names)):
            held = grown(held, [f"n{number}"])
            judge(f"name {number}", link.answer(node.text("POST", "/grow", held.names[-1].encode())), DONE)
        for name, due in (b"last", NO_PLACE), (b"Last", NO_NAME), (b"n0", NO_PLACE):
            judge(f"a growth of 256 names by {name}", link.answer(node.text("POST", "/grow", name)), due)
    judge_held(node, held)
    want(read_file(file.read_bytes()).replica == held, "the file of a node that has grown isn't as due")
    allowed = node.answer("GET", "/grow").headers.get("allow")
    want(allowed == "POST", f"GET /grow is answered Allow: {allowed}")
    (node.folder / "copy.rds").write_bytes(node.answer("GET", "/snapshot").body)
    want(json.loads(node.told("show", "copy.rds")) == node.document(), "show of a snapshot differs from /doc")


def asked_hash(question):
    """The SHA-256 of what a question says, but for who asks: its group and names, and its digest."""
    begin = 5
    end = begin + 1 + question[begin]
    count, end = int.from_bytes(question[end : end + 2], "big"), end + 2
    for _ in range(count):
        end += 1 + question[end]
    return hashlib.sha256(question[begin:end] + question[end + 1 :]).hexdigest()


def judge_ask_tags(node):
    """The tag of what the node asks."""
    answer, mark = node.answer("GET", "/ask"), node.status()["mark"]
    tag, old = f'"{asked_hash(answer.body)}-{mark}"', f'"{"0" * 64}-{mark}"'
    found = answer.status, answer.headers.get("etag"), answer.headers.get("rds-replica")
    want(found == (200, tag, "0"), f"GET /ask is answered {answer}, where the tag {tag} is due")
    for shown, status in [(tag, 304), (old, 200), (f"{old}, {tag}", 304), ("*", 304), (f'"{mark}"', 200)]:
        answer = node.answer("GET", "/ask", None, f"If-None-Match: {shown}")
        found = answer.status, answer.headers.get("etag"), answer.headers.get("rds-replica"), bool(answer.body)
        want(found == (status, tag, "0", status == 200), f"GET /ask with {shown} is answered {answer}")
    node.answer("POST", "/edits", b'["inc","tagged",1]\n')
    answer = node.answer("GET", "/ask", None, f"If-None-Match: {tag}")
    due = f'"{asked_hash(answer.body)}-{node.status()["mark"]}"'
    is_due = answer.status == 200 and answer.headers["etag"] == due != tag
    want(is_due, f"after an edit GET /ask is answered {answer}, where the tag {due} is due")


# Requests one after the other, and what the log is due to say of them behind the client's address: '..' is the number
# of bytes that came, and 'N' the microseconds. What is no request has no line.
LOGGED = """
GET /doc
  GET /doc 200 .. N
GET /value/a%20b/%C3%BC?x=%1b&y
  GET /value/a%20b/%C3%BC?x=%1b&y 200 .. N
GET http://HOST/status
  GET http://HOST/status 200 .. N
HEAD /doc
  HEAD /doc 200 0 N
POST /edits ["set","logged",1]
  POST /edits 200 .. N
GET /nothing
  GET /nothing 404 .. N
DELETE /live
  DELETE /live 405 .. N
GET /doc/a//b
  GET /doc/a//b 400 .. N
GET /value/ü‮
  GET /value/%C3%BC%C2%85%E2%80%AE 200 .. N
"""

# Targets behind /nothing/, and what the log is due to say of each: 200 bytes at the most, and no part of an escape.
LONG = {
    "x" * 191: "x" * 191,
    "x" * 192: "x" * 191 + "...",
    "x" * 3_000: "x" * 191 + "...",
    "x" * 188 + "%41": "x" * 188 + "%41",
    "x" * 188 + "%41x": "x" * 188 + "%41...",
    "x" * 189 + "%41": "x" * 189 + "...",
    "x" * 190 + "%41": "x" * 190 + "...",
    "x" * 186 + "\u00fcx": "x" * 186 + "%C3...",
    "x" * 190 + "\u00fc": "x" * 190 + "...",
}


def judge_log(node):
    """A line for each request, in the order in which they were answered, with `--log`."""
    rows, due, place = LOGGED.strip("\n").split("\n"), [], node.folder / "log"
    with node.link() as link:
        client = "{}:{}".format(*link.socket.getsockname())
        for row, line in zip(rows[::2], rows[1::2]):
            method, target, *body = row.replace("HOST", f"127.0.0.1:{node.port}").split(" ", 2)
            request = node.text(method, "TARGET", "".join(body).encode() if method == "POST" else None)
            answer = link.answer(request.replace(b"TARGET", target.encode()), method == "HEAD")
            if answer.status == 400 and "json" not in answer.headers.get("content-type", ""):
                continue
            line = line.strip().replace("HOST", f"127.0.0.1:{node.port}")
            due.append(re.escape(f"{client} {line}").replace(r"\.\.", f"{len(answer.body)}").replace(" N", r" \d+"))
        for target, shown in LONG.items():
            answer = link.answer(node.text("GET", "TARGET").replace(b"TARGET", f"/nothing/{target}".encode()))
            due.append(re.escape(f"{client} GET /nothing/{shown} 404 {len(answer.body)} ") + r"\d+")
        link.socket.sendall(node.text("GET", "/status") * 300)
        due += [re.escape(f"{client} GET /status 200 ") + rf"{len(link.answer().body)} \d+" for _ in range(300)]
    with node.link() as link:
        client = "{}:{}".format(*link.socket.getsockname())
        answer = link.answer(node.text("GET", "/live", None, *UPGRADE))
        want(answer.status == 101, f"GET /live is answered {answer}")
        due.append(re.escape(f"{client} GET /live 101 0 ") + r"\d+")
    with node.link() as link:
        link.answer(b"oops\r\n\r\n")
    soon(lambda: place.read_bytes().count(b"\n") >= len(due), f"the log has too few lines for {len(due)} requests")
    lines = place.read_bytes().decode().splitlines()
    for line, pattern in zip(lines, due):
        want(re.fullmatch(pattern, line), f"the log has {line!r}, where {pattern} is due")
    want(len(lines) == len(due), f"the log has {len(lines)} lines, where {len(due)} are due: {lines[len(due):]}")


def try_log(asked, folder):
    """A log in a file, one that is full, and one that nobody reads any more."""
    node = Node(asked.program, folder)
    node.words += ["--log"]
    with open(folder / "log", "wb") as log, running(node, stdout=log):
        judge_log(node)
    node.words += ["--token-file", "token"]
    (folder / "token").write_text(TOKEN)
    with open("/dev/full", "wb") as full, running(node, stdout=full):
        serves_on(node, "whose log can't be written")
    read, write = os.pipe()
    with open(write, "wb") as pipe, running(node, stdout=pipe):
        os.close(read)
        serves_on(node, "whose log nobody reads")


def serves_on(node, what):
    for _ in range(3):
        status = node.answer("GET", "/status", None, f"Authorization: Bearer {TOKEN}").status
        want(status == 200, f"a node {what} answers {status}")


def judge_login(node):
    """What gives a page its cookie."""
    answer = node.answer("POST", "/login", TOKEN.encode(), "Cookie: a=b")
    cookie = f"rds_{node.port}={TOKEN}; Path=/; HttpOnly; SameSite=Strict"
    want((answer.status, answer.headers.get("set-cookie")) == (204, cookie), f"POST /login is answered {answer}")
    answer = node.answer("POST", "/login", TOKEN[1:].encode(), "Cookie: a=b")
    is_due = answer.status == 401 and "set-cookie" not in answer.headers
    want(is_due, f"POST /login of another token is answered {answer}")


def judge_reach(node):
    """An address that others reach wants a token, or the word that lets everybody in."""
    words = [node.program, "run", "a.rds", "--http", f"0.0.0.0:{node.port}"]
    refused = subprocess.run(words, cwd=node.folder, capture_output=True, timeout=LIMIT)
    is_due = refused.returncode == 2 and refused.stdout == b"fault 27: Usage\n" and refused.stderr
    want(is_due, f"an address that others reach, without a token, is answered {refused}")


def judge_unwritable(node):
    """A file that can be read and not written: no node starts on it."""
    folder, file, who = node.folder / "shut", node.folder / "shut/a.rds", {}
    folder.mkdir()
    program = shutil.copy(node.program, folder)
    os.chmod(program, 0o755)
    node.told("init", f"{file}", "g", "a", "a")
    words = [program, "run", "a.rds", "--http", f"{HOST}:{node.port}"]
    if os.geteuid() == 0:
        who = {"user": NOBODY, "group": NOBODY, "extra_groups": []}
        for place in node.folder, node.folder.parent:
            place.chmod(0o711)
        folder.chmod(0o777)
    rows = [(0o444, "its mode lets nobody write it")] + [(0o644, "Permission denied")] * bool(who)
    for mode, note in rows:
        file.chmod(mode)
        ran = subprocess.run(words, cwd=folder, capture_output=True, timeout=LIMIT, **who)
        is_due = (ran.returncode, ran.stdout) == (1, b"fault 24: Device\n") and note.encode() in ran.stderr
        want(is_due and ran.stderr.count(b"\n") == 1, f"'run' of a file of mode {mode:o} comes to {ran}")


def judge_lines(node):
    """How many lines a body of edits may have."""
    with node.link() as link:
        for count, status in (524_287, 200), (524_288, 413), (524_287, 200):
            answer = link.answer(node.text("POST", "/edits", b"\n" * count))
            want(answer.status == status, f"edits of {count} line feeds are answered {answer}")
            is_due = status == 200 or answer.body.startswith(b'{"fault":15,"name":"TooLong"')
            want(is_due, f"edits of too many lines are answered {answer}")


def stop_and_go_on(node):
    """Stops the process for a moment, as a shell does: it has to serve again."""
    node.child.send_signal(signal.SIGSTOP)
    time.sleep(0.1)
    node.child.send_signal(signal.SIGCONT)
    want(node.answer("GET", "/status").status == 200, "a node that was stopped and goes on doesn't serve")


def try_requests(asked, folder):
    noted, node = Noted(), Node(asked.program, folder)
    with running(node):
        comers = lambda node: judge_comers(node, MAY_COME)
        tags = judge_tags, judge_matches, judge_places, judge_ask_tags
        texts = judge_pieces, judge_lines, judge_texts, judge_tagged
        for part in judge_table, judge_heads, judge_pipes, *texts, *tags, comers, stop_and_go_on:
            with noted:
                part(node)
        document = node.document()
    with noted:
        want(node.shown() == document, f"show of the file differs from /doc, {document}")
    node = Node(asked.program, folder / "token", TOKEN)
    with running(node):
        for part in lambda node: judge_comers(node, MAY_COME_WITH_TOKEN), judge_login:
            with noted:
                part(node)
    node = Node(asked.program, folder / "growing")
    with running(node), noted:
        judge_growth(node)
    for part in judge_reach, judge_unwritable:
        with noted:
            part(node)
    with noted:
        try_log(asked, folder / "log")
    noted.end()
    count = REQUESTS.count("\n  ") + sum(table.strip().count("\n") + 1 for table in (MAY_COME, MAY_COME_WITH_TOKEN))
    count += len(NAMES) + len(PLACES)
    return f"{count} requests by hand, 900 at once, tags, a log, 256 names, and what two replicas send each other"
