"""Clients that ask for much and take little of it: no more long answers are begun than a node may hold."""
import contextlib
import socket

from serving import HOST, LIMIT, Node, running, soon, want

# So many entries of so many bytes make an answer of which no system takes more than a part at once.
ENTRIES, WIDTH, A_REQUEST = 20_000, 1_000, 5_000
# So many clients ask for it, a few at a time, and the node may hold so many MB in all: 268 of answers, one answer more,
# the document, and what an answer takes while it is made. All that is asked for has 1,900.
CLIENTS, AT_ONCE, MOST = 96, 8, 480
REFUSAL = b'{"status":503,"text":"too many answers are under way"}'


def lines(first):
    return b"".join(b'["set","k%d/n%d","%s"]\n' % (n % 100, n, b"v" * WIDTH) for n in range(first, first + A_REQUEST))


@contextlib.contextmanager
def holding(node, request):
    """Clients that send a request and take nothing of its answer. The node has a turn between some and the next."""
    with contextlib.ExitStack() as stack:
        for number in range(CLIENTS):
            if number % AT_ONCE == 0:
                node.status()
            link = stack.enter_context(socket.socket())
            link.setsockopt(socket.SOL_SOCKET, socket.SO_RCVBUF, 8_192)
            link.connect((HOST, node.port))
            link.sendall(request)
        yield


def try_crowd(asked, folder):
    node = Node(asked.program, folder)
    with running(node):
        with node.link() as link:
            for first in range(0, ENTRIES, A_REQUEST):
                link.answer(node.text("POST", "/edits", lines(first)))
        with node.link() as link, holding(node, node.text("GET", "/doc")):
            soon(lambda: link.answer(node.text("GET", "/doc/k1")).status == 503, "long answers are begun", LIMIT)
            answer = link.answer(node.text("GET", "/doc"))
            is_due = (answer.status, answer.body, answer.headers.get("retry-after")) == (503, REFUSAL, "1")
            want(is_due, f"beside many long answers another one is answered {answer}")
            for request, status in REQUESTS:
                answer = link.answer(node.text(*request))
                want(answer.status == status, f"beside many long answers {request[:2]} is answered {answer.status}")
        peak = node.peak()
        want(peak < MOST, f"beside {CLIENTS} clients that take nothing a node has {peak:,.0f} MB")
        soon(lambda: node.answer("GET", "/doc").status == 200, "a view is refused once the others are gone", LIMIT)
    return f"beside {CLIENTS} clients that take nothing of 20 MB each a node has {peak:.0f} MB"


# What is answered all the same, and what isn't, with the status that is due.
REQUESTS = [
    (("GET", "/status"), 200),
    (("GET", "/metrics"), 200),
    (("GET", "/"), 200),
    (("POST", "/edits", b'["inc","n",1]'), 200),
    (("PUT", "/value/x", b"1"), 200),
    (("GET", "/nothing"), 404),
    (("GET", "/value/x"), 200),
    (("GET", "/ask"), 200),
    (("GET", "/here"), 503),
    (("GET", "/conflicts"), 503),
    (("GET", "/snapshot"), 503),
    (("POST", "/answer", b""), 503),
    (("POST", "/pull", b""), 503),
]
