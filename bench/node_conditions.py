"""Clients that race for the same places of a node's document, each edit on the condition of what it saw there."""
import concurrent.futures
import json
import threading

from serving import Node, edit, running, want

# How many clients race, and how much each wants.
CLIENTS = 12
RAISES = 40
NAMES = 60
STOCK = 150


def race(work):
    """What each client comes to, all at once."""
    with concurrent.futures.ThreadPoolExecutor(CLIENTS) as pool:
        return [done.result() for done in [pool.submit(work, client) for client in range(CLIENTS)]]


def seen(node, link, path):
    """What stands at a path, and its tag."""
    answer = link.answer(node.text("GET", f"/value/{path}"))
    want(answer.status == 200, f"/value/{path} is answered {answer}")
    return json.loads(answer.body), answer.headers["etag"]


def is_done(answer):
    """Whether an edit on a condition was done, and not refused by that."""
    want(answer.status in (200, 412), f"an edit on a condition is answered {answer}")
    want((b'"killed":' in answer.body) == (answer.status == 200), f"an edit on a condition is answered {answer}")
    return answer.status == 200


def raise_register(node, client):
    """Raises a register by one, again where another came first: the numbers that were set."""
    numbers = []
    with node.link() as link:
        while len(numbers) < RAISES:
            there, tag = seen(node, link, "seats/taken")
            number = (there["reg"] or [0])[0] + 1
            line = b'["set","seats/taken",%d]' % number
            if is_done(link.answer(node.text("POST", "/edits/seats/taken", line, f"If-Match: {tag}"))):
                numbers.append(number)
    return numbers


def take_names(node, client):
    """Puts the own number under each name that nobody has: the names that it got."""
    with node.link() as link:
        requests = [node.text("PUT", f"/value/names/n{n}", b"%d" % client, "If-None-Match: *") for n in range(NAMES)]
        return [n for n, request in enumerate(requests) if is_done(link.answer(request))]


def sell(node, client):
    """Lowers a counter by one as long as it is above 0: how often."""
    sold = 0
    with node.link() as link:
        while True:
            there, tag = seen(node, link, "stock")
            if there["counter"] <= 0:
                return sold
            sold += is_done(link.answer(node.text("POST", "/edits/stock", b'["dec","stock",1]', f"If-Match: {tag}")))


def edit_elsewhere(node, ended):
    """Edits another place all the while, so that the document's mark never stays: how often."""
    count = 0
    with node.link() as link:
        while not ended.is_set():
            edit(link, node, count, "elsewhere")
            count += 1
    return count


def try_races(node):
    numbers = sorted(number for each in race(lambda client: raise_register(node, client)) for number in each)
    most = CLIENTS * RAISES
    want(numbers == [*range(1, most + 1)], f"of 1 to {most} these were set by clients that compared: {numbers}")
    got = race(lambda client: take_names(node, client))
    names = sorted(name for each in got for name in each)
    want(names == [*range(NAMES)], f"of 0 to {NAMES - 1} these names were taken: {names}")
    sold = sum(race(lambda client: sell(node, client)))
    want(sold == STOCK, f"of {STOCK} in stock {sold} were sold")
    document = node.document()
    stands = document["maps"]["seats"]["regs"], document["maps"]["names"]["regs"], document["counters"]
    owners = {f"n{name}": [client] for client, each in enumerate(got) for name in each}
    due = {"taken": [most]}, owners, {"stock": 0}
    want(stands == due, f"the document has {stands}, where {due} is due")


def try_conditions(asked, folder):
    node = Node(asked.program, folder / "a")
    with running(node), concurrent.futures.ThreadPoolExecutor(1) as other:
        with node.link() as link:
            link.answer(node.text("POST", "/edits", b'["inc","stock",%d]' % STOCK))
        ended = threading.Event()
        elsewhere = other.submit(edit_elsewhere, node, ended)
        try:
            try_races(node)
        finally:
            ended.set()
        count = elsewhere.result()
        want(count > 0, "nobody edited elsewhere")
    return f"{CLIENTS} clients lost no race beside {count} edits elsewhere"
