"""A convergent document store, inside this process.

Replicas hold a document each, are edited apart, offline if need be, and join when they meet. A document has nested
maps, add-wins sets and multi-value registers at the leaves, and counters at the root. Replicas that have the same
updates hold the same document.

    >>> from rds import Replica
    >>> names = ["shop", "store"]
    >>> with Replica.new("inventory", names, "shop") as shop, Replica.new("inventory", names, "store") as store:
    ...     edited = shop["apples/tags"].add("red")
    ...     edited = store["apples"].increase(10)
    ...     taken = store.pull(shop)
    ...     store["apples/tags"].values, store["apples"].counter
    (['red'], 10)

Nested mappings, as of JSON, go in by `update`, and a document comes out as plain values by `plain`:

    >>> with Replica.new("settings", ["one"], "one") as one:
    ...     edits = one.update({"log": {"level": "debug", "tags": ["x"]}})
    ...     one.plain()
    {'log': {'level': 'debug', 'tags': ['x']}}

A replica may live in a file, which `rds_node` reads and writes too. It is locked while it is open:

    >>> import os, tempfile
    >>> path = os.path.join(tempfile.mkdtemp(), "shop.rds")
    >>> with Replica.new("inventory", names, "shop", path) as shop:
    ...     edited = shop["apples/price"].set(3)
    ...     shop.keep()
    >>> with Replica.open(path) as shop:
    ...     shop["apples/price"].register
    [3]

`Replica.sync` meets a node that runs (`rds_node run`), over the network: each of the two takes what it lacks.
`Replica.join` makes a new replica of a node's group, by a name that the node puts into its roster. `follow` gives the
changes of a node as they come.

The premise: a replica is edited at one place, and what it has sent is never taken back. So edit no copy of a file
beside the original, and open no snapshot twice for editing.
"""
from ._changes import Change, follow
from ._faults import (
    Bad,
    BadCertificate,
    BadKey,
    BadLine,
    BadName,
    BadPath,
    BadRoster,
    BadScalar,
    BadText,
    Beside,
    Busy,
    Closed,
    Conflict,
    CounterFull,
    Cut,
    Exists,
    Extra,
    Forked,
    Linked,
    NotUtf8,
    OutOfTurn,
    OwnAhead,
    PeerEnded,
    RdsError,
    Replaced,
    SameReplica,
    SeqFull,
    TooLong,
    Unsure,
    WrongAsker,
    WrongGroup,
    WrongRoster,
    WrongVersion,
)
from ._nodes import Synced
from ._replica import Edit, Edited, Place, Replica, Scalar, Status

__all__ = [
    "Bad",
    "BadCertificate",
    "BadKey",
    "BadLine",
    "BadName",
    "BadPath",
    "BadRoster",
    "BadScalar",
    "BadText",
    "Beside",
    "Busy",
    "Change",
    "Closed",
    "Conflict",
    "CounterFull",
    "Cut",
    "Edit",
    "Edited",
    "Exists",
    "Extra",
    "Forked",
    "Linked",
    "NotUtf8",
    "OutOfTurn",
    "OwnAhead",
    "PeerEnded",
    "Place",
    "RdsError",
    "Replaced",
    "Replica",
    "SameReplica",
    "Scalar",
    "SeqFull",
    "Status",
    "Synced",
    "TooLong",
    "Unsure",
    "WrongAsker",
    "WrongGroup",
    "WrongRoster",
    "WrongVersion",
    "follow",
]
