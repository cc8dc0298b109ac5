from typing import Iterator, Tuple

import pytest

from rds import Replica

NAMES = ["shop", "store"]


@pytest.fixture
def shop() -> Iterator[Replica]:
    with Replica.new("inventory", NAMES, "shop") as replica:
        yield replica


@pytest.fixture
def pair() -> Iterator[Tuple[Replica, Replica]]:
    with Replica.new("inventory", NAMES, "shop") as one, Replica.new("inventory", NAMES, "store") as other:
        yield one, other
