"""What an attack of the catalogue is."""
import dataclasses
from collections.abc import Callable

RUN, KEYS, SERVE = "run", "keys", "serve"


@dataclasses.dataclass(frozen=True)
class Attack:
    """`cost` is what it may cost the site, `end` how it has to end; `act` attacks a Field, and fails where it ends otherwise."""

    name: str
    cost: str
    end: str
    act: Callable
    doors: tuple = (RUN,)
    # Whether the witness's connections may be cut, and what it asks for refused.
    may_cut: bool = False
    may_refuse: bool = False
    # Whether it is soon over, and so is made again until the time is. A run of `serve` has too few connections for that.
    is_repeated: bool = False
    # Whether it means something without a proof: allocations can't be refused there.
    needs_proof: bool = False
    # What the program has: limits, an environment, its standard error, a clock that moves.
    more: Callable = dict


def moves_clock():
    """What the program has whose clock an attack moves."""
    return {"moves_clock": True}
