"""Lines of text that ask for something, as `oltctl drive` reads them (`oltctl drive --help`)."""
import ctypes as c
import dataclasses
import enum

from wagpisud._faults import must
from wagpisud._library import AskedNumbers, library
from wagpisud._values import Event, Grant, event_of


_SHOWN = 200  # so many characters of a line are told with its fault


class Turn(enum.IntEnum):
    """The kinds of turns (wp_turn_kind)."""
    NOTHING = 0
    EVENT = 1
    FRAMES = 2
    UNTIL = 3
    LIGHT = 4
    UNIT = 5


@dataclasses.dataclass(frozen=True)
class Asked:
    """What a line asks for; wagpisud.h has which fields each kind of turn has."""
    kind: Turn
    port: int = 0
    event: Event | None = None
    count: int = 0  # frames, 1 to 1,000,000
    grant: Grant = Grant.NONE
    grant_onu: int = 0
    unit: int = 0  # a simulated unit, 0 to 1023, which the library has none of
    is_lit: bool = False


def read_turn(line):
    """Reads a line, without its line feed. LineFault tells its first fault."""
    if not isinstance(line, str):
        raise TypeError(f"a line is a text, and not {type(line).__name__}")
    text, asked = line.encode("utf-8", "surrogatepass"), AskedNumbers()
    must(library().wp_turn(text, len(text), c.byref(asked)), f": {line[:_SHOWN]!r}{'..' if len(line) > _SHOWN else ''}")
    kind = Turn(asked.kind)
    return Asked(kind, port=asked.port, event=event_of(asked.event) if kind is Turn.EVENT else None, count=asked.count,
                 grant=Grant(asked.grant), grant_onu=asked.grant_onu, unit=asked.unit, is_lit=bool(asked.is_lit))
