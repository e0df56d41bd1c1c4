"""What a call can refuse, as exceptions."""
import ctypes as c
import enum

from wagpisud._library import library


class Status(enum.IntEnum):
    """What a call answers (wp_status)."""
    DONE = 0
    NOT_OPEN = 1
    IS_OPEN = 2
    LIMIT = 3
    NO_MEMORY = 4
    NO_PORT = 5
    JOURNAL_FULL = 6
    NO_UNIT = 7
    NO_COMMAND = 8
    SERIALS = 9
    NO_EVENT = 10
    LINE_WORD = 11
    LINE_NUMBER = 12
    LINE_SERIAL = 13
    LINE_HEX = 14
    LINE_RANGE = 15
    LINE_LONG = 16
    NO_ENTRY = 17
    LINE_SPACE = 18


class Fault(Exception):
    """A call was refused, and changed nothing. `status` says why, and the text says it in words."""

    def __init__(self, status, about="", text=None):
        """`about` stands behind the library's words for the status; where `text` is given, that is all of it."""
        self.status = Status(status)
        super().__init__(f"{_text(status)}{about}" if text is None else text)

    def __reduce__(self):
        return type(self), (self.status, "", str(self))  # so that it can be read where the library isn't


class ChassisClosed(Fault):
    """The chassis was closed before."""


class LimitFault(Fault, ValueError):
    """A number that a chassis is to be opened with is outside its range, or a serial number is admitted twice."""


class NoMemory(Fault, MemoryError):
    """Memory was refused."""


class NoPort(Fault, LookupError):
    """The chassis has no such port."""


class NoUnit(Fault, LookupError):
    """No active unit of the port has this serial number."""


class EntryGone(Fault, LookupError):
    """The port's journal keeps no entry with this number."""


class JournalFull(Fault):
    """The port's journal keeps as many entries as it may. `Chassis.cut` makes room."""


class LineFault(Fault, ValueError):
    """A line of text asks for nothing that there is."""


_KINDS = {
    Status.NOT_OPEN: ChassisClosed,
    Status.LIMIT: LimitFault,
    Status.NO_MEMORY: NoMemory,
    Status.NO_PORT: NoPort,
    Status.JOURNAL_FULL: JournalFull,
    Status.NO_UNIT: NoUnit,
    Status.NO_ENTRY: EntryGone,
    Status.LINE_WORD: LineFault,
    Status.LINE_NUMBER: LineFault,
    Status.LINE_SERIAL: LineFault,
    Status.LINE_HEX: LineFault,
    Status.LINE_RANGE: LineFault,
    Status.LINE_LONG: LineFault,
    Status.LINE_SPACE: LineFault,
}


def _text(status):
    words = c.create_string_buffer(64)
    length = library().wp_text(status, words, len(words))
    return words.raw[:length].decode("ascii")


def must(status, about=""):
    """Raises the fault of a status that isn't DONE."""
    if status != Status.DONE:
        raise _KINDS.get(Status(status), Fault)(status, about)
