"""What a chassis is told and answers, as values."""
import ctypes as c
import dataclasses
import enum
import itertools
import operator
import re

from wagpisud._library import EventNumbers, SerialOctets


class Reply(enum.IntEnum):
    """The kinds of reply (wp_reply); wagpisud.h has which numbers of an answer each has."""
    TICKED = 0
    REFUSED = 1
    SEARCHING = 2
    FOUND = 3
    AGAIN = 4
    REPEAT = 5
    RESTARTED = 6
    DISABLED_SEEN = 7
    RANGED = 8
    TOO_FAR = 9
    STILL_RANGING = 10
    ALIVE = 11
    ACKED = 12
    GASP = 13
    ALLOCATED = 14
    RELEASING = 15
    DEACTIVATED = 16
    DISABLED = 17
    ENABLED = 18
    ENABLED_ALL = 19
    POPPED_UP = 20
    POPPED_UP_ALL = 21
    SHOWN = 22


class Refusal(enum.IntEnum):
    """Why a burst or a command was refused (wp_refusal)."""
    STRAY = 1
    GARBLED = 2
    WRONG_WINDOW = 3
    NOT_ADMITTED = 4
    NO_ID = 5
    NO_LICENCE = 6
    BUSY = 7
    NOT_ACTIVE = 8
    NOT_OPERATING = 9
    PENDING_ALLOC = 10
    ALLOC_FULL = 11
    NOT_HELD = 12
    NO_ALLOC = 13
    ALREADY_SEARCHING = 14


class Grant(enum.IntEnum):
    """Whom the window asks that opens with a frame (wp_grant)."""
    NONE = 0
    SEARCH = 1
    RANGE = 2
    POLL = 3


class Alarm(enum.IntEnum):
    """Alarms (G.984.3, clause 11; wp_alarm)."""
    NONE = 0
    LOS = 1
    LOAM = 2
    LOA = 3
    SUF = 4
    DF = 5
    DG = 6


class Command(enum.IntEnum):
    """What an operator asks for (wp_command_kind)."""
    SEARCH = 0
    ALLOC = 1
    DEALLOC = 2
    DEACTIVATE = 3
    DISABLE = 4
    ENABLE = 5
    ENABLE_ALL = 6
    POPUP = 7
    POPUP_ALL = 8
    SHOW = 9


class EventKind(enum.IntEnum):
    """The kinds of events (wp_event_kind)."""
    FRAME = 0
    BURST = 1
    COMMAND = 2


_SERIAL = re.compile(r"[A-Z0-9]{4}[0-9A-Fa-f]{8}|[0-9A-Fa-f]{16}", re.ASCII)
_VENDOR = b"ABCDEFGHIJKLMNOPQRSTUVWXYZ0123456789"


def fits(name, number, octets):
    """The number as an int, if so many octets hold it. TypeError where it is no integer, ValueError where they don't."""
    try:
        whole = operator.index(number)
    except TypeError:
        raise TypeError(f"{name} is an integer, and not {type(number).__name__}") from None
    if not 0 <= whole < 1 << 8 * octets:
        told = whole if whole.bit_length() <= 64 else f"a number of {whole.bit_length()} bits"
        raise ValueError(f"{name} is {told}, and not between 0 and {(1 << 8 * octets) - 1}")
    return whole


def octets_of(name, octets, count):
    """So many octets, of bytes or of integers. TypeError where they aren't any, ValueError where they are more or fewer, or
    one is outside 0 to 255."""
    try:
        taken = bytes(itertools.islice(octets, count + 1))
    except (TypeError, NotImplementedError) as error:  # the second of a memoryview of more than one dimension
        raise TypeError(f"{name} has {count} octets: {error}") from None
    except ValueError as error:
        raise ValueError(f"{name} has {count} octets: {error}") from None
    if len(taken) != count:
        raise ValueError(f"{name} has {count} octets, and not {'more' if len(taken) > count else len(taken)}")
    return taken


def serial_octets(serial):
    """The eight octets of a serial number: of "ABCD00000001", of sixteen hexadecimal digits, or of eight octets.
    ValueError for any other text or number of octets, TypeError for what is neither."""
    if not isinstance(serial, str):
        return octets_of("a serial number", serial, 8)
    if not _SERIAL.fullmatch(serial):
        raise ValueError(f"{serial!r} is no serial number: four of A to Z or 0 to 9 and eight hexadecimal digits, or sixteen"
                         " hexadecimal digits")
    return bytes.fromhex(serial) if len(serial) == 16 else serial[:4].encode("ascii") + bytes.fromhex(serial[4:])


def serial_text(octets):
    """A serial number as traces write it: its vendor and eight digits where the vendor is four of A to Z or 0 to 9, else
    sixteen digits. ValueError where they aren't eight."""
    octets = octets_of("a serial number", octets, 8)
    vendor, number = octets[:4], octets[4:]
    if all(octet in _VENDOR for octet in vendor):
        return vendor.decode("ascii") + number.hex().upper()
    return octets.hex().upper()


def serial_struct(serial):
    return SerialOctets((c.c_uint8 * 8)(*serial_octets(serial)))


@dataclasses.dataclass(frozen=True)
class Answer:
    """What an event gave. A number that its reply has no use for is 0."""
    number: int  # how many entries the port had before this one
    reply: Reply
    refusal: Refusal | None  # why, where the reply is REFUSED
    onu: int  # an ONU-ID, 0 to 253
    alloc: int  # an Alloc-ID, 256 to 4095
    eqd: int  # an equalization delay in bit times
    count: int  # a count of units
    grant: Grant
    grant_onu: int  # the ONU-ID that is asked
    alarm: Alarm
    alarm_serial: str | None  # whose it is
    sent: bytes | None  # the message that goes out with this frame, thirteen octets with the check octet


def answer_of(numbers):
    reply, alarm = Reply(numbers.reply), Alarm(numbers.alarm)
    return Answer(number=numbers.number, reply=reply, refusal=Refusal(numbers.refusal) if reply is Reply.REFUSED else None,
                  onu=numbers.onu, alloc=numbers.alloc, eqd=numbers.eqd, count=numbers.count, grant=Grant(numbers.grant),
                  grant_onu=numbers.grant_onu, alarm=alarm,
                  alarm_serial=serial_text(numbers.alarm_serial) if alarm is not Alarm.NONE else None,
                  sent=bytes(numbers.sent) if numbers.is_sent else None)


@dataclasses.dataclass(frozen=True)
class Allocated:
    """A further Alloc-ID of a unit."""
    alloc: int  # 256 to 4095
    is_leaving: bool  # the unit is to give it back


@dataclasses.dataclass(frozen=True)
class Unit:
    """What a port knows of an active unit."""
    onu: int  # its ONU-ID, 0 to 253, which is also its default Alloc-ID
    is_operating: bool  # else it is ranging
    eqd: int  # its equalization delay in bit times, 0 of a ranging unit
    allocs: tuple[Allocated, ...]  # its further Alloc-IDs in rising order
    pending: int | None  # the Alloc-ID that it has still to acknowledge
    waiting: int  # in how many poll windows it has not done so, 0 to 2
    attempts: int  # of a ranging unit: how many ranging windows closed without a result, 0 or 1
    was_seen: bool  # of a ranging unit: anything was heard in them
    dark: int  # of an operating unit: how many polls in a row nothing answered, 0 to 3
    garbled: int  # of an operating unit: how many were answered by nothing that could be read, 0 to 2


def unit_of(numbers):
    allocs = tuple(Allocated(place.alloc, bool(place.is_leaving)) for place in numbers.allocs if place.is_there)
    return Unit(onu=numbers.onu, is_operating=bool(numbers.is_operating), eqd=numbers.eqd, allocs=allocs,
                pending=numbers.pending if numbers.is_pending else None, waiting=numbers.waiting, attempts=numbers.attempts,
                was_seen=bool(numbers.was_seen), dark=numbers.dark, garbled=numbers.garbled)


@dataclasses.dataclass(frozen=True)
class Counts:
    """What is counted of a port."""
    entries: int  # how many entries it ever had: the number of the next one
    first_kept: int  # the number of the first entry that its journal keeps, or of the next one
    units: int  # how many units are active, at most 254
    owed: int  # how many copies of messages are still to be sent, one with each frame


@dataclasses.dataclass(frozen=True)
class Event:
    """What happens at a port: a frame, a burst (`at`, `octets`) or a command (`command`, `serial`, `alloc`)."""
    kind: EventKind
    at: int = 0  # the whole measured round-trip delay in bit times
    octets: bytes | None = None  # what arrived
    command: Command | None = None
    serial: str | None = None
    alloc: int = 0


_WITH_SERIAL = {Command.ALLOC, Command.DEALLOC, Command.DEACTIVATE, Command.DISABLE, Command.ENABLE, Command.POPUP,
                Command.SHOW}


def event_of(numbers):
    kind = EventKind(numbers.kind)
    if kind is EventKind.FRAME:
        return Event(kind)
    if kind is EventKind.BURST:
        return Event(kind, at=numbers.at, octets=bytes(numbers.octets))
    command = Command(numbers.command)
    return Event(kind, command=command, serial=serial_text(numbers.serial) if command in _WITH_SERIAL else None,
                 alloc=numbers.alloc)


def burst_octets(octets):
    """Thirteen octets as ctypes has them."""
    return (c.c_uint8 * 13)(*octets_of("a burst", octets, 13))


def command_serial(command, serial):
    """The serial number of a command as ctypes has it. ValueError where the command is for a unit and none is given."""
    if serial is None and command in _WITH_SERIAL:
        raise ValueError(f"{command.name} is for one unit, and no serial number is given")
    return serial_struct(bytes(8) if serial is None else serial)


def event_numbers(event):
    if not isinstance(event, Event):
        raise TypeError(f"an Event is applied, and not {type(event).__name__}")
    kind = EventKind(event.kind)
    if kind is EventKind.BURST and event.octets is None:
        raise ValueError("a burst has 13 octets, and not none")
    if kind is EventKind.COMMAND and event.command is None:
        raise ValueError("an event of a command has a command")
    command = None if event.command is None else Command(event.command)
    numbers = EventNumbers(at=fits("at", event.at, 4), alloc=fits("alloc", event.alloc, 2), kind=kind, command=command or 0,
                           serial=command_serial(command, event.serial).octets)
    if event.octets is not None:
        numbers.octets = burst_octets(event.octets)
    return numbers


@dataclasses.dataclass(frozen=True)
class Entry:
    """An entry of a port's journal: what happened, and what the port gave for it."""
    event: Event
    answer: Answer
