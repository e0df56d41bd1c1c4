"""A chassis: up to sixteen ports, and one stock of licences."""
import ctypes as c
import dataclasses
import threading
import warnings

from wagpisud._faults import must
from wagpisud._library import (AnswerNumbers, CountNumbers, EventNumbers, Handle, PortSettings, SerialOctets, Settings,
                               UnitNumbers, library)
from wagpisud._values import (Command, Counts, Entry, answer_of, burst_octets, command_serial, event_numbers, event_of, fits,
                              octets_of, serial_struct, unit_of)

_LONGEST_LINE = 256
_threads = threading.local()


@dataclasses.dataclass
class Port:
    """What a port is opened with."""
    admit: list = dataclasses.field(default_factory=list)  # the serial numbers that it admits, at most 512
    teqd: int = 311_040  # the equalized round-trip delay in bit times
    search_period: int = 0  # frames in standby before a search begins by itself, at most 1,000,000; 0 for never
    alloc_last: int = 4095  # the greatest Alloc-ID that it may assign, from 256 on
    quarantine: int = 800  # frames in which a freed ONU-ID is given to no other unit, at most 8000
    is_masked: bool = False  # check octets are XORed with 85
    max_units: int = 254  # the units that may be active at once, from 1 on
    cycles: int = 3  # the search windows of one acquisition, 1 to 10
    overhead: bytes = bytes(10)  # the octets of Upstream_Overhead, which are passed on unread


def _this_thread():
    """What stands for this thread and never for another: the system gives its number again once it has ended."""
    if not hasattr(_threads, "mark"):
        _threads.mark = object()
    return _threads.mark


def _admitted(port):
    """The serial numbers that a port admits."""
    if not isinstance(port, Port):
        raise TypeError(f"a chassis is opened with Ports, and not with {type(port).__name__}")
    if isinstance(port.admit, (str, bytes, bytearray, memoryview)):
        raise TypeError(f"admit is a list of serial numbers, and not {type(port.admit).__name__}")
    return [serial_struct(serial) for serial in port.admit]


def _port_settings(port, admitted):
    return PortSettings(teqd=fits("teqd", port.teqd, 4), search_period=fits("search_period", port.search_period, 4),
                        admitted=admitted, alloc_last=fits("alloc_last", port.alloc_last, 2),
                        quarantine=fits("quarantine", port.quarantine, 2), is_masked=bool(port.is_masked),
                        max_units=fits("max_units", port.max_units, 1), cycles=fits("cycles", port.cycles, 1),
                        overhead=(c.c_uint8 * 10)(*octets_of("overhead", port.overhead, 10)))


class Chassis:
    """A chassis of 1 to 16 ports. It is closed by `close`, or at the end of its `with`. One that is let go open is closed
    where that happens on its thread, with a ResourceWarning. It is neither copied nor pickled; behind os.fork each process has
    one of its own.

    Each call raises RuntimeError on another thread than the one that opened it, TypeError where a number is no integer,
    ValueError where it doesn't fit its type in wagpisud.h, ChassisClosed behind `close`, and NoPort where the chassis has no
    such port; what else it may raise is said there. Nothing is changed by a call that raises."""

    def __init__(self, ports, licences, journal_limit=4096):
        """Opens it, each port without units. `licences`, at most 4064, are the active units that it may have on all ports
        together; `journal_limit`, 1 to 1,000,000, the entries that each port's journal keeps. ValueError where a text is no
        serial number or a number doesn't fit; LimitFault, which is a ValueError too, where a number is outside its range or a
        serial number is admitted twice. NoMemory. RuntimeError where it is open already."""
        if getattr(self, "_handle", None) and self._handle.is_open:
            raise RuntimeError("a chassis is opened once")
        ports = list(ports)
        admitted = [_admitted(port) for port in ports]
        serials = [serial for some in admitted for serial in some]
        each = [_port_settings(port, len(some)) for port, some in zip(ports, admitted)]
        settings = Settings(fits("licences", licences, 4), fits("journal_limit", journal_limit, 4))
        self._library = library()
        self._thread = _this_thread()
        self._handle = Handle()
        must(self._library.wp_open(self._handle, settings, (PortSettings * len(each))(*each), len(each),
                                   (SerialOctets * len(serials))(*serials), len(serials)))

    def __enter__(self):
        return self

    def __exit__(self, *_):
        if self._handle.is_open:
            self.close()

    def __del__(self):
        if getattr(self, "_handle", None) and self._handle.is_open:
            if _this_thread() is self._thread:
                self.close()
            warnings.warn("a chassis was let go open", ResourceWarning, source=self)

    def __reduce__(self):
        raise TypeError("a chassis is neither copied nor pickled")

    def _call(self, name, *arguments):
        if _this_thread() is not self._thread:
            raise RuntimeError("a chassis is used on the thread that opened it")
        must(getattr(self._library, name)(self._handle, *arguments))

    def _answer(self, name, *arguments):
        numbers = AnswerNumbers()
        self._call(name, *arguments, c.byref(numbers))
        return answer_of(numbers)

    def frame(self, port=0):
        """A downstream frame of 125 microseconds begins. JournalFull, NoMemory."""
        return self._answer("wp_frame", fits("port", port, 1))

    def burst(self, at, octets, port=0):
        """Thirteen octets arrive from a unit, `at` bit times after their grant: the whole measured round-trip delay, without
        the unit's equalization delay. JournalFull, NoMemory; ValueError where they aren't thirteen, or `at` doesn't fit."""
        return self._answer("wp_burst", fits("port", port, 1), fits("at", at, 4), burst_octets(octets))

    def command(self, command, serial=None, alloc=0, port=0):
        """The operator asks for something. SEARCH, ENABLE_ALL and POPUP_ALL look at no serial number, and DEALLOC alone at
        an Alloc-ID. JournalFull, NoMemory; ValueError where the serial number or the kind isn't one, or another command
        has no serial number."""
        command = Command(command)
        return self._answer("wp_command", fits("port", port, 1), command, command_serial(command, serial),
                            fits("alloc", alloc, 2))

    def search(self, port=0):
        """A search for units that have no ONU-ID."""
        return self.command(Command.SEARCH, port=port)

    def apply(self, event, port=0):
        """What an `Event` tells happens: that of `entry`, or of `read_turn`. JournalFull, NoMemory; ValueError where it is no
        event."""
        return self._answer("wp_apply", fits("port", port, 1), event_numbers(event))

    def show(self, serial, port=0):
        """What the port knows of the active unit with this serial number. No entry is made. NoUnit."""
        numbers = UnitNumbers()
        self._call("wp_show", fits("port", port, 1), serial_struct(serial), c.byref(numbers))
        return unit_of(numbers)

    @property
    def free(self):
        """How many licences are free: the active units that the chassis may still find."""
        count = c.c_uint32()
        self._call("wp_free", c.byref(count))
        return count.value

    def counts(self, port=0):
        """What is counted of a port."""
        numbers = CountNumbers()
        self._call("wp_count", fits("port", port, 1), c.byref(numbers))
        return Counts(numbers.entries, numbers.first_kept, numbers.units, numbers.owed)

    def entry(self, number, port=0):
        """The entry that the port's journal keeps under this number. EntryGone."""
        event, answer = EventNumbers(), AnswerNumbers()
        self._call("wp_entry", fits("port", port, 1), fits("number", number, 8), c.byref(event), c.byref(answer))
        return Entry(event_of(event), answer_of(answer))

    def line(self, number, port=0):
        """The same as a line of the trace, without its line feed: what `oltctl replay` writes and `oltctl verify` reads.
        EntryGone."""
        octets, length = c.create_string_buffer(_LONGEST_LINE), c.c_size_t()
        self._call("wp_line", fits("port", port, 1), fits("number", number, 8), octets, len(octets), c.byref(length))
        return octets.raw[:length.value].decode("ascii").rstrip("\n")

    def cut(self, port=0):
        """Lets go the entries that the port's journal keeps, so that it has room again. NoMemory."""
        self._call("wp_cut", fits("port", port, 1))

    def close(self):
        """Gives all memory back."""
        self._call("wp_close")
