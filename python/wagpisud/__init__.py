"""Wagpisud from Python: the activation side of a GPON line terminal (ITU-T G.984.3), over its C library.

    import wagpisud

    with wagpisud.Chassis([wagpisud.Port(admit=["ABCD00000001"], cycles=1)], licences=1) as chassis:
        chassis.search()
        for _ in range(5):
            answer = chassis.frame()        # each 125 microseconds; answer.sent goes out to the units
        answer = chassis.burst(100_000, bytes.fromhex("ff01414243440000000100002c"))  # Reply.FOUND

Frames last 125 microseconds, delays are in bit times of 1.24416 Gbit/s upstream, serial numbers are texts as
"ABCD00000001" or eight octets. What a call refuses is a `Fault`; that a port refuses a burst or a command is no fault but
an answer, whose `reply` is `Reply.REFUSED`. A chassis is used on the thread that opened it.

The shared library is the one that WAGPISUD_LIBRARY names, and no other; where that isn't set, a libwagpisud.so.1 in a
folder above this file (`tools/install PREFIX` puts it into PREFIX/lib), and else where the system looks. It is loaded by
the first call: LibraryMissing where it isn't found."""
from wagpisud._chassis import Chassis, Port
from wagpisud._faults import (ChassisClosed, EntryGone, Fault, JournalFull, LimitFault, LineFault, NoMemory, NoPort, NoUnit,
                              Status)
from wagpisud._library import LibraryMissing
from wagpisud._turns import Asked, Turn, read_turn
from wagpisud._values import (Alarm, Allocated, Answer, Command, Counts, Entry, Event, EventKind, Grant, Refusal, Reply,
                              Unit, serial_octets, serial_text)

__all__ = ["Alarm", "Allocated", "Answer", "Asked", "Chassis", "ChassisClosed", "Command", "Counts", "Entry", "EntryGone",
           "Event", "EventKind", "Fault", "Grant", "JournalFull", "LibraryMissing", "LimitFault", "LineFault", "NoMemory",
           "NoPort", "NoUnit", "Port", "Refusal", "Reply", "Status", "Turn", "Unit", "read_turn", "serial_octets",
           "serial_text"]
