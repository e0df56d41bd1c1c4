"""The shared library, its structures as ctypes has them, and its calls."""
import ctypes as c
import ctypes.util
import functools
import os
import pathlib

NAME = "libwagpisud.so.1"


class LibraryMissing(ImportError):
    """The shared library was not found."""


def _struct(name, **fields):
    return type(name, (c.Structure,), {"_fields_": list(fields.items()), "__doc__": f"wp_{name.lower()} of wagpisud.h"})


Handle = _struct("Chassis", at=c.c_void_p, is_open=c.c_uint64)
SerialOctets = _struct("Serial", octets=c.c_uint8 * 8)
Settings = _struct("Settings", licences=c.c_uint32, journal_limit=c.c_uint32)
PortSettings = _struct("Port", teqd=c.c_uint32, search_period=c.c_uint32, admitted=c.c_uint32, alloc_last=c.c_uint16,
                       quarantine=c.c_uint16, is_masked=c.c_uint8, max_units=c.c_uint8, cycles=c.c_uint8,
                       overhead=c.c_uint8 * 10)
AnswerNumbers = _struct("Answer", number=c.c_uint64, eqd=c.c_uint32, alloc=c.c_uint16, reply=c.c_uint8, refusal=c.c_uint8,
                        onu=c.c_uint8, count=c.c_uint8, grant=c.c_uint8, grant_onu=c.c_uint8, alarm=c.c_uint8,
                        alarm_serial=c.c_uint8 * 8, is_sent=c.c_uint8, sent=c.c_uint8 * 13)
AllocPlace = _struct("Alloc", alloc=c.c_uint16, is_there=c.c_uint8, is_leaving=c.c_uint8)
UnitNumbers = _struct("Unit", eqd=c.c_uint32, allocs=AllocPlace * 8, pending=c.c_uint16, is_pending=c.c_uint8,
                      waiting=c.c_uint8, onu=c.c_uint8, is_operating=c.c_uint8, attempts=c.c_uint8, was_seen=c.c_uint8,
                      dark=c.c_uint8, garbled=c.c_uint8)
CountNumbers = _struct("Counts", entries=c.c_uint64, first_kept=c.c_uint64, units=c.c_uint64, owed=c.c_uint64)
EventNumbers = _struct("Event", at=c.c_uint32, alloc=c.c_uint16, kind=c.c_uint8, command=c.c_uint8, serial=c.c_uint8 * 8,
                       octets=c.c_uint8 * 13)
AskedNumbers = _struct("Asked", event=EventNumbers, count=c.c_uint32, unit=c.c_uint16, kind=c.c_uint8, port=c.c_uint8,
                       is_lit=c.c_uint8, grant=c.c_uint8, grant_onu=c.c_uint8)

_CALLS = {
    "wp_open": [c.POINTER(Handle), c.POINTER(Settings), c.POINTER(PortSettings), c.c_size_t, c.POINTER(SerialOctets),
                c.c_size_t],
    "wp_frame": [c.POINTER(Handle), c.c_uint8, c.POINTER(AnswerNumbers)],
    "wp_burst": [c.POINTER(Handle), c.c_uint8, c.c_uint32, c.c_uint8 * 13, c.POINTER(AnswerNumbers)],
    "wp_command": [c.POINTER(Handle), c.c_uint8, c.c_uint8, c.POINTER(SerialOctets), c.c_uint16, c.POINTER(AnswerNumbers)],
    "wp_apply": [c.POINTER(Handle), c.c_uint8, c.POINTER(EventNumbers), c.POINTER(AnswerNumbers)],
    "wp_show": [c.POINTER(Handle), c.c_uint8, c.POINTER(SerialOctets), c.POINTER(UnitNumbers)],
    "wp_free": [c.POINTER(Handle), c.POINTER(c.c_uint32)],
    "wp_count": [c.POINTER(Handle), c.c_uint8, c.POINTER(CountNumbers)],
    "wp_entry": [c.POINTER(Handle), c.c_uint8, c.c_uint64, c.POINTER(EventNumbers), c.POINTER(AnswerNumbers)],
    "wp_line": [c.POINTER(Handle), c.c_uint8, c.c_uint64, c.c_char_p, c.c_size_t, c.POINTER(c.c_size_t)],
    "wp_cut": [c.POINTER(Handle), c.c_uint8],
    "wp_close": [c.POINTER(Handle)],
    "wp_turn": [c.c_char_p, c.c_size_t, c.POINTER(AskedNumbers)],
    "wp_text": [c.c_uint32, c.c_char_p, c.c_size_t],
}


def _places():
    named = os.environ.get("WAGPISUD_LIBRARY")
    if named:
        yield named
        return
    for folder in pathlib.Path(__file__).resolve().parents:
        if os.path.isfile(folder / NAME):  # False, and no fault, where the folder can't be looked into
            yield str(folder / NAME)
    found = ctypes.util.find_library("wagpisud")
    if found:
        yield found


@functools.cache
def library():
    """The calls of the shared library. LibraryMissing where it isn't found, or isn't this library."""
    for place in _places():
        try:
            loaded = c.CDLL(place)
            for name, arguments in _CALLS.items():
                call = getattr(loaded, name)
                call.argtypes = arguments
                call.restype = c.c_size_t if name == "wp_text" else c.c_uint32
        except (OSError, UnicodeError) as error:  # the second where its name is no text, and it isn't there
            raise LibraryMissing(str(error)) from error
        except AttributeError as error:
            raise LibraryMissing(f"{place} is another library, or another version of this one: {error}") from error
        return loaded
    raise LibraryMissing(f"{NAME} was not found: tools/install PREFIX puts it into PREFIX/lib; WAGPISUD_LIBRARY names another"
                         " file")
