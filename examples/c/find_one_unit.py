"""Finds one unit, ranges it, and prints its equalization delay, 211040: examples/c/find_one_unit.c from Python.

python3 find_one_unit.py libwagpisud.so"""
import ctypes as c
import sys


def struct(name, **fields):
    return type(name, (c.Structure,), {"_fields_": list(fields.items())})


Chassis = struct("Chassis", at=c.c_void_p, is_open=c.c_uint64)
Settings = struct("Settings", licences=c.c_uint32, journal_limit=c.c_uint32)
Serial = struct("Serial", octets=c.c_uint8 * 8)
Port = struct("Port", teqd=c.c_uint32, search_period=c.c_uint32, admitted=c.c_uint32, alloc_last=c.c_uint16,
              quarantine=c.c_uint16, is_masked=c.c_uint8, max_units=c.c_uint8, cycles=c.c_uint8,
              overhead=c.c_uint8 * 10)
Answer = struct("Answer", number=c.c_uint64, eqd=c.c_uint32, alloc=c.c_uint16, reply=c.c_uint8, refusal=c.c_uint8,
                onu=c.c_uint8, count=c.c_uint8, grant=c.c_uint8, grant_onu=c.c_uint8, alarm=c.c_uint8,
                alarm_serial=c.c_uint8 * 8, is_sent=c.c_uint8, sent=c.c_uint8 * 13)
SEARCH, FOUND, RANGED = 0, 3, 8

wp = c.CDLL(sys.argv[1])
chassis, answer, serial = Chassis(), Answer(), Serial((c.c_uint8 * 8)(*b"ABCD\0\0\0\1"))


def must(status):
    if status != 0:
        sys.exit(f"find_one_unit: status {status}")


def frames(count):
    for _ in range(count):
        must(wp.wp_frame(c.byref(chassis), c.c_uint8(0), c.byref(answer)))


def burst(digits):
    octets = (c.c_uint8 * 13)(*bytes.fromhex(digits))
    must(wp.wp_burst(c.byref(chassis), c.c_uint8(0), c.c_uint32(100000), octets, c.byref(answer)))
    return answer.reply


port, one = Port(teqd=311040, admitted=1, alloc_last=4095, max_units=254, cycles=1), c.c_size_t(1)
must(wp.wp_open(c.byref(chassis), c.byref(Settings(1, 4096)), c.byref(port), one, c.byref(serial), one))
must(wp.wp_command(c.byref(chassis), c.c_uint8(0), c.c_uint8(SEARCH), c.byref(serial), c.c_uint16(0), c.byref(answer)))
frames(5)
assert burst("ff01414243440000000100002c") == FOUND
frames(4)
assert burst("0001414243440000000100006b") == RANGED
print(answer.eqd)
must(wp.wp_close(c.byref(chassis)))
