"""Tests of the module: python3 -m unittest discover python/tests, with PYTHONPATH=python and WAGPISUD_LIBRARY."""
import _ctypes
import array
import contextlib
import copy
import os
import pickle
import resource
import subprocess
import sys
import tempfile
import threading
import unittest
import warnings

import wagpisud
from wagpisud import Alarm, Chassis, Command, Event, EventKind, Grant, Port, Refusal, Reply, Status, Turn

SERIAL = "ABCD00000001"
ASKS = bytes.fromhex("ff01414243440000000100002c")
RANGES = bytes.fromhex("0001414243440000000100006b")


def opened_with(**port):
    return Chassis([Port(**port)], licences=1)


def opened(journal_limit=4096, **port):
    return Chassis([Port(admit=[SERIAL], cycles=1, **port)], licences=1, journal_limit=journal_limit)


def ranged(chassis):
    """Finds the unit and ranges it; gives both answers."""
    chassis.search()
    for _ in range(5):
        chassis.frame()
    found = chassis.burst(100_000, ASKS)
    for _ in range(4):
        chassis.frame()
    return found, chassis.burst(100_000, RANGES)


class Activation(unittest.TestCase):
    def test_a_unit_is_found_and_ranged(self):
        with opened() as chassis:
            found, answer = ranged(chassis)
            self.assertEqual((found.reply, found.onu, found.refusal, found.sent), (Reply.FOUND, 0, None, None))
            self.assertEqual((answer.reply, answer.onu, answer.eqd), (Reply.RANGED, 0, 211_040))
            unit = chassis.show(SERIAL)
            self.assertEqual((unit.onu, unit.is_operating, unit.eqd, unit.allocs, unit.pending), (0, True, 211_040, (), None))
            self.assertEqual((chassis.free, chassis.counts().units, chassis.counts().entries), (0, 1, 12))

    def test_a_frame_sends_and_grants(self):
        with opened() as chassis:
            chassis.search()
            answers = [chassis.frame() for _ in range(5)]
            # Upstream_Overhead goes out three times, from the second frame on, and then the search window opens
            overhead = bytes.fromhex("ff010000000000000000000058")
            self.assertEqual([answer.sent for answer in answers], [None, overhead, overhead, overhead, None])
            self.assertEqual([answer.grant for answer in answers], [Grant.NONE] * 4 + [Grant.SEARCH])

    def test_an_alloc_id_is_given(self):
        with opened() as chassis:
            ranged(chassis)
            answer = chassis.command(Command.ALLOC, SERIAL)
            self.assertEqual((answer.reply, answer.alloc), (Reply.ALLOCATED, 256))
            self.assertEqual(chassis.show(SERIAL).pending, 256)

    def test_an_alarm_names_its_unit(self):
        with opened() as chassis:
            ranged(chassis)
            for _ in range(2000):
                answer = chassis.frame()
                if answer.alarm is not Alarm.NONE:
                    break
            self.assertEqual((answer.alarm, answer.alarm_serial), (Alarm.LOS, SERIAL))
            self.assertEqual(chassis.free, 1)


class Refusals(unittest.TestCase):
    def test_a_refusal_is_an_answer(self):
        with opened() as chassis:
            answer = chassis.burst(100_000, ASKS)
            self.assertEqual((answer.reply, answer.refusal), (Reply.REFUSED, Refusal.STRAY))
            answer = chassis.command(Command.DEACTIVATE, SERIAL)
            self.assertEqual((answer.reply, answer.refusal), (Reply.REFUSED, Refusal.NOT_ACTIVE))

    def test_faults_have_their_status(self):
        with opened(journal_limit=1) as chassis:
            chassis.frame()
            for fault, status, call in (
                    (wagpisud.JournalFull, Status.JOURNAL_FULL, chassis.frame),
                    (wagpisud.NoPort, Status.NO_PORT, lambda: chassis.frame(1)),
                    (wagpisud.NoUnit, Status.NO_UNIT, lambda: chassis.show(SERIAL)),
                    (wagpisud.EntryGone, Status.NO_ENTRY, lambda: chassis.entry(1))):
                with self.assertRaises(fault) as caught:
                    call()
                self.assertEqual(caught.exception.status, status)
                self.assertIsInstance(caught.exception, wagpisud.Fault)
                self.assertRegex(str(caught.exception), r"\A[ -~]+\Z")
                self.assertEqual(str(pickle.loads(pickle.dumps(caught.exception))), str(caught.exception))
            chassis.cut()
            self.assertEqual(chassis.frame().number, 1)
            self.assertEqual((chassis.counts().first_kept, chassis.counts().entries), (1, 2))

    def test_a_closed_chassis_is_told(self):
        chassis = opened()
        chassis.close()
        for call in (chassis.frame, chassis.close, lambda: chassis.free):
            with self.assertRaises(wagpisud.ChassisClosed):
                call()

    def test_it_closes_behind_an_exception(self):
        with self.assertRaises(KeyError):
            with opened() as chassis:
                raise KeyError
        with self.assertRaises(wagpisud.ChassisClosed):
            chassis.frame()

    def test_numbers_outside_their_range(self):
        with self.assertRaises(wagpisud.LimitFault):
            opened(max_units=0)
        with self.assertRaises(wagpisud.LimitFault):
            Chassis([Port(admit=[SERIAL, SERIAL])], licences=1)
        with self.assertRaises(wagpisud.LimitFault):
            Chassis([], licences=1)
        with self.assertRaisesRegex(ValueError, "max_units is 300"):
            opened(max_units=300)
        with opened() as chassis:
            with self.assertRaisesRegex(ValueError, "at is -1"):
                chassis.burst(-1, ASKS)
            with self.assertRaisesRegex(ValueError, "13 octets, and not 12"):
                chassis.burst(0, ASKS[:12])
            with self.assertRaises(ValueError):
                chassis.command(10)
            for event in (Event(EventKind.COMMAND), Event(EventKind.BURST, at=5),
                          Event(EventKind.BURST, at=-1, octets=ASKS), Event(256), Event(EventKind.COMMAND, command=259),
                          Event(EventKind.COMMAND, command=Command.DEALLOC, serial=SERIAL, alloc=65_836)):
                with self.assertRaises(ValueError):
                    chassis.apply(event)
            with self.assertRaises(ValueError):
                chassis.burst(5, [256] * 13)
            self.assertEqual(chassis.counts().entries, 0)
        with self.assertRaises(ValueError):
            opened(overhead=[300] * 10)

    def test_another_thread_is_refused(self):
        with opened() as chassis:
            told = []

            def use():
                try:
                    chassis.frame()
                except RuntimeError as error:
                    told.append(str(error))

            thread = threading.Thread(target=use)
            thread.start()
            thread.join()
            self.assertEqual(told, ["a chassis is used on the thread that opened it"])
            self.assertEqual(chassis.counts().entries, 0)


class Number:
    """An integer that is no int, as those of numpy are."""

    def __init__(self, value):
        self.value = value

    def __index__(self):
        return self.value


class Arguments(unittest.TestCase):
    def assert_refused(self, wrong, message, call, *arguments, **named):
        """The call raises what is wrong, and the message says so from its front."""
        with self.assertRaises(wrong) as caught:
            call(*arguments, **named)
        self.assertEqual(type(caught.exception), wrong)
        self.assertRegex(str(caught.exception), rf"\A{message}")

    def test_what_is_no_integer(self):
        with opened() as chassis:
            for wrong in (None, "1", b"1", 1.0, 1.5, float("nan"), float("inf"), 1j, [], object()):
                told = f" is an integer, and not {type(wrong).__name__}"
                for name, call, *arguments in (
                        ("port", chassis.frame, wrong), ("port", chassis.cut, wrong), ("port", chassis.counts, wrong),
                        ("port", chassis.line, 0, wrong), ("port", chassis.search, wrong), ("number", chassis.entry, wrong),
                        ("number", chassis.line, wrong), ("at", chassis.burst, wrong, ASKS),
                        ("port", chassis.burst, 0, ASKS, wrong), ("alloc", chassis.command, Command.DEALLOC, SERIAL, wrong),
                        ("port", chassis.show, SERIAL, wrong), ("port", chassis.apply, Event(EventKind.FRAME), wrong),
                        ("at", chassis.apply, Event(EventKind.BURST, at=wrong, octets=ASKS)),
                        ("licences", Chassis, [Port()], wrong), ("journal_limit", Chassis, [Port()], 1, wrong)):
                    self.assert_refused(TypeError, name + told, call, *arguments)
                for name in ("teqd", "search_period", "alloc_last", "quarantine", "max_units", "cycles"):
                    self.assert_refused(TypeError, name + told, opened_with, **{name: wrong})
            self.assertEqual(chassis.counts().entries, 0)

    def test_what_does_not_fit(self):
        with opened() as chassis:
            for octets, name, call in ((1, "port", chassis.frame), (8, "number", chassis.entry),
                                       (4, "at", lambda number: chassis.burst(number, ASKS)),
                                       (2, "alloc", lambda number: chassis.command(Command.DEALLOC, SERIAL, number)),
                                       (4, "licences", lambda number: Chassis([Port()], number)),
                                       (4, "teqd", lambda number: opened_with(teqd=number)),
                                       (2, "quarantine", lambda number: opened_with(quarantine=number)),
                                       (1, "cycles", lambda number: opened_with(cycles=number))):
                for number in (-1, 1 << 8 * octets, Number(1 << 8 * octets), -1 << 64, 1 << 100_000):
                    self.assert_refused(ValueError, f"{name} is .*, and not between 0 and {(1 << 8 * octets) - 1}", call, number)
            self.assertEqual(chassis.counts().entries, 0)

    def test_integers_of_other_types(self):
        with Chassis([Port(admit=[SERIAL], cycles=Number(1))], licences=Number(1)) as chassis:
            self.assertEqual(chassis.frame(Number(0)).number, 0)
            self.assertEqual(chassis.burst(Number(100_000), ASKS).refusal, Refusal.STRAY)
            self.assertEqual(chassis.line(Number(1)), f"0 1 burst 100000 {ASKS.hex()} = refused 1 stray")

    def test_octets_of_every_form(self):
        with opened() as chassis:
            forms = (ASKS, bytearray(ASKS), memoryview(ASKS), list(ASKS), tuple(ASKS), iter(ASKS), array.array("H", list(ASKS)),
                     [Number(octet) for octet in ASKS])
            for number, form in enumerate(forms):
                chassis.burst(100_000, form)
                self.assertEqual(chassis.entry(number).event.octets, ASKS)

    def test_what_are_no_octets(self):
        with opened() as chassis:
            square = memoryview(ASKS).cast("B", (13, 1))
            for wrong in (None, 13, Number(13), ASKS.hex(), "0" * 13, [1.0] * 13, [None] * 13, square):
                self.assert_refused(TypeError, "a burst has 13 octets: ", chassis.burst, 0, wrong)
                self.assert_refused(TypeError, "overhead has 10 octets: ", opened_with, overhead=wrong)
            for wrong in ([-1] * 13, [256] * 13, array.array("I", [256] * 13), iter(lambda: 0, 1), ASKS[:12], ASKS + b"0", []):
                self.assert_refused(ValueError, "a burst has 13 octets", chassis.burst, 0, wrong)
                self.assert_refused(ValueError, "overhead has 10 octets", opened_with, overhead=wrong)
            self.assertEqual(chassis.counts().entries, 0)

    def test_serial_numbers(self):
        with opened() as chassis:
            for wrong in (None, 5, 1.0, [SERIAL]):
                told = "a serial number has 8 octets: "
                self.assert_refused(TypeError, told, chassis.show, wrong)
                self.assert_refused(TypeError, told, opened_with, admit=[wrong])
                self.assert_refused(TypeError, told, wagpisud.serial_text, wrong)
            self.assert_refused(TypeError, "a serial number has 8 octets: ", wagpisud.serial_text, SERIAL)
            for wrong in (b"", b"ABCD", bytes(9), memoryview(bytes(7)), [256] * 8):
                told = "a serial number has 8 octets"
                self.assert_refused(ValueError, told, wagpisud.serial_text, wrong)
                self.assert_refused(ValueError, told, chassis.command, Command.ENABLE, wrong)
            for form in (b"ABCD\0\0\0\1", bytearray(b"ABCD\0\0\0\1"), memoryview(b"ABCD\0\0\0\1"), list(b"ABCD\0\0\0\1")):
                self.assertEqual(chassis.command(Command.DISABLE, form).reply, Reply.DISABLED)
                self.assertEqual(chassis.entry(chassis.counts().entries - 1).event.serial, SERIAL)

    def test_a_command_for_one_unit_names_it(self):
        with opened() as chassis:
            for command in Command:
                if command in (Command.SEARCH, Command.ENABLE_ALL, Command.POPUP_ALL):
                    self.assertIsNot(chassis.command(command).reply, Reply.TICKED)
                    continue
                entries = chassis.counts().entries
                for call in (lambda: chassis.command(command),
                             lambda: chassis.apply(Event(EventKind.COMMAND, command=command))):
                    self.assert_refused(ValueError, f"{command.name} is for one unit", call)
                self.assertEqual(chassis.counts().entries, entries)

    def test_other_things_in_their_place(self):
        with opened() as chassis:
            for wrong in (None, 5, "frame", chassis, EventKind.FRAME):
                self.assert_refused(TypeError, "an Event is applied, and not ", chassis.apply, wrong)
            for wrong in (None, 5, b"0 search"):
                self.assert_refused(TypeError, "a line is a text, and not ", wagpisud.read_turn, wrong)
            for wrong in ([None], [5], "ABCD", [[Port()]]):
                self.assert_refused(TypeError, "a chassis is opened with Ports, and not with ", Chassis, wrong, 1)
            for wrong in (SERIAL, b"ABCD\0\0\0\1"):
                self.assert_refused(TypeError, "admit is a list of serial numbers, and not ", opened_with, admit=wrong)
            for wrong in (None, "SEARCH", -1, 10, 256):
                self.assert_refused(ValueError, ".* is not a valid Command", chassis.command, wrong)
            self.assertEqual(chassis.counts().entries, 0)


class Handles(unittest.TestCase):
    def test_a_thread_with_the_number_of_one_that_ended(self):
        told, made = [], []

        def make():
            made[:] = opened(), threading.get_ident()

        def use(chassis, number):
            try:
                chassis.frame()
                told.append("used")
            except RuntimeError:
                told.append("refused, same number" if number == threading.get_ident() else "refused")

        with warnings.catch_warnings():
            warnings.simplefilter("ignore", ResourceWarning)
            for _ in range(100):
                for call, arguments in ((make, ()), (use, made)):
                    thread = threading.Thread(target=call, args=arguments)
                    thread.start()
                    thread.join()
                if told[-1] != "refused":
                    break
            made.clear()
        self.assertNotIn("used", told)

    def test_no_other_thread_comes_between(self):
        with opened() as chassis:
            told = []

            def use():
                for _ in range(2000):
                    try:
                        told.append(chassis.frame())
                    except RuntimeError:
                        pass

            threads = [threading.Thread(target=use) for _ in range(2)]
            for thread in threads:
                thread.start()
            numbers = [chassis.frame().number for _ in range(2000)]
            for thread in threads:
                thread.join()
            self.assertEqual((told, numbers), ([], [*range(2000)]))

    @unittest.skipUnless(hasattr(os, "fork"), "there is no fork here")
    def test_a_fork_has_its_own(self):
        with opened() as chassis:
            chassis.frame()
            child = os.fork()
            if child == 0:
                numbers = [chassis.frame().number, chassis.frame().number]
                chassis.close()
                os._exit(numbers != [1, 2])
            self.assertEqual(os.waitpid(child, 0)[1], 0)
            self.assertEqual(chassis.frame().number, 1)

    def test_no_copy_is_made(self):
        with opened() as chassis:
            for call in (copy.copy, copy.deepcopy, pickle.dumps):
                with self.assertRaisesRegex(TypeError, "a chassis is neither copied nor pickled"):
                    call(chassis)

    def test_it_is_opened_once(self):
        with opened() as chassis:
            handle = chassis._handle.at
            chassis.frame()
            with self.assertRaisesRegex(RuntimeError, "a chassis is opened once"):
                chassis.__init__([], licences=1)
            self.assertEqual(chassis._handle.at, handle)
            self.assertEqual(chassis.frame().number, 1)
            chassis.close()
            chassis.__init__([Port()], licences=1)
            self.assertEqual(chassis.frame().number, 0)

    def test_one_that_is_let_go(self):
        chassis = opened()
        handle = chassis._handle
        with self.assertWarnsRegex(ResourceWarning, "a chassis was let go open"):
            del chassis
        self.assertFalse(handle.is_open)

    def test_one_that_is_let_go_on_another_thread(self):
        kept = [opened()]
        handle = kept[0]._handle
        with self.assertWarnsRegex(ResourceWarning, "a chassis was let go open"):
            thread = threading.Thread(target=kept.clear)
            thread.start()
            thread.join()
        self.assertTrue(handle.is_open)

    def test_one_that_was_closed_is_let_go_in_silence(self):
        with warnings.catch_warnings():
            warnings.simplefilter("error")
            for make in (opened, lambda: opened(max_units=0), lambda: Chassis(None, 1), lambda: Chassis.__new__(Chassis)):
                with contextlib.suppress(ValueError, TypeError, AttributeError), make():
                    pass

    def test_memory_stays_flat(self):
        def reached(rounds):
            for _ in range(rounds):
                with opened() as chassis:
                    ranged(chassis)
            return resource.getrusage(resource.RUSAGE_SELF).ru_maxrss  # in KiB, on macOS in octets

        early = reached(500)
        self.assertLess(reached(4500), early * 1.1)

    def test_the_interpreter_ends(self):
        for text in ("kept = chassis", "kept = [chassis]; kept.append(kept); del chassis", "Chassis.kept = chassis",
                     "import builtins; builtins.kept = chassis", "import atexit; atexit.register(chassis.close)",
                     "del chassis", "chassis.close()"):
            text = f"from wagpisud import Chassis, Port\nchassis = Chassis([Port()], licences=1)\n{text}"
            ran = subprocess.run([sys.executable, "-B", "-c", text], capture_output=True, text=True, check=False)
            self.assertEqual((ran.returncode, ran.stdout, ran.stderr), (0, "", ""), text)


class Library(unittest.TestCase):
    def test_what_is_named_is_no_such_library(self):
        with tempfile.TemporaryDirectory() as folder:
            text = os.path.join(folder, "text.so")
            with open(text, "w", encoding="ascii") as file:
                file.write("no library\n" * 100)
            for named in (os.path.join(folder, "nowhere.so"), folder, text, _ctypes.__file__):
                ran = subprocess.run([sys.executable, "-B", "-c", "import wagpisud; wagpisud.Chassis([], licences=1)"],
                                     env=os.environ | {"WAGPISUD_LIBRARY": named}, capture_output=True, text=True, check=False)
                self.assertEqual(ran.returncode, 1)
                self.assertIn(f"wagpisud._library.LibraryMissing: {named}", ran.stderr.splitlines()[-1])

    def test_a_fault_is_read_where_the_library_is_not(self):
        with opened() as chassis, self.assertRaises(wagpisud.NoPort) as caught:
            chassis.frame(1)
        text = "import pickle, sys; it = pickle.load(sys.stdin.buffer); print(type(it).__name__, it.status.name, it)"
        ran = subprocess.run([sys.executable, "-B", "-c", text], input=pickle.dumps(caught.exception), stdout=subprocess.PIPE,
                             env=os.environ | {"WAGPISUD_LIBRARY": "/nowhere.so"}, check=True)
        self.assertEqual(ran.stdout.decode(), f"NoPort NO_PORT {caught.exception}\n")


class Journal(unittest.TestCase):
    def test_entries_are_applied_again(self):
        with opened() as chassis, opened() as other:
            ranged(chassis)
            chassis.command(Command.ALLOC, SERIAL)
            for number in range(chassis.counts().entries):
                entry = chassis.entry(number)
                self.assertEqual(other.apply(entry.event), entry.answer)
                self.assertEqual(other.line(number), chassis.line(number))

    def test_a_line_is_that_of_the_trace(self):
        with opened() as chassis:
            ranged(chassis)
            self.assertEqual(chassis.line(0), "0 0 search = searching")
            self.assertEqual(chassis.line(6), "0 6 burst 100000 ff01414243440000000100002c = found 0")


class Lines(unittest.TestCase):
    def test_turns_are_read(self):
        asked = wagpisud.read_turn("0 search")
        self.assertEqual((asked.kind, asked.port, asked.event.kind, asked.event.command),
                         (Turn.EVENT, 0, EventKind.COMMAND, Command.SEARCH))
        asked = wagpisud.read_turn("3 until poll 7 within 100")
        self.assertEqual((asked.kind, asked.port, asked.grant, asked.grant_onu, asked.count),
                         (Turn.UNTIL, 3, Grant.POLL, 7, 100))
        self.assertEqual(wagpisud.read_turn("# a remark").kind, Turn.NOTHING)

    def test_faults_are_told_with_their_line(self):
        for line, status in (("0 serch", Status.LINE_WORD), ("0 frame 1000001", Status.LINE_RANGE),
                             ("0  search", Status.LINE_SPACE), ("0 burst 0 zz", Status.LINE_HEX),
                             ("0 sea\0rch", Status.LINE_WORD), ("0 sea\udcffrch", Status.LINE_WORD)):
            with self.assertRaises(wagpisud.LineFault) as caught:
                wagpisud.read_turn(line)
            self.assertEqual(caught.exception.status, status)
            self.assertIn(repr(line), str(caught.exception))

    def test_a_long_line_is_told_in_part(self):
        with self.assertRaises(wagpisud.LineFault) as caught:
            wagpisud.read_turn("x" * 4097)
        self.assertEqual(caught.exception.status, Status.LINE_LONG)
        self.assertRegex(str(caught.exception), r": 'x{200}'\.\.\Z")


class Serials(unittest.TestCase):
    def test_texts_and_octets(self):
        self.assertEqual(wagpisud.serial_octets(SERIAL), b"ABCD\0\0\0\1")
        self.assertEqual(wagpisud.serial_octets("4142434400000001"), b"ABCD\0\0\0\1")
        self.assertEqual(wagpisud.serial_text(b"ABCD\0\0\0\1"), SERIAL)
        self.assertEqual(wagpisud.serial_text(bytes(range(8))), "0001020304050607")
        self.assertEqual(wagpisud.serial_text(b"AB12\0\0\0\1"), "AB1200000001")
        self.assertEqual(wagpisud.serial_octets("AB1200000001"), b"AB12\0\0\0\1")
        for wrong in ("ABCD0000000", "ABCD0000000G", "ab-d00000001", "    00000001", b"ABCD"):
            with self.assertRaises(ValueError):
                wagpisud.serial_octets(wrong)


if __name__ == "__main__":
    unittest.main()
