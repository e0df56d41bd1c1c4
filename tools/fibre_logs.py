"""Logs of line terminals and units that keep clauses 9 and 10 of G.984.3 with habits of their own, and logs with one fault.

A seed fixes a log. The terminal polls, searches and sends when it likes: copies between others' copies and more than three, messages
that no rule speaks of, delays that are averaged or corrected. Units miss up to two copies of three, act up to six frames later, and
their bursts are up to four frames on their way. A log may begin anywhere, have one side alone, have no delays or no grants.

A faulty log is one of these up to a frame in which the terminal or a unit breaks a rule, and ends soon behind it, so that nothing
else comes of the fault."""
import random

BROADCAST = 255
ACT, FLIGHT, COPIES = 6, 4, 3
DOWN_RULES = ("copies range overhead barred unasked taken renumbered nobody unranged delay early shared not-held grant").split()
UNIT_RULES = "disabled anew number twice acknowledge unacknowledged drift".split()


def check_octet(octets, mask):
    """The remainder by x^8 + x^2 + x + 1, under the mask."""
    left = 0
    for octet in octets:
        left ^= octet
        for _ in range(8):
            left = (left << 1 ^ 0x07 if left & 0x80 else left << 1) & 0xFF
    return left ^ mask


def code(octets, mask):
    octets = list(octets) + [0] * (12 - len(octets))
    return bytes(octets + [check_octet(octets, mask)])


def assign(onu, serial):
    return [BROADCAST, 3, onu, *serial]


def ranging_time(onu, delay):
    return [onu, 4, 0, *delay.to_bytes(4, "big")]


def deactivate(onu):
    return [onu, 5]


def disable(serial):
    return [BROADCAST, 6, 255, *serial]


def enable(serial):
    return [BROADCAST, 6, 0, *serial]


def assign_alloc(onu, alloc, keep):
    return [onu, 10, alloc >> 4, (alloc & 15) << 4, 1 if keep else 255]


def popup(onu):
    return [onu, 12]


def serial_number(onu, serial, chance):
    return [onu, 1, *serial, chance.randrange(256), chance.randrange(16) << 4]


class Job:
    """A message that is owed so many copies more; `subjects` are what it is about, for which it has to be whole before another."""

    def __init__(self, octets, copies, subjects, done=None):
        self.octets, self.left, self.subjects, self.done, self.sent = octets, copies, subjects, done, 0


class Unit:
    def __init__(self, serial, delay, chance):
        self.serial, self.delay, self.chance = serial, delay, chance
        self.onu = self.eqd = None
        self.is_on, self.is_stopped, self.in_popup = False, False, False
        self.hears, self.changes, self.owed, self.quiet = {}, [], None, 0

    def hear(self, frame, octets, copy):
        """Hears this copy of a message, unless it is one of the copies that it misses; acts some frames later."""
        key = bytes(octets)
        if copy == 0 or key not in self.hears:
            self.hears[key] = self.chance.choice([0, 0, 0, 1, 2])
        if copy >= self.hears[key]:
            due = frame + self.chance.randint(0, ACT)
            self.changes.append((max([due] + [other for other, _ in self.changes]), octets))

    def pass_frame(self, frame):
        now = [octets for due, octets in self.changes if due <= frame]
        self.changes = [change for change in self.changes if change[0] > frame]
        for octets in now:
            self.take(octets)

    def take(self, octets):
        onu, identifier = octets[0], octets[1]
        mine = onu == self.onu and self.onu is not None
        if identifier == 3 and bytes(octets[3:11]) == bytes(self.serial) and self.onu is None and not self.is_stopped:
            self.onu, self.eqd, self.in_popup, self.owed = octets[2], None, False, None
        elif identifier == 4 and mine:
            self.eqd = int.from_bytes(bytes(octets[3:7]), "big")
        elif identifier == 5 and (mine or onu == BROADCAST):
            self.onu = self.eqd = self.owed = None
        elif identifier == 6 and octets[2] == 255 and bytes(octets[3:11]) == bytes(self.serial):
            self.onu = self.eqd = self.owed = None
            self.is_stopped = True
        elif identifier == 6 and octets[2] == 0 and bytes(octets[3:11]) == bytes(self.serial):
            self.is_stopped = False
        elif identifier == 10 and mine:
            self.owed = bytes(octets)

    def measured(self, is_total):
        delay = self.delay + self.chance.randint(-2, 2)
        return delay + (self.eqd or 0) if is_total else delay


class Held:
    """What the terminal knows of a unit to which it gave a number."""

    def __init__(self, unit, onu):
        self.unit, self.onu, self.delays, self.eqd, self.allocs, self.is_sure = unit, onu, [], None, [], True


class Log:
    """A port's log as it is made. `lines` are (frame, side, text)."""

    def __init__(self, seed):
        self.chance = chance = random.Random(seed)
        self.mask = chance.choice([0, 0x55])
        self.teqd = chance.randrange(200_000, 450_000)
        self.is_total, self.extra = chance.random() < 0.2, chance.choice([0, 0, 1, 3])
        self.lines, self.jobs, self.held, self.asked, self.flights = [], [], {}, {}, []
        self.allocs, self.ever, self.disabled, self.used, self.overhead = {}, set(), set(), set(), 0
        self.units = [Unit(self.serial(number), chance.randrange(10_000, self.teqd - 100_000), chance)
                      for number in range(chance.randint(1, 12))]
        self.by_serial = {unit.serial: unit for unit in self.units}
        self.frame = 0

    def serial(self, number):
        return bytes(self.chance.choice([b"ABCD", b"HWTC", b"ALCL"])) + (number + 1).to_bytes(4, "big")

    # ---- lines

    def down(self, octets, copy=0):
        self.lines.append((self.frame, "down", code(octets, self.mask)))
        for unit in self.units:
            unit.hear(self.frame, octets, copy)
        return len(self.lines)

    def up(self, octets, delay):
        self.lines.append((self.frame, "up", code(octets, self.mask), delay))
        return len(self.lines)

    def grant(self, words):
        self.lines.append((self.frame, "grant", words))
        return len(self.lines)

    # ---- what is owed

    def owe(self, octets, subjects, done=None):
        self.jobs.append(Job(octets, COPIES + self.chance.randint(0, self.extra), set(subjects), done))

    def is_free(self, subjects):
        """Whether nothing is owed about these: a new message would cut its copies short."""
        return not any(job.subjects & set(subjects) for job in self.jobs)

    def is_begun(self, held):
        """Whether its number was told to a unit, once at least: a terminal may range between the copies."""
        about = [job for job in self.jobs if ("onu", held.onu) in job.subjects]
        return not about or all(job.octets[1] == 3 and job.sent > 0 for job in about)

    def send_one(self):
        if not self.jobs:
            return
        job = self.chance.choice(self.jobs[:3])
        self.down(job.octets, job.sent)
        job.sent, job.left = job.sent + 1, job.left - 1
        if job.left == 0:
            self.jobs.remove(job)
            if job.done:
                job.done()

    # ---- the terminal

    def begin_unit(self, serial):
        unit = self.by_serial[serial]
        free = [onu for onu in range(254) if onu not in self.held and self.is_free([("onu", onu)])]
        onu = self.chance.choice(free[:20])
        self.used.add(onu)
        held = self.held[onu] = Held(unit, onu)
        self.asked[serial] -= 1
        self.owe(assign(onu, serial), [("onu", onu), ("serial", serial)])
        return held

    def range_unit(self, held):
        delays = held.delays
        base = self.teqd - (sum(delays) // len(delays))
        if len(set(delays)) == 1:
            base = self.teqd - delays[0]
        held.eqd, held.is_sure = base, True
        self.owe(ranging_time(held.onu, base), [("ranging", held.onu), ("onu-hold", held.onu)])

    def drop(self, held):
        self.held.pop(held.onu)
        for alloc in held.allocs:
            self.allocs.pop(alloc, None)
        self.owe(deactivate(held.onu), [("onu", held.onu), ("serial", held.unit.serial)] + [("alloc", it) for it in held.allocs])

    def about(self, held):
        return [("onu", held.onu), ("serial", held.unit.serial), ("onu-hold", held.onu), ("ranging", held.onu)]

    def chatter(self):
        """A message of which no rule speaks but `nobody`, to a number that is held or to all."""
        chance = self.chance
        ready = [held for held in self.held.values() if self.is_free([("onu", held.onu)])]
        if chance.random() < 0.5 or not ready:
            return self.down([chance.choice([BROADCAST, chance.randrange(256)]), chance.choice([2, 7, 11, 15, 17, 20, 21]),
                              *(chance.randrange(256) for _ in range(10))])
        held = chance.choice(ready)
        return self.down([held.onu, chance.choice([8, 9, 13, 14, 16, 18, 19]), *(chance.randrange(256) for _ in range(10))])

    def search(self):
        if self.overhead < COPIES:
            self.overhead += 1
            self.down([BROADCAST, 1, *range(10)])
            return
        self.grant("search")
        for unit in self.units:
            if unit.is_on and unit.onu is None and not unit.is_stopped and self.chance.random() < 0.8:
                self.fly(unit, serial_number(BROADCAST, unit.serial, self.chance))

    def fly(self, unit, octets):
        self.flights.append((self.frame + self.chance.randint(0, FLIGHT), unit, octets, unit.measured(self.is_total)))

    def ask(self, held, words):
        """A window for one unit: range or poll."""
        self.grant(f"{words} {held.onu}")
        unit = held.unit
        if unit.onu != held.onu or not unit.is_on:
            return
        if words == "range":
            self.fly(unit, serial_number(held.onu, unit.serial, self.chance))
        elif unit.eqd is not None:
            self.fly(unit, self.answer(unit))

    def answer(self, unit):
        chance, onu = self.chance, unit.onu
        if unit.owed and (chance.random() < 0.6 or unit.quiet >= 1):
            owed, unit.owed, unit.quiet = unit.owed, None, 0
            part = (owed + bytes(12))[:9] if chance.random() < 0.5 else (owed + bytes(12))[2:11]
            return [onu, 9, 10, *(part if chance.random() < 0.8 else bytes(9))]
        if unit.owed and chance.random() < 0.5:
            return [onu, chance.choice([2, 5, 7, 8]), *(chance.randrange(256) for _ in range(10))]
        unit.quiet += bool(unit.owed)
        if chance.random() < 0.9 or unit.owed:
            return [onu, 4]
        return [onu, chance.choice([2, 5, 7, 8]), *(chance.randrange(256) for _ in range(10))]

    # ---- a frame

    def act(self):
        """One thing that the terminal does, or nothing."""
        chance = self.chance
        settled = [held for held in self.held.values() if self.is_free(self.about(held))]
        ranged = [held for held in settled if held.eqd is not None]
        waiting = [held for held in self.held.values() if held.eqd is None and held.delays and self.is_free([("ranging", held.onu)])]
        asking = [serial for serial, asks in self.asked.items() if asks > 0 and serial not in self.disabled
                  and all(held.unit.serial != serial for held in self.held.values()) and self.is_free([("serial", serial)])]
        what = chance.random()
        if asking and what < 0.4:
            return self.begin_unit(chance.choice(asking))
        if waiting and what < 0.6:
            return self.range_unit(chance.choice(waiting))
        if ranged and what < 0.66:
            return self.serve(chance.choice(ranged))
        if what < 0.69:
            return self.command(settled)
        return None

    def serve(self, held):
        """Alloc-IDs, POPUP, a corrected delay."""
        chance, what = self.chance, self.chance.random()
        if what < 0.5 and held.unit.onu == held.onu:
            alloc = chance.choice([held.onu, *range(256, 300)]) if chance.random() < 0.3 else chance.randrange(256, 4096)
            if alloc not in self.allocs and self.is_free([("alloc", alloc), ("allocs of", held.onu)]):
                self.allocs[alloc] = held.onu
                self.ever.add(alloc)
                held.allocs.append(alloc)
                self.owe(assign_alloc(held.onu, alloc, True), [("alloc", alloc), ("onu-hold", held.onu), ("allocs of", held.onu)])
        elif what < 0.65 and held.allocs:
            alloc = chance.choice(held.allocs)
            if self.is_free([("alloc", alloc), ("allocs of", held.onu)]):
                held.allocs.remove(alloc)
                self.allocs.pop(alloc)
                self.owe(assign_alloc(held.onu, alloc, False), [("alloc", alloc), ("onu-hold", held.onu), ("allocs of", held.onu)])
        elif what < 0.73:
            self.down(popup(held.onu))
        elif what < 0.75:
            self.down(popup(BROADCAST))
            for other in self.held.values():
                other.is_sure = False
        elif what < 0.8:
            held.eqd += chance.choice([-1, 1, 2, -2])
            held.is_sure = True
            if abs(held.eqd + held.unit.delay - self.teqd) > 4:
                held.eqd = self.teqd - held.unit.delay
            self.owe(ranging_time(held.onu, held.eqd), [("ranging", held.onu), ("onu-hold", held.onu)])

    def command(self, settled):
        chance, what = self.chance, self.chance.random()
        if what < 0.3 and settled:
            self.drop(chance.choice(settled))
        elif what < 0.45:
            unit = chance.choice(self.units)
            held = next((held for held in self.held.values() if held.unit is unit), None)
            if unit.serial in self.disabled or not self.is_free([("serial", unit.serial)]) or held and not self.is_free(self.about(held)):
                return
            self.disabled.add(unit.serial)
            if held:
                self.held.pop(held.onu)
                for alloc in held.allocs:
                    self.allocs.pop(alloc, None)
            self.owe(disable(unit.serial), [("serial", unit.serial)]
                     + ([("onu", held.onu)] + [("alloc", it) for it in held.allocs] if held else []))
        elif what < 0.6 and self.disabled:
            serial = chance.choice(sorted(self.disabled))
            if self.is_free([("serial", serial)]):
                self.disabled.discard(serial)
                self.owe(enable(serial), [("serial", serial)])
        elif what < 0.8:
            self.by_serial[chance.choice(self.units).serial].is_on = True

    def land(self):
        for flight in [flight for flight in self.flights if flight[0] <= self.frame]:
            self.flights.remove(flight)
            _, unit, octets, delay = flight
            self.up(octets, delay)
            if octets[1] == 1 and octets[0] == BROADCAST:
                self.asked[unit.serial] = self.asked.get(unit.serial, 0) + 1
            held = self.held.get(octets[0])
            if held and held.unit is unit and octets[1] == 1:
                held.delays.append(unit.delay if self.is_total else delay)

    def pass_frame(self):
        chance = self.chance
        for unit in self.units:
            unit.pass_frame(self.frame)
        self.act()
        for _ in range(chance.choice([0, 1, 1, 1, 2])):
            self.send_one()
        if chance.random() < 0.15:
            self.chatter()
        if chance.random() < 0.05:
            self.search()
        ready = [held for held in self.held.values() if self.is_begun(held)]
        if ready and chance.random() < 0.7:
            held = chance.choice(ready)
            is_settled = held.eqd is not None and self.is_free([("onu", held.onu), ("ranging", held.onu)])
            self.ask(held, "poll" if is_settled and chance.random() < 0.9 else "range")
        self.land()
        self.frame += 1

    def settle(self):
        """All that is owed is sent, all bursts land, and the grace is over."""
        while self.jobs or self.flights:
            for unit in self.units:
                unit.pass_frame(self.frame)
            self.send_one()
            self.land()
            self.frame += 1
        for _ in range(2 * ACT):
            for unit in self.units:
                unit.pass_frame(self.frame)
            self.frame += 1

    def make(self, frames):
        for unit in self.units:
            unit.is_on = self.chance.random() < 0.7
        while self.frame < frames:
            self.pass_frame()
        self.settle()
        return self

    # ---- one fault

    def thrice(self, octets):
        """Sends three copies, and answers the line of the first."""
        first = self.down(octets)
        for _ in range(COPIES - 1):
            self.frame += self.chance.randint(0, 3)
            self.down(octets)
        return first

    def break_rule(self, rule):
        """Breaks a rule of the terminal or of units behind a log that is settled. Answers (line, side, rule), or None where there is
        no occasion."""
        side = "terminal" if rule in DOWN_RULES else "unit"
        line = getattr(self, "break_" + rule.replace("-", "_"))()
        return line and (line, side, rule)

    def ranged(self):
        return [held for held in self.held.values() if held.eqd is not None and held.unit.onu == held.onu and held.unit.eqd is not None]

    def never_held(self):
        return self.chance.choice([onu for onu in range(254) if onu not in self.used and onu not in self.held])

    def break_copies(self):
        ranged = self.ranged()
        if not ranged:
            return None
        held = self.chance.choice(ranged)
        first = self.down(ranging_time(held.onu, held.eqd + 1))
        self.frame += 1
        if self.chance.random() < 0.5:
            self.down(ranging_time(held.onu, held.eqd + 1))
        self.thrice(ranging_time(held.onu, held.eqd + 2))
        return first

    def break_range(self):
        ranged = self.ranged()
        if ranged and self.chance.random() < 0.5:
            held = self.chance.choice(ranged)
            return self.thrice(assign_alloc(held.onu, self.chance.choice([it for it in range(256) if it != held.onu]), True))
        return self.thrice(assign(self.chance.choice([254, 255]), self.serial(50)))

    def asking(self, is_disabled=False):
        return [serial for serial, asks in self.asked.items() if asks > 0 and (serial in self.disabled) == is_disabled
                and all(held.unit.serial != serial for held in self.held.values())]

    def break_barred(self):
        asking = self.asking(True)
        return self.thrice(assign(self.never_held(), self.chance.choice(asking))) if asking else None

    def break_unasked(self):
        return self.thrice(assign(self.never_held(), self.serial(60))) if any(line[1] == "up" for line in self.lines) else None

    def break_taken(self):
        asking, ranged = self.asking(), self.ranged()
        return self.thrice(assign(self.chance.choice(ranged).onu, self.chance.choice(asking))) if asking and ranged else None

    def break_renumbered(self):
        ready = [held for held in self.ranged() if self.asked.get(held.unit.serial, 0) > 0]
        return self.thrice(assign(self.never_held(), self.chance.choice(ready).unit.serial)) if ready else None

    def break_nobody(self):
        onu = self.never_held()
        return self.thrice(self.chance.choice([ranging_time(onu, 5), assign_alloc(onu, 300, True), popup(onu), [onu, 8], [onu, 9], [onu, 13],
                                               [onu, 14], [onu, 16], [onu, 18], [onu, 19]]))

    def fresh(self):
        return [held for held in self.held.values() if held.eqd is None]

    def break_unranged(self):
        ready = [held for held in self.fresh() if not held.delays]
        if not ready or all(line[1] != "up" for line in self.lines):
            return None
        return self.thrice(ranging_time(self.chance.choice(ready).onu, 1_000))

    def break_delay(self):
        ready = [held for held in self.held.values() if held.delays and (held.eqd is None or not self.is_total)]
        if not ready:
            return None
        held = self.chance.choice(ready)
        wrong = self.chance.choice([self.teqd - max(held.delays) - 12 - self.chance.randrange(5_000), self.teqd + 1 + self.chance.randrange(9),
                                    self.teqd - min(held.delays) + 12 + self.chance.randrange(900)])
        return self.thrice(ranging_time(held.onu, wrong)) if 0 <= wrong else None

    def break_early(self):
        ready = self.fresh()
        if not ready:
            return None
        onu = self.chance.choice(ready).onu
        free = self.chance.choice([alloc for alloc in range(256, 4096) if alloc not in self.allocs])
        return self.thrice(assign_alloc(onu, free, True)) if self.chance.random() < 0.5 else self.down(popup(onu))

    def break_shared(self):
        ready = [(held, alloc) for held in self.ranged() for alloc, owner in self.allocs.items() if owner != held.onu and alloc > 255]
        if not ready:
            return None
        held, alloc = self.chance.choice(ready)
        return self.thrice(assign_alloc(held.onu, alloc, True))

    def break_not_held(self):
        ranged = self.ranged()
        if not ranged:
            return None
        held = self.chance.choice(ranged)
        free = self.chance.choice([alloc for alloc in range(256, 4096) if alloc not in self.allocs and alloc not in self.ever])
        return self.thrice(assign_alloc(held.onu, free, False))

    def break_grant(self):
        fresh = self.fresh()
        if fresh and self.chance.random() < 0.5:
            return self.grant(f"poll {self.chance.choice(fresh).onu}")
        return self.grant(f"{self.chance.choice(['range', 'poll'])} {self.never_held()}")

    def break_overhead(self):
        self.lines, self.frame = [], 3
        return self.grant("search")

    def asked_first(self, words):
        self.grant(words)
        self.frame += self.chance.randint(0, FLIGHT)

    def break_disabled(self):
        ready = [unit for unit in self.units if unit.serial in self.disabled]
        if not ready or not self.overhead:
            return None
        unit = self.chance.choice(ready)
        self.asked_first("search")
        return self.up(serial_number(BROADCAST, unit.serial, self.chance), unit.delay)

    def break_anew(self):
        ready = self.ranged()
        if not ready or not self.overhead:
            return None
        unit = self.chance.choice(ready).unit
        self.asked_first("search")
        return self.up(serial_number(BROADCAST, unit.serial, self.chance), unit.delay)

    def break_number(self):
        ranged = self.ranged()
        if self.chance.random() < 0.3:
            return self.up([BROADCAST, 4], 20_000)
        if len(ranged) > 1 and self.chance.random() < 0.5:
            held, other = self.chance.sample(ranged, 2)
            self.asked_first(f"range {held.onu}")
            return self.up(serial_number(held.onu, other.unit.serial, self.chance), other.unit.measured(self.is_total))
        return self.up([self.never_held(), 4], 20_000)

    def break_twice(self):
        ranged = self.ranged()
        if not ranged:
            return None
        held = self.chance.choice(ranged)
        self.asked_first(f"poll {held.onu}")
        held.unit.owed = None
        self.up([held.onu, 3], held.unit.measured(self.is_total))
        return self.up([held.onu, 3], held.unit.measured(self.is_total))

    def break_acknowledge(self):
        ranged = self.ranged()
        if not ranged:
            return None
        held = self.chance.choice(ranged)
        self.asked_first(f"poll {held.onu}")
        return self.up([held.onu, 9, 10, held.onu, 10, 0xAB, 0xC0, 1, 9, 9, 9, 9], held.unit.measured(self.is_total))

    def break_unacknowledged(self):
        ranged = self.ranged()
        if not ranged:
            return None
        held = self.chance.choice(ranged)
        free = self.chance.choice([alloc for alloc in range(256, 4096) if alloc not in self.allocs and alloc not in self.ever])
        line = self.thrice(assign_alloc(held.onu, free, True))
        self.frame += 3 * ACT
        for _ in range(3):
            self.asked_first(f"poll {held.onu}")
            self.up([held.onu, 4], held.unit.measured(self.is_total))
            self.frame += 1
        return line

    def break_drift(self):
        ready = [held for held in self.ranged() if held.unit.eqd == held.eqd and held.is_sure]
        if not ready:
            return None
        held = self.chance.choice(ready)
        self.asked_first(f"poll {held.onu}")
        held.unit.owed = None
        far = self.chance.choice([-1, 1]) * self.chance.randint(20, 4_000)
        measured = held.unit.delay + far + (held.unit.eqd if self.is_total else 0)
        return self.up([held.onu, 3], max(measured, 0)) if held.unit.delay + far > 0 else None


def faulty(seed):
    """A log with one fault, and (line, side, rule) of it: whole, of both sides, with delays and grants."""
    chance = random.Random(seed)
    rules = DOWN_RULES + UNIT_RULES
    for more in range(1_000):
        log = Log(f"{seed} {more}").make(chance.randint(50, 400))
        fault = log.break_rule(rules[seed % len(rules)])
        if fault:
            return log, fault
    raise SystemExit(f"no occasion for {rules[seed % len(rules)]}")
