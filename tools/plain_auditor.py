"""An auditor in plain Python, written from the words of the rules alone: what it finds is what the rules say. It reads no text; it is
given what was said, a line at a time, and tells (line, side, rule)."""

BROADCAST, UNKNOWN = 255, "unknown"
DIRECTED, ADJUSTMENT = {8, 9, 13, 14, 16, 18, 19}, 23
COPIES, WITHIN = 3, 800


def check_octet(octets):
    left = 0
    for octet in octets:
        left ^= octet
        for _ in range(8):
            left = (left << 1 ^ 0x07 if left & 0x80 else left << 1) & 0xFF
    return left


def read_down(octets):
    """The message of twelve octets: its name and what it says."""
    onu, identifier, body = octets[0], octets[1], octets[2:]
    if onu == BROADCAST and identifier == 1:
        return ("overhead",)
    if onu == BROADCAST and identifier == 3:
        return ("assign", body[0], bytes(body[1:9]))
    if identifier == 4 and body[0] % 2 == 0:
        return ("range", onu, int.from_bytes(body[1:5], "big"))
    if identifier == 5:
        return ("deactivate", onu)
    if onu == BROADCAST and identifier == 6 and body[0] in (0, 15, 255):
        return ("enable all",) if body[0] == 15 else ("disable" if body[0] else "enable", bytes(body[1:9]))
    if identifier == 10 and body[2] in (1, 255):
        return ("alloc", onu, body[0] * 16 + body[1] // 16, body[2] == 1)
    if identifier == 12:
        return ("popup", onu)
    return ("other", identifier, onu)


class Unit:
    """Who holds a number, and what is known of it. A late copy tells the holder alone."""

    def __init__(self, serial, line, is_late):
        self.serial, self.line, self.is_late = serial, line, is_late
        self.delay = UNKNOWN if is_late else None
        self.spoke = UNKNOWN if is_late else False
        self.least = self.greatest = None
        self.is_bare, self.is_anew, self.allocs, self.told_allocs = False, False, set(), []
        self.pending, self.pending_line, self.silent, self.is_told = None, None, 0, False


class Auditor:
    def __init__(self, mask, teqd, is_whole, is_total=False, tolerance=8, drift=8, grace=10, is_lossy=False):
        self.mask, self.teqd, self.is_whole, self.is_total = mask, teqd, is_whole, is_total
        self.tolerance, self.drift, self.grace, self.is_lossy = tolerance, drift, grace, is_lossy
        self.holder, self.number, self.asks, self.disabled = {}, {}, {}, {}
        self.owner, self.last_owner = {}, {}
        self.sent, self.open, self.subjects, self.findings, self.told_of = {}, {}, set(), [], {}
        self.had_up, self.had_overhead, self.frame, self.line = False, False, 0, 0
        self.all_known = self.no_owner_known = is_whole
        self.dropped_by, self.grants, self.first_frame, self.had_down = {}, [], None, False
        self.judged = {}

    # ---- what is told

    def tell(self, side, rule, line=None):
        self.findings.append((line or self.line, side, rule))

    def judge(self, side, rule, is_broken, line=None):
        counts = self.judged.setdefault((side, rule), [0, 0])
        counts[0] += 1
        if is_broken:
            counts[1] += 1
            self.tell(side, rule, line)

    # ---- what is known

    def holder_of(self, onu):
        """The unit that holds the number, None if nobody does, or UNKNOWN."""
        if onu in self.holder:
            return self.holder[onu]
        return None if self.all_known else UNKNOWN

    def number_of(self, serial):
        if serial in self.number:
            return self.number[serial]
        return None if self.all_known else UNKNOWN

    def asks_of(self, serial):
        if serial in self.asks:
            return self.asks[serial]
        return 0 if self.is_whole else UNKNOWN

    def is_disabled(self, serial):
        if serial in self.disabled:
            return self.disabled[serial]
        return False if self.is_whole else UNKNOWN

    def owner_of(self, alloc):
        if alloc in self.owner:
            return self.owner[alloc]
        return None if self.no_owner_known else UNKNOWN

    def drop(self, onu, octets):
        unit = self.holder_of(onu)
        if isinstance(unit, Unit):
            self.number[unit.serial] = None
        self.holder[onu] = None
        self.dropped_by[onu] = bytes(octets)
        for alloc, owner in list(self.owner.items()):
            if owner == onu:
                self.owner[alloc], self.last_owner[alloc] = None, onu

    def was_sent(self, octets):
        """Whether the message was sent three times, the last more than the grace ago."""
        count, last = self.sent.get(bytes(octets), (0, 0))
        return count >= COPIES and self.frame > last + self.grace

    # ---- copies

    def subject_of(self, message):
        kind = message[0]
        if kind == "assign" and message[1] <= 253 or kind == "deactivate" and message[1] != BROADCAST:
            return ("unit", message[1])
        if kind == "deactivate" or kind == "enable all":
            return (kind,)
        if kind == "range":
            return ("range", message[1])
        if kind == "alloc":
            return ("alloc", message[1], message[2])
        if kind in ("disable", "enable"):
            return ("serial", message[1])
        return None

    def end_subject(self, subject):
        octets, line, count, is_first = self.open.pop(subject)[:4]
        if self.is_lossy or is_first and not self.is_whole:
            return
        self.judge("terminal", "copies", count < COPIES, line)

    def note_copies(self, message, octets):
        subject = self.subject_of(message)
        for other in [it for it, kept in self.open.items() if self.frame > kept[4] + WITHIN]:
            self.end_subject(other)
        if subject is None:
            return
        is_another = subject not in self.open or self.open[subject][0] != bytes(octets)
        ends = [subject] if is_another and subject in self.open else []
        if is_another and subject[0] == "unit":
            ends += [it for it in self.open if it[0] in ("range", "alloc") and it[1] == subject[1]]
        may_be_copy = not self.is_whole and subject not in self.subjects
        for other in ends:
            if may_be_copy:
                # it isn't known whether this message was said before: whether it ends the others isn't either
                del self.open[other]
                self.subjects.discard(other)
            else:
                self.end_subject(other)
        if subject in self.open:
            kept = self.open[subject]
            self.open[subject] = (kept[0], kept[1], kept[2] + 1, kept[3], self.frame)
        else:
            self.open[subject] = (bytes(octets), self.line, 1, subject not in self.subjects, self.frame)
        self.subjects.add(subject)

    # ---- lines

    def hear(self, line, frame, side, what, delay=None):
        self.line, self.frame = line, frame
        self.first_frame = frame if self.first_frame is None else self.first_frame
        if side == "grant":
            return self.hear_grant(what)
        octets, check = what[:12], what[12]
        if check != check_octet(octets) ^ self.mask:
            return self.judge("terminal" if side == "down" else "unit", "garbled", True)
        self.judge("terminal" if side == "down" else "unit", "garbled", False)
        if side == "down":
            return self.hear_down(octets)
        return self.hear_up(octets, delay)

    def hear_down(self, octets):
        message = read_down(octets)
        self.had_down = True
        self.note_copies(message, octets)
        kind = message[0]
        getattr(self, f"hear_{kind.replace(' ', '_')}")(message, octets)
        count, _ = self.sent.get(bytes(octets), (0, 0))
        self.sent[bytes(octets)] = (count + 1, self.frame)

    def news(self, octets):
        """A message that is news begins to be counted anew."""
        self.sent.pop(bytes(octets), None)

    def hear_overhead(self, message, octets):
        self.had_overhead = True

    def once(self, octets, onu, rule, is_broken):
        """Judges a rule of which further copies of a broken code are told no more."""
        key = (onu, rule)
        if is_broken and self.told_of.get(key) == bytes(octets):
            return
        self.told_of[key] = bytes(octets) if is_broken else None
        self.judge("terminal", rule, is_broken)

    def is_nobodys(self, octets, onu):
        """Judges `nobody`; whether nothing else is judged of the message."""
        holder = self.holder_of(onu)
        if holder == UNKNOWN:
            return True
        self.once(octets, onu, "nobody", holder is None)
        return holder is None

    def hear_assign(self, message, octets):
        _, onu, serial = message
        if onu > 253:
            return self.once(octets, onu, "range", True)
        self.judge("terminal", "range", False)
        held, holder, asks = self.number_of(serial), self.holder_of(onu), self.asks_of(serial)
        unit = holder if isinstance(holder, Unit) and holder.serial == serial else None
        if unit and not unit.is_anew:
            return None
        heard = serial in self.asks and self.asks[serial] != UNKNOWN and self.asks[serial] > 0 or self.is_whole
        if held != UNKNOWN or heard or holder != UNKNOWN:
            self.judge_assign(onu, serial, held, holder, asks)
        is_late = not self.is_whole and holder == UNKNOWN and not heard
        if not is_late:
            self.news(octets)
        if isinstance(held, int) and held != onu:
            self.drop(held, octets)
        if isinstance(holder, Unit) and holder.serial != serial:
            self.drop(onu, octets)
        if not is_late:
            for alloc, owner in list(self.owner.items()):
                if owner == onu:
                    self.owner[alloc], self.last_owner[alloc] = None, onu
        self.holder[onu], self.number[serial] = Unit(serial, self.line, is_late), onu
        if asks != UNKNOWN:
            self.asks[serial] = max(asks - 1, 0)
        return None

    def judge_assign(self, onu, serial, held, holder, asks):
        if self.is_disabled(serial) != UNKNOWN:
            self.judge("terminal", "barred", self.is_disabled(serial))
        if self.had_up and asks != UNKNOWN and not self.is_lossy and self.is_whole:
            self.judge("terminal", "unasked", asks == 0)
        if self.had_up and holder != UNKNOWN and not (isinstance(holder, Unit) and holder.is_anew):
            self.judge("terminal", "taken", isinstance(holder, Unit) and holder.serial != serial)
        if self.had_up and held != UNKNOWN:
            other = self.holder_of(held) if isinstance(held, int) else None
            if not (isinstance(other, Unit) and other.is_anew):
                self.judge("terminal", "renumbered", isinstance(held, int) and held != onu)

    def hear_range(self, message, octets):
        _, onu, eqd = message
        holder = self.holder_of(onu)
        if self.teqd is not None:
            if eqd > self.teqd:
                self.is_nobodys(octets, onu)
                return self.once(octets, onu, "delay", True)
        if self.is_nobodys(octets, onu):
            return None
        if holder.delay == eqd:
            return None
        if self.had_up and holder.spoke != UNKNOWN and not self.is_lossy:
            self.judge("terminal", "unranged", not holder.spoke)
        if self.teqd is None and holder.spoke is True and not holder.is_bare and holder.least == holder.greatest:
            self.teqd = eqd + holder.least
        if self.teqd is not None and holder.spoke is True and not holder.is_bare and not holder.is_late:
            low, high = self.teqd - holder.greatest - self.tolerance, self.teqd - holder.least + self.tolerance
            self.once(octets, onu, "delay", not low <= eqd <= high)
        self.news(octets)
        holder.delay = eqd
        return None

    def hear_deactivate(self, message, octets):
        if message[1] == BROADCAST:
            self.news(octets)
            for onu in range(254):
                self.drop(onu, octets)
            self.number = {serial: None for serial in self.number}
            self.all_known = True
            return
        onu = message[1]
        if self.holder_of(onu) is None:
            return
        self.news(octets)
        self.drop(onu, octets)

    def hear_disable(self, message, octets):
        serial = message[1]
        if self.is_disabled(serial) is not True or self.number_of(serial) is not None:
            self.news(octets)
        self.disabled[serial] = True
        held = self.number_of(serial)
        if isinstance(held, int):
            self.drop(held, octets)
        self.number[serial] = None

    def hear_enable(self, message, octets):
        if self.is_disabled(message[1]) is not False:
            self.news(octets)
        self.disabled[message[1]] = False

    def hear_enable_all(self, message, octets):
        self.disabled = {serial: False for serial in self.disabled}

    def hear_alloc(self, message, octets):
        _, onu, alloc, keep = message
        if keep:
            self.once(octets, onu, "range", alloc < 256 and alloc != onu)
        if self.is_nobodys(octets, onu):
            return
        holder, owner = self.holder_of(onu), self.owner_of(alloc)
        if keep and owner == onu:
            holder.told_allocs.append(bytes(octets))
            return
        if not keep:
            last = self.last_owner.get(alloc, UNKNOWN if not self.no_owner_known else None)
            if owner is None and last == onu:
                holder.told_allocs.append(bytes(octets))
                return
            if owner != UNKNOWN:
                self.once(octets, onu, "not-held", owner != onu and last != onu)
        if holder.delay != UNKNOWN:
            self.once(octets, onu, "early", holder.delay is None)
        if keep and owner != UNKNOWN:
            other = self.holder_of(owner) if isinstance(owner, int) else None
            if not (isinstance(other, Unit) and other.is_anew) and self.had_up:
                self.judge("terminal", "shared", isinstance(other, Unit) and owner != onu)
        self.news(octets)
        holder.told_allocs.append(bytes(octets))
        holder.pending, holder.silent, holder.pending_line, holder.is_told = bytes(octets), 0, self.line, False
        if keep:
            self.owner[alloc] = onu
        elif owner == onu:
            self.owner[alloc], self.last_owner[alloc] = None, onu

    def hear_popup(self, message, octets):
        onu = message[1]
        if onu == BROADCAST:
            self.delays_unsure(list(self.holder.values()))
            return
        if self.is_nobodys(octets, onu):
            return
        holder = self.holder_of(onu)
        if holder.delay != UNKNOWN:
            self.once(octets, onu, "early", holder.delay is None)

    def hear_other(self, message, octets):
        _, identifier, onu = message
        if identifier in DIRECTED and onu != BROADCAST:
            self.is_nobodys(octets, onu)
        if identifier == ADJUSTMENT:
            self.delays_unsure([self.holder_of(onu)] if onu != BROADCAST else list(self.holder.values()))

    @staticmethod
    def delays_unsure(units):
        for unit in units:
            if isinstance(unit, Unit) and unit.delay is not None:
                unit.delay = UNKNOWN

    # ---- grants

    def hear_grant(self, words):
        self.grants.append((self.frame, words, set()))
        self.grants = [grant for grant in self.grants if grant[0] >= self.frame - self.grace]
        kind, _, onu = words.partition(" ")
        if kind == "search":
            if self.is_whole and not self.is_lossy:
                self.judge("terminal", "overhead", not self.had_overhead)
            return
        holder = self.holder_of(int(onu))
        if holder == UNKNOWN:
            return
        if holder is None:
            return self.judge("terminal", "grant", True)
        if kind == "poll" and holder.delay == UNKNOWN:
            return None
        return self.judge("terminal", "grant", kind == "poll" and holder.delay is None)

    # ---- units

    def note_answer(self, onu, serial):
        """An answer is that to the first grant that asked for it and has none yet. In the first frames of a log that may begin in the
        middle it may be one to a grant before: it answers none that was heard."""
        if not self.is_whole and self.frame <= self.first_frame + self.grace:
            return
        words = "search" if serial and onu == BROADCAST else f"range {onu}" if serial else f"poll {onu}"
        who = serial if words == "search" else onu
        asked = [grant for grant in self.grants if grant[1] == words and grant[0] >= self.frame - self.grace]
        left = [grant for grant in asked if who not in grant[2]]
        if left:
            left[0][2].add(who)
        if asked and not self.is_lossy:
            self.judge("unit", "twice", not left)

    def hear_up(self, octets, delay):
        onu, identifier = octets[0], octets[1]
        if onu != BROADCAST or identifier == 1:
            self.note_answer(onu, bytes(octets[2:10]) if identifier == 1 else None)
        is_serial = identifier == 1
        serial = bytes(octets[2:10]) if is_serial else None
        self.judge_up(onu, identifier, serial, octets, delay)
        self.had_up = True
        if is_serial and onu == BROADCAST:
            held = self.number_of(serial)
            unit = self.holder_of(held) if isinstance(held, int) else None
            if isinstance(unit, Unit) and self.was_sent(self.assign_of(held, serial)):
                unit.is_anew = True
            asks = self.asks_of(serial)
            self.asks[serial] = UNKNOWN if asks == UNKNOWN and self.is_whole else (0 if asks == UNKNOWN else asks) + 1
        unit = self.holder_of(onu)
        if isinstance(unit, Unit) and (not is_serial or serial == unit.serial) and unit.spoke != UNKNOWN:
            if not unit.spoke:
                unit.spoke, unit.least, unit.greatest = True, delay, delay
            elif delay is not None and unit.least is not None:
                unit.least, unit.greatest = min(unit.least, delay), max(unit.greatest, delay)
            if delay is None:
                unit.is_bare = True

    @staticmethod
    def assign_of(onu, serial):
        return bytes([BROADCAST, 3, onu, *serial, 0])

    def judge_up(self, onu, identifier, serial, octets, delay):
        if onu == BROADCAST:
            self.judge("unit", "number", identifier != 1)
            if identifier == 1:
                if self.is_disabled(serial) is True:
                    if self.was_sent(bytes([BROADCAST, 6, 255, *serial, 0])):
                        self.judge("unit", "disabled", True)
                held = self.number_of(serial)
                if isinstance(held, int) and self.was_sent(self.assign_of(held, serial)):
                    self.judge("unit", "anew", True)
            return
        unit = self.holder_of(onu)
        if unit is None and self.had_down:
            by = self.dropped_by.get(onu)
            if by is None or self.was_sent(by):
                self.judge("unit", "number", True)
            return
        if not isinstance(unit, Unit):
            return
        if serial is not None and serial != unit.serial and self.was_sent(self.assign_of(onu, unit.serial)):
            self.judge("unit", "number", True)
            return
        if identifier == 9 and octets[2] == 10 and not unit.is_late and self.was_sent(self.assign_of(onu, unit.serial)):
            copy = bytes(octets[3:12])
            known = {part for told in unit.told_allocs for part in (told[0:9], told[2:11])} | {bytes(9)}
            self.judge("unit", "acknowledge", not unit.told_allocs or copy not in known)
        if identifier == 9 and octets[2] == 10:
            unit.pending = None
        if identifier == 4 and unit.pending and self.was_sent(unit.pending) and not self.is_lossy:
            unit.silent += 1
            if unit.silent == 3 and not unit.is_told:
                unit.is_told = True
                self.judge("unit", "unacknowledged", True, unit.pending_line)
        if isinstance(unit.delay, int) and delay is not None and self.teqd is not None:
            ranging = bytes([onu, 4, 0, *unit.delay.to_bytes(4, "big")])
            sent = any(self.was_sent(bytes(key)) for key in self.sent if key[:7] == ranging)
            if sent:
                far = delay - self.teqd if self.is_total else delay + unit.delay - self.teqd
                self.judge("unit", "drift", abs(far) > self.drift)

    def end(self):
        for subject in list(self.open):
            if self.frame > self.open[subject][4] + WITHIN:
                self.end_subject(subject)


def audit(lines, **given):
    """The findings of (frame, side, what[, delay]) lines of one port."""
    auditor = Auditor(**given)
    for number, line in enumerate(lines, 1):
        auditor.hear(number, *line)
    auditor.end()
    return auditor
