#!/usr/bin/env python3
"""A device in Python, written from docs/PROFILE.md alone, and 41 that break one rule each.

    device.py [RULE] < LOG                 makes the calls of a log, and prints them with its own answers; the log gives names alone
    device.py --judge PORTALS_LOG          the device and each broken one make the calls of each log beside this file; portals_log judges

With --judge the device has to conform everywhere; a broken one has to differ somewhere, and in each log exactly at the first line at which
its answers aren't the device's. One line is written for each broken rule: the logs that find it, with their lines. Status 0: all so.
"""
import os
import subprocess
import sys

TOP = 2**64 - 1
LIMITS = "entries unexpected mds cts eqs pts triggered msg atomic fetch".split()
EVENT = "source pt bits data requested delivered place ok".split()
HEADER = "kind source target pt bits offset length data op swap type operand ack home home_offset ok".split()
FETCHING = ("fetch_atomic", "swap")
ATOMIC = ("atomic", *FETCHING)
STARTS = ("put", "get", *ATOMIC)
HIDES = {"hide_link": ("link",), "hide_unlink": ("auto_unlink", "auto_free"), "hide_comm": ("put", "get", "atomic", "fetch_atomic"),
         "hide_overflow": ("put_overflow", "atomic_overflow"), "hide_send": ("send",)}
RULES = """
a_conditional_swap_never_swaps a_dropped_message_moves_the_offset a_full_queue_loses_the_oldest a_full_table_comes_before_a_stale_handle
a_handle_comes_back a_local_entry_takes_the_offset_of_the_message a_loss_is_never_told a_use_once_entry_stays
a_use_once_local_entry_waits_for_min_free a_violation_unlinks
an_answer_has_the_length_that_was_asked an_answer_has_the_offset_of_the_message an_append_takes_the_youngest_header
auto_free_comes_early auto_free_goes_by_the_taker bytes_are_read_as_it_is_posted cancels_one_operation delivers_beyond_the_end
each_acknowledgement_raises_an_event each_start_counts
failures_are_counted_first failures_are_hidden_as_successes gets_search_the_overflow_list headers_have_no_limit
hidden_events_are_lost min_free_is_not_looked_at overflow_deliveries_are_not_counted overflow_deliveries_raise_events
ready_one_below_the_threshold
releases_what_awaits_an_answer swaps_raise_atomic the_last_entry_is_the_first the_overflow_list_is_first the_sending_half_awaits_the_reply
the_signed_least_is_the_unsigned thresholds_count_successes_alone truncates_where_it_is_forbidden unlinks_at_min_free
what_fires_awaits_no_answer what_is_hidden_is_not_counted writes_parts_of_elements
""".split()


class Refused(Exception):
    """A call is refused by this word."""


class Thing:
    """A counting event, queue, descriptor, entry, unexpected header, operation or message: whatever it is given."""

    def __init__(self, **fields):
        self.live = True
        self.__dict__.update(fields)


def refuse(*tests):
    """The first word whose test holds."""
    for holds, word in tests:
        if holds:
            raise Refused(word)


def number(text):
    return int(text, 0)


def elements(kind):
    """Bytes of an element, and whether it has a sign."""
    return int(kind[1:]) // 8, kind[0] == "i"


class Interface:
    """One rank."""

    def __init__(self, rank, ranks, limits, region, broken):
        self.rank, self.ranks, self.limits, self.memory, self.broken = rank, ranks, limits, bytearray(region), broken
        self.things = {"ct": [], "eq": [], "md": []}
        self.indices, self.headers, self.waiting = {}, [], []
        self.drops = self.violations = 0

    def breaks(self, rule):
        return self.broken == rule

    # ---- what is there

    def live(self, kind):
        return [thing for thing in self.things[kind] if thing.live]

    def named(self, kind, word):
        """The newest thing of this name; None where that is gone."""
        if kind == "me":
            found = [entry for entry in self.linked() if entry.word == word]
            return found[-1] if found else None
        found = [thing for thing in self.things[kind] if thing.word == word]
        if found and not found[-1].live and self.breaks("a_handle_comes_back") and self.live(kind):
            return self.live(kind)[-1]
        return found[-1] if found and found[-1].live else None

    def linked(self):
        return [entry for index in self.indices.values() for entry in index.lists["priority"] + index.lists["overflow"]]

    def make(self, kind, **fields):
        self.things[kind].append(Thing(**fields))

    def fits(self, start, length):
        return start + length <= len(self.memory)

    # ---- counting events and queues

    def count(self, ct, successes, failures):
        """A count of the network: successes first, as far as the sum allows."""
        room = TOP - ct.count[0] - ct.count[1]
        if self.breaks("failures_are_counted_first"):
            failures = min(failures, room)
            successes = min(successes, room - failures)
        successes = min(successes, room)
        failures = min(failures, room - successes)
        ct.count = [ct.count[0] + successes, ct.count[1] + failures]

    def hides(self, holder, kind, ok=1):
        """Whether an option of this entry or descriptor hides an event."""
        named = any(flag in holder.flags and kind in kinds for flag, kinds in HIDES.items())
        return named or "hide_success" in holder.flags and bool(ok or self.breaks("failures_are_hidden_as_successes"))

    def counts(self, holder, flag, kind, ok=1):
        """Whether what is told by this event is counted."""
        return holder.ct and flag in holder.flags and not (self.breaks("what_is_hidden_is_not_counted") and self.hides(holder, kind, ok))

    def raised(self, holder, queue, kind, **fields):
        if queue is None:
            return
        event = {"kind": kind, **dict.fromkeys(EVENT, 0), "ok": 1, **fields}
        if self.hides(holder, kind, event["ok"]):
            queue.lost = queue.lost or self.breaks("hidden_events_are_lost") and len(queue.events) == queue.room
            return
        if len(queue.events) < queue.room:
            queue.events.append(event)
            return
        if self.breaks("a_full_queue_loses_the_oldest"):
            queue.events = queue.events[1:] + [event]
        queue.lost = not self.breaks("a_loss_is_never_told")

    # ---- lists and headers

    def allows(self, entry, kind):
        puts, gets = "put" in entry.flags, "get" in entry.flags
        return puts and gets if kind in FETCHING else gets if kind == "get" else puts

    def fits_bits(self, entry, message):
        return (entry.bits ^ message.bits) & ~entry.ignore & TOP == 0 and entry.source in (None, message.source)

    def space(self, entry, message):
        local = "local" in entry.flags and not self.breaks("a_local_entry_takes_the_offset_of_the_message")
        offset = entry.running if local else message.offset
        return offset, max(0, entry.length - offset)

    def matches(self, entry, message):
        whole = "no_truncate" in entry.flags and not self.breaks("truncates_where_it_is_forbidden")
        return self.fits_bits(entry, message) and not (whole and message.length > self.space(entry, message)[1])

    def first_match(self, index, message):
        lists = ["priority"]
        if message.kind in ("put", "atomic") or self.breaks("gets_search_the_overflow_list"):
            lists.append("overflow")
        if self.breaks("the_overflow_list_is_first"):
            lists.reverse()
        for name in lists:
            entries = index.lists[name]
            for entry in reversed(entries) if self.breaks("the_last_entry_is_the_first") else entries:
                if self.matches(entry, message):
                    return name, entry
        return None, None

    def unlink(self, index, name, entry):
        index.lists[name].remove(entry)
        entry.linked = False
        self.raised(entry, index.queue, "auto_unlink", pt=index.number, bits=entry.bits)
        if name == "overflow" and self.breaks("auto_free_comes_early"):
            self.raised(entry, index.queue, "auto_free", pt=index.number)

    def told(self, header):
        """What events tell of an unexpected header."""
        message = header.message
        return {"source": message.source, "pt": message.pt, "bits": message.bits, "data": message.data, "requested": message.length,
                "delivered": header.delivered, "place": header.place}

    def found(self, number, entry):
        return [header for header in self.headers if header.message.pt == number and self.fits_bits(entry, header.message)
                and self.allows(entry, header.message.kind)]

    def forget(self, index, header, taker):
        self.headers.remove(header)
        holder = taker if self.breaks("auto_free_goes_by_the_taker") else header.entry
        left = [other for other in self.headers if other.entry is header.entry]
        if not header.entry.linked and not left and not self.breaks("auto_free_comes_early"):
            self.raised(holder, index.queue, "auto_free", pt=index.number)

    def append(self, number, name, entry):
        """The header that was taken, or the entry where it is linked."""
        index = self.indices.get(number)
        stale = index is None or entry.stale
        full = len(self.linked()) >= self.limits["entries"]
        outside = not self.fits(entry.start, entry.length)
        refuse((stale, "Stale"), (full, "NoSpace"), (outside, "OutOfRegion"))
        found = self.found(number, entry) if name == "priority" else []
        if found and "once" in entry.flags:
            found = found[-1:] if self.breaks("an_append_takes_the_youngest_header") else found[:1]
        for header in found:
            kind = header.message.kind + "_overflow"
            self.raised(entry, index.queue, kind, **self.told(header))
            self.forget(index, header, entry)
            if self.counts(entry, "overflow", kind):
                self.count(entry.ct, 1, 0)
        if found and "once" in entry.flags:
            return found[0]
        index.lists[name].append(entry)
        entry.linked = True
        self.raised(entry, index.queue, "link", pt=number, bits=entry.bits)
        return entry

    def search(self, number, deletes, entry):
        index = self.indices.get(number)
        refuse((index is None, "Stale"))
        found = self.found(number, entry)[:1]
        if not found:
            self.raised(entry, index.queue, "search", pt=number, bits=entry.bits, ok=0)
            return None
        self.raised(entry, index.queue, "search", **self.told(found[0]))
        if deletes:
            self.forget(index, found[0], entry)
        return found[0]

    # ---- operations on elements

    def combined(self, op, kind, old, new):
        size, signed = elements(kind)
        signed = signed and not self.breaks("the_signed_least_is_the_unsigned")
        x, y = (int.from_bytes(part, "little", signed=signed) for part in (old, new))
        made = {"min": min(x, y), "max": max(x, y), "sum": x + y, "prod": x * y, "bor": x | y, "band": x & y, "bxor": x ^ y,
                "lor": int(x != 0 or y != 0), "land": int(x != 0 and y != 0), "lxor": int((x != 0) != (y != 0))}[op]
        return (made % 2 ** (8 * size)).to_bytes(size, "little")

    def swapped(self, message, old):
        size = elements(message.type)[0]
        x, y = int.from_bytes(old, "little"), int.from_bytes(message.bytes, "little")
        if message.swap == "cswap":
            y = y if x == message.operand and not self.breaks("a_conditional_swap_never_swaps") else x
        if message.swap == "mswap":
            y = y & message.operand | x & ~message.operand
        return (y % 2 ** (8 * size)).to_bytes(size, "little")

    def written(self, message, old):
        """What stands then where these bytes stood."""
        if message.kind == "put":
            return message.bytes[: len(old)]
        if message.kind == "get" or not old:
            return old
        if message.kind == "swap":
            return self.swapped(message, old)
        size = elements(message.type)[0]
        parts = range(0, len(old) - len(old) % size, size)
        whole = b"".join(self.combined(message.op, message.type, old[i : i + size], message.bytes[i : i + size]) for i in parts)
        return whole + message.bytes[len(whole) : len(old)]

    # ---- messages

    def answer(self, message, ok, old):
        """The answer to a request, where one is due."""
        asks = message.kind not in ("put", "atomic")
        if not asks and message.ack == "none":
            return None
        length = message.length if self.breaks("an_answer_has_the_length_that_was_asked") else len(old)
        return Thing(**{**vars(message), "kind": "reply" if asks else "ack", "source": message.target, "target": message.source,
                        "offset": message.offset if self.breaks("an_answer_has_the_offset_of_the_message") else 0, "length": length,
                        "op": None, "swap": None, "operand": 0, "ack": "none" if asks else message.ack, "ok": int(ok),
                        "bytes": bytes(old) if asks else b""})

    def place(self, entry, message):
        offset, space = self.space(entry, message)
        delivered = min(message.length, space)
        if self.breaks("delivers_beyond_the_end"):
            delivered = min(message.length, len(self.memory) - entry.start - offset)
        if message.kind in ATOMIC and not self.breaks("writes_parts_of_elements"):
            delivered -= delivered % elements(message.type)[0]
        return (entry.start + offset if delivered else 0), delivered

    def goes(self, entry):
        """Whether a message unlinks this entry."""
        left = entry.length - entry.running
        spent = "local" in entry.flags and (left <= entry.min_free if self.breaks("unlinks_at_min_free") else left < entry.min_free)
        if self.breaks("min_free_is_not_looked_at"):
            spent = False
        if "local" in entry.flags and self.breaks("a_use_once_local_entry_waits_for_min_free"):
            return spent
        return spent or "once" in entry.flags and not self.breaks("a_use_once_entry_stays")

    def deliver(self, message):
        """The outcome, and the answer where there is one."""
        if message.kind in ("ack", "reply"):
            return self.comes_home(message), None
        index = self.indices.get(message.pt)
        name, entry = self.first_match(index, message) if index else (None, None)
        if entry is not None and not self.allows(entry, message.kind):
            self.violations += 1
            if self.breaks("a_violation_unlinks"):
                self.unlink(index, name, entry)
            return "violation", self.answer(message, False, b"")
        full = len(self.headers) >= self.limits["unexpected"] and not self.breaks("headers_have_no_limit")
        if entry is None or name == "overflow" and full:
            self.drops += 1
            if entry is not None and "local" in entry.flags and self.breaks("a_dropped_message_moves_the_offset"):
                entry.running += min(message.length, self.space(entry, message)[1])
            return "dropped", self.answer(message, False, b"")
        place, delivered = self.place(entry, message)
        old = bytes(self.memory[place : place + delivered])
        self.memory[place : place + delivered] = self.written(message, old)
        kind = message.kind
        if kind == "swap":
            kind = "atomic" if self.breaks("swaps_raise_atomic") else "fetch_atomic"
        if self.counts(entry, "comm", kind) and not (name == "overflow" and self.breaks("overflow_deliveries_are_not_counted")):
            self.count(entry.ct, 1, 0)
        entry.running += delivered if "local" in entry.flags else 0
        header = Thing(message=message, entry=entry, place=place, delivered=delivered)
        if name == "overflow":
            self.headers.append(header)
        if name == "priority" or self.breaks("overflow_deliveries_raise_events"):
            self.raised(entry, index.queue, kind, **self.told(header))
        if self.goes(entry):
            self.unlink(index, name, entry)
        return "matched" if name == "priority" else "overflow", self.answer(message, True, old)

    def comes_home(self, message):
        md, length = message.home, len(message.bytes)
        writes = message.kind == "reply" and message.ok
        if not (md and md.live and md.awaits) or writes and message.home_offset + length > md.length:
            self.drops += 1
            return "dropped"
        at = md.start + message.home_offset
        if writes:
            self.memory[at : at + length] = message.bytes
        if self.counts(md, message.kind, message.kind, message.ok):
            self.count(md.ct, int(message.ok), int(not message.ok))
        if message.kind == "reply" or message.ack == "full" or self.breaks("each_acknowledgement_raises_an_event"):
            place = at if message.kind == "reply" and length else 0
            self.raised(md, md.queue, message.kind, source=message.source, pt=message.pt, bits=message.bits, data=message.data,
                        delivered=message.length, place=place, ok=message.ok)
        md.awaits -= 1
        return "answered"

    # ---- starts

    def check(self, deed):
        """The conditions on a start, and its refusals but for NoSpace; what the rest needs of them."""
        if deed.kind in ("inc", "set"):
            return
        most = self.limits["msg"]
        size = elements(deed.type)[0]
        partial = deed.kind == "swap" and deed.length != size or deed.kind in ATOMIC and deed.length % size
        special = {"atomic": self.limits["atomic"], "fetch_atomic": self.limits["fetch"]}.get(deed.kind, TOP)
        differ = deed.kind in FETCHING and deed.half != [deed.length, deed.target, deed.pt, deed.bits, deed.offset]
        refuse((deed.target >= self.ranks, "UnknownRank"), (deed.length > most, "TooLong"), (deed.length > special, "TooLong"),
               (partial, "PartialElement"), (differ, "HalvesDiffer"), (deed.kind in FETCHING and deed.ack != "none", "AsksAcknowledgement"))

    def stale(self, deed):
        if deed.kind in ("inc", "set"):
            return deed.ct is None
        return deed.md is None or deed.kind in FETCHING and deed.back is None

    def outside(self, deed):
        if deed.kind in ("inc", "set"):
            return False
        back = deed.kind in FETCHING and deed.back_offset + deed.length > deed.back.length
        return deed.at + deed.length > deed.md.length or back

    def bytes_of(self, deed):
        at = deed.md.start + deed.at
        return b"" if deed.kind == "get" else bytes(self.memory[at : at + deed.length])

    def start(self, deed):
        """The message."""
        md, fetches = deed.md, deed.kind in FETCHING
        home = deed.back if fetches else md if deed.kind == "get" or deed.ack != "none" else None
        if fetches and self.breaks("the_sending_half_awaits_the_reply"):
            home = md
        home_offset = deed.back_offset if fetches else deed.at if deed.kind == "get" else 0
        data = self.bytes_of(deed) if deed.posted is None else deed.posted
        if md.ct and self.breaks("each_start_counts") or self.counts(md, "send", "send"):
            self.count(md.ct, 1, 0)
        self.raised(md, md.queue, "send", source=self.rank, pt=deed.pt, bits=deed.bits, data=deed.data, requested=deed.length)
        if home:
            home.awaits = min(TOP, home.awaits + 1)
        return Thing(kind=deed.kind, source=self.rank, target=deed.target, pt=deed.pt, bits=deed.bits, offset=deed.offset,
                     length=deed.length, data=deed.data, op=deed.op, swap=deed.swap, type=deed.type, operand=deed.operand, ack=deed.ack,
                     home=home, home_offset=home_offset, ok=1, bytes=data)

    # ---- triggered operations

    def is_ready(self, operation):
        successes, failures = operation.ct.count
        reached = successes if self.breaks("thresholds_count_successes_alone") else successes + failures
        return reached + self.breaks("ready_one_below_the_threshold") >= operation.threshold

    def ready(self):
        return [operation for operation in self.waiting if self.is_ready(operation)]

    def fire(self, operation):
        self.waiting.remove(operation)
        deed = operation.deed
        if deed.kind == "inc":
            self.count(deed.ct, *deed.by)
        elif deed.kind == "set":
            deed.ct.count = list(deed.by)
        else:
            message = self.start(deed)
            if message.home and self.breaks("what_fires_awaits_no_answer"):
                message.home.awaits -= 1
            return message
        return None


class Device:
    """All ranks, and the wires between them; names are those of the log whose calls it makes."""

    def __init__(self, broken=None):
        self.broken, self.ranks, self.interfaces, self.flying = broken, 0, {}, {}

    def lines(self, log):
        """The log's lines with this device's answers."""
        for line in log:
            head, arrow, said = line.partition(" -> ")
            words = head.split(" ")
            if words[0] == "ranks":
                self.ranks = int(words[1])
            if words[0] == "lose":
                self.flying.pop(words[1], None)
            if words[0] == "settle":
                self.settle()
            if words[0] == "message" and words[1] in self.flying:
                message = self.flying[words[1]]
                head = f"message {words[1]} {self.shown(message)} bytes={message.bytes.hex() or '-'}"
            if arrow:
                head += f" -> {self.called(int(words[0]), words[1], words[2:], said.split(' ')[-1])}"
            yield head

    def settle(self):
        """Messages arrive, the oldest first; where none can, the first ready operation of the lowest rank fires; until there is neither."""
        while True:
            arrives = [word for word, message in self.flying.items() if message.target in self.interfaces]
            ready = [ni for rank, ni in sorted(self.interfaces.items()) if ni.ready()]
            if arrives:
                message = self.flying.pop(arrives[0])
                answer = self.interfaces[message.target].deliver(message)[1]
            elif ready:
                answer = ready[0].fire(ready[0].ready()[0])
            else:
                return
            if answer:
                self.sent(answer, "settled")

    def called(self, rank, call, words, name):
        """The answer of a call; what is new has this name."""
        fields = dict(word.split("=", 1) for word in words if "=" in word)
        plain = [word for word in words if "=" not in word]
        try:
            if call == "open":
                return self.open(rank, fields)
            if call in STARTS:
                return self.started(self.interfaces[rank], call, plain, fields, name)
            return getattr(self, call)(self.interfaces[rank], plain, fields, name)
        except Refused as word:
            return str(word)

    def shown(self, message):
        """The header of a message."""
        home = message.home.word if message.home else None
        values = {**vars(message), "home": home}
        return " ".join(f"{key}={'-' if values[key] is None else values[key]}" for key in HEADER)

    def unexpected(self, header):
        return f"{self.shown(header.message)} place={header.place} delivered={header.delivered} entry={header.entry.word}"

    def sent(self, message, name):
        while name in self.flying:
            name += "x"
        self.flying[name] = message
        return name

    def open(self, rank, fields):
        limits = {key: number(fields.get(key, "0")) for key in LIMITS}
        unfit = limits["entries"] + limits["unexpected"] > 2**32 - 1 or max(limits["triggered"], limits["cts"]) > 2**27
        refuse((rank >= self.ranks, "UnknownRank"), (unfit, "UnfitLimits"))
        region = bytes.fromhex(fields.get("region", "-").replace("-", ""))
        self.interfaces[rank] = Interface(rank, self.ranks, limits, region, self.broken)
        return "ok"

    def pt_alloc(self, ni, words, fields, name):
        at, queue = number(words[0]), ni.named("eq", fields.get("eq"))
        refuse(("eq" in fields and queue is None, "Stale"), (at >= ni.limits["pts"], "NoSpace"), (at in ni.indices, "InUse"))
        ni.indices[at] = Thing(number=at, queue=queue, lists={"priority": [], "overflow": []})
        return "ok"

    def pt_free(self, ni, words, fields, name):
        index = ni.indices.get(number(words[0]))
        refuse((index is None, "Stale"))
        waits = any(header.message.pt == index.number for header in ni.headers)
        refuse((index.lists["priority"] or index.lists["overflow"] or waits, "InUse"))
        del ni.indices[index.number]
        return "ok"

    def ct_alloc(self, ni, words, fields, name):
        refuse((len(ni.live("ct")) >= ni.limits["cts"], "NoSpace"))
        ni.make("ct", word=name, count=[0, 0])
        return name

    def ct_free(self, ni, words, fields, name):
        ct = ni.named("ct", words[0])
        refuse((ct is None, "Stale"))
        holders = ni.live("md") + ni.linked() + ni.waiting + [operation.deed for operation in ni.waiting]
        refuse((any(getattr(holder, "ct", None) is ct for holder in holders), "InUse"))
        ct.live = False
        return "ok"

    def ct_get(self, ni, words, fields, name):
        ct = ni.named("ct", words[0])
        refuse((ct is None, "Stale"))
        return "{} {}".format(*ct.count)

    def ct_set(self, ni, words, fields, name):
        return self.counted(ni, words, [0, 0])

    def ct_inc(self, ni, words, fields, name):
        ct = ni.named("ct", words[0])
        return self.counted(ni, words, ct.count if ct else [0, 0])

    def counted(self, ni, words, before):
        ct, by = ni.named("ct", words[0]), [number(word) for word in words[1:3]]
        refuse((ct is None, "Stale"), (sum(before) + sum(by) > TOP, "CountFull"))
        ct.count = [before[0] + by[0], before[1] + by[1]]
        return "ok"

    def ct_cancel(self, ni, words, fields, name):
        ct = ni.named("ct", words[0])
        refuse((ct is None, "Stale"))
        gone = [operation for operation in ni.waiting if operation.ct is ct]
        gone = gone[:1] if ni.breaks("cancels_one_operation") else gone
        ni.waiting = [operation for operation in ni.waiting if operation not in gone]
        return str(len(gone))

    def eq_alloc(self, ni, words, fields, name):
        room = number(words[0])
        refuse((room == 0, "NoRoom"), (len(ni.live("eq")) >= ni.limits["eqs"], "NoSpace"))
        ni.make("eq", word=name, room=room, events=[], lost=False)
        return name

    def eq_free(self, ni, words, fields, name):
        queue = ni.named("eq", words[0])
        refuse((queue is None, "Stale"))
        refuse((any(holder.queue is queue for holder in [*ni.indices.values(), *ni.live("md")]), "InUse"))
        queue.live = False
        return "ok"

    def eq_get(self, ni, words, fields, name):
        queue = ni.named("eq", words[0])
        refuse((queue is None, "Stale"))
        if queue.lost:
            queue.lost = False
            return "dropped"
        if not queue.events:
            return "empty"
        event = queue.events.pop(0)
        return " ".join([event["kind"], *(f"{key}={event[key]}" for key in EVENT)])

    def md_bind(self, ni, words, fields, name):
        queue, ct = ni.named("eq", fields.get("eq")), ni.named("ct", fields.get("ct"))
        start, length = number(fields.get("start", "0")), number(fields.get("length", "0"))
        stale = "eq" in fields and queue is None or "ct" in fields and ct is None
        full = len(ni.live("md")) >= ni.limits["mds"]
        if ni.breaks("a_full_table_comes_before_a_stale_handle"):
            refuse((full, "NoSpace"))
        refuse((stale, "Stale"), (full, "NoSpace"), (not ni.fits(start, length), "OutOfRegion"))
        ni.make("md", word=name, queue=queue, ct=ct, start=start, length=length, flags=words, awaits=0)
        return name

    def md_release(self, ni, words, fields, name):
        md = ni.named("md", words[0])
        refuse((md is None, "Stale"))
        used = any(md in (getattr(operation.deed, "md", None), getattr(operation.deed, "back", None)) for operation in ni.waiting)
        refuse((used or md.awaits and not ni.breaks("releases_what_awaits_an_answer"), "InUse"))
        md.live = False
        return "ok"

    def awaits(self, ni, words, fields, name):
        md = ni.named("md", words[0])
        refuse((md is None, "Stale"))
        return str(md.awaits)

    def awaits_any(self, ni, words, fields, name):
        return "yes" if any(md.awaits for md in ni.live("md")) else "no"

    def entry_of(self, ni, words, fields, name):
        ct = ni.named("ct", fields.get("ct"))
        amounts = {key: number(fields.get(key, "0")) for key in ("start", "length", "bits", "ignore", "min_free")}
        source = number(fields["source"]) if "source" in fields else None
        return Thing(word=name, ct=ct, stale="ct" in fields and ct is None, flags=words, source=source, running=0, linked=False, **amounts)

    def me_append(self, ni, words, fields, name):
        made = ni.append(number(words[0]), words[1], self.entry_of(ni, words[2:], fields, name))
        return f"linked {name}" if "running" in vars(made) else f"taken {self.unexpected(made)}"

    def me_unlink(self, ni, words, fields, name):
        entry = ni.named("me", words[0])
        refuse((entry is None, "Stale"), (any(header.entry is entry for header in ni.headers), "InUse"))
        entry.linked = False
        for index in ni.indices.values():
            for entries in index.lists.values():
                if entry in entries:
                    entries.remove(entry)
        return "ok"

    def me_search(self, ni, words, fields, name):
        found = ni.search(number(words[0]), words[1] == "delete", self.entry_of(ni, words[2:], fields, None))
        return f"found {self.unexpected(found)}" if found else "none"

    def headers(self, ni, words, fields, name):
        return str(len(ni.headers))

    def header(self, ni, words, fields, name):
        there = [header for header in ni.headers if header.message.pt == number(words[0])]
        place = number(words[1])
        return f"found {self.unexpected(there[place])}" if place < len(there) else "none"

    def deed_of(self, ni, kind, words, fields):
        """What a start, an increment or a set is to do."""
        if kind in ("inc", "set"):
            return Thing(kind=kind, ct=ni.named("ct", words[0]), by=[number(word) for word in words[1:3]])
        op = words.pop(0) if kind in ATOMIC else None
        element = words.pop(0) if kind in ATOMIC else "u8"
        amount = lambda key, other="0": number(fields.get(key, other))
        length, target, pt, bits, offset = (fields.get(key, "0") for key in ("length", "target", "pt", "bits", "at"))
        half = [amount("back_length", length), amount("back_target", target), amount("back_pt", pt), amount("back_bits", bits),
                amount("back_at", offset)]
        return Thing(kind=kind, md=ni.named("md", words[0]), at=amount("offset"), length=number(length), target=number(target),
                     pt=number(pt), bits=number(bits), offset=number(offset), data=amount("data"), ack=fields.get("ack", "none"),
                     type=element, op=op if kind != "swap" else None, swap=op if kind == "swap" else None, operand=amount("operand"),
                     back=ni.named("md", fields.get("back")), back_offset=amount("back_offset"), half=half,
                     posted=None)

    def started(self, ni, kind, words, fields, name):
        deed = self.deed_of(ni, kind, words, fields)
        ni.check(deed)
        refuse((ni.stale(deed), "Stale"))
        refuse((ni.outside(deed), "OutOfRegion"))
        return self.sent(ni.start(deed), name)

    def triggered(self, ni, words, fields, name):
        ct, deed = ni.named("ct", words[1]), self.deed_of(ni, words[3], words[4:], fields)
        ni.check(deed)
        refuse((ct is None or ni.stale(deed), "Stale"))
        full = deed.kind in ("inc", "set") and sum(deed.by) > TOP
        refuse((len(ni.waiting) >= ni.limits["triggered"], "NoSpace"), (ni.outside(deed), "OutOfRegion"), (full, "CountFull"))
        if deed.kind in STARTS and ni.breaks("bytes_are_read_as_it_is_posted"):
            deed.posted = ni.bytes_of(deed)
        ni.waiting.append(Thing(word=words[0], ct=ct, threshold=number(words[2]), deed=deed))
        return "ok"

    def operation_of(self, ni, word):
        found = [operation for operation in ni.waiting if operation.word == word]
        return found[0] if found else None

    def is_ready(self, ni, words, fields, name):
        operation = self.operation_of(ni, words[0])
        return "yes" if operation and ni.is_ready(operation) else "no"

    def ready(self, ni, words, fields, name):
        return ni.ready()[0].word if ni.ready() else "none"

    def ready_count(self, ni, words, fields, name):
        return str(len(ni.ready()))

    def ready_count_to(self, ni, words, fields, name):
        return str(sum(getattr(operation.deed, "target", None) == number(words[0]) for operation in ni.ready()))

    def ready_at(self, ni, words, fields, name):
        refuse((number(words[0]) >= len(ni.ready()), "NotReady"))
        return ni.ready()[number(words[0])].word

    def lane_of(self, ni, words, fields, name):
        operation = self.operation_of(ni, words[0])
        return str(getattr(operation.deed, "target", "none")) if operation else "none"

    def fire(self, ni, words, fields, name):
        operation = self.operation_of(ni, words[0])
        refuse((operation is None or not ni.is_ready(operation), "NotReady"))
        message = ni.fire(operation)
        return self.sent(message, name) if message else "none"

    def deliver(self, ni, words, fields, name):
        message = self.flying[words[0]]
        refuse((message.target != ni.rank, "Elsewhere"))
        del self.flying[words[0]]
        outcome, answer = ni.deliver(message)
        return f"{outcome} {self.sent(answer, name)}" if answer else outcome

    def read(self, ni, words, fields, name):
        start, length = number(words[0]), number(words[1])
        refuse((not ni.fits(start, length), "OutsideRegion"))
        return ni.memory[start : start + length].hex() or "-"

    def write(self, ni, words, fields, name):
        start, data = number(words[0]), bytes.fromhex(words[1].replace("-", ""))
        refuse((not ni.fits(start, len(data)), "OutsideRegion"))
        ni.memory[start : start + len(data)] = data
        return "ok"

    def pending(self, ni, words, fields, name):
        return str(len(ni.waiting))

    def drops(self, ni, words, fields, name):
        return str(ni.drops)

    def violations(self, ni, words, fields, name):
        return str(ni.violations)


def answered(log, broken=None):
    """The lines of a log with the answers of this device, as far as it finds what they name."""
    lines = []
    try:
        lines.extend(Device(broken).lines(log))
    except KeyError:
        pass
    return lines


def verdict(program, lines):
    said = subprocess.run([program, "judge"], input="\n".join([*lines, ""]), capture_output=True, text=True).stdout
    return said.split("\n")[0]


def finds(program, logs, rule):
    """Where the logs find a device that breaks this rule."""
    found = []
    for name, log in logs.items():
        right, wrong = answered(log), answered(log, rule)
        other = [place for place, line in enumerate(right, 1) if wrong[place - 1 : place] != [line]]
        said = verdict(program, wrong).split(" ")
        if said[0] == "differs":
            if not other or int(said[1]) != other[0]:
                sys.exit(f"{rule}, {name}: {' '.join(said)}, but other answers begin at line {other[:1]}")
            found.append(f"{name} {said[1]}")
        elif other and said[0] == "conforms":
            sys.exit(f"{rule}, {name}: line {other[0]} isn't found")
    return found


def judge(program):
    here = os.path.dirname(os.path.abspath(__file__))
    logs = {}
    for name in sorted(os.listdir(here)):
        if name.endswith(".log"):
            with open(f"{here}/{name}", encoding="ascii") as file:
                logs[name[:-4]] = file.read().splitlines()
    for name, log in logs.items():
        said = verdict(program, answered(log))
        if said.split(" ")[0] != "conforms":
            sys.exit(f"{name}: {said}")
    for rule in RULES:
        found = finds(program, logs, rule)
        if not found:
            sys.exit(f"{rule}: no log finds it")
        print(f"{rule}: {', '.join(found)}")


if __name__ == "__main__":
    if sys.argv[1:2] == ["--judge"]:
        judge(sys.argv[2])
    else:
        print("\n".join(answered(sys.stdin.read().splitlines(), *sys.argv[1:2])))
