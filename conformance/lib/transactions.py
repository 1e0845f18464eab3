"""A database by its versions, and transactions on it, as docs/reference/rules.md has them.

Where a database is to be shared with a cluster, a call raises `NotShared` whose answer a cluster may give otherwise
(docs/guide/differences.md), and a transaction keeps two lists of read ranges: those that every client adds, and those that one may add.
"""

from __future__ import annotations

from collections import Counter
from typing import NamedTuple, Optional

from . import atomics
from .values import END, NotShared, Range, Refused, Stamped, Unknown, above, after, like, meet, without

LONGEST_KEY, LONGEST_VALUE, MOST_BYTES = 10_000, 100_000, 10_000_000
RETRIED = (1007, 1009, 1020, 1021, 1037)
EXACT = 0
EVERYTHING: Range = (b"", END + END)

Pairs = dict[bytes, bytes]


class Selector(NamedTuple):
    key: bytes
    or_equal: bool
    offset: int


class RangeOptions(NamedTuple):
    limit: int
    reverse: bool
    mode: int


class Attempt:
    """An attempt of a transaction: its outcome is None until it is decided, then a versionstamp or a code."""

    def __init__(self) -> None:
        self.outcome: bytes | int | None = None

    def decide(self, outcome: bytes | int) -> None:
        if self.outcome is None:
            self.outcome = outcome


class Written(NamedTuple):
    """A write conflict range of a commit. Of a stamped key `range` is all that the key may come to be, and `actual` what it is."""

    range: Range
    actual: Range

    def is_stamped(self) -> bool:
        return self.range != self.actual


class Database:
    """The pairs at each version, what each commit wrote, and how a script may use them.

    `region` is what a shared script may ask of: only its pairs are known while a script is made, those outside are there
    in every tester (instructions, or what other machines have). `is_alone` says that no other machine writes.
    """

    def __init__(self, pairs: Pairs, api: int = 630, region: Optional[Range] = None, is_alone: bool = True):
        self.maps: list[Pairs] = [{}, dict(pairs)]
        self.writes: list[list[Written]] = [[], []]
        self.api, self.region, self.is_alone = api, region, is_alone
        self.keys: set[bytes] = set()  # that calls named
        self.neighbours: Counter[tuple[str, str]] = Counter()

    @property
    def is_shared(self) -> bool:
        return self.region is not None

    @property
    def last(self) -> int:
        return len(self.maps) - 1

    @property
    def pairs(self) -> Pairs:
        return self.maps[-1]

    def need(self, condition: bool, why: str) -> None:
        """Lets through what is shared; on a database of one program alone everything is."""
        if self.region is not None and not condition:
            raise NotShared(why)

    def add(self, pairs: Pairs, written: list[Written]) -> None:
        self.maps.append(pairs)
        self.writes.append(written)


class Mutation(NamedTuple):
    """A write: `kind` is set, clear, or the name of an atomic operation; a clear has an end in place of a value."""

    kind: str
    key: bytes
    value: bytes
    is_silent: bool
    place: int = 0  # of the versionstamp, in the key or the value

    def range(self) -> Range:
        """Returns the keys that are written; of a stamped key all that it may come to be."""
        if self.kind == "clear":
            return self.key, self.value
        if self.kind == "SET_VERSIONSTAMPED_KEY":
            return filled(self.key, self.place, bytes(10)), after(filled(self.key, self.place, END * 10))
        return self.key, after(self.key)

    def written_by(self, stamp: bytes) -> Range:
        """Returns the keys that a commit with this versionstamp writes."""
        if self.kind != "SET_VERSIONSTAMPED_KEY":
            return self.range()
        key = filled(self.key, self.place, stamp)
        return key, after(key)

    def decides(self) -> bool:
        return self.kind in ("set", "clear")

    def has_stamp(self) -> bool:
        return self.kind.startswith("SET_VERSIONSTAMPED")

    def apply(self, pairs: Pairs, api: int, stamp: bytes | None) -> None:
        """Changes the pairs. Without a versionstamp a write that needs one is left out."""
        if self.kind == "clear":
            for key in [key for key in pairs if self.key <= key < self.value]:
                del pairs[key]
        elif self.kind == "set":
            put(pairs, self.key, self.value)
        elif self.kind == "SET_VERSIONSTAMPED_KEY":
            if stamp is not None:
                put(pairs, Stamped(filled(self.key, self.place, stamp)), self.value)
        elif self.kind == "SET_VERSIONSTAMPED_VALUE":
            if stamp is not None:
                put(pairs, self.key, Stamped(filled(self.value, self.place, stamp)))
        else:
            found = atomics.result(api, self.kind.encode(), pairs.get(self.key), self.value)
            if found is None:
                pairs.pop(self.key, None)
            else:
                put(pairs, self.key, found)


def put(pairs: Pairs, key: bytes, value: bytes) -> None:
    """Sets a pair; a key that is there already keeps its mark."""
    pairs[key] = value


def filled(template: bytes, place: int, stamp: bytes) -> bytes:
    return like(template[:place] + stamp + template[place + 10 :], template)


class Transaction:
    """A transaction: a life after another by reset, on_error or a new one under its name."""

    def __init__(self, database: Database):
        self.database = database
        self.begin()

    def begin(self) -> None:
        self.attempt = Attempt()
        self.phase = "active"  # or tried, cancelled, or unsure where a client may have begun anew
        self.was_refused = False
        self.version: int | None = None
        self.is_version_sure = True
        self.mutations: list[Mutation] = []
        self.reads: list[Range] = []
        self.surely: list[Range] = []
        self.perhaps: list[Range] = []
        self.declared: list[Range] = []
        self.is_next_silent = False
        self.has_directories = False
        self.size = 0
        self.committed = -1
        self.is_committed_sure = True
        self.is_promised = False
        self.seen: Pairs | None = None
        self.touched: dict[bytes, str] = {}

    # Phases.

    def check_phase(self) -> None:
        if self.phase == "unsure":
            raise NotShared("a client may have begun the transaction anew")
        if self.phase == "cancelled":
            raise Refused(1025)
        if self.phase == "tried":
            self.database.need(not self.was_refused, "a binding may begin anew behind a refused commit")
            raise Refused(2017)

    def check_active(self, what: str) -> None:
        """Refuses a call as its phase has it; a client tells the error of such a call elsewhere."""
        self.database.need(self.phase == "active", f"{what} behind a commit or a cancel")
        self.check_phase()

    # Reads.

    def decided(self) -> list[Range]:
        return [it.range() for it in self.mutations if it.decides()]

    def unreadable(self) -> list[Range]:
        return [it.range() for it in self.mutations if it.has_stamp()]

    def take_version(self) -> None:
        if self.version is None:
            self.version = self.database.last

    def view(self) -> Pairs:
        """Returns the pairs that the transaction sees."""
        if self.seen is None:
            version = self.database.last if self.version is None else min(self.version, self.database.last)
            pairs = dict(self.database.maps[version])
            for mutation in self.mutations:
                mutation.apply(pairs, self.database.api, None)
            unreadable = self.unreadable()
            if unreadable:
                pairs = {key: value for key, value in pairs.items() if not meet([(key, after(key))], unreadable)}
            if self.version is None:
                return pairs
            self.seen = pairs
        return self.seen

    def begin_read(self) -> None:
        """Takes the version, and refuses one above the last."""
        self.take_version()
        assert self.version is not None
        if self.version > self.database.last:
            raise Refused(1009)

    def end_read(self, kind: str, interval: list[Range], perhaps: list[Range], is_snapshot: bool) -> None:
        """Notes a read by the keys that its answer hangs on, and by those that a client may add."""
        interval = [it for it in interval if it[0] < it[1]]
        if meet(interval, self.unreadable()):
            self.database.need(self.had_version, "a client may refuse an unreadable key before it takes a version")
            raise Refused(1036)
        left = without(interval, self.decided())
        self.settle_version(bool(left))
        self.touch(kind, interval)
        if not is_snapshot:
            self.reads += left
            self.surely += left
            self.perhaps += perhaps

    def settle_version(self, is_stored_read: bool) -> None:
        """A client needn't take a version for keys that the transaction itself decided."""
        if not self.had_version and not is_stored_read:
            self.is_version_sure = False
        elif not self.is_version_sure and is_stored_read:
            self.database.need(self.version == self.database.last, "a client may have taken no version for its own writes")
            self.is_version_sure = True

    def touch(self, kind: str, ranges: list[Range]) -> None:
        """Counts operations that are neighbours on a key."""
        for begin, end in ranges:
            if end == begin + b"\x00":
                self.database.keys.add(begin)
        for key in self.database.keys:
            if any(begin <= key < end for begin, end in ranges):
                if key in self.touched:
                    self.database.neighbours[self.touched[key], kind] += 1
                self.touched[key] = kind

    def check_read(self, keys: list[bytes], most: bytes, options: RangeOptions | None = None) -> None:
        """Refuses a read before it takes a version."""
        self.had_version = self.version is not None
        is_outside = any(key > most for key in keys)
        is_exact = options is not None and options.mode == EXACT and options.limit == 0
        if is_outside or is_exact:
            self.database.need(self.phase == "active", "two errors at once")
            self.database.need(not (is_outside and is_exact), "two errors at once")
            self.database.need(not any(key.startswith(END * 2) for key in keys), "special keys")
        self.check_phase()
        if is_outside:
            raise Refused(2004)
        if is_exact:
            raise Refused(2210)

    def get(self, key: bytes, is_snapshot: bool) -> bytes | None:
        self.check_read([key], b"\xfe" + END * len(key))
        self.stay_inside(key, after(key))
        self.begin_read()
        value = self.view().get(key)
        self.end_read("get", [(key, after(key))], [(key, after(key))], is_snapshot)
        return value

    def stay_inside(self, begin: bytes, end: bytes) -> None:
        """A shared script reads by key and by range inside its region alone."""
        if self.database.region is not None:
            low, high = self.database.region
            self.database.need(begin >= end or low <= begin and end <= high, "a read outside the script's own keys")

    def place_of(self, selector: Selector, keys: list[bytes]) -> int:
        below = sum(it < selector.key or (selector.or_equal and it == selector.key) for it in keys)
        return below - 1 + selector.offset

    def find(self, selector: Selector) -> bytes:
        """Returns the key that a selector means; outside the region the empty key or FF stand for what isn't known."""
        keys = sorted(self.view())
        place = self.place_of(selector, keys)
        return b"" if place < 0 else keys[place] if place < len(keys) else END

    def interval_of(self, selector: Selector, found: bytes) -> Range:
        """Returns the read conflict range of a selector."""
        place = after(selector.key) if selector.or_equal else selector.key
        if selector.offset > 0:
            return place, END if found == END else after(found)
        return found, min(place, END)

    def is_inside(self, found: bytes) -> bool:
        region = self.database.region
        return region is None or region[0] <= found < region[1] and found in self.view()

    def inside(self, ranges: list[Range]) -> list[Range]:
        """Returns what of the ranges lies in the region."""
        if self.database.region is None:
            return ranges
        low, high = self.database.region
        return [(max(begin, low), min(end, high)) for begin, end in ranges]

    def check_selector(self, found: bytes, is_snapshot: bool) -> None:
        """Where other machines write, an ordinary read by a selector stays inside the region."""
        self.database.need(self.database.is_alone or is_snapshot or self.is_inside(found), "a selector among the keys of other machines")

    def get_key(self, selector: Selector, is_snapshot: bool) -> bytes:
        self.check_read([selector.key], END)
        self.begin_read()
        found = self.find(selector)
        self.check_selector(found, is_snapshot)
        self.end_read("selector", self.inside([self.interval_of(selector, found)]), [EVERYTHING], is_snapshot)
        return found

    def get_range(self, begin: bytes, end: bytes, options: RangeOptions, is_snapshot: bool) -> list[tuple[bytes, bytes]]:
        self.check_read([begin, end], END, options)
        self.stay_inside(begin, end)
        self.begin_read()
        pairs = self.slice(begin, end, options)
        self.end_read("get range", [self.interval_of_range(begin, end, pairs, options)], [(begin, end)], is_snapshot)
        return pairs

    def slice(self, begin: bytes, end: bytes, options: RangeOptions) -> list[tuple[bytes, bytes]]:
        pairs = sorted(((key, value) for key, value in self.view().items() if begin <= key < end), reverse=options.reverse)
        return pairs[: options.limit] if options.limit else pairs

    def interval_of_range(self, begin: bytes, end: bytes, pairs: list[tuple[bytes, bytes]], options: RangeOptions) -> Range:
        """Returns the read conflict range of a range: up to the last pair where the limit is reached."""
        if not options.limit or len(pairs) < options.limit:
            return begin, end
        return (pairs[-1][0], end) if options.reverse else (begin, after(pairs[-1][0]))

    def get_range_between(self, begin: Selector, end: Selector, options: RangeOptions, is_snapshot: bool) -> tuple[list[tuple[bytes, bytes]], bool]:
        """Returns the pairs between two selectors, and whether all of them are known."""
        self.check_read([begin.key, end.key], END, options)
        self.begin_read()
        first, last = self.find(begin), self.find(end)
        self.check_selector(first, is_snapshot)
        self.check_selector(last, is_snapshot)
        pairs = self.slice(first, last, options)
        intervals = [self.interval_of(begin, first), self.interval_of(end, last), self.interval_of_range(first, last, pairs, options)]
        sure = self.surely[:]
        self.end_read("selector", self.inside(intervals), [EVERYTHING], is_snapshot)
        # A client needn't add more of a range between selectors than what it answers.
        self.surely = sure + ([] if is_snapshot else without([(key, after(key)) for key, _ in pairs], self.decided()))
        edge = last if options.reverse else first
        return pairs, not options.limit or first >= last or self.is_inside(edge)

    def get_read_version(self) -> int:
        self.check_active("GET_READ_VERSION")
        self.had_version = self.version is not None
        self.take_version()
        self.settle_version(True)
        assert self.version is not None
        return self.version

    def set_read_version(self, version: int) -> None:
        self.check_active("SET_READ_VERSION")
        if self.version is not None:
            self.database.need(False, "an error of SET_READ_VERSION")
            raise Refused(2010)
        if version <= 0:
            self.database.need(False, "an error of SET_READ_VERSION")
            raise Refused(2011)
        self.version, self.seen = version, None

    # Writes.

    def add(self, mutation: Mutation, size: int) -> None:
        self.mutations.append(mutation._replace(is_silent=self.is_next_silent))
        self.is_next_silent = False
        self.size += size
        self.seen = None
        if mutation.has_stamp():
            self.touch("stamp", [mutation.range()])
        else:
            named = {"set": "set", "clear": "clear" if mutation.value == mutation.key + b"\x00" else "clear range"}
            self.touch(named.get(mutation.kind, "atomic"), [mutation.range()])

    def check_write(self, what: str, *faults: tuple[bool, int]) -> None:
        self.check_active(what)
        for is_fault, code in faults:
            if is_fault:
                self.database.need(False, f"an error of {what}")
                raise Refused(code)

    def check_stamped(self, begin: bytes, end: bytes) -> None:
        self.database.need(not meet([(begin, end)], self.unreadable()), "a write over a stamped key or value")

    def set(self, key: bytes, value: bytes) -> None:
        self.check_write("SET", (key >= END, 2004), (len(key) > LONGEST_KEY, 2102), (len(value) > LONGEST_VALUE, 2103))
        self.check_stamped(key, after(key))
        self.add(Mutation("set", key, value, False), len(key) + len(value))

    def clear(self, key: bytes) -> None:
        self.check_write("CLEAR", (key >= END, 2004))
        self.check_stamped(key, after(key))
        self.add(Mutation("clear", key, after(key), False), 2 * len(key) + 1)

    def clear_range(self, begin: bytes, end: bytes) -> None:
        self.check_write("CLEAR_RANGE", (max(begin, end) > END, 2004), (begin > end, 2005))
        self.check_stamped(begin, end)
        self.add(Mutation("clear", begin, end, False), len(begin) + len(end))

    def atomic(self, name: bytes, key: bytes, operand: bytes) -> None:
        self.check_write("ATOMIC_OP", (not atomics.is_atomic(name), 2018))
        if name not in atomics.WITH_A_STAMP:
            self.check_write("ATOMIC_OP", (key >= END, 2004), (len(key) > LONGEST_KEY, 2102), (len(operand) > LONGEST_VALUE, 2103))
            self.check_stamped(key, after(key))
            self.add(Mutation(name.decode(), key, operand, False), len(key) + len(operand))
            return
        is_key = name == b"SET_VERSIONSTAMPED_KEY"
        template, place = self.template_of(is_key, key if is_key else operand)
        key_asked = filled(template, place, bytes(10)) if is_key else key
        self.check_write("ATOMIC_OP", (key_asked >= END, 2004), (len(key_asked) > LONGEST_KEY, 2102), (len(operand) > LONGEST_VALUE, 2103))
        mutation = Mutation(name.decode(), template, operand, False, place) if is_key else Mutation(name.decode(), key, template, False, place)
        self.check_stamped(*mutation.range())
        self.database.need(not is_key or self.database.api >= 520 or self.version is None, "stamped keys of an old version")
        self.add(mutation, len(key) + len(operand))

    def template_of(self, is_key: bool, string: bytes) -> tuple[bytes, int]:
        """Returns the template and the place of the versionstamp."""
        size = 4 if self.database.api >= 520 else 2 if is_key else 0
        template, offset = (string[: len(string) - size], string[len(string) - size :]) if size else (string, b"")
        place = int.from_bytes(offset, "little")
        self.check_write("ATOMIC_OP", (len(string) < size or place + 10 > len(template), 2000))
        return template, place

    def add_conflict(self, begin: bytes, end: bytes, is_write: bool) -> None:
        self.check_write("a conflict range", (max(begin, end) > END, 2004), (begin > end, 2005))
        if begin == end:
            return
        self.size += len(begin) + len(end)
        if is_write:
            self.declared.append((begin, end))
        else:
            self.reads.append((begin, end))
            self.perhaps.append((begin, end))
            self.surely += without([(begin, end)], self.decided())

    def disable_write_conflict(self) -> None:
        self.check_active("DISABLE_WRITE_CONFLICT")
        self.is_next_silent = True

    # Ends.

    def written(self, stamp: bytes) -> list[Written]:
        """Returns the write conflict ranges of the commit."""
        writes = [Written(it.range(), it.written_by(stamp)) for it in self.mutations if not it.is_silent]
        return [it for it in [*writes, *(Written(it, it) for it in self.declared)] if it.range[0] < it.range[1]]

    def is_read_only(self) -> bool:
        return not self.mutations and not self.declared

    def has_writes_for_sure(self) -> bool:
        """Whether every client takes the commit for one that writes: clears of empty ranges may be dropped."""
        return bool(self.declared) or any(it.range()[0] < it.range()[1] for it in self.mutations)

    def later(self) -> list[Written]:
        """Returns what was written since the version."""
        version = self.database.last if self.version is None else self.version
        return [it for written in self.database.writes[version + 1 :] for it in written]

    def is_refused_for_sure(self) -> bool:
        later = self.later()
        plain = [it.range for it in later if not it.is_stamped()]
        is_within = any(begin <= it.range[0] and it.range[1] <= end for it in later if it.is_stamped() for begin, end in self.surely)
        return meet(self.surely, plain) or is_within

    def may_be_refused(self) -> bool:
        perhaps = [EVERYTHING] if self.has_directories else self.perhaps
        return meet(perhaps, [it.range for it in self.later()])

    def is_commit_shared(self) -> bool:
        """Whether each client is answered alike at a commit."""
        if self.phase != "active":
            return not (self.phase == "unsure" or self.was_refused)
        if self.is_read_only():
            return True
        return not self.may_be_refused() or self.has_writes_for_sure() and self.is_refused_for_sure()

    def conflicts(self) -> bool:
        return meet(self.reads, [it.actual for it in self.later()])

    def commit(self) -> None:
        self.check_phase()
        if self.phase == "active":
            self.database.need(self.is_commit_shared(), "a conflict that hangs on what a client adds")
        self.phase = "tried"
        if self.is_read_only():
            self.attempt.decide(2021)
            return
        self.is_committed_sure = self.has_writes_for_sure()
        self.database.need(self.is_committed_sure or not self.is_promised, "a versionstamp of a commit that may have none")
        version = self.database.last if self.version is None else self.version
        if self.size > MOST_BYTES:
            self.refuse(2101)
        if version > self.database.last:
            self.refuse(1009)
        if self.conflicts():
            self.refuse(1020)
        self.write()

    def refuse(self, code: int) -> None:
        self.was_refused = True
        self.attempt.decide(code)
        raise Refused(code)

    def write(self) -> None:
        self.committed = self.database.last + 1
        stamp = stamp_of(self.committed)
        pairs = dict(self.database.pairs)
        for mutation in self.mutations:
            mutation.apply(pairs, self.database.api, stamp)
        self.database.add(pairs, self.written(stamp))
        self.attempt.decide(stamp)

    def get_versionstamp(self) -> Attempt:
        self.check_active("GET_VERSIONSTAMP")
        self.is_promised = True
        return self.attempt

    def get_committed_version(self) -> int:
        self.database.need(self.phase == "tried" and not self.was_refused and self.is_committed_sure, "the version of no commit")
        return self.committed

    def on_error(self, code: int) -> None:
        if self.phase == "unsure":
            raise NotShared("a client may have begun the transaction anew")
        if self.phase == "cancelled":
            raise Refused(1025)
        if code in RETRIED:
            self.reset()
            return
        self.attempt.decide(1025)
        self.phase = "unsure" if self.database.is_shared else "cancelled"
        self.committed = -1
        raise Refused(code)

    def reset(self) -> None:
        self.attempt.decide(1025)
        self.begin()

    def cancel(self) -> None:
        self.database.need(self.phase == "active", "CANCEL behind a commit")
        if self.phase == "active":
            self.attempt.decide(1025)
            self.phase = "cancelled"


def stamp_of(version: int) -> bytes:
    return Stamped(version.to_bytes(8, "big") + b"\x00\x00")


def prefix_range(prefix: bytes) -> Range:
    """Returns the range of the keys that begin with the prefix."""
    return prefix, above(prefix) or END


def is_known(*values: object) -> bool:
    return not any(isinstance(value, Unknown) for value in values)
