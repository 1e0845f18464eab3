"""Finds the orders in which the requests of a script can be taken, by replays of `fdbtester`.

A replay of an order tells that a machine has no request at a place, that the order ends early, or the dump. So orders are
found by walking. Each order that was found is left at each of its places for each other machine that can go on there, and
is completed from there by one rule: the machine that took the last request goes on for as long as it can, then the next
one by number, and behind the last number the first. A machine can go on where it has a request that isn't a poll in vain.

Each wait has one poll here, so that a poll in vain ends its machine with `wait-bound`, and the dump says so.
An order is kept as bytes, the number of a machine at each place.
"""

import collections
import functools
import hashlib
import itertools
import multiprocessing
import signal
import subprocess
from typing import NamedTuple

MACHINES = 64  # that a run may have
BATCH = 512  # branches that are handed to the processes at a time
CHUNK = 8  # branches that one process takes at a time


class ReplayFault(Exception):
    """The program refused the script, or failed."""


class Answer(NamedTuple):
    """What a replay told: the dump, or the place that was refused, counted from 0, or neither where the order ends early."""

    dump: bytes = None
    refused: int = None


class Replays:
    """Replays a script by its orders."""

    def __init__(self, program, prefix, seed, script, api="630"):
        self.words = [program, "replay", "--seed", str(seed), "--polls"]
        self.prefix, self.script, self.api = prefix, script, api

    def ask(self, places, polls=1):
        """Replays the script by an order."""
        given = b"".join(b"O %d\n" % machine for machine in places) + self.script
        ran = subprocess.run([*self.words, str(polls), "--", self.prefix, self.api], input=given, capture_output=True, check=False)
        if ran.returncode in (0, 3):
            return Answer(dump=ran.stdout)
        told = ran.stderr.decode(errors="replace").strip()
        if told == "fdbtester: order ends early":
            return Answer()
        if told.startswith("fdbtester: order place "):
            return Answer(refused=int(told.split()[3].rstrip(":")) - 1)
        raise ReplayFault(told or f"the program ended with status {ran.returncode}")

    def waits_at(self, order, machine, places):
        """Tells whether a machine that takes no request between these places of an order polls in vain at each of them.

        It polls at all of them, and once more. Where all are in vain, as many polls as there are places end it before the last one,
        and one poll more doesn't. Where one isn't, its wait is over and later ones have fewer polls, so the two replays are alike.
        """
        probe = bytes([machine])
        asked = order[: places[0]]
        for place, end in zip(places, [*places[1:], places[-1]]):
            asked += probe + order[place:end]
        asked += probe
        refusals = [self.ask(asked, len(places) + more).refused for more in (0, 1)]
        return refusals == [len(asked) - 1, None]

    def run_of(self, places, machine):
        """Returns how many requests a machine takes one after another behind the places."""
        count = 32
        while True:
            answer = self.ask(places + bytes([machine]) * count)
            if answer.refused is not None:
                return answer.refused - len(places)
            if answer.dump is not None:
                return count
            count *= 8


class Branch(NamedTuple):
    """The front of an order that is to be completed: an order that was found, left at the last place for another machine.

    With it goes what is known from that order: how many requests each machine took, which is a guess for the new one, from which
    place on it had one, and which requests were polls in vain somewhere, as the machine and the number of its request.
    """

    front: bytes = b""
    switches: int = 0
    counts: dict = {}
    starts: dict = {}
    polls: frozenset = frozenset()


class Found(NamedTuple):
    """An order of a complete run.

    From the place `vain` on each machine that is left waits in vain, and polls once. `exits` are the places at which another
    machine can take the request, perhaps, each with that machine and whether the one before was left while it could go on.
    """

    places: bytes
    vain: int
    outcome: bytes
    switches: int
    counts: dict
    starts: dict
    polls: frozenset
    exits: list

    def branches(self):
        """Yields the branches that leave this order."""
        for place, machine, is_switch in self.exits:
            front = self.places[:place] + bytes([machine])
            yield Branch(front, self.switches + is_switch, self.counts, self.starts, self.polls)


class Walk:
    """Completes an order from its front by the rule; what it learns of machines is kept by the places before."""

    def __init__(self, replays, branch, may_switch):
        self.replays, self.branch, self.may_switch = replays, branch, may_switch
        self.counts = dict(branch.counts)
        self.lacking = collections.defaultdict(set)  # machines that have no request behind these places
        self.waiting = collections.defaultdict(set)  # machines whose poll behind these places is in vain

    def guess(self):
        """Continues the front by the rule, as far as it is known, and returns the order and from where on all wait in vain."""
        order = bytearray(self.branch.front)
        left = {machine: count - order.count(machine) for machine, count in self.counts.items()}
        while True:
            here = bytes(order)
            for machine in self.lacking.get(here, ()):
                if machine in here:  # it has ended, and wasn't only not started yet
                    left[machine] = 0
            idle = self.lacking.get(here, set()) | self.waiting.get(here, set())
            able = [machine for machine, count in left.items() if count > 0 and machine not in idle]
            if not able:
                return here + bytes(sorted(self.waiting.get(here, ()))), len(here)
            order.append(min(able, key=functools.partial(self.turn, order)))
            left[order[-1]] -= 1

    def turn(self, order, machine):
        """Returns when a machine that can go on behind an order has its turn; the least is the first."""
        last = order[-1] if order else 0
        is_poll = (machine, order.count(machine)) in self.branch.polls
        return machine != last, is_poll, (machine - last) % MACHINES

    def complete(self):
        """Returns the order, from where on all wait in vain and the dump; nothing where the front's last machine can't go on there."""
        front = self.branch.front
        if front and (front[-1], front.count(front[-1], 0, -1)) in self.branch.polls and self.ends_in_vain():
            return None
        while True:
            order, vain = self.guess()
            answer = self.replays.ask(order)
            if answer.refused is not None:
                place, learnt = answer.refused, self.lacking
            elif answer.dump is not None:
                place, learnt = self.first_wait(order, vain, answer.dump), self.waiting
            else:
                self.count_more(order)
                continue
            if place is None:
                return order, vain, answer.dump
            if place < len(front):
                return None
            learnt[order[:place]].add(order[place])

    def ends_in_vain(self):
        """Tells by one replay whether the front ends in a poll in vain, as it is thought to; a no says nothing."""
        front = self.branch.front
        count = self.counts[front[-1]]
        self.counts[front[-1]] = front.count(front[-1])
        order, vain = self.guess()
        self.counts[front[-1]] = count
        answer = self.replays.ask(order)
        return answer.dump is not None and self.first_wait(order, vain, answer.dump) == len(front) - 1

    @staticmethod
    def first_wait(order, vain, dump):
        """Returns the first place at which a machine polled in vain though another could go on, if there is one."""
        ends = [line.split(b" ", 3)[2] for line in dump.split(b"\n") if line.startswith(b"M ")]
        waits = [order.rindex(machine) for machine, end in enumerate(ends) if end == b"wait-bound"]
        return min((place for place in waits if place < vain), default=None)

    def count_more(self, order):
        """Finds a machine that has more requests than it was thought to have, in an order that ends early."""
        front = len(self.branch.front)
        for place in range(front, len(order) + 1):
            machine = order[place - 1] if place else 0
            if machine not in order[place:] and self.counts_more(order[:place], machine):
                return
        for machine in range(MACHINES):
            is_looked_at = order.rfind(machine) >= max(front - 1, 0)
            if not is_looked_at and self.counts_more(order, machine):
                return
        raise ReplayFault("the order ends early, and no machine has a request")

    def counts_more(self, places, machine):
        """Counts the requests that a machine has behind the places, and tells whether there are any."""
        if machine in self.lacking.get(places, ()):
            return False
        more = self.replays.run_of(places, machine)
        if more:
            self.counts[machine] = places.count(machine) + more
        else:
            self.lacking[places].add(machine)
        return more > 0

    def starts(self, order):
        """Returns the place from which on each machine of the order has a request."""
        front, found = len(self.branch.front), {}
        for machine in sorted(set(order)):
            low, high = self.branch.starts.get(machine, front), order.index(machine)
            if low >= front:
                low = front
                while low < high:
                    middle = (low + high) // 2
                    if self.replays.ask(order[:middle] + bytes([machine])).refused == middle:
                        low = middle + 1
                    else:
                        high = middle
            found[machine] = low
        return found

    def exits(self, order, vain, starts):
        """Returns the exits of the order behind the front, but for those that are known to be polls in vain."""
        found = collections.defaultdict(list)
        for place in range(len(self.branch.front), vain):
            is_switch = place > 0 and order[place - 1] == order[place]
            for machine in set(order[place + 1 :]) - {order[place]} - self.waiting.get(order[:place], set()):
                if starts[machine] <= place and (self.may_switch or not is_switch):
                    found[machine, order.count(machine, 0, place)].append((place, machine, is_switch))
        polls = self.polls()
        for request, exits in list(found.items()):
            places = [place for place, _, _ in exits]
            if request in polls and len(places) > 1 and self.replays.waits_at(order, request[0], places):
                del found[request]
        return sorted(itertools.chain.from_iterable(found.values()))

    def polls(self):
        """Returns which requests were polls in vain somewhere."""
        learnt = {(machine, places.count(machine)) for places, machines in self.waiting.items() for machine in machines}
        return self.branch.polls | learnt


def outcome_of(dump, by_pairs):
    """Returns a dump without its order, or only its pairs."""
    left = b"K" if by_pairs else b"MSEK"
    return b"".join(line + b"\n" for line in dump.split(b"\n") if line and line[0] in left)


def digest(outcome):
    return hashlib.blake2b(outcome, digest_size=16).digest()


# What each process follows branches by: the replays, and whether outcomes are told apart by their pairs alone.
followed = {}


def begin(replays, by_pairs):
    signal.signal(signal.SIGINT, signal.SIG_IGN)
    followed.update(replays=replays, by_pairs=by_pairs)


def follow(branch, may_switch):
    """Completes the order of a branch, and returns what was found, or nothing where the machine can't go on there.

    Where it may switch, its exits are also those at which a machine is left while it could go on.
    """
    walk = Walk(followed["replays"], branch, may_switch)
    completed = walk.complete()
    if completed is None:
        return None
    order, vain, dump = completed
    starts = walk.starts(order)
    counts = {machine: order.count(machine) for machine in sorted(set(order))}
    outcome = digest(outcome_of(dump, followed["by_pairs"]))
    return Found(order, vain, outcome, branch.switches, counts, starts, walk.polls(), walk.exits(order, vain, starts))


class Exploration:
    """Finds the orders with so many switches at most, those with fewer first, until there are as many as are asked for."""

    def __init__(self, pool, switches, most):
        self.pool, self.switches, self.most = pool, switches, most
        self.tried = 0
        self.has_further_switches = False  # an order with more switches was left out
        self.unfollowed = 0  # branches that were left out for the number of orders

    def follow(self, branches, may_switch):
        """Takes as many branches as one batch has, and yields the orders that they lead to."""
        batch = [branches.popleft() for _ in range(min(len(branches), BATCH, self.most - self.tried))]
        return filter(None, self.pool.imap(functools.partial(follow, may_switch=may_switch), batch, CHUNK))

    def orders(self):
        """Yields the orders."""
        waves = [collections.deque() for _ in range(self.switches + 2)]
        waves[0].append(Branch())
        for wave in waves[:-1]:
            while wave and self.tried < self.most:
                for found in self.follow(wave, wave is not waves[-2] or not self.has_further_switches):
                    self.tried += 1
                    for branch in found.branches():
                        waves[branch.switches].append(branch)
                    yield found
                self.look_further(waves[-1])
        self.unfollowed = sum(map(len, waves[:-1]))

    def look_further(self, branches):
        """Notes whether one of these branches, which have a switch too many, leads to an order."""
        while branches and not self.has_further_switches:
            some = [branches.popleft() for _ in range(min(len(branches), CHUNK))]
            self.has_further_switches = any(self.pool.map(functools.partial(follow, may_switch=False), some))
        branches.clear()


def processes(jobs, replays, by_pairs):
    """Returns a pool of so many processes that follow branches."""
    return multiprocessing.Pool(jobs, begin, (replays, by_pairs))


if __name__ == "__main__":
    print("orders.py is a module and no command: explore.py finds the orders of a script by it. `python3 -m pydoc scripts/orders.py` has its calls")
