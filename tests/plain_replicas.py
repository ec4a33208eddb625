"""Replicas by the rules of the protocol (Viewstamped Replication Revisited, sections 4 and 5, with state transfer by tails), one rule a method, logs as tuples
that are copied whole. Events flow in; messages, numbered as they are sent, and replies flow out. It is the other side of a comparison with the program, and
shares nothing with it."""
from __future__ import annotations

from typing import NamedTuple, Optional

NORMAL, CHANGING, RECOVERING = "normal", "changing", "recovering"


class Record(NamedTuple):
    client: int
    number: int
    update: object


class World:
    """All replicas, and all messages that were ever sent: the sender, the receiver, the kind, the fields."""

    def __init__(self, count: int):
        self.count = count
        self.messages: list[tuple[int, int, str, tuple]] = []
        self.replicas = [Replica(self, index) for index in range(count)]
        self.replies: list[tuple[int, int, tuple]] = []

    def deliver(self, number: int) -> None:
        if number <= len(self.messages):
            sender, receiver, kind, fields = self.messages[number - 1]
            if self.replicas[receiver].is_up:
                getattr(self.replicas[receiver], "on_" + kind)(sender, *fields)


class Replica:
    """One replica, or a place that is down."""

    def __init__(self, world: World, index: int):
        self.world, self.index, self.count = world, index, world.count
        self.faults = world.count // 2
        self.stored_view = 0
        self.nonces: set[int] = set()
        self.kept: Optional[tuple] = None
        self.is_up = True
        self.begin(NORMAL)

    def begin(self, status: str) -> None:
        self.view, self.status, self.last, self.log, self.commit = self.stored_view, status, 0, (), 0
        self.nonce: Optional[int] = None
        self.responses: dict[int, tuple] = {}
        self.forget()

    def forget(self) -> None:
        """What was heard of a view before."""
        self.acked = {other: 0 for other in range(self.count) if other != self.index}
        self.changes: set[int] = set()
        self.changed: dict[int, tuple] = {}
        self.has_changed = False

    def primary(self, view: int) -> int:
        return view % self.count

    def leads(self) -> bool:
        return self.status == NORMAL and self.primary(self.view) == self.index

    def backs(self, view: int) -> bool:
        return self.status == NORMAL and view == self.view and self.primary(view) != self.index

    def is_new(self, view: int) -> bool:
        return view > self.view or (view == self.view and self.status == CHANGING)

    def send(self, receiver: int, kind: str, *fields: object) -> None:
        self.world.messages.append((self.index, receiver, kind, fields))

    def send_all(self, kind: str, *fields: object) -> None:
        for other in range(self.count):
            if other != self.index:
                self.send(other, kind, *fields)

    def set_view(self, view: int) -> None:
        if view > self.view:
            self.view = self.stored_view = view
            self.forget()

    def enter(self, view: int) -> None:
        self.set_view(view)
        self.status = CHANGING
        self.send_all("change", view)

    def reply(self, place: int) -> None:
        self.world.replies.append((self.index, place, self.log))

    def commit_to(self, number: int) -> None:
        before, self.commit = self.commit, max(self.commit, min(number, len(self.log)))
        if self.leads():
            for place in range(before + 1, self.commit + 1):
                self.reply(place)

    def adopt(self, view: int, log: tuple, number: int) -> None:
        self.set_view(view)
        self.status, self.last, self.log = NORMAL, view, log
        self.commit = max(self.commit, min(number, len(log)))

    def request(self, client: int, number: int, update: object) -> None:
        if not self.leads():
            return
        place = max((at for at, record in enumerate(self.log, 1) if record.client == client), default=0)
        latest = self.log[place - 1].number if place else 0
        if place and number == latest:
            if place <= self.commit:
                self.reply(place)
        elif not place or number > latest:
            self.log += (Record(client, number, update),)
            self.send_all("prepare", self.view, self.log[-1], len(self.log), self.commit)

    def beat(self) -> None:
        if self.leads():
            if len(self.log) > self.commit:
                self.send_all("prepare", self.view, self.log[-1], len(self.log), self.commit)
            else:
                self.send_all("commit", self.view, self.commit)
        elif self.status == CHANGING:
            self.send_all("change", self.view)
            if self.has_changed and self.primary(self.view) != self.index:
                self.send(self.primary(self.view), "changed", self.view, self.log, self.last, self.commit)
        elif self.status == RECOVERING:
            self.send_all("recovery", self.nonce)

    def suspect(self) -> None:
        if self.status != RECOVERING:
            self.enter(self.view + 1)
        elif len(self.responses) > self.faults and all(view < self.stored_view for view, _ in self.responses.values()):
            self.send_all("change", self.stored_view)

    def crash(self) -> None:
        """All is lost but the stored view and, of one that doesn't recover, what its journal keeps."""
        if self.is_up:
            self.is_up = False
            self.kept = None if self.status == RECOVERING else (self.last, self.log, self.commit)

    def recover(self, nonce: int) -> None:
        if not self.is_up and nonce not in self.nonces:
            self.nonces.add(nonce)
            self.is_up = True
            self.begin(RECOVERING)
            self.nonce = nonce
            self.send_all("recovery", nonce)

    def resume(self, commit: Optional[int]) -> None:
        """Goes on from its journal, with at most so many updates committed."""
        if not self.is_up and self.kept is not None:
            (last, log, most), self.kept = self.kept, None
            self.is_up = True
            self.begin(NORMAL if last == self.stored_view else CHANGING)
            self.last, self.log, self.commit = last, log, most if commit is None else min(commit, most)

    def on_prepare(self, sender: int, view: int, record: Record, place: int, commit: int) -> None:
        if self.is_new(view):
            self.send(sender, "ask", view, self.commit)
        elif self.backs(view):
            if place == len(self.log) + 1:
                self.log += (record,)
            self.commit_to(commit)
            if place <= len(self.log):
                self.send(sender, "prepared", view, len(self.log))
            else:
                self.send(sender, "ask", view, self.commit)

    def on_prepared(self, sender: int, view: int, place: int) -> None:
        if self.leads() and view == self.view and place <= len(self.log):
            self.acked[sender] = max(self.acked[sender], place)
            self.commit_to(sorted(self.acked.values(), reverse=True)[self.faults - 1])

    def on_commit(self, sender: int, view: int, commit: int) -> None:
        if self.is_new(view):
            self.send(sender, "ask", view, self.commit)
        elif self.backs(view):
            self.commit_to(commit)
            if commit > len(self.log):
                self.send(sender, "ask", view, self.commit)

    def on_change(self, sender: int, view: int) -> None:
        if self.status == RECOVERING:
            return
        if view > self.view:
            self.enter(view)
        if view == self.view and self.status == CHANGING:
            self.changes.add(sender)
            if len(self.changes) >= self.faults and not self.has_changed:
                self.has_changed = True
                if self.primary(view) == self.index:
                    self.changed.setdefault(self.index, (self.log, self.last, self.commit))
                    self.conclude()
                else:
                    self.send(self.primary(view), "changed", view, self.log, self.last, self.commit)

    def on_changed(self, sender: int, view: int, log: tuple, last: int, commit: int) -> None:
        if self.status == RECOVERING:
            return
        if view > self.view:
            self.enter(view)
        if view == self.view and self.status == CHANGING and self.primary(view) == self.index:
            self.changed.setdefault(sender, (log, last, commit))
            self.conclude()

    def conclude(self) -> None:
        """Begins the view, once f+1 replicas have told what they hold, itself among them."""
        if len(self.changed) > self.faults and self.index in self.changed:
            log, _, _ = min(((log, last, sender) for sender, (log, last, _) in self.changed.items()), key=lambda one: (-one[1], -len(one[0]), one[2]))
            before = self.commit
            self.adopt(self.view, log, max(commit for _, _, commit in self.changed.values()))
            self.forget()
            self.send_all("start", self.view, self.log, self.commit)
            for place in range(before + 1, self.commit + 1):
                self.reply(place)

    def on_start(self, sender: int, view: int, log: tuple, commit: int) -> None:
        if self.status != RECOVERING and self.is_new(view):
            self.adopt(view, log, commit)
            self.send(self.primary(view), "prepared", view, len(self.log))

    def on_ask(self, sender: int, view: int, base: int) -> None:
        if self.status == NORMAL and view == self.view and base <= len(self.log):
            self.send(sender, "state", view, base, self.log[base:], self.commit)

    def on_state(self, sender: int, view: int, base: int, tail: tuple, commit: int) -> None:
        if self.status == RECOVERING or not (self.is_new(view) or (view == self.view and base + len(tail) > len(self.log))):
            return
        if base > self.commit:
            self.send(sender, "ask", view, self.commit)
        else:
            self.adopt(view, self.log[:base] + tail, commit)
            self.send(self.primary(view), "prepared", view, len(self.log))

    def on_recovery(self, sender: int, nonce: int) -> None:
        if self.status == NORMAL:
            self.send(sender, "response", self.view, nonce, (self.log, self.commit) if self.leads() else None)

    def on_response(self, sender: int, view: int, nonce: int, held: Optional[tuple]) -> None:
        if self.status != RECOVERING or nonce != self.nonce:
            return
        if sender not in self.responses or view > self.responses[sender][0]:
            self.responses[sender] = (view, held)
        greatest = max(view for view, _ in self.responses.values())
        told = self.responses.get(self.primary(greatest))
        if len(self.responses) > self.faults and greatest >= self.stored_view and told is not None and told[0] == greatest and told[1] is not None:
            self.adopt(greatest, *told[1])
