"""Replicas whose messages to one another are counted on their way. Each is told where the others are by the ports of taps, which hand octets on as they come
and count the frames by their kind."""
from __future__ import annotations

import socket
import threading
from collections import Counter

from replicas import Cluster

# What stands where in a frame: four octets of length, the version, six of the cluster, the kind.
KIND_AT = 11
GET_STATE, NEW_STATE = 11, 12


class Tap:
    """A port of this machine that hands each connection on to another one."""

    def __init__(self, port: int, counts: Counter):
        self.port, self.counts = port, counts
        self.listener = socket.socket()
        self.listener.bind(("127.0.0.1", 0))
        self.listener.listen(16)
        threading.Thread(target=self._accept, daemon=True).start()

    def _accept(self) -> None:
        while True:
            try:
                taken, _ = self.listener.accept()
            except OSError:
                return
            threading.Thread(target=self._pass, args=(taken,), daemon=True).start()

    def _pass(self, taken: socket.socket) -> None:
        rest = b""
        try:
            with taken, socket.create_connection(("127.0.0.1", self.port), 5) as onward:
                threading.Thread(target=self._pass_back, args=(onward, taken), daemon=True).start()
                while piece := taken.recv(65536):
                    onward.sendall(piece)
                    rest = self._count(rest + piece)
        except OSError:
            pass

    def _pass_back(self, onward: socket.socket, taken: socket.socket) -> None:
        """Answers go the other way, and so does the end of a connection that is turned away."""
        try:
            while piece := onward.recv(4096):
                taken.sendall(piece)
        except OSError:
            pass
        try:
            taken.shutdown(socket.SHUT_RDWR)
        except OSError:
            pass

    def _count(self, octets: bytes) -> bytes:
        """Counts the frames that are whole, and gives what is left."""
        at = 0
        while len(octets) - at >= 4:
            end = at + 4 + int.from_bytes(octets[at:at + 4], "big")
            if end > len(octets):
                break
            # a frame of no octets asks whether the other end is there
            if end > at + KIND_AT:
                self.counts[octets[at + KIND_AT]] += 1
            at = end
        return octets[at:]


class TappedCluster(Cluster):
    """Replicas that reach one another by taps."""

    def __init__(self, *words):
        super().__init__(*words)
        self.counts: Counter = Counter()
        self.taps = [Tap(port, self.counts) for port in self.ports[0::2]]

    def places_for(self, index: int) -> list[str]:
        found = []
        for other, place in enumerate(self.places()):
            if other != index:
                place = f"127.0.0.1:{self.taps[other].listener.getsockname()[1]}," + place.split(",")[1]
            found.append(place)
        return found
