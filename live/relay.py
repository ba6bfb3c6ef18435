"""A relay between brokers on one machine: it passes datagrams on, and loses, repeats and reorders some of them."""
import heapq
import random
import select
import socket
import time


class Relay:
    """Each port stands for one broker as another sees it: what comes to it is passed on to that broker's address."""

    def __init__(self, loss, repeat, reorder, seed):
        self.loss, self.repeat, self.reorder = loss, repeat, reorder
        self.random = random.Random(seed)
        self.targets = {}
        self.waiting = []
        self.came = self.lost = self.repeated = self.delayed = 0
        self.out = socket.socket(socket.AF_INET, socket.SOCK_DGRAM)

    def __str__(self):
        return (
            f"{self.came} datagrams came to the relay; {self.lost} were lost, {self.repeated} repeated, "
            f"{self.delayed} delayed"
        )

    def port_to(self, address):
        """A new port, what comes to which goes to the address."""
        inlet = socket.socket(socket.AF_INET, socket.SOCK_DGRAM)
        inlet.setsockopt(socket.SOL_SOCKET, socket.SO_RCVBUF, 1 << 22)
        inlet.bind(("127.0.0.1", 0))
        inlet.setblocking(False)
        self.targets[inlet] = address
        return inlet.getsockname()[1]

    def step(self, seconds):
        """Takes what came within so many seconds, and passes on what is due."""
        if self.waiting:
            seconds = min(seconds, max(0.0, self.waiting[0][0] - time.monotonic()))
        ready, _, _ = select.select(list(self.targets), [], [], seconds)
        for inlet in ready:
            self._drain(inlet)
        now = time.monotonic()
        while self.waiting and self.waiting[0][0] <= now:
            _, _, address, bytes_ = heapq.heappop(self.waiting)
            self._send(address, bytes_)

    def _drain(self, inlet):
        for _ in range(256):
            try:
                bytes_ = inlet.recv(65535)
            except BlockingIOError:
                return
            self.came += 1
            self._pass(self.targets[inlet], bytes_)

    def _pass(self, address, bytes_):
        if self.random.random() < self.loss:
            self.lost += 1
            return
        copies = 1
        if self.random.random() < self.repeat:
            self.repeated += 1
            copies = 2
        for _ in range(copies):
            if self.random.random() < self.reorder:
                self.delayed += 1
                due = time.monotonic() + self.random.uniform(0.001, 0.03)
                heapq.heappush(self.waiting, (due, self.random.random(), address, bytes_))
            else:
                self._send(address, bytes_)

    def _send(self, address, bytes_):
        try:
            self.out.sendto(bytes_, address)
        except OSError:
            pass  # a receiver that is down: a loss like any other
