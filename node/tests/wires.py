"""Namespaces of the network, joined by wires that are late and lossy: each has a device of the kind TUN, and a process of
its own hands packets on. It needs root. `tc netem` would do the same, where the kernel has it; this one needs no module."""

import collections
import contextlib
import ctypes
import fcntl
import multiprocessing
import os
import random
import select
import struct
import subprocess
import time

NETWORK = "10.77.0."
PORT, PAGE = 7100, 7180
# The machine itself: its packets, which ask for pages, are neither late nor lost.
OURSELVES = 250
TUN_DEVICE, NO_HEAD, SET_DEVICE = 0x0001, 0x1000, 0x400454CA
NEW_NETWORK = 0x40000000


def missing():
    """What is missing for wires, or None."""
    if os.geteuid() != 0:
        return "this needs root"
    return None if os.path.exists("/dev/net/tun") else "there is no /dev/net/tun"


def device(name):
    """A new device in the namespace in which this thread is."""
    file = os.open("/dev/net/tun", os.O_RDWR | os.O_NONBLOCK)
    fcntl.ioctl(file, SET_DEVICE, struct.pack("16sH", name.encode(), TUN_DEVICE | NO_HEAD))
    return file


def devices(spaces, own):
    """A device in each namespace, and one in that of this process, by the last numbers of their addresses."""
    system = ctypes.CDLL(None, use_errno=True)
    home = os.open("/proc/self/ns/net", os.O_RDONLY)
    made = {OURSELVES: device(own)}
    for number, space in enumerate(spaces):
        there = os.open(f"/run/netns/{space}", os.O_RDONLY)
        for place in (there, home):
            if system.setns(place, NEW_NETWORK):
                raise OSError(ctypes.get_errno(), "setns")
            if place == there:
                made[number] = device("wire")
        os.close(there)
    return made


class Relay:
    """Hands packets on, each after the delay; some are lost, and while the halves are parted all between them."""

    def __init__(self, files, delay, loss, is_cut):
        self.files, self.delay, self.loss, self.is_cut = files, delay, loss, is_cut
        self.half = (len(files) - 1) // 2
        self.waiting = collections.deque()

    def send(self, to, packet):
        with contextlib.suppress(OSError):
            os.write(self.files[to], packet)

    def is_lost(self, number, to):
        is_parted = self.is_cut.value and (number < self.half) != (to < self.half)
        return to not in self.files or is_parted or random.random() < self.loss

    def take(self, number, packet):
        if packet[0] >> 4 != 4:
            return
        to = packet[19] - 1
        if OURSELVES in (number, to):
            self.send(to, packet)
        elif not self.is_lost(number, to):
            self.waiting.append((time.monotonic() + self.delay, to, packet))

    def read_all(self, number):
        with contextlib.suppress(BlockingIOError):
            while True:
                self.take(number, os.read(self.files[number], 65536))

    def run(self, ready):
        ready.set()
        poll, owners = select.epoll(), {file: number for number, file in self.files.items()}
        for file in owners:
            poll.register(file, select.EPOLLIN)
        while True:
            wait = self.waiting[0][0] - time.monotonic() if self.waiting else 1
            for file, _ in poll.poll(max(0, wait)):
                self.read_all(owners[file])
            while self.waiting and self.waiting[0][0] <= time.monotonic():
                _, to, packet = self.waiting.popleft()
                self.send(to, packet)


class Wires:
    """So many namespaces: where each validator of a network lives."""

    def __init__(self, count, delay=0.0, loss=0.0):
        self.spaces = [f"hw{os.getpid()}n{number}" for number in range(count)]
        for space in self.spaces:
            self.ip("netns", "add", space)
        self.is_cut = multiprocessing.Value("b", 0)
        ready = multiprocessing.Event()
        own = f"hw{os.getpid()}"
        self.process = multiprocessing.Process(target=self.relay, args=(own, delay, loss, ready), daemon=True)
        self.process.start()
        if not ready.wait(30):
            raise AssertionError("the wires aren't there")
        self.address(OURSELVES, own)
        for number, space in enumerate(self.spaces):
            self.address(number, "wire", "-n", space)
            self.ip("-n", space, "link", "set", "lo", "up")

    def ip(self, *words):
        subprocess.run(["ip", *words], check=True)

    def address(self, number, name, *where):
        self.ip(*where, "addr", "add", f"{NETWORK}{number + 1}/24", "dev", name)
        self.ip(*where, "link", "set", name, "up")

    def relay(self, own, delay, loss, ready):
        Relay(devices(self.spaces, own), delay, loss, self.is_cut).run(ready)

    def before(self, number):
        """The words before a command that runs there."""
        return ["ip", "netns", "exec", self.spaces[number]]

    def listens(self, number):
        return NETWORK + str(number + 1), PORT

    def page(self, number):
        return f"{NETWORK}{number + 1}:{PAGE}"

    def part(self, is_cut):
        """Parts the first half of the namespaces from the others, or joins them again."""
        self.is_cut.value = is_cut

    def close(self):
        self.process.kill()
        self.process.join()
        for space in self.spaces:
            self.ip("netns", "del", space)
