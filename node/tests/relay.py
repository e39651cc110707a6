"""Relays that delay each byte: a link with a round trip, where the system can't make one. It loses no byte, since a lost
packet is only a later one to who reads a stream."""

import asyncio
import threading
import time


class Relays:
    """Each listens at a port of its own and hands on to a target, later by so many seconds each way."""

    def __init__(self, delay):
        self.delay = delay
        self.loop = asyncio.new_event_loop()
        self.thread = threading.Thread(target=self.loop.run_forever, daemon=True)
        self.thread.start()

    def add(self, target):
        """The port of a new relay to this port."""
        serve = asyncio.start_server(lambda reader, writer: self.join(reader, writer, target), "127.0.0.1", 0)
        server = asyncio.run_coroutine_threadsafe(serve, self.loop).result(10)
        return server.sockets[0].getsockname()[1]

    async def join(self, reader, writer, target):
        """Hands on in both directions until one ends."""
        try:
            there_reader, there_writer = await asyncio.open_connection("127.0.0.1", target)
        except OSError:
            writer.close()
            return
        both = [self.hand_on(reader, there_writer), self.hand_on(there_reader, writer)]
        tasks = [asyncio.ensure_future(one) for one in both]
        try:
            await asyncio.wait(tasks, return_when=asyncio.FIRST_COMPLETED)
        except asyncio.CancelledError:
            pass  # the relays are closed
        for one in (writer, there_writer):
            one.close()

    async def hand_on(self, reader, writer):
        """Bytes go out in their order, each as long after it came as the delay says."""
        waiting = asyncio.Queue()
        sender = asyncio.ensure_future(self.send(waiting, writer))
        try:
            while piece := await reader.read(65536):
                waiting.put_nowait((time.monotonic() + self.delay, piece))
        except OSError:
            pass
        finally:
            sender.cancel()

    async def send(self, waiting, writer):
        while True:
            at, piece = await waiting.get()
            await asyncio.sleep(max(0, at - time.monotonic()))
            writer.write(piece)

    async def end(self):
        """Ends each connection."""
        others = asyncio.all_tasks() - {asyncio.current_task()}
        for task in others:
            task.cancel()
        await asyncio.gather(*others, return_exceptions=True)

    def close(self):
        asyncio.run_coroutine_threadsafe(self.end(), self.loop).result(10)
        self.loop.call_soon_threadsafe(self.loop.stop)
        self.thread.join(5)
