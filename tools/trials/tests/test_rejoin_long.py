"""Tests of rejoin_long.py: the log that it makes, and its slow line."""

import socket
import tempfile
import threading
import time
import unittest
from pathlib import Path

from lens.graph import read_journal
from lens.log import is_signed, read_log
from trials.rejoin_long import creator_at, long_log, shipped, slow_line


class LongLogs(unittest.TestCase):
    def read(self, units):
        with tempfile.TemporaryDirectory() as folder:
            path = Path(folder) / "long.hwlg"
            path.write_bytes(long_log(units))
            return read_log(path), read_journal(read_log(path))

    def test_each_unit_is_signed_settled_and_of_whom_it_should_be(self):
        log, journal = self.read(100)
        self.assertEqual([entry.vertex.unit.creator for entry in log.entries], [creator_at(it) for it in range(100)])
        self.assertTrue(all(is_signed(entry.vertex, shipped()[1]) for entry in log.entries))
        self.assertEqual(journal.totals()[:2], ["units 100 parked 0 dropped 0 refused 0 repeats 0", "faulty -"])


class SlowLines(unittest.TestCase):
    def test_bytes_take_their_time_and_a_host_that_is_late_is_waited_for(self):
        with socket.create_server(("127.0.0.1", 0)) as host:

            def answer():
                link = host.accept()[0]
                link.sendall(bytes(40_000))
                link.close()

            with slow_line(host.getsockname()[1], 80_000) as address:
                threading.Thread(target=answer, daemon=True).start()
                began, came = time.monotonic(), 0
                with socket.create_connection(("127.0.0.1", int(address.rpartition(":")[2])), timeout=10) as link:
                    while data := link.recv(65_536):
                        came += len(data)
        self.assertEqual(came, 40_000)
        self.assertGreater(time.monotonic() - began, 0.4)


if __name__ == "__main__":
    unittest.main()
