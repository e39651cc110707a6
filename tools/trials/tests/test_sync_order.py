"""Tests of sync_order.py on traces that are written here."""

import contextlib
import io
import tempfile
import unittest
from pathlib import Path
from unittest import mock

from trials import sync_order

LOG = "/srv/a/node.log"
MADE = '''\
71 openat(AT_FDCWD</srv/a>, "node.log.lock", O_WRONLY|O_CREAT|O_NOCTTY|O_APPEND|O_CLOEXEC, 0666) = 4</srv/a/node.log.lock>
71 openat(AT_FDCWD</srv/a>, "node.log.part", O_WRONLY|O_CREAT|O_APPEND|O_CLOEXEC, 0666) = 6</srv/a/node.log.part>
71 write(6</srv/a/node.log.part>, ""..., 74) = 74
71 fdatasync(6</srv/a/node.log.part>)    = 0
71 rename("node.log.part", "node.log")   = 0
71 openat(AT_FDCWD</srv/a>, ".", O_RDONLY|O_NOCTTY|O_CLOEXEC) = 7</srv/a>
'''
SYNCED = "71 fdatasync(6</srv/a/node.log>)         = 0\n"
FOLDER = "71 fsync(7</srv/a>)                      = 0\n"
APPEND = '71 write(6</srv/a/node.log>, ""..., 180)  = 180\n'
SEND = '71 sendto(8<socket:[1188940]>, ""..., 37, MSG_NOSIGNAL, NULL, 0) = 37\n'
SAID = '71 write(1</dev/null>, ""..., 12)         = 12\n'


def faults_of(*parts):
    """How many faults a trace of these parts has."""
    return len(sync_order.order_of("".join(parts).splitlines(), LOG).all_faults())


class Orders(unittest.TestCase):
    def test_what_is_synced_may_be_followed_by_a_send(self):
        self.assertEqual(faults_of(MADE, SYNCED, FOLDER, SEND, APPEND, APPEND, SYNCED, SEND, SEND), 0)

    def test_counts(self):
        order = sync_order.order_of((MADE + SYNCED + FOLDER + SEND + APPEND + APPEND + SYNCED + SEND).splitlines(), LOG)
        self.assertEqual((order.appends, order.syncs, order.sends), (3, 3, 2))

    def test_each_send_ahead_of_a_sync_is_a_fault(self):
        self.assertEqual(faults_of(MADE, SYNCED, FOLDER, APPEND, SEND, SEND, SYNCED, SEND), 2)

    def test_an_append_behind_the_last_send_is_none(self):
        self.assertEqual(faults_of(MADE, SYNCED, FOLDER, SEND, APPEND, SAID), 0)

    def test_the_folder_of_a_new_log_is_synced(self):
        self.assertEqual(faults_of(MADE, SYNCED, SEND, FOLDER, SEND), 1)

    def test_a_log_that_was_there_needs_no_sync_of_its_folder(self):
        opened = MADE.splitlines()[1].replace(".part", "") + "\n"
        self.assertEqual(faults_of(opened, APPEND, SYNCED, SEND), 0)

    def test_a_sync_that_fails_is_none(self):
        failed = SYNCED.replace("= 0", "= -1 EIO (Input/output error)")
        self.assertEqual(faults_of(MADE, SYNCED, FOLDER, APPEND, failed, SEND), 1)

    def test_the_sync_of_another_file_is_none(self):
        self.assertEqual(faults_of(MADE, SYNCED, FOLDER, APPEND, SYNCED.replace("node.log", "other.log"), SEND), 1)

    def test_a_trace_that_shows_nothing_is_a_fault(self):
        self.assertEqual(faults_of(SAID), 2)
        self.assertEqual(len(sync_order.order_of(SEND.splitlines(), LOG, is_to_append=False).all_faults()), 0)

    def test_a_whole_call_with_a_process_in_brackets(self):
        self.assertEqual(faults_of(*(part.replace("71 ", "[pid    71] ") for part in (APPEND, SYNCED, SEND))), 0)


class Words(unittest.TestCase):
    def said(self, *words):
        out = io.StringIO()
        with contextlib.redirect_stdout(out):
            status = sync_order.main(list(words))
        return status, out.getvalue()

    def test_a_stored_trace(self):
        with tempfile.TemporaryDirectory() as folder:
            trace = Path(folder) / "trace"
            trace.write_text(MADE + SYNCED + FOLDER + APPEND + SEND, encoding="ascii")
            status, said = self.said("--read", str(trace), LOG)
            self.assertEqual(status, 1)
            self.assertIn("2 appends, 2 syncs, 1 sends, 1 faults\n  line 10: a send, and 1 appends aren't synced", said)
            trace.write_text(MADE + SYNCED + FOLDER + APPEND + SYNCED + SEND, encoding="ascii")
            self.assertEqual(self.said("--read", str(trace), LOG)[0], 0)

    def test_where_strace_is_missing_nothing_is_tried(self):
        with mock.patch.object(sync_order.shutil, "which", return_value=None):
            status, said = self.said("no-such-program")
        self.assertEqual((status, said), (0, "strace isn't installed, so nothing was tried\n"))


if __name__ == "__main__":
    unittest.main()
