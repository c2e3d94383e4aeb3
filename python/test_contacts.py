"""Each call of the module, its refusals, and what a Python caller may get wrong."""
import pathlib
import unittest

import contacts
from contacts import Mode, Opcode, Outcome, Refused, State, Status

ROOT = pathlib.Path(__file__).resolve().parent.parent
CLOCK = 1_000_000


def fresh(rows=4, state=State.ACTIVE, mode=Mode.REVISION):
    table = bytearray(contacts.size(rows))
    contacts.make(table, rows, state, mode, 0)
    return table


def put(table, key, value, expiry=0, clock=CLOCK):
    frame = contacts.write_request(Opcode.SET, bytes(4) + expiry.to_bytes(4, "big"), key, value)
    return contacts.serve(table, clock, frame)


class Calls(unittest.TestCase):
    def refused(self, outcome, status, call, *arguments, **named):
        with self.assertRaises(Refused) as caught:
            call(*arguments, **named)
        self.assertEqual((caught.exception.outcome, caught.exception.status), (outcome, status))
        return caught.exception

    def test_version_is_the_librarys(self):
        self.assertEqual(contacts.version(), contacts.VERSION)

    def test_sizes(self):
        self.assertEqual([contacts.size(n) for n in (0, 1, 256, 257)], [0, 1328, 335888, 0])

    def test_make_refuses_what_is_out_of_range_and_leaves_the_memory(self):
        memory = bytearray(b"x" * contacts.size(1))
        for rows, state, mode in ((2, 1, 1), (0, 1, 1), (1, 5, 1), (1, 1, 3)):
            self.refused(Outcome.DAMAGED, 0, contacts.make, memory, rows, state, mode, 0)
        self.assertEqual(memory, b"x" * contacts.size(1))
        self.assertFalse(contacts.sound(memory))
        self.assertTrue(contacts.sound(fresh()))

    def test_read_tells_live_expired_and_missing(self):
        table = fresh()
        put(table, b"wreck", b"36 m")
        put(table, b"shoal", b"north", expiry=60)
        self.assertEqual(contacts.read(table, CLOCK, b"wreck"), contacts.Document(0, 0, 1, 1, None, b"36 m"))
        self.assertEqual(contacts.read(table, CLOCK, b"shoal").left, 60)
        self.assertEqual(contacts.read(table, CLOCK + 60, b"shoal"), contacts.Expired(0))
        self.assertIsNone(contacts.read(table, CLOCK, b"net"))
        self.assertIsNone(contacts.read(table, CLOCK, b""))
        self.assertEqual(contacts.read(bytes(table), CLOCK, b"wreck").value, b"36 m")
        self.refused(Outcome.DAMAGED, 0, contacts.read, b"", CLOCK, b"wreck")

    def test_purge_frees_and_counts(self):
        table = fresh()
        put(table, b"shoal", b"north", expiry=60)
        self.assertEqual(contacts.purge(table, CLOCK + 60, 0), 0)
        self.assertEqual(contacts.purge(table, CLOCK + 60, 1), 1)
        self.refused(Outcome.DAMAGED, 0, contacts.purge, bytearray(7), CLOCK, 1)

    def test_activate(self):
        table = fresh(state=State.REPLICA)
        self.assertEqual(put(table, b"k", b"v").status, Status.NOT_MY_VBUCKET)
        contacts.activate(table)
        self.assertEqual(put(table, b"k", b"v").status, Status.SUCCESS)
        self.refused(0, Status.NOT_MY_VBUCKET, contacts.activate, fresh(state=State.DEAD))
        self.refused(Outcome.DAMAGED, 0, contacts.activate, bytearray(7))

    def test_serve_refusals_change_nothing(self):
        table, tally = fresh(), contacts.Tally()
        before = bytes(table)
        noop = contacts.write_request(Opcode.NOOP)
        self.assertEqual(self.refused(Outcome.SHORT, 0, contacts.serve, table, CLOCK, b"", tally).needed, 24)
        self.refused(Outcome.MAGIC, 0, contacts.serve, table, CLOCK, b"\x81" + noop[1:], tally)
        self.refused(Outcome.LENGTH, 0, contacts.serve, table, CLOCK, noop[:8] + (1401).to_bytes(4, "big") + noop[12:], tally)
        self.refused(Outcome.DAMAGED, 0, contacts.serve, bytearray(), CLOCK, noop, tally)
        self.assertEqual((bytes(table), tally.served, tally.refused), (before, 0, 0))

    def test_a_run_is_its_frames_one_by_one(self):
        frames = [contacts.write_request(Opcode.SET, bytes(8), b"k%d" % i, b"v") for i in range(6)]
        one, run, tally = fresh(), fresh(), contacts.Tally()
        replies = b"".join(contacts.serve(one, CLOCK, frame).reply for frame in frames)
        ran = contacts.serve_run(run, CLOCK, b"".join(frames) + b"\x80", tally)
        self.assertEqual(ran, contacts.Ran(len(b"".join(frames)), replies, Outcome.SHORT, 24))
        self.assertEqual((one, tally.served, tally.refused), (run, 4, 2))
        self.assertEqual(contacts.serve_run(run, CLOCK, frames[0], room=0).outcome, Outcome.ROOM)

    def test_requests_read_back(self):
        frame = contacts.write_request(Opcode.SET, bytes(range(8)), b"key", b"value", 9, 7, 5)
        self.assertEqual(contacts.read_request(frame + b"more"), (1, 0, 9, 7, 5, bytes(range(8)), b"key", b"value", 0))
        self.refused(0, Status.INVALID, contacts.write_request, Opcode.SET, b"", b"key")
        self.refused(0, Status.UNKNOWN_COMMAND, contacts.read_request, b"\x80\x7f" + bytes(22))
        self.refused(Outcome.SHORT, 0, contacts.read_request, b"")

    def test_replay(self):
        trace = (ROOT / "examples/voyages/three-failures.trace").read_bytes()
        table = bytearray(contacts.size(contacts.REPLAY_ROWS))
        self.assertEqual(contacts.replay(trace, table), ("replayed", 0, 27))
        self.assertTrue(contacts.sound(table))
        self.assertEqual(contacts.replay(trace, plain=True).frames, 27)
        self.assertEqual(contacts.replay(b""), ("stopped", 0, 0))
        self.refused(Outcome.DAMAGED, 0, contacts.replay, trace, bytearray(1))

    def test_wrong_arguments_are_refused_before_the_call(self):
        with self.assertRaises(TypeError):
            contacts.serve(bytes(fresh()), CLOCK, b"")
        for call in (
            lambda: contacts.read(fresh(), 1 << 32, b"k"),
            lambda: contacts.read(fresh(), -1, b"k"),
            lambda: contacts.purge(fresh(), CLOCK, 1 << 64),
            lambda: contacts.write_request(256),
            lambda: contacts.make(bytearray(1328), 1, 257, 1, 0),
            lambda: contacts.size(-1),
        ):
            with self.assertRaises(ValueError):
                call()

    def test_the_engines_answer_alike(self):
        one, other = fresh(), fresh()
        for key in (b"b", b"a"):
            frame = contacts.write_request(Opcode.SET, bytes(8), key, b"v")
            self.assertEqual(contacts.serve(one, CLOCK, frame), contacts.serve(other, CLOCK, frame, plain=True))
        self.assertNotEqual(one, other)
        self.assertFalse(contacts.sound(other))
        self.assertTrue(contacts.sound(other, plain=True))


if __name__ == "__main__":
    unittest.main()
