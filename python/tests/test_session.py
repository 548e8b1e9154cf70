"""Sessions through the module: each call, and surfaces that come back exactly once."""
import gc
import os
import pathlib
import random
import unittest
import weakref

import cupdaisy

# An IDR picture with its parameter sets, and parameter sets alone.
SETS = bytes.fromhex("000001674200 0ADA79 00000168CE3880")
PICTURE = SETS + bytes.fromhex("00000165888480")
# P pictures by their frame_num.
LATER = {1: bytes.fromhex("000001419A23"), 2: bytes.fromhex("000001419A43")}
SAMPLES = pathlib.Path(os.environ.get("CUPDAISY_SAMPLES") or pathlib.Path(__file__).resolve().parents[2] / "samples")
SURFACES = 24


class Surface:
    """A surface, with the key of the picture that it holds."""

    def __init__(self, number):
        self.number, self.key = number, None


class Calls(unittest.TestCase):
    def test_a_picture_is_landed_shown_and_given_back(self):
        with cupdaisy.Session(16) as session:
            receipt = session.insert_last(PICTURE)
            self.assertEqual((receipt.id, receipt.number, receipt.steps), (1, 1, 1))
            self.assertIsNone(session.show(1))
            job = session.take()
            self.assertEqual((job.number, job.unit), (1, 1))
            self.assertEqual(session.job_bytes(1, 0), bytes.fromhex("00000165888480"))
            self.assertEqual(session.job_references(1), [])
            self.assertTrue(session.land(1, "surface"))
            self.assertEqual(session.show(1), "surface")
            self.assertIsNone(session.take())
            self.assertEqual(session.drop(1), "surface")
            self.assertIsNone(session.drop(1))
            self.assertIsNone(session.show(1))

    def test_what_is_refused_is_raised(self):
        with cupdaisy.Session() as session:
            for call, status in ((lambda: session.insert_last(b""), 1), (lambda: session.insert_last(b"\0\0\1\x02"), 2),
                                 (lambda: session.delete(7), 16), (lambda: session.land(1, None), 105),
                                 (lambda: session.give_back(1), 105), (lambda: session.drop(1), 16)):
                with self.assertRaises(cupdaisy.Refused) as raised:
                    call()
                self.assertEqual(raised.exception.status, status)
            with self.assertRaisesRegex(cupdaisy.Refused, "^16 NoSuchUnit at 1$"):
                session.group([(cupdaisy.INSERT_FIRST, 0, PICTURE), (cupdaisy.DELETE, 9, b"")])
            self.assertEqual((len(session), session.journal()), (0, []))
        with self.assertRaisesRegex(cupdaisy.Refused, "CacheRange"):
            cupdaisy.Session(0)

    def test_a_closed_session_refuses_calls(self):
        session = cupdaisy.Session()
        session.insert_last(PICTURE)
        session.land(session.take().number, "surface")
        self.assertEqual((session.close(), session.close()), (["surface"], []))
        with self.assertRaisesRegex(cupdaisy.Refused, "NoSession"):
            session.insert_last(PICTURE)

    def test_a_group_and_its_journal(self):
        with cupdaisy.Session() as session:
            edits = [(cupdaisy.INSERT_FIRST, 0, PICTURE), (cupdaisy.INSERT_AFTER, 1, SETS), (cupdaisy.REPLACE, 2, PICTURE),
                     (cupdaisy.DELETE, 1, b"")]
            receipt, ids = session.group(edits)
            self.assertEqual((receipt.number, ids, session.ids(), list(session)), (1, [1, 2, 2, 1], [2], [2]))
            self.assertEqual(session.journal(), [edits])

    def test_units_behind_a_damage(self):
        with cupdaisy.Session() as session:
            for text in (PICTURE, LATER[2], LATER[1], SETS):
                session.insert_last(text)
            doubts = [(doubt.follows, doubt.in_doubt) for doubt in session.doubts(0, 9)]
            self.assertEqual(doubts, [(0, 0), (0, 0), (2, 1), (2, 0)])
            self.assertEqual([doubt.in_doubt for doubt in session.doubts(2, 1)], [1])
            self.assertEqual((session.doubts(4, 9), session.doubts(1, 0)), ([], []))

    def test_outcomes_and_requests(self):
        with cupdaisy.Session() as session:
            session.load(PICTURE + SETS)
            session.insert_last(SETS)
            kinds = [session.outcome(unit).kind for unit in session]
            self.assertEqual(kinds, [cupdaisy.PLAN] + [cupdaisy.EMPTY] * (len(kinds) - 1))
            self.assertEqual(list(session.in_output_order()), [1])
            self.assertEqual((session.position(1), session.place(1), session.id_at(99)), (0, 0, None))
            request, = session.unit_requests(1)
            self.assertEqual((request.sps.profile_idc, request.slice_params.slice_type, request.hold), (66, 2, 0))
            self.assertEqual(request.as_dict()["pps"]["flags"], request.pps.flags)
            self.assertEqual(request, session.unit_request(1, 0))
            self.assertEqual(request.bytes, len(session.unit_bytes(1, 0)))
            self.assertIsNone(session.unit_weights(1, 0))
            frame = session.unit_frame(1)
            self.assertEqual((frame.slices, frame.bytes, frame.sps, frame.pps), (1, request.bytes, request.sps, request.pps))
            self.assertEqual(session.unit_frame_bytes(1), session.unit_bytes(1, 0))
            self.assertEqual(session.unit_frame_bytes(1, start_codes=False), session.unit_bytes(1, 0)[3:])
            job = session.take()
            self.assertEqual(session.job_frame(job.number), frame)
            self.assertEqual(session.job_frame_bytes(job.number), session.unit_frame_bytes(1))
            self.assertTrue(session.in_use(session.key(1)))
            self.assertFalse(session.is_altered(1))
            session.mark()
            session.replace(1, PICTURE[:-1] + b"\xC0")
            self.assertTrue(session.is_altered(1))
            session.replace(1, PICTURE)
            self.assertFalse(session.is_altered(1))
            with self.assertRaisesRegex(cupdaisy.Refused, "^16 NoSuchUnit"):
                session.is_altered(99)

    def test_a_damaged_text_is_mended(self):
        later = bytes.fromhex("000001415A")
        text = b"\xAB\0" + PICTURE + bytes.fromhex("0000016E4080") * 20 + later
        whole = b"\0" + PICTURE + bytes.fromhex("00000109F0") + later
        mended = cupdaisy.mend(text)
        left_out = [(each.byte, each.bytes, cupdaisy.why_name(each.why), each.unit_type) for each in mended.left_out]
        self.assertEqual(left_out, [(0, 1, "NotNalUnit", 0)] + [(25 + 6 * index, 6, "UnitType", 14) for index in range(20)])
        self.assertEqual((mended.bytes, cupdaisy.mend(whole), cupdaisy.mend(b"")), (whole, (whole, []), (b"", [])))
        with cupdaisy.Session() as session:
            with self.assertRaisesRegex(cupdaisy.Refused, "^1 Split"):
                session.load(text)
            self.assertEqual(session.load(mended.bytes).units, 2)

    def test_slices_of_many_pictures_are_told_apart(self):
        slices = [bytes.fromhex("000001415A"), bytes.fromhex("000001015A")] * 50
        mended = cupdaisy.mend(b"".join(slices))
        self.assertEqual(mended, (bytes.fromhex("00000109F0").join(slices), []))

    def test_names(self):
        self.assertEqual((cupdaisy.why_name(11), cupdaisy.why_name(12)), ("TooLarge", ""))
        self.assertEqual((cupdaisy.status_name(110), cupdaisy.status_name(12), cupdaisy.fault_name(11)), ("Stale", "", "FrameNumGap"))
        self.assertRegex(cupdaisy.version(), r"^\d+\.\d+\.\d+$")

    def test_surfaces_live_as_long_as_the_session_has_them(self):
        surface = Surface(0)
        alive = weakref.ref(surface)
        session = cupdaisy.Session()
        session.insert_last(PICTURE)
        session.land(session.take().number, surface)
        del surface
        self.assertIsNotNone(alive())
        del session
        gc.collect()
        self.assertIsNone(alive())

    def test_a_reference_that_was_taken_back_is_told(self):
        with cupdaisy.Session() as session:
            session.load((SAMPLES / "clock.264").read_bytes())
            first = session.take()
            session.land(first.number, "first")
            second = session.take()
            self.assertEqual([each.surface for each in session.job_references(second.number)], ["first"])
            self.assertEqual(session.drop(first.unit), "first")
            session.land(session.take().number, "made anew")
            self.assertEqual([each.surface for each in session.job_references(second.number)], [None])


class Drawn:
    """Drawn calls over a pool of surfaces."""

    def __init__(self, test, seed, cache):
        self.test, self.rng, self.session = test, random.Random(seed), cupdaisy.Session(cache)
        self.session.load((SAMPLES / "clock.264").read_bytes())
        self.texts = [text for entry in self.session.journal() for _, _, text in entry]
        self.free, self.jobs, self.landed = [Surface(number) for number in range(SURFACES)], [], 0

    def unit(self):
        return self.session.id_at(self.rng.randrange(len(self.session) + 1)) or 0

    def edit(self):
        text, unit, session = self.rng.choice(self.texts), self.unit(), self.session
        calls = [lambda: session.delete(unit), lambda: session.replace(unit, text), lambda: session.insert_after(unit, text),
                 lambda: session.insert_last(text),
                 lambda: session.group([(cupdaisy.DELETE, unit, b""), (cupdaisy.INSERT_FIRST, 0, text)])]
        try:
            self.rng.choice(calls[:2] if len(session) > 40 else calls)()
        except cupdaisy.Refused as refused:
            self.test.assertEqual((refused.status, unit), (16, 0))

    def take(self):
        job = self.session.take() if self.rng.random() < 0.5 else self.session.take_for(self.unit())
        if job is not None:
            self.jobs.append((job.number, self.session.key(job.unit)))

    def land(self):
        if not self.jobs:
            return
        number, key = self.jobs.pop(self.rng.randrange(len(self.jobs)))
        if not self.free:
            return self.session.give_back(number)
        surface = self.free.pop()
        surface.key = key
        if self.session.land(number, surface):
            self.landed += 1
        else:
            self.free.append(surface)

    def show(self):
        unit = self.unit()
        surface = self.session.show(unit) if unit else None
        if surface is not None:
            self.test.assertEqual(surface.key, self.session.key(unit))

    def give(self):
        """Something goes back."""
        unit, kind = self.unit(), self.rng.randrange(3)
        if kind == 0 and unit:
            back = [self.session.drop(unit)]
        else:
            back = [self.session.uncache()] if kind == 1 else list(self.session.released())
        self.free += filter(None, back)

    def run(self, steps):
        for _ in range(steps):
            self.rng.choice((self.edit, self.take, self.take, self.land, self.land, self.show, self.give))()
            self.test.assertEqual(len(self.free) + len(self.session.surfaces), SURFACES)
        back = self.free + self.session.close()
        self.test.assertEqual(sorted(surface.number for surface in back), list(range(SURFACES)))
        return self.landed


class Surfaces(unittest.TestCase):
    def test_each_surface_comes_back_once(self):
        landed = sum(Drawn(self, seed, cache).run(4000) for seed, cache in enumerate((1, 2, 8, 64, 4096)))
        self.assertGreater(landed, 500)


if __name__ == "__main__":
    unittest.main()
