"""The Python binding, as installed, on README's tour; tests/install/run runs it."""
import unittest

import rcst


class Tour(unittest.TestCase):
    def setUp(self):
        self.store = rcst.Store.fresh(64)
        self.release({40: 7, 41: 300})
        self.release({40: 9})

    def release(self, settings):
        self.store.open()
        for key, value in settings.items():
            if self.store.lookup(key, self.store.version + 1) is not None:
                self.store.delete(key)
            self.store.insert(key, value)
        self.store.commit()

    def refused(self, number, call, *words):
        before = bytes(self.store)
        with self.assertRaises(rcst.Refused) as met:
            call(*words)
        self.assertEqual(met.exception.number, number)
        self.assertEqual(bytes(self.store), before)

    def test_reads(self):
        self.assertEqual(self.store.state(), rcst.State(pages=64, current=2, open=0, roots=1, edition=1, free=58, oldest=0))
        self.assertEqual(self.store.version, 2)
        self.assertEqual([self.store.lookup(40, version) for version in range(3)], [None, 7, 9])
        self.assertEqual(self.store.range(1), [(40, 7), (41, 300)])
        self.assertEqual(self.store.range(2, 41), [(41, 300)])
        self.assertEqual(self.store.range(0), [])
        self.assertEqual(self.store.life(40), [(1, 2, 7), (2, None, 9)])
        self.assertEqual(self.store.visits(40, 2), [5])
        self.assertEqual(self.store.difference(1, 2), [(40, "changed", 7, 9)])
        self.assertEqual(self.store.difference(2, 0), [(40, "removed", 9, None), (41, "removed", 300, None)])

    def test_returns_and_abandons(self):
        before = bytes(self.store)
        self.store.open()
        self.store.return_to(1)
        self.assertEqual(self.store.lookup(40, 3), 7)
        self.store.abandon()
        self.assertEqual(bytes(self.store), before)

    def test_editions(self):
        second = self.store.convert(64)
        self.assertEqual(len(bytes(second)), 64 * rcst.SECOND_PAGE_BYTES)
        self.assertEqual([second.range(version) for version in range(3)], [self.store.range(version) for version in range(3)])
        with self.assertRaises(rcst.Refused) as met:
            second.convert(64)
        self.assertEqual(met.exception.number, 3)

    def test_prunes(self):
        self.refused(3, self.store.prune, 1)
        self.store = self.store.convert(64)
        second = self.store.range(2), self.store.visits(40, 2)
        self.refused(6, self.store.prune, 3)
        self.store.open()
        self.refused(8, self.store.prune, 1)
        self.store.abandon()
        self.store.prune(2)
        self.assertEqual(self.store.state().oldest, 2)
        self.assertEqual((self.store.range(2), self.store.visits(40, 2)), second)
        self.assertEqual(self.store.life(40), [(2, None, 9)])
        self.refused(6, self.store.lookup, 40, 1)
        self.refused(6, self.store.difference, 1, 2)
        self.refused(6, self.store.prune, 1)

    def test_refusals(self):
        self.refused(6, self.store.lookup, 40, 3)
        self.refused(5, self.store.life, 16_777_216)
        self.refused(7, self.store.insert, 1, 1)
        self.refused(7, self.store.commit)
        with self.assertRaises(ValueError):
            self.store.lookup(1 << 32, 1)
        for lent, number in [(b"", 1), (bytes(4), 1), (bytes(1536), 2), (bytes(self.store)[:1000], 1)]:
            with self.assertRaises(rcst.Refused) as met:
                rcst.Store(lent).check()
            self.assertEqual(met.exception.number, number)


if __name__ == "__main__":
    unittest.main()
