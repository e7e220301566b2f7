"""That bench/run builds, and that the library and the Rust one answer random calls alike."""
import os
import unittest

from support import ROOT, run


class Bench(unittest.TestCase):

    def test_compares_random_calls(self):
        ran = run([os.path.join(ROOT, 'bench', 'run'), 'compare'], timeout=600)
        self.assertEqual(0, ran.returncode, ran.stderr)
        self.assertIn('3000 random calls, 200 of them on full boards, have the same answer', ran.stdout)
