"""A day of 10,000 records loads in about the time of its calls plus one flush for each batch."""
import unittest

import bench
from common import Case


class Speed(Case):
    def test_time_of_the_calls(self):
        calls = bench.calls_program(self.folder)
        path = bench.written(self.folder, 10000)
        alone = min(bench.alone(calls, path) for _ in range(3))
        whole = min(bench.load(self.folder, path)[1] for _ in range(3))
        print("\n10,000 records: calls %.3f s, load %.3f s of processor time" % (alone, whole),
              end=" ")
        self.assertLess(whole, alone * 1.5 + 0.1)


if __name__ == "__main__":
    unittest.main()
