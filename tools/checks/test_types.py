"""What is typed whole stays so: tools/checks/mypy finds nothing, where mypy is installed."""
import os
import subprocess
import sys
import unittest

CHECK = os.path.join(os.path.dirname(os.path.abspath(__file__)), "mypy")


class Types(unittest.TestCase):
    def test_nothing_is_found(self) -> None:
        done = subprocess.run([sys.executable, CHECK], stdout=subprocess.PIPE, stderr=subprocess.STDOUT, check=False)
        self.assertEqual(done.returncode, 0, done.stdout.decode())
