"""The wheel that pip installs."""
import base64
import hashlib
import pathlib
import subprocess
import sys
import tempfile
import unittest
import zipfile

import building


class Wheel(unittest.TestCase):
    def test_wheel(self):
        with tempfile.TemporaryDirectory() as folder:
            path = pathlib.Path(folder) / building.build_wheel(folder)
            self.assertRegex(path.name, r"perfly_play-[\d.]+-py3-none-any\.whl")
            with zipfile.ZipFile(path) as wheel:
                record = dict(line.split(",", 1) for line in wheel.read(f"{building._stem()}.dist-info/RECORD").decode().split())
                self.assertEqual(set(record), set(wheel.namelist()))
                for name in wheel.namelist():
                    if not name.endswith("RECORD"):
                        sum = base64.urlsafe_b64encode(hashlib.sha256(wheel.read(name)).digest()).decode().rstrip("=")
                        self.assertEqual(record[name], f"sha256={sum},{len(wheel.read(name))}")
                self.assertLessEqual({"perfly_play/__init__.py", "perfly_play/py.typed", "perfly_play/page.html"}, set(record))
            # A wheel can be read from where it is.
            code = f"import sys; sys.path.insert(0, {str(path)!r}); import perfly_play; print(perfly_play.__file__)"
            done = subprocess.run([sys.executable, "-I", "-c", code], capture_output=True, text=True, check=True)
            self.assertIn(path.name, done.stdout)


if __name__ == "__main__":
    unittest.main()
