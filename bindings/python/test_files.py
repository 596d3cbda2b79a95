"""Tests of the page files of a pager: who else may have one, and pages with checksums."""
import os
import subprocess
import sys
import unittest

import hojzmated
from test_pager import Pages


class Files(Pages):
    def test_one_pager_has_a_file(self):
        """Another is refused, in this process and in another, until the first is closed."""
        words = ("import hojzmated, sys\ntry:\n    hojzmated.Pager(sys.argv[1]).close()\n"
                 "except hojzmated.Refused as it:\n    print(it)")
        other = [sys.executable, "-B", "-c", words, self.path]
        folder = os.path.dirname(os.path.dirname(hojzmated.__file__))
        with self.pager(page_size=4096):
            text = "another pager or process has the file, or it cannot be locked (refusal 76)"
            self.assertEqual(self.refused(76, self.pager), text)
            self.assertEqual(subprocess.check_output(other, cwd=folder, text=True), text + "\n")
        self.assertEqual(subprocess.check_output(other, cwd=folder, text=True), "")
        with self.pager(page_size=4096):
            pass

    def test_checksums(self):
        """A page that was spoilt in a file of format 3 is told, and no other."""
        with self.pager(format=3) as pager:
            for number in range(16):
                with pager.write(number) as page:
                    page.put(0, bytes([number + 1]) * 64)
        with open(self.path, "r+b") as file:
            file.seek(5 * 96 + 40)
            file.write(b"x")
        with self.pager(pages=None, format=3) as pager:
            for number in range(16):
                if number == 5:
                    self.refused(19, pager.read, 5, page=5)
                else:
                    with pager.read(number) as page:
                        self.assertEqual(bytes(page.bytes), bytes([number + 1]) * 64)


if __name__ == "__main__":
    unittest.main()
