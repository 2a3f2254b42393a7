"""The notebook of the course: each of its cells runs, and prints what the notebook shows below it."""
import contextlib
import io
import json
import os
import pathlib
import unittest

FOLDER = pathlib.Path(__file__).resolve().parent.parent


class Notebook(unittest.TestCase):
    def test_each_cell(self):
        cells = [cell for cell in json.loads((FOLDER / "locks.ipynb").read_text())["cells"] if cell["cell_type"] == "code"]
        self.assertGreater(len(cells), 5)
        names, before = {}, os.getcwd()
        self.addCleanup(os.chdir, before)
        os.chdir(FOLDER)
        for number, cell in enumerate(cells, 1):
            printed = io.StringIO()
            with contextlib.redirect_stdout(printed):
                exec(compile("".join(cell["source"]), f"cell {number}", "exec"), names)
            shown = "".join(line for output in cell["outputs"] for line in output["text"])
            self.assertEqual(printed.getvalue(), shown, f"cell {number}")


if __name__ == "__main__":
    unittest.main()
