"""commonkit.toml: what is read, and what is written."""
from __future__ import annotations

import tempfile
import unittest
from pathlib import Path

from commonkit.toml import BOM, BadToml, Document, read_toml_file, read_toml_text, toml, written


class Reading(unittest.TestCase):
    """Texts by TOML 1.0, and by the newer TOML that `crpd` reads too."""

    def test_tables_and_lists(self) -> None:
        text = '[platform]\nline = 16\n[[task]]\nname = "a"\n[[task.loop]]\nrange = [["f", "f+0x8"]]\n[[task]]\nname = "b"\n'
        wanted = {"platform": {"line": 16}, "task": [{"name": "a", "loop": [{"range": [["f", "f+0x8"]]}]}, {"name": "b"}]}
        self.assertEqual(read_toml_text(text), wanted)

    def test_inline_tables_over_lines(self) -> None:
        self.assertEqual(read_toml_text("a = { # why\n  b = 1,\n  c = [2, # two\n  3],\n}\n"), {"a": {"b": 1, "c": [2, 3]}})

    def test_new_escapes(self) -> None:
        self.assertEqual(read_toml_text(r'a = {b = "\e\x41\\e",}'), {"a": {"b": "\x1bA\\e"}})

    def test_marks_in_texts_stay(self) -> None:
        self.assertEqual(read_toml_text("a = {b = \"{,} # no\", c = '[,]',}"), {"a": {"b": "{,} # no", "c": "[,]"}})

    def test_no_toml(self) -> None:
        for text in ("a = ", "a = 1\na = 2", "a = {b = 1 c = 2}", "a = [1,, 2]", "a = " + "[" * 20_000):
            with self.assertRaises(BadToml):
                read_toml_text(text)


class Files(unittest.TestCase):
    """Files of bytes."""

    def test_byte_order_mark_and_names(self) -> None:
        with tempfile.TemporaryDirectory() as folder:
            path = Path(folder, "set.toml")
            path.write_bytes(f"{BOM}a = 1\n".encode())
            self.assertEqual(read_toml_file(str(path)), ("a = 1\n", {"a": 1}))
            for data, why in ((b"a = \xff", "no UTF-8 text, from byte 4 on"), (b"a", "no TOML")):
                path.write_bytes(data)
                with self.assertRaisesRegex(BadToml, why):
                    read_toml_file(str(path))


class Writing(unittest.TestCase):
    """Documents as text."""

    def test_values(self) -> None:
        values = {"true": True, "17": 17, r'"a\"b\\\U0000000a"': 'a"b\\\n', "[1, [2, 3]]": [1, [2, 3]],
                  '{a = 1, "b c" = 2}': {"a": 1, "b c": 2}}
        for text, value in values.items():
            self.assertEqual(written(value), text)

    def test_set(self) -> None:
        document: Document = {"platform": {"line": 16}, "task": [{"name": "a", "loop": [{"head": 4, "bound": 2}]}]}
        text = '\n[platform]\nline = 16\n\n[[task]]\nname = "a"\n\n[[task.loop]]\nhead = 4\nbound = 2\n'
        self.assertEqual(toml(document), text)

    def test_read_again(self) -> None:
        document: Document = {"cycles": 5, "a b": {"\u00e9": "\x7f", "list": []}, "job": [{"task": 'x"', "arrival": 0}, {"task": "y"}]}
        self.assertEqual(read_toml_text(toml(document)), document)
