"""The sample of a mempool, and inputs that aren't one."""
import json
import pathlib
import subprocess
import sys
import tempfile
import unittest

import core_mempool

HERE = pathlib.Path(__file__).resolve().parent
SAMPLE = HERE / "samples" / "mempool.json"


def ran(*words):
    return subprocess.run([sys.executable, HERE / "core_mempool.py", *words], capture_output=True, text=True)


class Mempools(unittest.TestCase):
    def test_the_sample_gives_its_commands(self):
        self.assertEqual(ran(SAMPLE).stdout, (HERE / "samples" / "mempool.commands").read_text())

    def test_parents_come_first_and_each_dependency_is_there(self):
        entries = json.loads(SAMPLE.read_text())
        number, seen = {}, set()
        for name, txid, lines in core_mempool.convert(SAMPLE.read_text()):
            number[txid] = name
            self.assertEqual({f"dep {number[parent]} {name}" for parent in entries[txid]["depends"]}, set(lines[1:]))
            self.assertEqual(lines[0].split()[3], str(entries[txid]["vsize"]))
            seen.add(txid)
        self.assertEqual(seen, set(entries))

    def test_prioritised_fees_if_asked(self):
        with tempfile.TemporaryDirectory() as folder:
            table = pathlib.Path(folder) / "names"
            lines = ran(SAMPLE, "--modified", "--names", table).stdout.splitlines()
            names = dict(line.split() for line in table.read_text().splitlines())
        number = next(name for name, txid in names.items() if txid.startswith("4e0740"))
        self.assertIn(f"add {number} 1600 222", lines)
        self.assertNotIn(f"add {number} 600 222", lines)
        self.assertEqual(len(names), 4)
        self.assertFalse(any(line.startswith("#") for line in lines))

    def test_amounts_are_exact(self):
        self.assertEqual(core_mempool.satoshis("20999999.97690001"), 2_099_999_997_690_001)
        self.assertEqual(core_mempool.satoshis("-0.00000001"), -1)
        self.assertEqual(core_mempool.satoshis(1), 100_000_000)
        with self.assertRaises(core_mempool.Unreadable):
            core_mempool.satoshis("0.000000001")

    def test_what_is_no_mempool_is_refused(self):
        entry = {"vsize": 100, "fees": {"base": 0}, "depends": []}
        texts = ["", '["a"]', '{"a": 1}', json.dumps({"a": {"vsize": 1}}), json.dumps({"a": dict(entry, depends=["b"])})]
        texts.append(json.dumps({"a": dict(entry, depends=["b"]), "b": dict(entry, depends=["a"])}))
        for text in texts:
            with self.subTest(text), self.assertRaises(core_mempool.Unreadable):
                list(core_mempool.convert(text))
        self.assertEqual(list(core_mempool.convert("{}")), [])

    def test_help_and_status(self):
        self.assertIn("getrawmempool true", ran("--help").stdout)
        self.assertEqual((ran(HERE / "no such file").returncode, ran("--unknown").returncode), (1, 2))


if __name__ == "__main__":
    unittest.main()
