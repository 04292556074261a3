"""The package's declarations beside those of ``edfvd.h``, and what is said of a file that is no library of edfvd."""

import ctypes
import os
import re
import shutil
import subprocess
import sys
import tempfile
import unittest
from pathlib import Path
from typing import Any, List

from edfvd import Event, Rule, Status, Why, _library

HEADER = Path(__file__).resolve().parents[2] / "c" / "edfvd.h"


@unittest.skipUnless(HEADER.exists(), "edfvd.h is not beside the package")
class Declarations(unittest.TestCase):
    def setUp(self) -> None:
        self.header = re.sub(r"/\*.*?\*/", "", HEADER.read_text(), flags=re.S)

    def test_structs(self) -> None:
        kinds = {"uint32_t": ctypes.c_uint32, "uint64_t": ctypes.c_uint64}
        compared = set()
        for body, name in re.findall(r"typedef struct \w+ \{(.*?)\n\} (\w+);", self.header, re.S):
            if name in _library.STRUCTS:
                fields = [
                    (field.strip(), kinds[kind]) for kind, names in re.findall(r"(\w+_t) ([\w, ]+);", body)
                    for field in names.split(",")
                ]
                self.assertEqual(fields, _library.STRUCTS[name]._fields_, name)
                compared.add(name)
        self.assertEqual(compared, set(_library.STRUCTS))

    def test_handles(self) -> None:
        """A scheduler and a monitor are a handle: a mark, a pointer, where it is, and whether a call is in it."""
        bodies = {}
        for name in ("handle", "scheduler", "monitor"):
            body = re.search(rf"typedef struct edfvd_{name} \{{(.*?)\n\}} edfvd_{name};", self.header, re.S)
            assert body is not None
            bodies[name] = re.findall(r"(\w+_t|void \*|const void \*|edfvd_handle)\s*(\w+);", body[1])
        self.assertEqual(
            bodies["handle"], [("uint64_t", "mark"), ("void *", "at"), ("const void *", "self"), ("uint32_t", "busy")]
        )
        self.assertEqual(bodies["scheduler"], [("edfvd_handle", "handle")])
        self.assertEqual(bodies["monitor"], [("edfvd_handle", "handle")])
        handle = _library.CHandle
        self.assertEqual([name for name, *_ in handle._fields_], ["mark", "at", "self", "busy"])
        self.assertEqual((handle.busy.offset, handle.busy.size, ctypes.sizeof(handle)), (24, 4, 32))
        for struct in (_library.CScheduler, _library.CMonitor):
            self.assertEqual(struct._fields_, [("handle", handle)])

    def test_calls(self) -> None:
        kinds = {
            "size_t": "c_ulong", "uint32_t": "c_uint", "uint64_t": "c_ulong", "bool": "c_bool", "void *": "c_char_p",
            "const void *": "c_char_p", "const char *const *": "LP_c_char_p", "uint32_t *": "LP_c_uint", "uint64_t *": "LP_c_ulong", "size_t *": "LP_c_ulong",
        }
        kinds.update({f"{name} *": f"LP_{struct.__name__}" for name, struct in _library.STRUCTS.items()})
        kinds.update({"edfvd_scheduler *": "LP_CScheduler", "edfvd_monitor *": "LP_CMonitor"})
        packed: List[Any] = [_library.PackedTasks, _library.PackedDemands, _library.PackedRows]
        kinds.update({f"const {name} *": kind.__name__ for name, struct in _library.STRUCTS.items() for kind in packed
                      if kind.element is struct})
        kinds["const uint64_t *"] = "PackedOffsets"
        calls = dict(re.findall(r"^edfvd_status (edfvd_\w+)\((.*?)\);", self.header, re.S | re.M))
        declared_calls = dict(_library.CALLS.values())
        self.assertEqual(set(calls), set(declared_calls))
        self.assertEqual(len(declared_calls), len(_library.CALLS))
        for name, parameters in calls.items():
            declared = []
            for parameter in re.sub(r"(\w+)\[\d+\]", r"*\1", parameters).split(","):
                kind = re.sub(r"\w+$", "", " ".join(parameter.split())).strip()
                declared.append(kinds[kind])
            self.assertEqual(declared, [kind.__name__ for kind in declared_calls[name]], name)

    def test_version(self) -> None:
        self.assertIn(f"\n#define EDFVD_VERSION {_library.VERSION}\n", self.header)

    def test_numbers(self) -> None:
        numbers = {name: int(number) for name, number in re.findall(r"\bEDFVD_(\w+) = (\d+)", self.header)}
        for kind, prefix in ((Status, ""), (Event, ""), (Why, "WHY_"), (Rule, "RULE_")):
            for member in kind:
                self.assertEqual(numbers[prefix + member.name], member.value)
        self.assertEqual(len(numbers), len(Status) + len(Event) + len(Why) + len(Rule) + 3)  # and OK, FITS, RULE_NONE


class OtherLibraries(unittest.TestCase):
    def imported(self, library: str) -> str:
        """The last line on standard error of a process that imports the package with this library."""
        done = subprocess.run(
            [sys.executable, "-c", "import edfvd"], env={**os.environ, "EDFVD_LIBRARY": library}, capture_output=True,
            text=True, check=False, timeout=60,
        )
        self.assertEqual(done.returncode, 0 if library == _library.library.path else 1)
        return done.stderr.strip().split("\n")[-1]

    def test_named_by_the_environment(self) -> None:
        self.assertEqual(self.imported(_library.library.path), "")

    def test_modules_of_the_package(self) -> None:
        """What the help of the package names is there when the package is imported."""
        subprocess.run([sys.executable, "-c", "import edfvd; edfvd.laboratory.edf_vd"], check=True, timeout=60)

    def test_no_library(self) -> None:
        with tempfile.TemporaryDirectory() as folder:
            text = Path(folder, "libedfvd.so")
            text.write_text("no library")
            for path in (folder, str(text), f"{folder}/absent.so"):
                line = self.imported(path)
                self.assertTrue(line.startswith("ImportError: the library of edfvd cannot be loaded"), line)

    def test_a_library_of_another_version(self) -> None:
        """Each name of the library leads to one function, which returns 7."""
        compiler = shutil.which(os.environ.get("CC", "cc"))
        if compiler is None:
            self.skipTest("there is no C compiler")
        names = [name for name, _ in _library.CALLS.values()] + ["edfvd_word", "edfvd_version"]
        with tempfile.TemporaryDirectory(prefix="with spaces ") as folder:
            source, path = Path(folder, "other.c"), str(Path(folder, "other.so"))
            source.write_text("".join(f"unsigned {name}(void);\nunsigned {name}(void) {{ return 7; }}\n" for name in names))
            subprocess.run([compiler, "-shared", "-fPIC", str(source), "-o", path], check=True)
            line = self.imported(path)
        self.assertEqual(line, f"ImportError: {path} has version 7 of edfvd.h, and this package needs version {_library.VERSION}")

    def test_a_library_of_something_else(self) -> None:
        line = self.imported("libc.so.6")
        self.assertTrue(line.startswith("ImportError: libc.so.6 is not the library of this package: "), line)
        self.assertTrue(line.endswith("undefined symbol: edfvd_check"), line)


if __name__ == "__main__":
    unittest.main()
