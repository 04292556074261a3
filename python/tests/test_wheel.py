"""The wheel: which files it has, with which modes and sums, and that the same files make the same bytes."""

import base64
import email
import hashlib
import os
import re
import shutil
import subprocess
import sys
import tempfile
import unittest
import zipfile
from pathlib import Path
from typing import List, Optional

import edfvd.__main__

PYTHON = Path(__file__).resolve().parents[1]
MODULES = sorted(path.name for path in (PYTHON / "edfvd").glob("*.py"))
TOOLS = [
    "divisors.py", "explain.py", "jobs.py", "perfetto.py", "periods.py", "reading.py", "rules.py", "svg.py", "usage.py", "walk.py",
    "workloads.py",
]
BUILD = "import sys; sys.path.insert(0, '.'); import backend; print(backend.build_wheel(sys.argv[1]))"


@unittest.skipUnless((PYTHON / "backend.py").exists(), "the package is not in its repository")
class Wheel(unittest.TestCase):
    def setUp(self) -> None:
        folder = tempfile.TemporaryDirectory()
        self.addCleanup(folder.cleanup)
        self.root = Path(folder.name)
        (self.root / "wheels").mkdir()
        (self.root / "python" / "edfvd").mkdir(parents=True)
        (self.root / "tools").mkdir()
        for name in TOOLS:
            (self.root / "tools" / name).write_text(f"# {name}\n")
        for name in ("backend.py", "pyproject.toml"):
            shutil.copy(PYTHON / name, self.root / "python" / name)
        for name in [*MODULES, "py.typed"]:
            shutil.copy(PYTHON / "edfvd" / name, self.root / "python" / "edfvd" / name)
        for name, text in [("LICENSE-APACHE", "Apache"), ("LICENSE-MIT", "MIT"), ("CITATION.cff", "version: 1.2.3\n")]:
            (self.root / name).write_text(text)
        (self.root / "python" / "edfvd" / "libedfvd.so").write_bytes(b"\x7fELF")

    def build(self, umask: int = 0o022) -> "subprocess.CompletedProcess[str]":
        """Builds the wheel with this umask."""
        return subprocess.run(
            [sys.executable, "-B", "-c", f"import os; os.umask({umask}); {BUILD}", str(self.root / "wheels")],
            cwd=self.root / "python", capture_output=True, text=True, check=False, timeout=60,
        )

    def built(self, umask: int = 0o022) -> Path:
        """The wheel that is built with this umask."""
        done = self.build(umask)
        self.assertEqual((done.returncode, done.stderr), (0, ""))
        return self.root / "wheels" / done.stdout.strip()

    def files(self, others: Optional[List[str]] = None) -> List[str]:
        """What the wheel must have, with these licences besides."""
        info = "edfvd-1.2.3.dist-info"
        licences = ["LICENSE-APACHE", "LICENSE-MIT", *(others or [])]
        return sorted(
            [f"edfvd/{name}" for name in [*MODULES, "libedfvd.so", "py.typed"]] + [f"edfvd/_tools/{name}" for name in TOOLS]
            + [f"{info}/licenses/{name}" for name in licences] + [f"{info}/{name}" for name in ("METADATA", "RECORD", "WHEEL")]
        )

    def test_files(self) -> None:
        """The package's own files, whatever else lies beside them, and the licences."""
        package = self.root / "python" / "edfvd"
        for name in ("notes.txt", "_old.py", "libedfvd.so.1", ".env", "__init__.py~"):
            (package / name).write_text("of the user")
        (self.root / "tools" / "mine.py").write_text("of the user")
        (package / "__pycache__").mkdir()
        (self.root / "LICENSE-OF-THE-USER").write_text("no")
        with zipfile.ZipFile(self.built()) as wheel:
            self.assertEqual(sorted(wheel.namelist()), self.files())
            self.assertEqual(wheel.read("edfvd-1.2.3.dist-info/licenses/LICENSE-MIT"), b"MIT")
            self.assertEqual(wheel.read("edfvd-1.2.3.dist-info/licenses/LICENSE-APACHE"), b"Apache")
            for name in MODULES:
                self.assertEqual(wheel.read(f"edfvd/{name}"), (PYTHON / "edfvd" / name).read_bytes())
            self.assertEqual(wheel.read("edfvd/_tools/walk.py"), b"# walk.py\n")

    def test_a_package_without_tools(self) -> None:
        shutil.rmtree(self.root / "tools")
        with zipfile.ZipFile(self.built()) as wheel:
            self.assertEqual(sorted(wheel.namelist()), [name for name in self.files() if "_tools" not in name])

    @unittest.skipUnless((PYTHON.parent / "tools").exists(), "the tools are not beside the package")
    def test_modules_of_the_tools(self) -> None:
        """Each tool that the package runs is in the wheel, with all modules that it imports."""
        tools = PYTHON.parent / "tools"
        wanted, seen = [f"{name}.py" for name in edfvd.__main__.TOOLS], set()
        while wanted:
            name = wanted.pop()
            seen.add(name)
            imported = re.findall(r"^(?:from|import) (\w+)", (tools / name).read_text(), re.M)
            wanted += [f"{one}.py" for one in imported if (tools / f"{one}.py").exists() and f"{one}.py" not in seen]
        self.assertEqual(sorted(seen), TOOLS)

    def test_licences_of_what_is_linked(self) -> None:
        (self.root / "THIRD-PARTY-LICENSES").write_text("linked")
        with zipfile.ZipFile(self.built()) as wheel:
            self.assertEqual(sorted(wheel.namelist()), self.files(["THIRD-PARTY-LICENSES"]))
            self.assertEqual(wheel.read("edfvd-1.2.3.dist-info/licenses/THIRD-PARTY-LICENSES"), b"linked")
            metadata = email.message_from_bytes(wheel.read("edfvd-1.2.3.dist-info/METADATA"))
            self.assertEqual(
                metadata.get_all("License-File"), ["LICENSE-APACHE", "LICENSE-MIT", "THIRD-PARTY-LICENSES"]
            )

    def test_same_bytes(self) -> None:
        """Whatever the umask, the modes and the times of the files are."""
        first = self.built().read_bytes()
        for path in (self.root / "python" / "edfvd").iterdir():
            path.chmod(0o777)
            os.utime(path, (2e9, 2e9))
        self.assertEqual(self.built(umask=0o077).read_bytes(), first)

    def test_modes(self) -> None:
        (self.root / "python" / "edfvd" / "libedfvd.so").chmod(0o755)
        with zipfile.ZipFile(self.built(umask=0o077)) as wheel:
            modes = {info.filename: oct(info.external_attr >> 16) for info in wheel.infolist()}
        self.assertEqual(set(modes.values()), {"0o100644"}, modes)

    def test_sums(self) -> None:
        """RECORD has the SHA-256 and the length of each file except itself."""
        with zipfile.ZipFile(self.built()) as wheel:
            record = "edfvd-1.2.3.dist-info/RECORD"
            lines = wheel.read(record).decode().splitlines()
            self.assertEqual(sorted(line.split(",")[0] for line in lines), self.files())
            for line in lines:
                path, digest, length = line.split(",")
                text = wheel.read(path)
                sha = base64.urlsafe_b64encode(hashlib.sha256(text).digest()).decode().rstrip("=")
                self.assertEqual((digest, length), ("", "") if path == record else (f"sha256={sha}", str(len(text))))

    def test_metadata(self) -> None:
        path = self.built()
        with zipfile.ZipFile(path) as wheel:
            metadata = email.message_from_bytes(wheel.read("edfvd-1.2.3.dist-info/METADATA"))
            tags = email.message_from_bytes(wheel.read("edfvd-1.2.3.dist-info/WHEEL"))
        self.assertEqual(metadata["Author"], "The edfvd authors")
        self.assertIn("Typing :: Typed", metadata.get_all("Classifier", []))
        self.assertTrue(str(metadata.get_payload()).startswith("EDF-VD in Python: the proved library of edfvd"))
        wanted = {"Name": "edfvd", "Version": "1.2.3", "License-Expression": "MIT OR Apache-2.0", "Requires-Python": ">=3.9"}
        self.assertEqual({key: metadata[key] for key in wanted}, wanted)
        self.assertEqual(tags["Root-Is-Purelib"], "false")
        self.assertEqual(path.name, f"edfvd-1.2.3-{tags['Tag']}.whl")
        self.assertTrue(tags["Tag"].startswith("py3-none-linux_"))

    def test_what_is_missing(self) -> None:
        """One line, and no wheel."""
        for name, words in [
            ("python/edfvd/libedfvd.so", "c/build.sh makes the library"), ("python/edfvd/_values.py", "No such file"),
            ("LICENSE-MIT", "a pip before 21.3"), ("LICENSE-APACHE", "a pip before 21.3"),
        ]:
            text = (self.root / name).read_bytes()
            (self.root / name).unlink()
            done = self.build()
            self.assertEqual((done.returncode, done.stdout, done.stderr.count("\n")), (1, "", 1), name)
            self.assertIn(f"{name}: ", done.stderr)
            self.assertIn(words, done.stderr)
            self.assertEqual(list((self.root / "wheels").iterdir()), [])
            (self.root / name).write_bytes(text)


if __name__ == "__main__":
    unittest.main()
