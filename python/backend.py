"""Makes the wheel of the package, with the shared library in it, and needs nothing but Python (PEP 517).

The wheel has the files that are listed here and no others, and the same files make the same bytes: no time, no owner and no
umask goes into it, and nothing is compressed, since what a compressor writes depends on its version.
"""

import ast
import base64
import hashlib
import re
import stat
import subprocess
import sysconfig
import zipfile
from pathlib import Path
from typing import Dict, List

HERE = Path(__file__).resolve().parent
ROOT = HERE.parent

LIBRARY = "libedfvd.so"
PACKAGE = [
    "__init__.py", "__main__.py", "_arrays.py", "_calls.py", "_commands.py", "_errors.py", "_files.py", "_given.py", "_handle.py", "_library.py",
    "_many.py", "_monitor.py", "_picture.py", "_runs.py", "_scheduler.py", "_sensitivity.py", "_table.py", "_toml.py", "_trace.py",
    "_values.py", "laboratory.py", "py.typed",
]
LICENCES = ["LICENSE-APACHE", "LICENSE-MIT"]
# The tools that are commands of the package, and the modules that they share, in a repository that has them.
TOOLS = [
    "divisors.py", "explain.py", "jobs.py", "perfetto.py", "periods.py", "reading.py", "rules.py", "svg.py", "usage.py", "walk.py",
    "workloads.py",
]
# The licences of what is linked into the library, in a repository that has them.
LINKED = "THIRD-PARTY-LICENSES"
KEYWORDS = "mixed criticality,real-time scheduling,EDF-VD,formal verification"
CLASSIFIERS = [
    "Intended Audience :: Science/Research", "Operating System :: POSIX :: Linux", "Programming Language :: Python :: 3",
    "Topic :: Scientific/Engineering", "Typing :: Typed",
]
SUMMARY = "EDF-VD task sets tested, traces judged, and a scheduler driven event by event, by a proved library"


def _version() -> str:
    """The version of CITATION.cff, if this folder is part of the repository; otherwise 0."""
    cited = ROOT / "CITATION.cff"
    found = re.search(r"^version: (\S+)", cited.read_text(encoding="utf-8"), re.M) if cited.exists() else None
    return found[1] if found else "0"


def _bytes_of(path: Path, remedy: str) -> bytes:
    """The bytes of a file that the wheel cannot do without."""
    try:
        return path.read_bytes()
    except OSError as error:
        raise SystemExit(f"{path}: {error.strerror}: {remedy}") from error


def _licences() -> Dict[str, bytes]:
    """The licences by name."""
    remedy = "the licences stand beside this folder in the repository; a pip before 21.3 does not look there"
    names = LICENCES + [LINKED] if (ROOT / LINKED).exists() else LICENCES
    return {name: _bytes_of(ROOT / name, remedy) for name in names}


def _library() -> Path:
    """The shared library: in the repository the one of its sources, built or prebuilt; elsewhere the one in the package's folder."""
    asked = ROOT / "prebuilt" / "library.sh"
    if not asked.exists():
        return HERE / "edfvd" / LIBRARY
    done = subprocess.run([str(asked)], check=False, stdout=subprocess.PIPE, stderr=subprocess.PIPE, text=True)
    if done.returncode != 0:
        raise SystemExit(done.stderr.rstrip())
    return Path(done.stdout.rstrip("\n"))


def _metadata(licences: List[str]) -> str:
    """What the wheel says of the package."""
    files = "".join(f"License-File: {name}\n" for name in licences)
    classifiers = "".join(f"Classifier: {one}\n" for one in CLASSIFIERS)
    page = ast.get_docstring(ast.parse(_bytes_of(HERE / "edfvd" / "__init__.py", "it is part of the repository"))) or ""
    return (
        f"Metadata-Version: 2.4\nName: edfvd\nVersion: {_version()}\nSummary: {SUMMARY}\nAuthor: The edfvd authors\n"
        f"Keywords: {KEYWORDS}\n{classifiers}Requires-Python: >=3.9\n"
        f"License-Expression: MIT OR Apache-2.0\n{files}Description-Content-Type: text/plain\n\n{page}\n"
    )


def _record(files: Dict[str, bytes], name: str) -> bytes:
    """The list of the files with their sums, in which it stands itself, without one."""
    lines = []
    for path, text in files.items():
        digest = base64.urlsafe_b64encode(hashlib.sha256(text).digest()).rstrip(b"=").decode()
        lines.append(f"{path},sha256={digest},{len(text)}\n")
    return "".join([*lines, f"{name},,\n"]).encode()


def _entry(path: str) -> zipfile.ZipInfo:
    """An entry of mode 644 and of no time."""
    entry = zipfile.ZipInfo(path, (1980, 1, 1, 0, 0, 0))
    entry.create_system = 3
    entry.external_attr = (stat.S_IFREG | 0o644) << 16
    entry.compress_type = zipfile.ZIP_STORED
    return entry


def get_requires_for_build_wheel(config_settings: object = None) -> List[str]:
    """What must be there first: nothing."""
    return []


def build_wheel(wheel_directory: str, config_settings: object = None, metadata_directory: object = None) -> str:
    """Writes the wheel into the folder, and returns its name."""
    machine = re.sub(r"[-.]", "_", sysconfig.get_platform())
    tag, info = f"py3-none-{machine}", f"edfvd-{_version()}.dist-info"
    licences = _licences()
    files = {f"edfvd/{name}": _bytes_of(HERE / "edfvd" / name, "it is part of the repository") for name in PACKAGE}
    tools = ROOT / "tools"
    if tools.exists():
        files.update({f"edfvd/_tools/{name}": _bytes_of(tools / name, "it is part of the repository") for name in TOOLS})
    files[f"edfvd/{LIBRARY}"] = _bytes_of(_library(), "c/build.sh makes the library")
    files.update({f"{info}/licenses/{name}": text for name, text in licences.items()})
    files[f"{info}/METADATA"] = _metadata(list(licences)).encode()
    files[f"{info}/WHEEL"] = f"Wheel-Version: 1.0\nGenerator: backend.py\nRoot-Is-Purelib: false\nTag: {tag}\n".encode()
    files[f"{info}/RECORD"] = _record(files, f"{info}/RECORD")
    name = f"edfvd-{_version()}-{tag}.whl"
    with zipfile.ZipFile(Path(wheel_directory) / name, "w") as wheel:
        for path, text in files.items():
            wheel.writestr(_entry(path), text)
    return name


def build_sdist(sdist_directory: str, config_settings: object = None) -> str:
    """Refuses: the repository is the source."""
    raise SystemExit("there is no source distribution: the repository is the source")
