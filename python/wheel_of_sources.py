"""Builds the package for `pip`, by the standard library alone, so that nothing has to be there or be fetched.

`pip` calls it as PEP 517 and PEP 660 say (`[build-system]` in pyproject.toml). A wheel is an archive of the sources with
three files beside them: what the package is called, which form the archive has, and the sum of each file.
"""
from __future__ import annotations

import base64
import hashlib
import io
import pathlib
import re
import tarfile
import zipfile

HERE = pathlib.Path(__file__).resolve().parent
SOURCES = HERE / "src"
KINDS = {".py", ".typed", ".json", ".csv", ".html", ".css", ".js"}
WHEEL = "Wheel-Version: 1.0\nGenerator: wheel_of_sources\nRoot-Is-Purelib: true\nTag: py3-none-any\n"


def told(name: str) -> str:
    """The value of a name in pyproject.toml, whose values are texts of one line (Python 3.10 reads no TOML)."""
    found = re.search(rf'^{re.escape(name)} = "(.*)"$', (HERE / "pyproject.toml").read_text(encoding="utf-8"), re.M)
    if not found:
        raise ValueError(f"pyproject.toml has no {name}")
    return found[1]


def version() -> str:
    """The version, which the package tells too."""
    found = re.search(r'^__version__ = "(.*)"$', (SOURCES / "stakeplay/version.py").read_text(encoding="utf-8"), re.M)
    if not found:
        raise ValueError("src/stakeplay/version.py has no version")
    return found[1]


def metadata() -> str:
    """What an installer has to know of the package."""
    head = (f"Metadata-Version: 2.1\nName: {told('name')}\nVersion: {version()}\nSummary: {told('description')}\n"
            f"Requires-Python: {told('requires-python')}\nDescription-Content-Type: text/markdown\n\n")
    return head + (HERE / told("readme")).read_text(encoding="utf-8")


def entry_points() -> str:
    """The command that an installer makes."""
    return f"[console_scripts]\nstakeplay-recipes = {told('stakeplay-recipes')}\n"


def sources() -> dict[str, bytes]:
    """The files of the package, by their places in an environment."""
    paths = sorted(path for path in SOURCES.rglob("*") if path.suffix in KINDS)
    return {path.relative_to(SOURCES).as_posix(): path.read_bytes() for path in paths}


def beside() -> dict[str, bytes]:
    """The files that say what the package is."""
    texts = {"METADATA": metadata(), "WHEEL": WHEEL, "entry_points.txt": entry_points()}
    return {f"{told('name')}-{version()}.dist-info/{name}": text.encode() for name, text in texts.items()}


def record(files: dict[str, bytes], own: str) -> bytes:
    """The sum and the size of each file; its own line has none."""
    rows = []
    for name, data in files.items():
        digest = base64.urlsafe_b64encode(hashlib.sha256(data).digest()).rstrip(b"=").decode()
        rows.append(f"{name},sha256={digest},{len(data)}\n")
    return "".join([*rows, f"{own},,\n"]).encode()


def write_wheel(folder: str, files: dict[str, bytes]) -> str:
    """Writes a wheel of these files; its name."""
    name = f"{told('name')}-{version()}-py3-none-any.whl"
    files = files | beside()
    own = f"{told('name')}-{version()}.dist-info/RECORD"
    files[own] = record(files, own)
    with zipfile.ZipFile(pathlib.Path(folder, name), "w", zipfile.ZIP_DEFLATED) as archive:
        for path, data in files.items():
            archive.writestr(zipfile.ZipInfo(path, (2024, 1, 1, 0, 0, 0)), data, zipfile.ZIP_DEFLATED)
    return name


# ---- what `pip` calls

def build_wheel(wheel_directory: str, config_settings: object = None, metadata_directory: object = None) -> str:
    """A wheel of the sources."""
    return write_wheel(wheel_directory, sources())


def build_editable(wheel_directory: str, config_settings: object = None, metadata_directory: object = None) -> str:
    """A wheel that leads to the sources where they stand (`pip install -e`)."""
    return write_wheel(wheel_directory, {f"{told('name')}.pth": f"{SOURCES}\n".encode()})


def build_sdist(sdist_directory: str, config_settings: object = None) -> str:
    """An archive of this folder."""
    base = f"{told('name')}-{version()}"
    files = {name: (HERE / name).read_bytes() for name in ("pyproject.toml", "wheel_of_sources.py", told("readme"))}
    files |= {f"src/{name}": data for name, data in sources().items()} | {"PKG-INFO": metadata().encode()}
    with tarfile.open(pathlib.Path(sdist_directory, base + ".tar.gz"), "w:gz", format=tarfile.PAX_FORMAT) as archive:
        for name, data in files.items():
            entry = tarfile.TarInfo(f"{base}/{name}")
            entry.size = len(data)
            archive.addfile(entry, io.BytesIO(data))
    return base + ".tar.gz"
