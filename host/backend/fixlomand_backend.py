"""Builds the package for pip (PEP 517 and 660), with the standard library alone.

The version is that of ``fixlomand/__init__.py``; all else is in pyproject.toml,
of which this reads tables and keys with one string each.
"""

from __future__ import annotations

import base64
import hashlib
import io
import re
import tarfile
import zipfile
from collections.abc import Mapping
from pathlib import Path
from typing import Optional

HERE = Path(__file__).resolve().parents[1]
PACKAGE = HERE / "fixlomand"
Settings = Optional[Mapping[str, object]]


def build_wheel(wheel_directory: str, config_settings: Settings = None, metadata_directory: str | None = None) -> str:
    """The package as a wheel; its name."""
    return _wheel(Path(wheel_directory), {f"fixlomand/{file.name}": file.read_bytes() for file in _package()})


def build_editable(wheel_directory: str, config_settings: Settings = None, metadata_directory: str | None = None) -> str:
    """A wheel that leads to the package where it is; its name."""
    return _wheel(Path(wheel_directory), {"fixlomand.pth": f"{HERE}\n".encode()})


def build_sdist(sdist_directory: str, config_settings: Settings = None) -> str:
    """What a wheel is built of, as an archive; its name."""
    name = f"fixlomand-{version()}"
    with tarfile.open(Path(sdist_directory, f"{name}.tar.gz"), "w:gz", format=tarfile.PAX_FORMAT) as archive:
        for file in (HERE / "pyproject.toml", Path(__file__).resolve(), *_package()):
            archive.add(file, f"{name}/{file.relative_to(HERE)}")
        information = tarfile.TarInfo(f"{name}/PKG-INFO")
        information.size = len(_metadata())
        archive.addfile(information, io.BytesIO(_metadata()))
    return f"{name}.tar.gz"


def version() -> str:
    """The version of the package."""
    found = re.search(r'^__version__ = "([^"]+)"$', (PACKAGE / "__init__.py").read_text(encoding="utf-8"), re.MULTILINE)
    if found is None:
        raise ValueError("fixlomand/__init__.py has no __version__")
    return found[1]


def project(text: str) -> dict[str, dict[str, str]]:
    """The tables of a pyproject.toml, with their keys of one string each."""
    tables: dict[str, dict[str, str]] = {}
    table = tables.setdefault("", {})
    for line in text.splitlines():
        if match := re.fullmatch(r"\[([\w.-]+)\]", line.strip()):
            table = tables.setdefault(match[1], {})
        elif match := re.fullmatch(r'([\w-]+) = "([^"\\]*)"', line.strip()):
            table[match[1]] = match[2]
    return tables


def _tables() -> dict[str, dict[str, str]]:
    return project((HERE / "pyproject.toml").read_text(encoding="utf-8"))


def _package() -> list[Path]:
    return sorted(file for file in PACKAGE.iterdir() if file.suffix == ".py" or file.name == "py.typed")


def _metadata() -> bytes:
    about = _tables()["project"]
    lines = ["Metadata-Version: 2.1", f"Name: {about['name']}", f"Version: {version()}"]
    lines += [f"Summary: {about['description']}", f"Requires-Python: {about['requires-python']}"]
    return "".join(f"{line}\n" for line in lines).encode()


def _wheel(directory: Path, files: dict[str, bytes]) -> str:
    scripts = _tables()["project.scripts"]
    information = f"fixlomand-{version()}.dist-info"
    files = {
        **files,
        f"{information}/METADATA": _metadata(),
        f"{information}/WHEEL": b"Wheel-Version: 1.0\nGenerator: fixlomand\nRoot-Is-Purelib: true\nTag: py3-none-any\n",
        f"{information}/entry_points.txt": "".join(
            ["[console_scripts]\n", *(f"{name} = {place}\n" for name, place in scripts.items())]
        ).encode(),
    }
    record = [f"{path},sha256={_digest(data)},{len(data)}\n" for path, data in files.items()]
    files[f"{information}/RECORD"] = "".join([*record, f"{information}/RECORD,,\n"]).encode()
    name = f"fixlomand-{version()}-py3-none-any.whl"
    with zipfile.ZipFile(directory / name, "w", zipfile.ZIP_DEFLATED) as wheel:
        for path, data in files.items():
            wheel.writestr(zipfile.ZipInfo(path, (1980, 1, 1, 0, 0, 0)), data, zipfile.ZIP_DEFLATED)
    return name


def _digest(data: bytes) -> str:
    return base64.urlsafe_b64encode(hashlib.sha256(data).digest()).decode().rstrip("=")
