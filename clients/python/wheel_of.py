"""Packs the package `crsm` as a wheel, for `pip install` of this folder, and as a source distribution: it needs no
network and no other package.

The functions without an underscore are the ones that pip and `build` call (PEP 517). Packed from the same files, both
have the same bytes.
"""

import base64
import gzip
import hashlib
import io
import tarfile
import tomllib
import zipfile
from collections.abc import Iterator
from pathlib import Path
from typing import Any

_HERE = Path(__file__).parent
_PACKAGE = "crsm"


def build_wheel(folder: str, _settings: dict[str, Any] | None = None, _metadata: str | None = None) -> str:
    """Writes the wheel into a folder, and returns its name."""
    project = _project()
    name = f"{_PACKAGE}-{project['version']}-py3-none-any.whl"
    info = f"{_PACKAGE}-{project['version']}.dist-info"
    files = dict(_files_of(_PACKAGE))
    files[f"{info}/METADATA"] = _metadata_of(project)
    files[f"{info}/WHEEL"] = b"Wheel-Version: 1.0\nGenerator: wheel_of\nRoot-Is-Purelib: true\nTag: py3-none-any\n"
    files[f"{info}/entry_points.txt"] = _commands_of(project)
    rows = "".join(f"{path},{_checksum(data)},{len(data)}\n" for path, data in files.items())
    files[f"{info}/RECORD"] = f"{rows}{info}/RECORD,,\n".encode()
    with zipfile.ZipFile(Path(folder, name), "w", zipfile.ZIP_DEFLATED) as wheel:
        for path, data in files.items():
            wheel.writestr(zipfile.ZipInfo(path), data)
    return name


def build_sdist(folder: str, _settings: dict[str, Any] | None = None) -> str:
    """Writes the sources, with their tests, into a folder as a tar file, and returns its name."""
    project = _project()
    top = f"{_PACKAGE}-{project['version']}"
    files = {"PKG-INFO": _metadata_of(project)}
    files |= {name: (_HERE / name).read_bytes() for name in ("README.md", "pyproject.toml", "wheel_of.py")}
    files |= dict(_files_of(_PACKAGE)) | dict(_files_of("tests"))
    with (
        gzip.GzipFile(Path(folder, f"{top}.tar.gz"), "wb", mtime=0) as packed,
        tarfile.open(fileobj=packed, mode="w", format=tarfile.PAX_FORMAT) as sources,
    ):
        for path, data in files.items():
            entry = tarfile.TarInfo(f"{top}/{path}")
            entry.size = len(data)
            sources.addfile(entry, io.BytesIO(data))
    return f"{top}.tar.gz"


def _project() -> dict[str, Any]:
    return tomllib.loads((_HERE / "pyproject.toml").read_text("utf-8"))["project"]


def _files_of(folder: str) -> Iterator[tuple[str, bytes]]:
    """Yields the path and the bytes of each file of a folder's sources, in the order of their names."""
    for path in sorted((_HERE / folder).glob("*")):
        if path.suffix == ".py" or path.name == "py.typed":
            yield f"{folder}/{path.name}", path.read_bytes()


def _metadata_of(project: dict[str, Any]) -> bytes:
    page = (_HERE / project["readme"]).read_text("utf-8")
    classifiers = "".join(f"Classifier: {text}\n" for text in project["classifiers"])
    return (
        f"Metadata-Version: 2.1\nName: {project['name']}\nVersion: {project['version']}\n"
        f"Summary: {project['description']}\nKeywords: {','.join(project['keywords'])}\n{classifiers}"
        f"Requires-Python: {project['requires-python']}\nDescription-Content-Type: text/markdown\n\n{page}"
    ).encode()


def _commands_of(project: dict[str, Any]) -> bytes:
    lines = [f"{name} = {function}\n" for name, function in project["scripts"].items()]
    return f"[console_scripts]\n{''.join(lines)}".encode()


def _checksum(data: bytes) -> str:
    digest = base64.urlsafe_b64encode(hashlib.sha256(data).digest()).rstrip(b"=")
    return f"sha256={digest.decode()}"
