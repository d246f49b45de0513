"""Builds the wheel of the package. It needs nothing but Python, so `pip install ./python` works without a network.

A libcamplot.so next to the package, or where ./demo leaves it, goes into the wheel.
"""

from __future__ import annotations

import base64
import hashlib
import io
import re
import sysconfig
import tarfile
import zipfile
from collections.abc import Iterator, Mapping
from pathlib import Path

HERE = Path(__file__).resolve().parent
LIBRARY = "libcamplot.so"
Settings = Mapping[str, object] | None
# The time of each file in an archive, so that the same files make the same archive.
EPOCH = (2020, 1, 1, 0, 0, 0)


def _project(key: str) -> str:
    """A value of pyproject.toml. (Python 3.10 has no tomllib.)"""
    found = re.search(rf'(?m)^{key} = "([^"]*)"$', (HERE / "pyproject.toml").read_text("utf-8"))
    if found is None:
        raise ValueError(f"pyproject.toml has no {key}")
    return found[1]


NAME, VERSION = _project("name"), _project("version")
INFO = f"{NAME}-{VERSION}.dist-info"


def _library() -> Path | None:
    """The shared library that goes into the wheel, if it is built."""
    built = [HERE / NAME / LIBRARY, HERE.parent / "crates" / "camplot" / "out" / LIBRARY]
    return next((path for path in built if path.is_file()), None)


def _platform(library: bytes) -> str:
    """Where the library runs: with the newest version of the C library that it names, or a later one."""
    versions = [int(it) for it in re.findall(rb"GLIBC_2\.(\d+)(?:\.\d+)?\0", library)]
    machine = re.sub(r"[-.]", "_", sysconfig.get_platform())
    # (2.5 is the oldest one for which there are wheels)
    return machine.replace("linux_", f"manylinux_2_{max(5, *versions)}_", 1) if versions else machine


def _tag() -> str:
    library = _library()
    return f"py3-none-{_platform(library.read_bytes()) if library else 'any'}"


def _metadata() -> bytes:
    head = {
        "Metadata-Version": "2.1",
        "Name": NAME,
        "Version": VERSION,
        "Summary": _project("description"),
        "Requires-Python": _project("requires-python"),
        "Description-Content-Type": "text/markdown",
    }
    lines = "".join(f"{key}: {value}\n" for key, value in head.items())
    return f"{lines}\n{(HERE / 'README.md').read_text('utf-8')}".encode()


def _info() -> dict[str, bytes]:
    """The files of the wheel's own folder, but its record."""
    pure = "false" if _library() else "true"
    wheel = f"Wheel-Version: 1.0\nGenerator: {NAME} {VERSION}\nRoot-Is-Purelib: {pure}\nTag: {_tag()}\n"
    held = {f"{INFO}/METADATA": _metadata(), f"{INFO}/WHEEL": wheel.encode()}
    # those of the crates in the library, which a release lays here
    licences = HERE / "licences.txt"
    return {**held, f"{INFO}/{licences.name}": licences.read_bytes()} if licences.is_file() else held


def _modules() -> Iterator[tuple[str, bytes]]:
    """The files of the package, by their paths in an archive."""
    for path in sorted((HERE / NAME).iterdir()):
        if path.suffix == ".py" or path.name == "py.typed":
            yield f"{NAME}/{path.name}", path.read_bytes()


def _written(folder: str, files: dict[str, bytes]) -> str:
    """Writes a wheel of files, and answers its name."""
    record = []
    wheel = f"{NAME}-{VERSION}-{_tag()}.whl"
    with zipfile.ZipFile(Path(folder) / wheel, "w") as archive:
        for path, data in files.items():
            _put(archive, path, data)
            digest = base64.urlsafe_b64encode(hashlib.sha256(data).digest()).rstrip(b"=").decode()
            record.append(f"{path},sha256={digest},{len(data)}\n")
        _put(archive, f"{INFO}/RECORD", f"{''.join(record)}{INFO}/RECORD,,\n".encode())
    return wheel


def _put(archive: zipfile.ZipFile, path: str, data: bytes) -> None:
    about = zipfile.ZipInfo(path, EPOCH)
    about.compress_type = zipfile.ZIP_DEFLATED
    about.external_attr = (0o100755 if path.endswith(".so") else 0o100644) << 16
    archive.writestr(about, data)


def build_wheel(wheel_directory: str, config_settings: Settings = None, metadata_directory: str | None = None) -> str:
    """The wheel of the package, with the library if it is built."""
    files = dict(_modules())
    library = _library()
    if library:
        files[f"{NAME}/{LIBRARY}"] = library.read_bytes()
    return _written(wheel_directory, {**files, **_info()})


def build_editable(wheel_directory: str, config_settings: Settings = None, metadata_directory: str | None = None) -> str:
    """A wheel that names this folder, for `pip install -e ./python`."""
    return _written(wheel_directory, {f"{NAME}.pth": f"{HERE}\n".encode(), **_info()})


def build_sdist(sdist_directory: str, config_settings: Settings = None) -> str:
    """The sources of the package, without the library."""
    root = f"{NAME}-{VERSION}"
    files = dict(_modules())
    for name in ("pyproject.toml", "README.md", "backend.py"):
        files[name] = (HERE / name).read_bytes()
    files["PKG-INFO"] = _metadata()
    with tarfile.open(Path(sdist_directory) / f"{root}.tar.gz", "w:gz", format=tarfile.PAX_FORMAT) as archive:
        for path, data in files.items():
            about = tarfile.TarInfo(f"{root}/{path}")
            about.size = len(data)
            archive.addfile(about, io.BytesIO(data))
    return f"{root}.tar.gz"
