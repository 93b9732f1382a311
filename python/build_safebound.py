"""Builds the package as a wheel and as a source archive (the build backend of pyproject.toml).

It needs only the standard library, and writes wheels of other packages too (`engines/build_safebound_sql.py`).

A wheel has the shared objects beside the package. If SAFEBOUND_LIBRARY_DIR names a folder, they come only from there.
Otherwise they come, in a clone, from where `make library` and `make command` leave them, or else from the release in
dist/, or from the folder that pkg-config gives for this version, as after `make install`. If the folder has only an
archive, the C compiler makes the shared object from it.

A wheel's tag names the newest C library among the symbols that its shared objects call: an older system's pip refuses
it. Its times are SOURCE_DATE_EPOCH, or without that 1980: the same files give the same bytes.

A source archive has the package and this file. It builds where one of these folders has the library.
"""

from __future__ import annotations

import base64
import hashlib
import io
import os
import re
import runpy
import subprocess
import sysconfig
import tarfile
import tempfile
import time
import zipfile
from typing import Any

HERE = os.path.dirname(os.path.abspath(__file__))
PACKAGE = os.path.join(HERE, "safebound")
VERSION: str = runpy.run_path(os.path.join(PACKAGE, "_version.py"))["VERSION"]
LIBRARIES = ("safebound", "safebound_command")
VARIABLE = "SAFEBOUND_LIBRARY_DIR"
IN_CLONE = (("library", "out"), ("dist",))
FIRST_TIME = 315532800

METADATA = f"""\
Metadata-Version: 2.1
Name: safebound
Version: {VERSION}
Summary: Row bounds of joins that are never too low, and the best plans by them
License: Apache-2.0
License-File: LICENSE
Requires-Python: >=3.9
Description-Content-Type: text/markdown

"""


def read(*path: str) -> bytes:
    with open(os.path.join(*path), "rb") as f:
        return f.read()


def place_of(name: str) -> str:
    """The path of a file of the project. In a source archive the file is beside this one, in a clone in its own folder.
    """
    beside = os.path.join(HERE, name)
    above = {"safebound.map": "library"}.get(name, "")
    return beside if os.path.isfile(beside) else os.path.join(HERE, "..", above, name)


# ---- the library


def files_of(folder: str, name: str) -> list[str | None]:
    """The paths of a library's shared object and of its archive, with None for a file that isn't in the folder."""
    ends = (".so", ".so." + VERSION.partition(".")[0]), (".a",)
    named = [[os.path.join(folder, f"lib{name}{end}") for end in some] for some in ends]
    return [next((path for path in paths if os.path.isfile(path)), None) for paths in named]


def installed() -> str:
    """The folder that pkg-config gives for this version, or "" if it knows none."""
    words = [os.environ.get("PKG_CONFIG", "pkg-config"), "--variable=libdir", f"safebound = {VERSION}"]
    try:
        return subprocess.run(words, capture_output=True, text=True, check=True).stdout.strip()
    except (OSError, subprocess.CalledProcessError):
        return ""


def folder_of_library() -> str:
    named = os.environ.get(VARIABLE)
    folders = [named] if named else [*(os.path.join(HERE, "..", *path) for path in IN_CLONE), installed()]
    found = next((folder for folder in folders if folder and any(files_of(folder, "safebound"))), None)
    if found is None:
        looked = ", ".join(os.path.normpath(folder) for folder in folders if folder)
        raise RuntimeError(
            f"there is no libsafebound.so and no libsafebound.a in {looked}: "
            f"make library, or name its folder by {VARIABLE}"
        )
    return found


def linked(archive: str, name: str) -> bytes:
    """The shared object that the C compiler makes from an archive."""
    with tempfile.TemporaryDirectory() as room:
        names, made = place_of("safebound.map"), os.path.join(room, "made.so")
        whole = ["-Wl,--whole-archive", archive, "-Wl,--no-whole-archive"]
        soname = f"lib{name}.so.{VERSION.partition('.')[0]}"
        own = [f"-Wl,-soname,{soname}", f"-Wl,--version-script={names}", "-Wl,-z,defs", "-s"]
        subprocess.run([os.environ.get("CC", "cc"), "-shared", "-o", made, *whole, *own], check=True)
        return read(made)


def libraries() -> dict[str, bytes]:
    """The shared objects by their names in the package. That of the whole program may be missing."""
    folder, found = folder_of_library(), {}
    for name in LIBRARIES:
        shared, archive = files_of(folder, name)
        if shared:
            found[f"safebound/lib{name}.so"] = read(shared)
        elif archive:
            found[f"safebound/lib{name}.so"] = linked(archive, name)
    return found


# ---- archives


def tag(shared_objects: list[bytes]) -> str:
    """The tag of a wheel: any platform if it has no shared object, else this one. On Linux it names the version of the
    C library that the symbols need.
    """
    if not shared_objects:
        return "py3-none-any"
    platform = re.sub("[-.]", "_", sysconfig.get_platform())
    needed = [int(minor) for data in shared_objects for minor in re.findall(rb"\0GLIBC_2\.(\d+)[.\d]*(?=\0)", data)]
    return "py3-none-" + (platform.replace("linux", f"manylinux_2_{max(needed)}", 1) if needed else platform)


def sources(package: str = PACKAGE) -> dict[str, bytes]:
    names = [name for name in sorted(os.listdir(package)) if name.endswith(".py") or name == "py.typed"]
    return {f"{os.path.basename(package)}/{name}": read(package, name) for name in names}


def metadata() -> bytes:
    return METADATA.encode() + read(HERE, "README.md")


def record(files: dict[str, bytes], info: str) -> bytes:
    """One line for each file, with its checksum and size. The line of the record itself has neither."""
    lines = []
    for name, data in files.items():
        digest = base64.urlsafe_b64encode(hashlib.sha256(data).digest()).rstrip(b"=").decode()
        lines.append(f"{name},sha256={digest},{len(data)}\n")
    return "".join(lines + [f"{info}/RECORD,,\n"]).encode()


def write(folder: str, package: str, files: dict[str, bytes], described: dict[str, bytes]) -> str:
    """Makes a wheel from a package's files and the files that describe it. Returns its name."""
    is_pure = not any(name.endswith(".so") for name in files)
    own_tag = tag([data for name, data in files.items() if name.endswith(".so")])
    wheel = f"Wheel-Version: 1.0\nGenerator: build_safebound\nRoot-Is-Purelib: {str(is_pure).lower()}\nTag: {own_tag}\n"
    info = f"{package}-{VERSION}.dist-info"
    own = {"WHEEL": wheel.encode(), "LICENSE": read(place_of("LICENSE")), **described}
    files = dict(sorted({**files, **{f"{info}/{name}": data for name, data in own.items()}}.items()))
    files[f"{info}/RECORD"] = record(files, info)
    name = f"{package}-{VERSION}-{own_tag}.whl"
    # A zip archive has no times before 1980.
    made_at = time.gmtime(max(int(os.environ.get("SOURCE_DATE_EPOCH", 0)), FIRST_TIME))[:6]
    with zipfile.ZipFile(os.path.join(folder, name), "w", zipfile.ZIP_DEFLATED) as made:
        for path, data in files.items():
            entry = zipfile.ZipInfo(path, made_at)
            entry.compress_type, entry.create_system, entry.external_attr = zipfile.ZIP_DEFLATED, 3, 0o100644 << 16
            made.writestr(entry, data)
    return name


def build_wheel(
    wheel_directory: str, config_settings: dict[str, Any] | None = None, metadata_directory: str | None = None
) -> str:
    return write(wheel_directory, "safebound", {**sources(), **libraries()}, {"METADATA": metadata()})


def build_editable(
    wheel_directory: str, config_settings: dict[str, Any] | None = None, metadata_directory: str | None = None
) -> str:
    """Installs a link to this folder instead of a copy. The package finds the library where `make library` leaves it.
    """
    return write(wheel_directory, "safebound", {"safebound.pth": f"{HERE}\n".encode()}, {"METADATA": metadata()})


def build_sdist(sdist_directory: str, config_settings: dict[str, Any] | None = None) -> str:
    root = f"safebound-{VERSION}"
    names = ("LICENSE", "README.md", "build_safebound.py", "pyproject.toml", "safebound.map")
    own = {name: read(place_of(name)) for name in names}
    with tarfile.open(os.path.join(sdist_directory, root + ".tar.gz"), "w:gz") as made:
        for path, data in {**own, "PKG-INFO": metadata(), **sources()}.items():
            entry = tarfile.TarInfo(f"{root}/{path}")
            entry.size, entry.mode = len(data), 0o644
            made.addfile(entry, io.BytesIO(data))
    return root + ".tar.gz"
