"""Builds the wheel of jffs2 for `pip install .`, with nothing but Python: the module and the shared library, which
JFFS2_LIB names, or which stands here as libjffs2.so. Of a release there are PROVED.txt and LICENCE.txt here too."""

from __future__ import annotations

import base64
import hashlib
import os
import platform
import zipfile
from typing import Any

NAME, VERSION = "jffs2", "0.1.0"
ABOUT = "Images of JFFS2, by the proved library libjffs2.so"
PYTHON = ">=3.9"
LICENCE = "none: all rights reserved until the owner chooses"
HERE = os.path.dirname(os.path.abspath(__file__))
DISTRIBUTION = f"{NAME}-{VERSION}"
TAG = f"py3-none-linux_{platform.machine()}"


def _library() -> str:
    path = os.environ.get("JFFS2_LIB") or os.path.join(HERE, "libjffs2.so")
    if not os.path.isfile(path):
        raise FileNotFoundError(f"{path} is not there: JFFS2_LIB is to name the shared library")
    return path


def _files() -> dict[str, bytes]:
    """The files of the wheel but for its RECORD."""
    paths = {f"{NAME}/{it}": os.path.join(HERE, NAME, it) for it in ("__init__.py", "py.typed")}
    paths[f"{NAME}/libjffs2.so"] = _library()
    files = {}
    for name, path in paths.items():
        with open(path, "rb") as file:
            files[name] = file.read()
    metadata = ["Metadata-Version: 2.1", f"Name: {NAME}", f"Version: {VERSION}", f"Summary: {ABOUT}"]
    metadata += [f"Requires-Python: {PYTHON}", f"License: {LICENCE}"]
    wheel = ["Wheel-Version: 1.0", "Generator: wheel_of_jffs2", "Root-Is-Purelib: false", f"Tag: {TAG}"]
    for name in ("PROVED.txt", "LICENCE.txt"):
        if os.path.isfile(os.path.join(HERE, name)):
            with open(os.path.join(HERE, name), "rb") as file:
                files[f"{DISTRIBUTION}.dist-info/{name}"] = file.read()
    files[f"{DISTRIBUTION}.dist-info/METADATA"] = "\n".join([*metadata, ""]).encode()
    files[f"{DISTRIBUTION}.dist-info/WHEEL"] = "\n".join([*wheel, ""]).encode()
    return files


def _record(files: dict[str, bytes]) -> bytes:
    lines = []
    for name, data in files.items():
        digest = base64.urlsafe_b64encode(hashlib.sha256(data).digest()).decode().rstrip("=")
        lines.append(f"{name},sha256={digest},{len(data)}")
    lines.append(f"{DISTRIBUTION}.dist-info/RECORD,,")
    return "\n".join([*lines, ""]).encode()


def build_wheel(wheel_directory: str, config_settings: Any = None, metadata_directory: Any = None) -> str:
    """Writes the wheel into a folder, and answers its name."""
    name = f"{DISTRIBUTION}-{TAG}.whl"
    files = _files()
    files[f"{DISTRIBUTION}.dist-info/RECORD"] = _record(files)
    with zipfile.ZipFile(os.path.join(wheel_directory, name), "w", zipfile.ZIP_DEFLATED) as archive:
        for path, data in files.items():
            archive.writestr(zipfile.ZipInfo(path, (1980, 1, 1, 0, 0, 0)), data, zipfile.ZIP_DEFLATED)
    return name


def build_sdist(sdist_directory: str, config_settings: Any = None) -> str:
    """There is none: the library cannot be built from sources without Rattle."""
    raise NotImplementedError("jffs2 is built as a wheel alone")
