"""Builds the package by PEP 517 with a C compiler and nothing else.

The extension module is one file for all versions of CPython from 3.8 on. It links `libscaleview.a`, which
`bash clients/build` makes in clients/out, and an sdist has; SCALEVIEW_LIB_DIR names another folder. CC names the
compiler. With the setting `manylinux=yes` a wheel is tagged for every Linux that has the glibc that it needs.

    python3 build_backend.py FOLDER

builds the package itself in a folder, which PYTHONPATH may then name.
"""

from __future__ import annotations

import base64
import gzip
import hashlib
import io
import os
import pathlib
import re
import shlex
import shutil
import subprocess
import sys
import sysconfig
import tarfile
import tempfile
import zipfile
from typing import Any, Dict, List, Optional, Tuple

HERE = pathlib.Path(__file__).resolve().parent
NAME, VERSION = "scaleview", "0.1.0"
EXTENSION = "_native.abi3.so"
# The oldest date that a zip file can have, so that equal sources make equal wheels.
DATE = (1980, 1, 1, 0, 0, 0)
METADATA = f"""\
Metadata-Version: 2.1
Name: {NAME}
Version: {VERSION}
Summary: A fast SCALE codec for Polkadot and Substrate, around a proved decoder
Requires-Python: >=3.8
Provides-Extra: archive
Requires-Dist: distributed >=2022.12 ; extra == 'archive'
Description-Content-Type: text/markdown

"""


def _fail(line: str) -> None:
    sys.exit(f"scaleview: {line}")


def _header_folder() -> pathlib.Path:
    """The folder of scaleview.h: beside the sources in an sdist, and else that of the client in C."""
    beside = HERE / "native"
    return beside if (beside / "scaleview.h").exists() else HERE.parent / "c"


def _archive() -> pathlib.Path:
    named, beside = os.environ.get("SCALEVIEW_LIB_DIR"), HERE / "native"
    folder = pathlib.Path(named) if named else beside if (beside / "libscaleview.a").exists() else HERE.parent / "out"
    archive = folder / "libscaleview.a"
    if not archive.is_file():
        _fail(f"{archive} is missing: run `bash clients/build`, or set SCALEVIEW_LIB_DIR to the folder of libscaleview.a")
    return archive.resolve()


def _compiler() -> List[str]:
    words = shlex.split(os.environ.get("CC", "cc"))
    if not words or not shutil.which(words[0]):
        _fail(f"there is no C compiler `{' '.join(words)}`: install one, or set CC; `bash clients/build` needs one as well")
    return words


def build_extension(target: pathlib.Path) -> None:
    """Compiles the extension module."""
    archive, include = _archive(), sysconfig.get_paths()["include"]
    if not (pathlib.Path(include) / "Python.h").is_file():
        _fail(f"{include}/Python.h is missing: install the headers of Python, such as python3-dev")
    is_mac = sys.platform == "darwin"
    flags = ["-std=c11", "-O3", "-fPIC", "-fvisibility=hidden", "-pthread", "-Wall", "-Wextra"]
    flags += ["-DPy_LIMITED_API=0x03080000", f"-I{_header_folder()}", f"-I{include}"]
    flags += ["-bundle", "-undefined", "dynamic_lookup"] if is_mac else ["-shared", "-Wl,--exclude-libs,ALL"]
    sources = sorted(str(path) for path in (HERE / "native").glob("*.c"))
    command = [*_compiler(), *flags, "-o", str(target), *sources, str(archive)]
    ended = subprocess.run(command, stdout=subprocess.PIPE, stderr=subprocess.STDOUT, universal_newlines=True)
    if ended.returncode:
        _fail(f"the extension module can't be compiled: {shlex.join(command)}\n{ended.stdout}")


def _package_files() -> Dict[str, pathlib.Path]:
    """The files of the package and of those in it, by their names with the package's folder."""
    source = HERE / "src"
    paths = sorted((source / NAME).rglob("*"))
    files = [path for path in paths if path.suffix in (".py", ".pyi") or path.name == "py.typed"]
    return {path.relative_to(source).as_posix(): path for path in files}


def build_package(folder: pathlib.Path) -> None:
    """Makes the package in a folder, without pip."""
    package = folder / NAME
    for name, path in _package_files().items():
        (folder / name).parent.mkdir(parents=True, exist_ok=True)
        shutil.copyfile(path, folder / name)
    # A process that has the old file open keeps it.
    build_extension(package / "_native.new")
    os.replace(package / "_native.new", package / EXTENSION)


def _glibc(extension: pathlib.Path) -> str:
    """The oldest version of glibc that has all symbols that a file needs, as readelf lists them."""
    listed = subprocess.run(["readelf", "--version-info", str(extension)], stdout=subprocess.PIPE, universal_newlines=True, check=True)
    return "%d_%d" % max((int(major), int(minor)) for major, minor in re.findall(r"\bGLIBC_(\d+)\.(\d+)", listed.stdout))


def _tag(extension: pathlib.Path, settings: Optional[Dict[str, Any]]) -> str:
    platform = sysconfig.get_platform().replace("-", "_").replace(".", "_")
    if (settings or {}).get("manylinux") == "yes":
        platform = platform.replace("linux", f"manylinux_{_glibc(extension)}", 1)
    return f"cp38-abi3-{platform}"


def _metadata() -> bytes:
    return (METADATA + (HERE / "README.md").read_text(encoding="utf-8")).encode()


def _wheel_text(tag: str) -> bytes:
    return f"Wheel-Version: 1.0\nGenerator: scaleview {VERSION}\nRoot-Is-Purelib: false\nTag: {tag}\n".encode()


def _digest(data: bytes) -> str:
    return "sha256=" + base64.urlsafe_b64encode(hashlib.sha256(data).digest()).rstrip(b"=").decode()


def _write_wheel(folder: str, tag: str, files: List[Tuple[str, bytes]]) -> str:
    name, info = f"{NAME}-{VERSION}-{tag}.whl", f"{NAME}-{VERSION}.dist-info"
    files = [*files, (f"{info}/METADATA", _metadata()), (f"{info}/WHEEL", _wheel_text(tag))]
    lines = [f"{path},{_digest(data)},{len(data)}" for path, data in files] + [f"{info}/RECORD,,"]
    files.append((f"{info}/RECORD", ("\n".join(lines) + "\n").encode()))
    with zipfile.ZipFile(os.path.join(folder, name), "w", zipfile.ZIP_DEFLATED) as wheel:
        for path, data in files:
            entry = zipfile.ZipInfo(path, DATE)
            entry.compress_type = zipfile.ZIP_DEFLATED
            entry.external_attr = (0o755 if path.endswith(".so") else 0o644) << 16
            wheel.writestr(entry, data)
    return name


def build_wheel(
    wheel_directory: str, config_settings: Optional[Dict[str, Any]] = None, metadata_directory: Optional[str] = None
) -> str:
    files = [(name, path.read_bytes()) for name, path in _package_files().items()]
    with tempfile.TemporaryDirectory() as made:
        extension = pathlib.Path(made) / EXTENSION
        build_extension(extension)
        files.append((f"{NAME}/{EXTENSION}", extension.read_bytes()))
        tag = _tag(extension, config_settings)
    return _write_wheel(wheel_directory, tag, files)


def build_editable(
    wheel_directory: str, config_settings: Optional[Dict[str, Any]] = None, metadata_directory: Optional[str] = None
) -> str:
    """The package's sources stay where they are, and the extension module is built beside them."""
    source = HERE / "src"
    extension = source / NAME / EXTENSION
    build_extension(extension)
    return _write_wheel(wheel_directory, _tag(extension, None), [(f"_{NAME}.pth", f"{source}\n".encode())])


def build_sdist(sdist_directory: str, config_settings: Optional[Dict[str, Any]] = None) -> str:
    """The sources with scaleview.h and libscaleview.a, which is of one platform."""
    root = f"{NAME}-{VERSION}"
    files = {f"src/{name}": path.read_bytes() for name, path in _package_files().items()}
    files.update({f"native/{path.name}": path.read_bytes() for path in sorted((HERE / "native").iterdir())})
    files["native/scaleview.h"] = (_header_folder() / "scaleview.h").read_bytes()
    files["native/libscaleview.a"] = _archive().read_bytes()
    files.update({name: (HERE / name).read_bytes() for name in ("README.md", "build_backend.py", "pyproject.toml")})
    files["PKG-INFO"] = _metadata()
    name = f"{root}.tar.gz"
    with open(os.path.join(sdist_directory, name), "wb") as out, gzip.GzipFile("", "wb", fileobj=out, mtime=0) as packed:
        with tarfile.open(fileobj=packed, mode="w", format=tarfile.PAX_FORMAT) as tar:
            for path, data in sorted(files.items()):
                entry = tarfile.TarInfo(f"{root}/{path}")
                entry.size = len(data)
                tar.addfile(entry, io.BytesIO(data))
    return name


if __name__ == "__main__":
    if len(sys.argv) != 2:
        _fail("usage: build_backend.py FOLDER")
    build_package(pathlib.Path(sys.argv[1]))
