"""Makes the package `colfind` of colfind.py, and the module colfind_dask beside it, for `pip install .` (PEP 517), by the standard library
alone. The files that `./build` makes go into the package where they are there: libcolfind.so.1, else the package loads the one of the
system, and many_texts.so, else it calls that for each text."""
from __future__ import annotations

import base64
import hashlib
import io
import re
import sysconfig
import tarfile
import zipfile
from pathlib import Path

HERE = Path(__file__).parent
MODULE = (HERE / "colfind.py").read_text(encoding="utf-8")
VERSION = re.search(r'^__version__ = "(.*)"$', MODULE, re.M)[1]
METADATA = f"""Metadata-Version: 2.1
Name: colfind
Version: {VERSION}
Summary: Finds a pattern in text by Unicode collation
Requires-Python: >=3.9
Provides-Extra: dask
Requires-Dist: dask >=2022.12 ; extra == "dask"
Requires-Dist: distributed >=2022.12 ; extra == "dask"
"""


def _record(name: str, data: bytes) -> str:
    digest = base64.urlsafe_b64encode(hashlib.sha256(data).digest()).rstrip(b"=").decode()
    return f"{name},sha256={digest},{len(data)}\n"


def build_wheel(wheel_directory: str, config_settings: object = None, metadata_directory: object = None) -> str:
    """Writes the wheel into a folder: its name."""
    about = f"colfind-{VERSION}.dist-info"
    built = {f"colfind/{name}": (HERE / name).read_bytes() for name in ("libcolfind.so.1", "many_texts.so") if (HERE / name).exists()}
    tag = "py3-none-" + (re.sub(r"\W", "_", sysconfig.get_platform()) if built else "any")
    wheel = f"Wheel-Version: 1.0\nGenerator: colfind\nRoot-Is-Purelib: {str(not built).lower()}\nTag: {tag}\n"
    files = {
        "colfind/__init__.py": MODULE.encode(), "colfind/py.typed": b"", **built,
        "colfind_dask.py": (HERE / "colfind_dask.py").read_bytes(),
        f"{about}/METADATA": METADATA.encode(), f"{about}/WHEEL": wheel.encode(),
    }
    record = "".join(_record(*file) for file in files.items()) + f"{about}/RECORD,,\n"
    name = f"colfind-{VERSION}-{tag}.whl"
    with zipfile.ZipFile(Path(wheel_directory) / name, "w", zipfile.ZIP_DEFLATED) as out:
        for path, data in {**files, f"{about}/RECORD": record.encode()}.items():
            entry = zipfile.ZipInfo(path)
            entry.compress_type, entry.external_attr = zipfile.ZIP_DEFLATED, 0o100644 << 16
            out.writestr(entry, data)
    return name


def build_sdist(sdist_directory: str, config_settings: object = None) -> str:
    """Writes the sources into a folder: the name of the archive."""
    name = f"colfind-{VERSION}"
    with tarfile.open(Path(sdist_directory) / f"{name}.tar.gz", "w:gz", format=tarfile.PAX_FORMAT) as out:
        for path in ("pyproject.toml", "backend.py", "colfind.py", "colfind_dask.py"):
            out.add(HERE / path, f"{name}/{path}")
        entry = tarfile.TarInfo(f"{name}/PKG-INFO")
        entry.size = len(METADATA.encode())
        out.addfile(entry, io.BytesIO(METADATA.encode()))
    return f"{name}.tar.gz"
