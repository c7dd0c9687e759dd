"""Makes the wheel and the source archive of this package, for pip (PEP 517), out of the standard library alone."""
from __future__ import annotations

import base64
import hashlib
import tarfile
import tomllib
import zipfile
from pathlib import Path
from typing import Any

HERE = Path(__file__).resolve().parent
PROJECT: dict[str, Any] = tomllib.loads((HERE / "pyproject.toml").read_text(encoding="utf-8"))["project"]
NAME = f"{PROJECT['name']}-{PROJECT['version']}"
INFO = f"{NAME}.dist-info"
SOURCES = ("pyproject.toml", "build_backend.py", "README.md", "pddlstream_client")


def _metadata() -> str:
    head = {
        "Metadata-Version": "2.1",
        "Name": PROJECT["name"],
        "Version": PROJECT["version"],
        "Summary": PROJECT["description"],
        "Requires-Python": PROJECT["requires-python"],
        "Description-Content-Type": "text/markdown",
    }
    lines = "".join(f"{key}: {value}\n" for key, value in head.items())
    return f"{lines}\n{(HERE / PROJECT['readme']).read_text(encoding='utf-8')}"


def _write_wheel(folder: str, files: dict[str, bytes]) -> str:
    files = {
        **files,
        f"{INFO}/METADATA": _metadata().encode(),
        f"{INFO}/WHEEL": b"Wheel-Version: 1.0\nGenerator: build_backend\nRoot-Is-Purelib: true\nTag: py3-none-any\n",
    }
    record = [
        f"{name},sha256={base64.urlsafe_b64encode(hashlib.sha256(data).digest()).rstrip(b'=').decode()},{len(data)}\n"
        for name, data in files.items()
    ]
    files[f"{INFO}/RECORD"] = "".join([*record, f"{INFO}/RECORD,,\n"]).encode()
    wheel = f"{NAME}-py3-none-any.whl"
    with zipfile.ZipFile(Path(folder) / wheel, "w", zipfile.ZIP_DEFLATED) as archive:
        for name, data in files.items():
            archive.writestr(name, data)
    return wheel


def build_wheel(wheel_directory: str, config_settings: Any = None, metadata_directory: Any = None) -> str:
    """Writes the wheel into the folder, and gives its name."""
    modules = [
        file for file in sorted((HERE / PROJECT["name"]).iterdir()) if file.suffix == ".py" or file.name == "py.typed"
    ]
    return _write_wheel(wheel_directory, {f"{PROJECT['name']}/{file.name}": file.read_bytes() for file in modules})


def build_editable(wheel_directory: str, config_settings: Any = None, metadata_directory: Any = None) -> str:
    """Writes a wheel that leads to this folder, for `pip install -e`, and gives its name."""
    return _write_wheel(wheel_directory, {f"{PROJECT['name']}.pth": f"{HERE}\n".encode()})


def build_sdist(sdist_directory: str, config_settings: Any = None) -> str:
    """Writes the source archive into the folder, and gives its name."""
    archive = f"{NAME}.tar.gz"
    with tarfile.open(Path(sdist_directory) / archive, "w:gz") as tar:
        for name in SOURCES:
            tar.add(HERE / name, f"{NAME}/{name}", filter=lambda it: None if "__pycache__" in it.name else it)
    return archive
