"""Builds the wheel of a release's Python part, for pip: with nothing to download, and with the engine's shared object in it."""

import base64
import hashlib
import tomllib
import zipfile
from pathlib import Path
from typing import Dict, Optional

HERE = Path(__file__).resolve().parent
PACKAGE = HERE / "ltd_study"
SHARED = "ltd_study/libltd_study.so"
TAG = "py3-none-linux_x86_64"


def build_wheel(wheel_directory: str, config_settings: Optional[dict] = None, metadata_directory: Optional[str] = None) -> str:
    """Writes the wheel; answers its name."""
    project = tomllib.loads((HERE / "pyproject.toml").read_text(encoding="utf-8"))["project"]
    files = _package_files()
    if SHARED not in files:
        raise SystemExit("there is no engine here to install: take the folder 'python' of a release")
    named = f"{project['name'].replace('-', '_')}-{_version()}"
    files.update({f"{named}.dist-info/{name}": text.encode() for name, text in _metadata(project).items()})
    files[f"{named}.dist-info/RECORD"] = _record(files, f"{named}.dist-info/RECORD").encode()
    with zipfile.ZipFile(Path(wheel_directory) / f"{named}-{TAG}.whl", "w", zipfile.ZIP_DEFLATED) as wheel:
        for name, data in sorted(files.items()):
            wheel.writestr(zipfile.ZipInfo(name), data, zipfile.ZIP_DEFLATED)
    return f"{named}-{TAG}.whl"


def _version() -> str:
    lines = (PACKAGE / "__init__.py").read_text(encoding="utf-8").splitlines()
    return next(line.split('"')[1] for line in lines if line.startswith("__version__ = "))


def _package_files() -> Dict[str, bytes]:
    """The package's files, and the release's VERSION among them."""
    found = (path for path in PACKAGE.rglob("*") if path.is_file() and "__pycache__" not in path.parts)
    files = {path.relative_to(HERE).as_posix(): path.read_bytes() for path in found}
    release = HERE.parent / "VERSION"
    if release.is_file():
        files["ltd_study/VERSION"] = release.read_bytes()
    return files


def _metadata(project: dict) -> Dict[str, str]:
    """The files of .dist-info, but for RECORD."""
    rows = [("Metadata-Version", "2.1"), ("Name", project["name"]), ("Version", _version()), ("Summary", project["description"])]
    rows.append(("Requires-Python", project["requires-python"]))
    scripts = "".join(f"{name} = {call}\n" for name, call in project["scripts"].items())
    return {
        "METADATA": "".join(f"{name}: {value}\n" for name, value in rows),
        "WHEEL": f"Wheel-Version: 1.0\nGenerator: ltd-study\nRoot-Is-Purelib: false\nTag: {TAG}\n",
        "entry_points.txt": f"[console_scripts]\n{scripts}",
    }


def _record(files: Dict[str, bytes], own: str) -> str:
    rows = []
    for name, data in sorted(files.items()):
        digest = base64.urlsafe_b64encode(hashlib.sha256(data).digest()).rstrip(b"=").decode()
        rows.append(f"{name},sha256={digest},{len(data)}\n")
    return "".join(rows) + f"{own},,\n"
