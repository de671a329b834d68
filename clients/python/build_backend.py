"""Builds the wheel of bracha, as pip asks (PEP 517). The package is a few plain files, so this wants nothing but Python: `pip
install ./clients/python` fetches nothing."""

import base64
import hashlib
import os
import tomllib
import zipfile

HERE = os.path.dirname(os.path.realpath(__file__))


def _project() -> dict[str, str]:
    with open(f"{HERE}/pyproject.toml", "rb") as file:
        return tomllib.load(file)["project"]


def _metadata(project: dict[str, str]) -> str:
    return (f"Metadata-Version: 2.1\nName: {project['name']}\nVersion: {project['version']}\nSummary: {project['description']}\n"
            f"License: MIT OR Apache-2.0\nRequires-Python: {project['requires-python']}\n")


def _files(project: dict[str, str], info: str) -> dict[str, bytes]:
    """The files of the wheel: those of the package, and what describes them."""
    files = {}
    for name in sorted(os.listdir(f"{HERE}/bracha")):
        if name.endswith(".py") or name == "py.typed":
            with open(f"{HERE}/bracha/{name}", "rb") as file:
                files[f"bracha/{name}"] = file.read()
    files[f"{info}/METADATA"] = _metadata(project).encode()
    files[f"{info}/WHEEL"] = b"Wheel-Version: 1.0\nGenerator: bracha\nRoot-Is-Purelib: true\nTag: py3-none-any\n"
    return files


def _record(files: dict[str, bytes], info: str) -> bytes:
    rows = []
    for name, data in files.items():
        digest = base64.urlsafe_b64encode(hashlib.sha256(data).digest()).rstrip(b"=").decode()
        rows.append(f"{name},sha256={digest},{len(data)}\n")
    return ("".join(rows) + f"{info}/RECORD,,\n").encode()


def build_wheel(wheel_directory: str, config_settings: object = None, metadata_directory: object = None) -> str:
    """Writes the wheel into the folder, and returns its name."""
    project = _project()
    stem = f"{project['name']}-{project['version']}"
    info = f"{stem}.dist-info"
    files = _files(project, info)
    files[f"{info}/RECORD"] = _record(files, info)
    name = f"{stem}-py3-none-any.whl"
    with zipfile.ZipFile(f"{wheel_directory}/{name}", "w", zipfile.ZIP_DEFLATED) as wheel:
        for path, data in files.items():
            wheel.writestr(zipfile.ZipInfo(path, (2026, 1, 1, 0, 0, 0)), data)
    return name
