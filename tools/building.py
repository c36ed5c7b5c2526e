"""Builds the module perfly_play as a wheel, for `pip install ./tools`, with the standard library alone (PEP 517, PEP 660)."""
import base64
import hashlib
import pathlib
import tarfile
import tomllib
import zipfile
from typing import Any, Iterable

HERE = pathlib.Path(__file__).resolve().parent
ENDINGS = {".py", ".html", ".typed"}
WHEEL = "Wheel-Version: 1.0\nGenerator: building\nRoot-Is-Purelib: true\nTag: py3-none-any\n"


def _project() -> dict[str, str]:
    """What pyproject.toml says of the project."""
    return tomllib.loads((HERE / "pyproject.toml").read_text(encoding="utf-8"))["project"]


def _stem() -> str:
    """The name and the version, as files have them."""
    return f"{_project()['name'].replace('-', '_')}-{_project()['version']}"


def _metadata() -> str:
    project = _project()
    return (f"Metadata-Version: 2.1\nName: {project['name']}\nVersion: {project['version']}\nSummary: {project['description']}\n"
            f"Requires-Python: {project['requires-python']}\n")


def _sources() -> list[pathlib.Path]:
    """The files of the module."""
    return sorted(file for file in (HERE / "perfly_play").iterdir() if file.suffix in ENDINGS)


def _write_wheel(folder: str, files: Iterable[tuple[str, bytes]]) -> str:
    """Writes a wheel of these files; returns its name."""
    name, told = f"{_stem()}-py3-none-any.whl", f"{_stem()}.dist-info"
    record = ""
    with zipfile.ZipFile(pathlib.Path(folder) / name, "w", zipfile.ZIP_DEFLATED) as wheel:
        for path, data in (*files, (f"{told}/METADATA", _metadata().encode()), (f"{told}/WHEEL", WHEEL.encode())):
            digest = base64.urlsafe_b64encode(hashlib.sha256(data).digest()).rstrip(b"=").decode()
            record += f"{path},sha256={digest},{len(data)}\n"
            wheel.writestr(zipfile.ZipInfo(path), data)
        wheel.writestr(zipfile.ZipInfo(f"{told}/RECORD"), record + f"{told}/RECORD,,\n")
    return name


# The calls that pip makes


def build_wheel(wheel_directory: str, _config_settings: Any = None, _metadata_directory: Any = None) -> str:
    """Builds the module."""
    return _write_wheel(wheel_directory, ((f"perfly_play/{file.name}", file.read_bytes()) for file in _sources()))


def build_editable(wheel_directory: str, _config_settings: Any = None, _metadata_directory: Any = None) -> str:
    """Builds a link to this folder, for `pip install --editable`."""
    return _write_wheel(wheel_directory, [("perfly_play.pth", f"{HERE}\n".encode())])


def build_sdist(sdist_directory: str, _config_settings: Any = None) -> str:
    """Packs the sources."""
    name = f"{_stem()}.tar.gz"
    with tarfile.open(pathlib.Path(sdist_directory) / name, "w:gz") as packed:
        for file in (HERE / "pyproject.toml", HERE / "building.py", *_sources()):
            packed.add(file, f"{_stem()}/{file.relative_to(HERE)}")
    return name
