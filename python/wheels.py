"""Builds the wheel of this package, by the standard library alone, so that pip installs it offline.

It is the build backend that pyproject.toml names (PEP 517), and takes all that it writes from there.
"""

import base64
import hashlib
import io
import tarfile
import tomllib
import zipfile
from pathlib import Path

HERE = Path(__file__).resolve().parent
SOURCE = HERE / "src"
WHEEL = "Wheel-Version: 1.0\nGenerator: wheels\nRoot-Is-Purelib: true\nTag: py3-none-any\n"


def project() -> dict:
    return tomllib.loads((HERE / "pyproject.toml").read_text())["project"]


def full_name() -> str:
    return "{name}-{version}".format(**project())


def metadata() -> dict[str, str]:
    """The files of the folder that tells pip about the package."""
    said = project()
    lines = ["Metadata-Version: 2.1", f"Name: {said['name']}", f"Version: {said['version']}"]
    lines += [f"Summary: {said['description']}", f"Requires-Python: {said['requires-python']}"]
    for extra, wanted in said["optional-dependencies"].items():
        lines.append(f"Provides-Extra: {extra}")
        lines += [f'Requires-Dist: {one}; extra == "{extra}"' for one in wanted]
    lines += ["Description-Content-Type: text/markdown", "", (HERE / said["readme"]).read_text()]
    scripts = [f"{name} = {place}" for name, place in said["scripts"].items()]
    entries = "\n".join(["[console_scripts]", *scripts, ""])
    folder = f"{full_name()}.dist-info"
    return {
        f"{folder}/METADATA": "\n".join(lines),
        f"{folder}/WHEEL": WHEEL,
        f"{folder}/entry_points.txt": entries,
    }


def write_wheel(folder: str, files: dict[str, bytes]) -> str:
    """Writes a wheel of files, with the list of their digests that the format wants."""
    name, listed = f"{full_name()}-py3-none-any.whl", f"{full_name()}.dist-info/RECORD"
    files = files | {path: text.encode() for path, text in metadata().items()}
    lines = []
    with zipfile.ZipFile(Path(folder, name), "w", zipfile.ZIP_DEFLATED) as wheel:
        for path, content in sorted(files.items()):
            digest = base64.urlsafe_b64encode(hashlib.sha256(content).digest()).decode().rstrip("=")
            lines.append(f"{path},sha256={digest},{len(content)}")
            wheel.writestr(path, content)
        wheel.writestr(listed, "\n".join([*lines, f"{listed},,", ""]))
    return name


# The calls of pip


def build_wheel(wheel_directory, config_settings=None, metadata_directory=None):
    paths = [it for it in SOURCE.rglob("*") if it.is_file() and it.suffix != ".pyc"]
    return write_wheel(wheel_directory, {it.relative_to(SOURCE).as_posix(): it.read_bytes() for it in paths})


def build_editable(wheel_directory, config_settings=None, metadata_directory=None):
    return write_wheel(wheel_directory, {"mftb.pth": f"{SOURCE}\n".encode()})


def build_sdist(sdist_directory, config_settings=None):
    name = f"{full_name()}.tar.gz"
    about = "\n".join(next(iter(metadata().values())).splitlines()).encode()
    with tarfile.open(Path(sdist_directory, name), "w:gz") as archive:
        for path in ("pyproject.toml", "README.md", "wheels.py", "src"):
            archive.add(HERE / path, f"{full_name()}/{path}", filter=without_bytecode)
        entry = tarfile.TarInfo(f"{full_name()}/PKG-INFO")
        entry.size = len(about)
        archive.addfile(entry, io.BytesIO(about))
    return name


def without_bytecode(entry):
    return None if "__pycache__" in entry.name else entry
