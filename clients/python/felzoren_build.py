"""Builds the package `felzoren` for pip: the hooks of PEP 517, "Build backend interface". It needs nothing but the standard library, so
nothing has to be downloaded or installed first, and it writes only where pip tells it to.

The package has one module, which is felzoren.py of this folder. It is installed as `felzoren/__init__.py`, with `py.typed` beside it,
since a type checker takes that mark only from a folder (PEP 561, "Packaging Type Information")."""
import base64
import hashlib
import io
import json
import re
import tarfile
import zipfile
from pathlib import Path

FOLDER = Path(__file__).resolve().parent
# The files of the installed package, by their paths there, and those of the source distribution.
PACKAGE = {"felzoren/__init__.py": "felzoren.py", "felzoren/py.typed": "py.typed"}
SOURCES = ("README.md", "felzoren.py", "felzoren_build.py", "py.typed", "pyproject.toml")


def project():
    """The table `project` of pyproject.toml."""
    text = (FOLDER / "pyproject.toml").read_text(encoding="utf-8")
    table = re.search(r"^\[project\]\n(.*?)(?=^\[|\Z)", text, re.MULTILINE | re.DOTALL)[1]
    return {key: json.loads(value) for key, value in re.findall(r"^([\w-]+) = (.*)$", table, re.MULTILINE)}


def stem():
    """What the names of distributions begin with."""
    found = project()
    return f"{found['name']}-{found['version']}"


def metadata():
    """The file METADATA ("Core metadata specifications", version 2.1)."""
    found = project()
    heads = [("Metadata-Version", "2.1"), ("Name", found["name"]), ("Version", found["version"]), ("Summary", found["description"]),
             ("Requires-Python", found["requires-python"]), *(("Classifier", it) for it in found["classifiers"]),
             ("Description-Content-Type", "text/markdown; charset=UTF-8")]
    text = "".join(f"{name}: {value}\n" for name, value in heads) + "\n" + (FOLDER / found["readme"]).read_text(encoding="utf-8")
    return text.encode()


def record(files, path):
    """The file RECORD, which is at this path: a line for each file, and one without a sum for itself."""
    lines = []
    for name, content in files.items():
        digest = base64.urlsafe_b64encode(hashlib.sha256(content).digest()).rstrip(b"=").decode()
        lines.append(f"{name},sha256={digest},{len(content)}\n")
    return "".join([*lines, f"{path},,\n"]).encode()


def build_wheel(wheel_directory, config_settings=None, metadata_directory=None):
    """Writes the wheel ("Binary distribution format") into a folder, and returns its name."""
    name, about = f"{stem()}-py3-none-any.whl", f"{stem()}.dist-info"
    files = {path: (FOLDER / source).read_bytes() for path, source in PACKAGE.items()}
    files[f"{about}/METADATA"] = metadata()
    files[f"{about}/WHEEL"] = b"Wheel-Version: 1.0\nGenerator: felzoren_build\nRoot-Is-Purelib: true\nTag: py3-none-any\n"
    files[f"{about}/RECORD"] = record(files, f"{about}/RECORD")
    with zipfile.ZipFile(Path(wheel_directory) / name, "w") as wheel:
        for path, content in files.items():
            entry = zipfile.ZipInfo(path)
            entry.external_attr = 0o100644 << 16
            wheel.writestr(entry, content, zipfile.ZIP_DEFLATED)
    return name


def build_sdist(sdist_directory, config_settings=None):
    """Writes the source distribution ("Source distribution format") into a folder, and returns its name."""
    name = f"{stem()}.tar.gz"
    files = {it: (FOLDER / it).read_bytes() for it in SOURCES}
    files["PKG-INFO"] = metadata()
    with tarfile.open(Path(sdist_directory) / name, "w:gz", format=tarfile.PAX_FORMAT) as archive:
        for path, content in files.items():
            entry = tarfile.TarInfo(f"{stem()}/{path}")
            entry.size, entry.mode = len(content), 0o644
            archive.addfile(entry, io.BytesIO(content))
    return name
