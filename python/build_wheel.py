"""The build backend of this package: pip calls these functions (PEP 517, PEP 660), and package/packages.py writes its wheel with
them. Nothing else is needed, so that `pip install --no-build-isolation ./python` works offline in any virtual environment."""
from __future__ import annotations

import base64
import hashlib
import os
import stat
import tarfile
import tomllib
import zipfile
from collections.abc import Mapping
from typing import Any

FOLDER = os.path.dirname(os.path.abspath(__file__))
STAMP = (2026, 1, 1, 0, 0, 0)  # of each file in a wheel, so that the same sources give the same bytes
ANY = "py3-none-any"  # the tag of a wheel for all platforms


def project() -> dict[str, Any]:
    """Return the table `project` of pyproject.toml."""
    with open(os.path.join(FOLDER, "pyproject.toml"), "rb") as source:
        return dict(tomllib.load(source)["project"])


def modules() -> list[str]:
    """Return the files of the package, by their paths in the wheel."""
    found = []
    for folder, below, names in os.walk(os.path.join(FOLDER, "planarbend")):
        below[:] = sorted(name for name in below if name != "__pycache__")
        found += [os.path.relpath(os.path.join(folder, name), FOLDER) for name in sorted(names)
                  if not name.endswith(".pyc")]
    return found


def sources() -> dict[str, bytes]:
    """Return the files of the package with their contents."""
    found = {}
    for name in modules():
        with open(os.path.join(FOLDER, name), "rb") as source:
            found[name] = source.read()
    return found


def core_metadata(about: Mapping[str, Any], readme: str) -> str:
    """Return the text of METADATA for a table `project` and its readme."""
    extras = about.get("optional-dependencies", {})
    fields = [("Metadata-Version", "2.1"), ("Name", about["name"]), ("Version", about["version"]),
              ("Summary", about["description"]), ("Keywords", ",".join(about["keywords"])),
              ("Author", ", ".join(author["name"] for author in about["authors"])),
              *(("Classifier", classifier) for classifier in about["classifiers"]),
              ("Requires-Python", about["requires-python"]),
              *(("Requires-Dist", need) for need in about["dependencies"]),
              *(("Provides-Extra", extra) for extra in extras),
              *(("Requires-Dist", f'{need}; extra == "{extra}"') for extra, needs in extras.items() for need in needs),
              ("Description-Content-Type", "text/markdown")]
    return "".join(f"{name}: {value}\n" for name, value in fields) + "\n" + readme


def metadata(about: Mapping[str, Any], tag: str) -> dict[str, str]:
    """Return the files that describe a wheel with this tag."""
    with open(os.path.join(FOLDER, about["readme"]), encoding="utf-8") as source:
        readme = source.read()
    scripts = "".join(f"{name} = {entry}\n" for name, entry in about["scripts"].items())
    is_pure = str(tag == ANY).lower()
    return {"METADATA": core_metadata(about, readme), "entry_points.txt": "[console_scripts]\n" + scripts,
            "WHEEL": f"Wheel-Version: 1.0\nGenerator: planarbend\nRoot-Is-Purelib: {is_pure}\nTag: {tag}\n"}


def record(files: Mapping[str, bytes], name: str) -> bytes:
    """Return the contents of RECORD, a file with this name, for these files."""
    lines = ""
    for path, data in files.items():
        digest = base64.urlsafe_b64encode(hashlib.sha256(data).digest()).decode().rstrip("=")
        lines += f"{path},sha256={digest},{len(data)}\n"
    return f"{lines}{name},,\n".encode()


def write_wheel(folder: str, files: Mapping[str, bytes], tag: str = ANY, version: str = "",
                described: Mapping[str, str] | None = None) -> str:
    """Write a wheel of these files and of those that describe it, and return its name.

    Parameters
    ----------
    folder : str
        Where to write it.
    files : mapping from paths to bytes
        Its files. Those in folders named `scripts` are programs; in the paths, "{}" is the name and version of the package.
    tag : str
        The wheel's tag.
    version : str
        The version, by default that of pyproject.toml.
    described : mapping from names to texts, optional
        More files that describe it.
    """
    about = project()
    about["version"] = version or about["version"]
    stem = f"{about['name']}-{about['version']}"
    texts = metadata(about, tag) | dict(described or {})
    whole = {path.replace("{}", stem): data for path, data in files.items()}
    whole |= {f"{stem}.dist-info/{name}": text.encode() for name, text in texts.items()}
    whole[f"{stem}.dist-info/RECORD"] = record(whole, f"{stem}.dist-info/RECORD")
    with zipfile.ZipFile(os.path.join(folder, f"{stem}-{tag}.whl"), "w") as wheel:
        for path, data in whole.items():
            entry = zipfile.ZipInfo(path, STAMP)
            entry.external_attr = (stat.S_IFREG | (0o755 if "/scripts/" in path else 0o644)) << 16
            wheel.writestr(entry, data, zipfile.ZIP_DEFLATED)
    return f"{stem}-{tag}.whl"


def build_wheel(wheel_directory: str, config_settings: Any = None, metadata_directory: str | None = None) -> str:
    """Write the wheel, and return its name."""
    return write_wheel(wheel_directory, sources())


def build_editable(wheel_directory: str, config_settings: Any = None, metadata_directory: str | None = None) -> str:
    """Write a wheel that refers to this folder, and return its name."""
    return write_wheel(wheel_directory, {"planarbend.pth": FOLDER.encode() + b"\n"})


def build_sdist(sdist_directory: str, config_settings: Any = None) -> str:
    """Write the archive of the sources, and return its name."""
    about = project()
    stem = f"{about['name']}-{about['version']}"
    with tarfile.open(os.path.join(sdist_directory, stem + ".tar.gz"), "w:gz") as archive:
        for name in ["pyproject.toml", about["readme"], os.path.basename(__file__), *modules()]:
            archive.add(os.path.join(FOLDER, name), f"{stem}/{name}")
    return stem + ".tar.gz"
