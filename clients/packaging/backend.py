"""Builds one wheel of all packages of the clients (the hooks of PEP 517), without setuptools: so that installing it downloads nothing.

A package is a folder */NAME with an __init__.py whose name begins with `attrd`; all its files but compiled ones go into the wheel.
"""
import base64
import hashlib
import re
import tarfile
import zipfile
from pathlib import Path
from typing import Dict, List, Mapping, Optional

ROOT = Path(__file__).resolve().parent.parent
TABLE = re.compile(r"^\[([\w.-]+)\]\s*$")
TEXT = re.compile(r'^([\w-]+) = "([^"]*)"\s*$')
WHEEL = "Wheel-Version: 1.0\nGenerator: attrd\nRoot-Is-Purelib: true\nTag: py3-none-any\n"
Settings = Optional[Mapping[str, str]]


def table(name: str) -> Dict[str, str]:
    """The texts of a table of pyproject.toml, by their keys. (A reader of TOML is in Python from 3.11 on.)"""
    found: Dict[str, str] = {}
    inside = ""
    for line in (ROOT / "pyproject.toml").read_text(encoding="utf-8").splitlines():
        begun, text = TABLE.match(line), TEXT.match(line)
        inside = begun[1] if begun else inside
        if text and inside == name:
            found[text[1]] = text[2]
    return found


def version() -> str:
    """The version of the library, which is the distribution's."""
    found = re.search(r'^VERSION = "(.*)"$', (ROOT / "python/attrd/versions.py").read_text(encoding="utf-8"), re.M)
    assert found, "versions.py has no version"
    return found[1]


def packages() -> List[Path]:
    """The folders of the packages."""
    return sorted(it.parent for it in ROOT.glob("*/attrd*/__init__.py"))


def sources() -> Dict[str, Path]:
    """The files of the packages, by their names in the wheel."""
    files = [(package, it) for package in packages() for it in sorted(package.rglob("*")) if it.is_file()]
    return {it.relative_to(package.parent).as_posix(): it for package, it in files if "__pycache__" not in it.parts}


def metadata() -> Dict[str, str]:
    """What the wheel tells of itself: the texts of its dist-info, by their names."""
    project, scripts = table("project"), table("project.scripts")
    heads = {"Metadata-Version": "2.1", "Name": project["name"], "Version": version(), "Summary": project["description"],
             "Requires-Python": project["requires-python"], "Description-Content-Type": "text/markdown"}
    page = (ROOT / project["readme"]).read_text(encoding="utf-8")
    commands = "[console_scripts]\n" + "".join(f"{name} = {function}\n" for name, function in scripts.items())
    return {"METADATA": "".join(f"{name}: {text}\n" for name, text in heads.items()) + f"\n{page}",
            "WHEEL": WHEEL, "entry_points.txt": commands}


def row(name: str, content: bytes) -> str:
    """The row of a file in the wheel's RECORD."""
    digest = base64.urlsafe_b64encode(hashlib.sha256(content).digest()).rstrip(b"=").decode()
    return f"{name},sha256={digest},{len(content)}\n"


def build_wheel(wheel_directory: str, config_settings: Settings = None, metadata_directory: Optional[str] = None) -> str:
    """Writes the wheel into the folder; its name."""
    base = f"{table('project')['name']}-{version()}"
    files = {name: file.read_bytes() for name, file in sources().items()}
    files.update({f"{base}.dist-info/{name}": text.encode() for name, text in metadata().items()})
    record = "".join(row(name, content) for name, content in files.items()) + f"{base}.dist-info/RECORD,,\n"
    files[f"{base}.dist-info/RECORD"] = record.encode()
    wheel = f"{base}-py3-none-any.whl"
    with zipfile.ZipFile(Path(wheel_directory) / wheel, "w", zipfile.ZIP_DEFLATED) as out:
        for name, content in files.items():
            out.writestr(name, content)
    return wheel


def build_sdist(sdist_directory: str, config_settings: Settings = None) -> str:
    """Writes the sources into the folder; the name of the archive. A wheel can be built of it."""
    base = f"{table('project')['name']}-{version()}"
    with tarfile.open(Path(sdist_directory) / f"{base}.tar.gz", "w:gz") as out:
        for it in [*sources().values(), ROOT / table("project")["readme"], ROOT / "pyproject.toml", Path(__file__).resolve()]:
            out.add(it, f"{base}/{it.relative_to(ROOT).as_posix()}")
    return f"{base}.tar.gz"
