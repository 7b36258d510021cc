"""Writes the module's wheel with what Python itself has, as pip asks for it (PEP 517)."""
import base64
import hashlib
import re
import zipfile
from pathlib import Path

PROJECT = Path(__file__).resolve().parent.parent
REPOSITORY = PROJECT.parent.parent
LICENCES = ("LICENSE", "LICENSE-MIT", "LICENSE-APACHE", "NOTICE")
WHEEL = "Wheel-Version: 1.0\nGenerator: pure_wheel\nRoot-Is-Purelib: true\nTag: py3-none-any\n"


class UnsupportedOperation(Exception):
    """What PEP 517 has a backend raise for a hook that it does not serve."""


def project():
    """The keys of pyproject.toml that have a string for their value."""
    text = (PROJECT / "pyproject.toml").read_text(encoding="utf-8")
    return dict(re.findall(r'^([a-z-]+) = "(.*)"$', text, re.MULTILINE))


def metadata(keys):
    lines = [
        "Metadata-Version: 2.1",
        f"Name: {keys['name']}",
        f"Version: {keys['version']}",
        f"Summary: {keys['description']}",
        f"Requires-Python: {keys['requires-python']}",
        f"License: {keys['license']}",
        "Description-Content-Type: text/markdown",
    ]
    readme = (PROJECT / "README.md").read_text(encoding="utf-8")
    return "\n".join(lines) + "\n\n" + readme


def contents(keys, facts):
    """The files of the wheel, by their paths in it; `facts` is the folder of what is said about it."""
    package = PROJECT / keys["name"]
    modules = sorted(path for path in package.iterdir() if path.suffix in (".py", ".typed"))
    files = {f"{package.name}/{path.name}": path.read_bytes() for path in modules}
    for name in LICENCES:
        files[f"{facts}/licenses/{name}"] = (REPOSITORY / name).read_bytes()
    files[f"{facts}/METADATA"] = metadata(keys).encode()
    files[f"{facts}/WHEEL"] = WHEEL.encode()
    return files


def record(files, path):
    """The list of all files with their sums; of itself it has the path alone."""
    lines = []
    for name, data in files.items():
        digest = base64.urlsafe_b64encode(hashlib.sha256(data).digest()).rstrip(b"=").decode()
        lines.append(f"{name},sha256={digest},{len(data)}")
    return "\n".join([*lines, f"{path},,", ""]).encode()


def build_wheel(wheel_directory, config_settings=None, metadata_directory=None):
    keys = project()
    stem = f"{keys['name']}-{keys['version']}"
    facts = f"{stem}.dist-info"
    files = contents(keys, facts)
    files[f"{facts}/RECORD"] = record(files, f"{facts}/RECORD")
    wheel = f"{stem}-py3-none-any.whl"
    with zipfile.ZipFile(Path(wheel_directory) / wheel, "w", zipfile.ZIP_DEFLATED) as archive:
        for name, data in files.items():
            archive.writestr(name, data)
    return wheel


def build_sdist(sdist_directory, config_settings=None):
    raise UnsupportedOperation("the module is installed from Yeldmur's repository, or as a wheel")
