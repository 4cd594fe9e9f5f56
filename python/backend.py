"""Builds the wheel of this package with the standard library alone, so that it installs without a network.

The wheel carries the shared library: the file that $BUCKFLEET_LIBRARY names, else out/c/libbuckfleet.so of the
repository. If there is none, the build fails and says how to make it.
"""
import base64
import hashlib
import os
import sysconfig
import tomllib
import zipfile

HERE = os.path.dirname(os.path.abspath(__file__))
LIBRARY = os.path.join(HERE, "..", "out", "c", "libbuckfleet.so")
NONE = "there is no {}: run scripts/c_library of the repository first, or name the library in BUCKFLEET_LIBRARY"


def _read(*words):
    with open(os.path.join(HERE, *words), "rb") as file:
        return file.read()


def _contents():
    """The files of the package, by their paths in the wheel."""
    folder = os.path.join("src", "buckfleet")
    names = sorted(name for name in os.listdir(os.path.join(HERE, folder)) if name.endswith((".py", ".typed")))
    contents = {f"buckfleet/{name}": _read(folder, name) for name in names}
    library = os.environ.get("BUCKFLEET_LIBRARY") or LIBRARY
    if not os.path.isfile(library):
        raise SystemExit(NONE.format(os.path.normpath(library)))
    with open(library, "rb") as file:
        contents["buckfleet/libbuckfleet.so"] = file.read()
    return contents


def _metadata(project):
    lines = [
        "Metadata-Version: 2.1",
        f"Name: {project['name']}",
        f"Version: {project['version']}",
        f"Summary: {project['description']}",
        f"Requires-Python: {project['requires-python']}",
        "Description-Content-Type: text/markdown",
    ]
    return "\n".join(lines).encode() + b"\n\n" + _read(project["readme"])


def _record(contents, own):
    """The list of all files with their checksums; its own line has none."""
    lines = []
    for path, data in contents.items():
        digest = base64.urlsafe_b64encode(hashlib.sha256(data).digest()).rstrip(b"=").decode()
        lines.append(f"{path},sha256={digest},{len(data)}\n")
    return "".join([*lines, f"{own},,\n"]).encode()


def build_wheel(wheel_directory, config_settings=None, metadata_directory=None):
    """Writes the wheel into a folder, and returns its name."""
    project = tomllib.loads(_read("pyproject.toml").decode())["project"]
    platform = sysconfig.get_platform().replace("-", "_").replace(".", "_")
    name, tag = f"{project['name']}-{project['version']}", f"py3-none-{platform}"
    contents = _contents()
    contents[f"{name}.dist-info/METADATA"] = _metadata(project)
    about = f"Wheel-Version: 1.0\nGenerator: buckfleet\nRoot-Is-Purelib: false\nTag: {tag}\n"
    contents[f"{name}.dist-info/WHEEL"] = about.encode()
    contents[f"{name}.dist-info/RECORD"] = _record(contents, f"{name}.dist-info/RECORD")
    wheel = f"{name}-{tag}.whl"
    with zipfile.ZipFile(os.path.join(wheel_directory, wheel), "w", zipfile.ZIP_DEFLATED) as archive:
        for path, data in contents.items():
            entry = zipfile.ZipInfo(path)
            entry.external_attr = 0o644 << 16
            archive.writestr(entry, data, zipfile.ZIP_DEFLATED)
    return wheel
