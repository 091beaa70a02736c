"""Builds the package as pip asks for it (PEP 517), with nothing but Python. A libmorvezin.so goes along where there is one:
MORVEZIN_LIBRARY names it, or it stands in the folder `morvezin`, or in the repository that holds this folder."""

import base64
import hashlib
import os
import re
import sysconfig
import tarfile
import zipfile

FILES = ("__init__.py", "py.typed")
LIBRARY = "libmorvezin.so"
SOURCES = ("pyproject.toml", "backend.py", "README.md", *(f"morvezin/{name}" for name in FILES))
PLACES = (os.path.join("morvezin", LIBRARY), os.path.join("..", "..", "crates", "morvezin", "out", LIBRARY))


def content_of(path):
    with open(path, "rb") as file:
        return file.read()


def field(name):
    """A field of the project that is one line of text."""
    return re.search(rf'^{name} = "(.*)"$', content_of("pyproject.toml").decode(), re.MULTILINE)[1]


def stem():
    return f"{field('name')}-{field('version')}"


def metadata():
    fields = {"Metadata-Version": "2.1", "Name": field("name"), "Version": field("version"), "Summary": field("description"),
              "Requires-Python": field("requires-python"), "License": "MIT", "Description-Content-Type": "text/markdown"}
    lines = "".join(f"{name}: {value}\n" for name, value in fields.items())
    return f"{lines}\n".encode() + content_of("README.md")


def record_line(name, content):
    digest = base64.urlsafe_b64encode(hashlib.sha256(content).digest()).rstrip(b"=").decode()
    return f"{name},sha256={digest},{len(content)}\n"


def build_wheel(wheel_directory, config_settings=None, metadata_directory=None):
    """Writes the wheel, and gives its file name."""
    places = [os.environ[name] for name in ("MORVEZIN_LIBRARY",) if os.environ.get(name)] or filter(os.path.exists, PLACES)
    library = next(iter(places), None)
    platform = re.sub("[-.]", "_", sysconfig.get_platform()) if library else "any"
    content = {f"morvezin/{name}": content_of(os.path.join("morvezin", name)) for name in FILES}
    if library:
        content[f"morvezin/{LIBRARY}"] = content_of(library)
    folder, tag = f"{stem()}.dist-info", f"py3-none-{platform}"
    content[f"{folder}/METADATA"] = metadata()
    content[f"{folder}/WHEEL"] = (f"Wheel-Version: 1.0\nGenerator: morvezin\nRoot-Is-Purelib: {str(not library).lower()}\n"
                                  f"Tag: {tag}\n").encode()
    record = "".join(record_line(name, data) for name, data in content.items())
    content[f"{folder}/RECORD"] = f"{record}{folder}/RECORD,,\n".encode()
    name = f"{stem()}-{tag}.whl"
    with zipfile.ZipFile(os.path.join(wheel_directory, name), "w", zipfile.ZIP_DEFLATED) as wheel:
        for path, data in content.items():
            wheel.writestr(path, data)
    return name


def build_sdist(sdist_directory, config_settings=None):
    """Writes the archive of the sources, and gives its file name."""
    name = f"{stem()}.tar.gz"
    with tarfile.open(os.path.join(sdist_directory, name), "w:gz") as archive:
        for path in SOURCES:
            archive.add(path, f"{stem()}/{path}")
    return name
