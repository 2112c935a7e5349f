"""Builds the package for pip with the standard library alone: no other package has to be there or is fetched.

pip asks it by the names of PEP 517 and PEP 660. It reads pyproject.toml, where each value that it needs is a line of its
own, and leaves nothing in this folder.
"""

import base64
import csv
import hashlib
import io
import pathlib
import re
import tarfile
import zipfile

FOLDER = pathlib.Path(__file__).resolve().parent
PACKAGE = FOLDER / "tsvd"
SUFFIXES = (".py", ".html", ".typed")
# pip and zip files know no earlier time
TIME = (1980, 1, 1, 0, 0, 0)


def entry(name):
    """Returns a text of the table `project` of pyproject.toml."""
    project = (FOLDER / "pyproject.toml").read_text(encoding="utf-8")
    return re.search(rf'^{name} = "(.*)"$', project, re.M).group(1)


def version():
    """Returns the version, which stands in the package alone."""
    return re.search(r'^__version__ = "(.*)"$', (PACKAGE / "__init__.py").read_text(encoding="utf-8"), re.M).group(1)


def name_of():
    """Returns the name and the version, as files are named."""
    return f"{entry('name')}-{version()}"


def sources():
    """Returns the files of the package."""
    return sorted(path for path in PACKAGE.iterdir() if path.suffix in SUFFIXES)


def metadata():
    """Returns what is said of the package."""
    return (f"Metadata-Version: 2.1\nName: {entry('name')}\nVersion: {version()}\nSummary: {entry('description')}\n"
            f"Requires-Python: {entry('requires-python')}\nDescription-Content-Type: text/markdown\n\n"
            + (FOLDER / "README.md").read_text(encoding="utf-8"))


def record_of(files, info):
    """Returns the list of a wheel's files, with their digests and lengths."""
    text = io.StringIO()
    rows = csv.writer(text, lineterminator="\n")
    for name, data in files.items():
        digest = base64.urlsafe_b64encode(hashlib.sha256(data).digest()).rstrip(b"=").decode("ascii")
        rows.writerow([name, f"sha256={digest}", len(data)])
    rows.writerow([f"{info}/RECORD", "", ""])
    return text.getvalue().encode("utf-8")


def write_wheel(folder, files):
    """Writes a wheel of files, and returns its name."""
    info = f"{name_of()}.dist-info"
    tags = "Wheel-Version: 1.0\nGenerator: wheel_builder\nRoot-Is-Purelib: true\nTag: py3-none-any\n"
    files = {**files, f"{info}/METADATA": metadata().encode("utf-8"), f"{info}/WHEEL": tags.encode("utf-8")}
    files[f"{info}/RECORD"] = record_of(files, info)
    made = f"{name_of()}-py3-none-any.whl"
    with zipfile.ZipFile(pathlib.Path(folder) / made, "w", zipfile.ZIP_DEFLATED) as wheel:
        for name, data in files.items():
            wheel.writestr(zipfile.ZipInfo(name, TIME), data)
    return made


def build_wheel(wheel_directory, config_settings=None, metadata_directory=None):
    """Writes the wheel of the package."""
    return write_wheel(wheel_directory, {f"tsvd/{path.name}": path.read_bytes() for path in sources()})


def build_editable(wheel_directory, config_settings=None, metadata_directory=None):
    """Writes a wheel that leads to this folder."""
    return write_wheel(wheel_directory, {"tsvd.pth": f"{FOLDER}\n".encode("utf-8")})


def build_sdist(sdist_directory, config_settings=None):
    """Writes the archive of the sources."""
    made = f"{name_of()}.tar.gz"
    files = {path.relative_to(FOLDER).as_posix(): path.read_bytes()
             for path in [FOLDER / "pyproject.toml", FOLDER / "README.md", FOLDER / "wheel_builder.py", *sources()]}
    files["PKG-INFO"] = metadata().encode("utf-8")
    with tarfile.open(pathlib.Path(sdist_directory) / made, "w:gz", format=tarfile.PAX_FORMAT) as archive:
        for name, data in files.items():
            member = tarfile.TarInfo(f"{name_of()}/{name}")
            member.size = len(data)
            archive.addfile(member, io.BytesIO(data))
    return made
