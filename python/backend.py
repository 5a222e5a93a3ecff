"""What pip asks of a source folder (PEP 517): `build.py` answers, and nothing has to be installed or fetched.

GAFFSILVER_LIBRARY names the folder of a library that `build.py library` has made; without it, `rt` makes one.
"""
import gzip
import io
import os
import sys
import tarfile

import build

# What a wheel is made of, besides the library.
SOURCES = ("CHANGELOG.md", "LICENSE", "docs/PYTHON.md", *(
    f"python/{it}" for it in ("backend.py", "build.py", "gaffsilver", "native", "tests")
))


def build_wheel(wheel_directory, config_settings=None, metadata_directory=None):
    """The name of the wheel for this Python that is put into a folder."""
    try:
        with build.library_at(os.environ.get("GAFFSILVER_LIBRARY")) as library:
            return os.path.basename(build.build_wheel(wheel_directory, library, sys.executable))
    except build.FAULTS as error:
        sys.exit(f"gaffsilver: {build.line_of(error)}")


def build_sdist(sdist_directory, config_settings=None):
    """The name of the archive of the sources that is put into a folder. The library's sources are not among them."""
    top, files = f"gaffsilver-{build.version()}", {"PKG-INFO": build.metadata().encode()}
    moved = build.read(f"{build.HERE}/pyproject.toml").replace('["."]', '["python"]')
    files["pyproject.toml"] = moved.encode()
    for source in SOURCES:
        files.update(build.files_in(build.ROOT, source))
    with open(f"{sdist_directory}/{top}.tar.gz", "wb") as file:
        file.write(tar_of({f"{top}/{name}": data for name, data in sorted(files.items())}))
    return f"{top}.tar.gz"


def tar_of(files):
    """The bytes of a tar file of these files, with the time of the tree."""
    room, when = io.BytesIO(), build.seconds_of_tree()
    with gzip.GzipFile(fileobj=room, mode="wb", mtime=when) as packed:
        with tarfile.open(fileobj=packed, mode="w", format=tarfile.PAX_FORMAT) as archive:
            for name, data in files.items():
                entry = tarfile.TarInfo(name)
                entry.size, entry.mtime = len(data), when
                archive.addfile(entry, io.BytesIO(data))
    return room.getvalue()
