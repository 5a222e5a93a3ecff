"""What an earlier run on this machine found, kept by the sum of all that it read: of the very same files it is taken
over. It stands outside each clone, is its user's alone, and is trusted as the kit's folder is. With GATE_ANEW set
nothing is taken over."""
import glob
import hashlib
import os
import shutil
import stat
import tempfile

from repository import PARTS, files, kit


def home():
    """The folder of what is kept; none where it is not the user's alone."""
    at = f"{os.environ.get('XDG_CACHE_HOME') or os.path.expanduser('~/.cache')}/gaffsilver"
    try:
        os.makedirs(at, 0o700, exist_ok=True)
        found = os.lstat(at)
    except OSError:
        return None
    is_own = stat.S_ISDIR(found.st_mode) and found.st_uid == os.geteuid() and not found.st_mode & 0o022
    return at if is_own and not os.environ.get("GATE_ANEW") else None


class Store:
    """A place for what is found of a crate: its name is the sum of the kit, of these tools, of these parts of the
    crate and of the sources of all crates below it."""

    def __init__(self, crate, parts, tools):
        program = os.stat(f"{kit()}/bin/rattle")
        whole = hashlib.sha256(f"{crate.name} {program.st_size} {program.st_mtime_ns}\n".encode())
        folders = [f"{crate.folder}/{it}" for it in parts]
        folders += [f"{it.folder}/{part}" for it in crate.below() for part in PARTS]
        for path in [f"{kit()}/KIT-ID", *tools, *(it for folder in folders for it in files(folder))]:
            with open(path, "rb") as file:
                data = file.read()
            name = path.rpartition("/crates/")[2] if "/crates/" in path else os.path.basename(path)
            whole.update(f"{name} {len(data)}\n".encode() + data)
        self.home, self.name = home(), whole.hexdigest()

    def path(self):
        """The file that is kept; none where there is none."""
        path = f"{self.home}/{self.name}"
        return path if self.home and os.path.isfile(path) else None

    def keep(self, path):
        """Keeps a copy of a file, and of all that is kept the newest 60. A copy is made apart, and then renamed."""
        if self.home:
            with tempfile.NamedTemporaryFile(dir=self.home, delete=False) as made:
                shutil.copyfile(path, made.name)
            os.replace(made.name, f"{self.home}/{self.name}")
            for old in sorted(glob.glob(f"{self.home}/*"), key=os.path.getmtime)[:-60]:
                os.remove(old)
