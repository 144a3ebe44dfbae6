"""The files of a Debian package below a folder, and the package that is made of them."""
import hashlib
import os
import subprocess

from facts import Wrong


class Tree:
    """The files of the package below a folder. Modes and times do not depend on the checkout."""

    def __init__(self, top, root, epoch):
        self.top, self.root, self.epoch = top, root, epoch

    def path(self, name):
        path = os.path.join(self.root, name)
        os.makedirs(os.path.dirname(path), exist_ok=True)
        return path

    def write(self, name, text, mode=0o644):
        path = self.path(name)
        with open(path, "wb") as file:
            file.write(text.encode() if isinstance(text, str) else text)
        os.chmod(path, mode)

    def copy(self, name, *source):
        """A copy of a file of the repository, or of a program. Scripts and programs are executable."""
        with open(os.path.join(self.top, *source), "rb") as file:
            data = file.read()
        self.write(name, data, 0o755 if data[:2] == b"#!" or data[:4] == b"\x7fELF" else 0o644)

    def packed(self, name, text):
        run = subprocess.run(["gzip", "-9nc"], input=text.encode(), capture_output=True, check=True)
        self.write(name + ".gz", run.stdout)

    def link(self, name, target):
        os.symlink(target, self.path(name))

    def contents(self):
        """The size in KiB, as dpkg counts it, and the checksums of the files."""
        size, sums = 0, []
        for folder, folders, files in os.walk(self.root):
            folders[:] = sorted(name for name in folders if name != "DEBIAN")
            for name in sorted(files):
                path = os.path.join(folder, name)
                if os.path.islink(path):
                    size += 1
                    continue
                with open(path, "rb") as file:
                    data = file.read()
                size += -(-len(data) // 1024)
                sums.append(f"{hashlib.md5(data).hexdigest()}  {os.path.relpath(path, self.root)}\n")
            size += 1
        return size, "".join(sorted(sums, key=lambda line: line[34:]))

    def set_times(self):
        """Sets the modes of all folders, and all times."""
        for folder, folders, files in os.walk(self.root, topdown=False):
            os.chmod(folder, 0o755)
            for path in [os.path.join(folder, name) for name in [*files, *folders]] + [folder]:
                os.utime(path, (self.epoch, self.epoch), follow_symlinks=False)

    def build(self, path):
        """Makes the package."""
        self.set_times()
        words = ["dpkg-deb", "--root-owner-group", "-Zxz", "--build", self.root, path]
        built = subprocess.run(words, capture_output=True, text=True, env={
            **os.environ, "SOURCE_DATE_EPOCH": str(self.epoch), "LC_ALL": "C"})
        if built.returncode:
            raise Wrong(built.stderr.strip())
