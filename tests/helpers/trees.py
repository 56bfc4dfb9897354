"""What is in a folder, and copies of a clone."""
import hashlib
import os
import shutil

from helpers.program import TOP


def copy(folder, *names):
    """Copies what a clone has, but for what is built: all, or some folders and files of it."""
    ignored = shutil.ignore_patterns("out", ".git", "__pycache__")
    for name in names or sorted(os.listdir(TOP)):
        if name not in ("out", ".git"):
            if (TOP / name).is_dir():
                shutil.copytree(TOP / name, folder / name, ignore=ignored, symlinks=True)
            else:
                shutil.copy2(TOP / name, folder / name)


def tree(folder):
    """Each file, with its sum, and each link, with what it leads to; folders too."""
    return sorted((str(file.relative_to(folder)),
                   os.readlink(file) if file.is_symlink() else
                   hashlib.sha256(file.read_bytes()).hexdigest() if file.is_file() else "")
                  for file in folder.rglob("*"))
