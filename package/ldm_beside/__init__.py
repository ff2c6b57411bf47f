"""What the programs beside ldm have in common: their help, and files that they write."""

import os
import sys
import tempfile


def show_help(name, here):
    """Writes the text that lies beside those of the commands of ldm, in the package or in a clone. Answers whether there is one."""
    for folder in ("share/ldm/help", "docs/help"):
        text = here.parent / folder / f"{name}.txt"
        if text.is_file():
            sys.stdout.write(text.read_text())
            return True
    return False


def write_output(content):
    """Writes to standard output; raises OSError."""
    try:
        # without a buffer, as where PYTHONUNBUFFERED is set, a write may take a part
        left = memoryview(content)
        while left:
            left = left[sys.stdout.buffer.write(left) :]
        sys.stdout.buffer.flush()
    except OSError:
        # what is left in the buffer is not written at the end again
        os.dup2(os.open(os.devnull, os.O_WRONLY), sys.stdout.fileno())
        raise


def write_file(path, content):
    """Puts a file in the place of another at once, so that nobody finds a part of it; raises OSError."""
    if os.path.exists(path) and not os.path.isfile(path):
        with open(path, "wb") as file:
            file.write(content)
        return
    folder, name = os.path.split(os.path.realpath(path))
    handle, other = tempfile.mkstemp(prefix=f".{name}.", dir=folder)
    try:
        with open(handle, "wb") as file:
            file.write(content)
        mask = os.umask(0)
        os.umask(mask)
        os.chmod(other, 0o666 & ~mask)
        os.replace(other, os.path.join(folder, name))
    except BaseException:
        os.unlink(other)
        raise
