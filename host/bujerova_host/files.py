"""Files of secrets: written whole or not at all, for their owner alone."""

from __future__ import annotations

import os


def write_whole(path: str, data: bytes) -> None:
    """Writes a file beside and renames it, with the mode 0600; a symbolic link stays, and what it names is
    written. OSError where this fails: then the file is what it was. ValueError where it is no path."""
    import tempfile

    path = os.path.realpath(path)
    handle, beside = tempfile.mkstemp(dir=os.path.dirname(path), prefix=".bujerova-")
    try:
        with os.fdopen(handle, "wb") as file:
            file.write(data)
            file.flush()
            os.fsync(file.fileno())
        os.replace(beside, path)
    except BaseException:
        os.unlink(beside)
        raise


def cause_of(error: Exception) -> str:
    """Why a file failed, in the system's words."""
    return getattr(error, "strerror", None) or "no path"
