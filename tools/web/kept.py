"""What is kept in out/web: the WebAssembly module, for as long as nothing changes of which it is
made. The name of its file is a digest of that."""
from __future__ import annotations

import hashlib
import os
import tempfile
from collections.abc import Callable, Iterable
from pathlib import Path


def digest(paths: Iterable[Path]) -> str:
    """Of the contents of files."""
    made = hashlib.sha256()
    for path in paths:
        made.update(hashlib.sha256(path.read_bytes()).digest())
    return made.hexdigest()[:32]


def kept(path: Path, make: Callable[[Path], Path]) -> Path:
    """A file that is made in a folder for the time being, where it is not there yet; older ones of
    its kind go."""
    if not path.exists():
        path.parent.mkdir(parents=True, exist_ok=True)
        with tempfile.TemporaryDirectory(dir=path.parent) as folder:
            made = make(Path(folder))
            for old in path.parent.glob(f"*{path.suffix}"):
                old.unlink()
            os.replace(made, path)
    return path
