"""Where the programs `ratest` and `ratest_plus` are, and one call of them."""
from __future__ import annotations

import logging
import os
import shutil
import subprocess
import sys
from collections.abc import Sequence
from pathlib import Path

from classroom.process import lifeline
from classroom.process import limits as limited
from classroom.base.errors import Fault, shown
from classroom.process.limits import Limits, Ran
from ratest import installed

log = logging.getLogger(__name__)


def find(name: str = "ratest") -> Path:
    """The program of a name: the one that the variable of this name in capitals tells; else that of
    the wheel that this package came in; else that of the repository, the proved one or else the one
    without proofs, which is made where it isn't there; else the one that was installed with this
    package below a prefix; else the one on the PATH."""
    told = os.environ.get(name.upper())
    if told:
        path = Path(told).absolute()
        if not path.is_file() or not os.access(path, os.X_OK):
            raise Fault(f"{name.upper()} is set, but there is no program {told}")
        return path
    packed = installed.packed(name)
    if packed:
        return packed
    if (installed.REPOSITORY / name).is_file():
        built = proved_path(name)
        return built if built.is_file() else made_without_proofs(name)
    beside = installed.below_prefix(name)
    if beside:
        return beside
    on_path = shutil.which(name)
    if on_path is None:
        raise Fault(
            f"the program {name} is not there: neither the variable {name.upper()} nor PATH"
            " names it"
        )
    return Path(on_path).absolute()


def proved_path(name: str) -> Path:
    return installed.REPOSITORY / "crates" / name / "out" / name


def unproved_path(name: str) -> Path:
    return installed.REPOSITORY / "out" / f"{name}.unproved"


# The launcher makes the build without proofs, unless it is there and no source is newer.
WITHOUT_PROOFS = """
import sys
sys.path.insert(0, sys.argv[1] + "/tools")
from launcher import answer, stopping
from launcher.sources import Program
program = Program(sys.argv[1], sys.argv[2], "./" + sys.argv[2])
try:
    with stopping.stoppable():
        answer.build_unproved(program)
except stopping.Stopped as stopped:
    stopping.end_by(stopped.number)
except answer.Failed as failed:
    program.say(str(failed))
    sys.exit(1)
"""


def made_without_proofs(name: str) -> Path:
    """The repository's build without proofs, which is made in a minute or two where it isn't there;
    it ends with this process. A Fault where it can't be made."""
    path = unproved_path(name)
    words = [sys.executable, "-ESc", WITHOUT_PROOFS, os.fspath(installed.REPOSITORY), name]
    if run_guarded(words) != 0 or not path.is_file():
        raise Fault(f"the program {name} is not built: {installed.REPOSITORY / name} --build")
    return path


def is_proved(program: Path) -> bool:
    """Whether a program has no sign of a build without proofs."""
    return not limited.is_checked(os.fspath(program))


def told_proved(program: Path, only_proved: bool) -> bool:
    """Whether a program is proved; else that is told, or a Fault where nothing else is wanted."""
    if is_proved(program):
        return True
    if only_proved:
        raise Fault(f"--only-proved: {shown(str(program))} is a build without proofs")
    log.warning("not proved: %s is a build with run-time checks in place of proofs", program)
    return False


def prove(names: Sequence[str]) -> None:
    """Proves and builds the repository's programs, each by its launcher, which ends with this
    process. A Fault where there is none of them, or it can't be proved."""
    for name in names:
        launcher = installed.REPOSITORY / name
        if os.environ.get(name.upper()):
            raise Fault(f"--build: the variable {name.upper()} names the program that is taken")
        if installed.packed(name) or not launcher.is_file():
            raise Fault(f"--build: {name} is installed here, and there is no repository to build")
        status = run_guarded([os.fspath(launcher), "--build"])
        if status != 0 or not proved_path(name).is_file():
            raise Fault(f"--build: {name} is not proved and built")


def run_guarded(words: Sequence[str]) -> int:
    """The status of a program that ends, with all that it started, where this process ends."""
    guard = [sys.executable, "-I", os.fspath(lifeline.__file__), str(os.getpid())]
    with subprocess.Popen([*guard, *words], stdin=subprocess.DEVNULL, stdout=sys.stderr) as process:
        try:
            return process.wait()
        finally:
            # Where this process is stopped; one that is killed would leave what it guards.
            process.terminate()


def there(name: str) -> Path:
    """The program as `find` gives it; a Fault, and no build of the repository's, where it isn't
    built."""
    launcher = installed.REPOSITORY / name
    if not os.environ.get(name.upper()) and not installed.packed(name) and launcher.is_file():
        if not proved_path(name).is_file() and not unproved_path(name).is_file():
            raise Fault(f"the program {name} is not built: {launcher} --build")
    return find(name)


def run(
    program: Path, words: Sequence[str], limits: Limits = Limits(), folder: Path | None = None
) -> Ran:
    """One call of a program within limits. Paths in the words are taken from the folder."""
    return limited.run([os.fspath(program), *words], limits, os.fspath(folder) if folder else None)
