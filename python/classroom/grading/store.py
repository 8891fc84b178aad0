"""What is kept in EXERCISE/results: the record of each run, and what is made of all of them.

    runs/KEY.json           what one call of `ratest` printed, its status and its seconds
    runs/KEY.trial.json     what a database said of a pair
    tasks/TASK/ANSWER.txt   for each answer its status and what was printed, to be read by people
    answers.json            which record each answer has, and of which texts it was made
    written.json            which texts and records were written: what else stands there is never removed
    grades.csv, results.json, teacher.html, students.html

A record's key is a digest of all that decides the outcome: the program, the schema, the rows, the
reference, the answer's bytes and the options. So an answer that changed has no record, and one with
the bytes of another answer has that one's. Every file is written under another name and renamed.
"""
from __future__ import annotations

import fcntl
import json
import os
import re
import shutil
from collections.abc import Collection, Iterable, Iterator, Mapping, Sequence
from contextlib import contextmanager
from dataclasses import replace
from pathlib import Path
from typing import Any

from classroom.grading import graded as graded_answers
from classroom.grading import grades_files
from classroom.process import remote as worker
from classroom.exercise.exercise import REFERENCE, Answer, Exercise, Task, digest
from classroom.base.errors import Fault, shown
from classroom.base.files import UNFINISHED, write
from classroom.grading.graded import Graded
from classroom.grading.nearest import nearest
from classroom.process.limits import Limits, Ran
from classroom.verdict import verdict
from classroom.verdict.verdict import Verdict
from ratest.printed import FILE_FAULT

WRITTEN = "written.json"
WORK = ".work-"


class Results:
    """The folder of the results of an exercise."""

    def __init__(self, folder: Path) -> None:
        self.folder = folder
        self.runs = folder / "runs"

    @contextmanager
    def held(self) -> Iterator[Path]:
        """Holds the folder against a second run, and gives an empty folder for what is needed
        meanwhile."""
        self.runs.mkdir(parents=True, exist_ok=True)
        lock = os.open(self.folder, os.O_RDONLY)
        try:
            try:
                fcntl.flock(lock, fcntl.LOCK_EX | fcntl.LOCK_NB)
            except BlockingIOError:
                raise Fault(f"{shown(str(self.folder))}: another run is at work here") from None
            self.tidy()
            work = self.folder / f"{WORK}{os.getpid()}"
            work.mkdir()
            try:
                yield work
            finally:
                shutil.rmtree(work, ignore_errors=True)
        finally:
            os.close(lock)

    def tidy(self) -> None:
        """Removes what a run that was killed left unfinished."""
        for path in self.folder.glob(f"{WORK}*"):
            shutil.rmtree(path, ignore_errors=True)
        for path in [
            path
            for depth in ("", "*/", "*/*/")
            for path in self.folder.glob(f"{depth}{UNFINISHED}*")
        ]:
            path.unlink(missing_ok=True)

    def path(self, key: str) -> Path:
        return self.runs / f"{key}.json"

    def keep(self, key: str, ran: Ran, limits: Limits, is_proved: bool = True) -> None:
        """Writes the record of a run, by a program that is proved or is not."""
        record = json.loads(worker.line(key, ran))
        write(
            self.path(key),
            _json(
                {
                    "status": record[1],
                    "passed": record[5],
                    "seconds": record[4],
                    "limits": {"seconds": limits.seconds, "megabytes": limits.megabytes},
                    "stdout": record[2],
                    "stderr": record[3],
                    **({} if is_proved else {"proved": False}),
                }
            ),
        )

    def run(self, key: str) -> Ran | None:
        """The run of a key; None where there is no record that can be read."""
        record = self._record(key)
        return _ran(record) if record else None

    def is_final(self, key: str, limits: Limits) -> bool:
        """Whether a further run with these limits would bring nothing else than what is kept.

        A run that passed a limit is final for just these limits. One that was ended by a signal, or
        failed over a file, is not final."""
        record = self._record(key)
        if not record:
            return False
        if record["passed"]:
            return bool(
                record.get("limits") == {"seconds": limits.seconds, "megabytes": limits.megabytes}
            )
        return 0 <= int(record["status"]) < FILE_FAULT

    def _record(self, key: str) -> dict[str, Any] | None:
        try:
            record: dict[str, Any] = json.loads(self.path(key).read_bytes())
            _ran(record)
            return record
        except (OSError, ValueError, KeyError, TypeError, AttributeError):
            return None

    def keep_trial(self, key: str, found: Verdict) -> None:
        """Writes what a database said of a pair."""
        write(self.folder / trial_name(key), _json(verdict.to_json(found)))

    def trial(self, key: str) -> Verdict | None:
        """What a database said of a pair; None where there is no record that can be read."""
        try:
            return verdict.from_json(json.loads((self.folder / trial_name(key)).read_bytes()))
        except (OSError, ValueError, KeyError, TypeError, AttributeError):
            return None

    def write_tables(self, tables: Mapping[str, bytes]) -> None:
        """Writes the tables of the marks, by their names, where they are other than before."""
        for name, content in tables.items():
            try:
                is_same = (self.folder / name).read_bytes() == content
            except OSError:
                is_same = False
            if not is_same:
                write(self.folder / name, content)

    def publish(
        self,
        given: Exercise,
        graded: Sequence[Graded],
        tables: Mapping[str, bytes],
        references: Sequence[Graded] = (),
    ) -> None:
        """Writes what is made of all records and the tables of the marks, and removes what was
        written before and belongs to no answer any more, nor to a pair of references. What else
        there is in the folder is left alone."""
        texts = {f"tasks/{of.task.name}/{of.answer.name}.txt": of for of in graded}
        each = [*references, *(one for of in graded for one in (of, *of.others))]
        wanted = {
            *texts,
            *(f"runs/{of.key}.json" for of in each if of.key),
            *(trial_name(of.trial_key) for of in each if of.trial_key),
        }
        written = self._written()
        self.will_write(wanted)
        self.write_tables(tables)
        write(
            self.folder / "answers.json",
            _json(
                {
                    "shared": given.digest,
                    "references": {task.name: _references(task) for task in given.tasks},
                    "answers": list(map(_answer, graded)),
                }
            ),
        )
        for name, of in texts.items():
            path = self.folder / name
            try:
                path.parent.mkdir(parents=True, exist_ok=True)
            except (FileExistsError, NotADirectoryError):
                raise Fault(
                    f"{shown(str(path.parent))}: no folder, so the texts of its answers are not"
                    " written"
                ) from None
            write(path, grades_files.answer_text(of))
        for name in written - wanted:
            self._remove(name)
        write(self.folder / WRITTEN, _json(sorted(wanted)))

    def will_write(self, names: Iterable[str]) -> None:
        """Adds names to the list of what was written, before they are: so what a killed run leaves
        is known."""
        known, names = self._written(), set(names)
        if not names <= known:
            write(self.folder / WRITTEN, _json(sorted(known | names)))

    def _written(self) -> set[str]:
        """The files below the folder that a run has written, by the list; where there is none yet,
        by answers.json."""
        try:
            return {
                str(name)
                for name in json.loads((self.folder / WRITTEN).read_bytes())
                if _is_ours(str(name))
            }
        except (OSError, ValueError, TypeError):
            pass
        try:
            answers = json.loads((self.folder / "answers.json").read_bytes())["answers"]
            return {
                name
                for of in answers
                for name in (f"tasks/{of['task']}/{of['answer']}.txt", f"runs/{of['run']}.json")
                if _is_ours(name)
            }
        except (OSError, ValueError, KeyError, TypeError):
            return set()

    def _remove(self, name: str) -> None:
        path = self.folder / name
        try:
            path.unlink(missing_ok=True)
            if path.parent != self.runs:
                path.parent.rmdir()
        except OSError:
            pass  # a folder in which something else stands, or a file in place of a folder

    def graded(self, given: Exercise) -> tuple[Exercise, list[Graded]]:
        """The exercise with what was found of its references, and the grades, as they were
        published; a Fault where something has changed since."""
        try:
            kept = json.loads((self.folder / "answers.json").read_bytes())
            known = {(of["task"], of["answer"]): of for of in kept["answers"]}
            references = {
                (name, source): (by["text"], by["fault"], by["limit"])
                for name, of in kept["references"].items()
                for source, by in {REFERENCE: of, **of.get("others", {})}.items()
            }
            shared = kept["shared"]
        except (OSError, ValueError, KeyError, TypeError, AttributeError):
            raise Fault(
                f"{shown(str(given.folder))} is not graded: classroom grade does that"
            ) from None
        again = "has changed since it was graded: classroom grade grades it anew"
        if shared != given.digest:
            raise Fault(f"{shown(str(given.folder))}: the schema or a row {again}")

        def as_found(task: Task) -> Task:
            text, fault, limit = references.pop((task.name, task.source), ("", "", ""))
            if text != digest(task.reference):
                raise Fault(f"task {shown(task.name)}: {task.source} {again}")
            return replace(task, fault=fault, limit=limit)

        tasks, found = [], []
        for given_task in given.tasks:
            others = tuple(map(as_found, given_task.others))
            task = replace(as_found(given_task), others=others)
            tasks.append(task)
            for name, source in references:
                if name == task.name:
                    raise Fault(f"task {shown(name)}: {shown(source)} {again}")
            for answer in task.answers:
                of = known.pop((task.name, answer.name), None)
                records = {REFERENCE: of, **of.get("others", {})} if of else {}
                keys = {source: str(record["run"]) for source, record in records.items()}
                if (
                    not of
                    or of["text"] != digest(answer.text.whole)
                    or of["fault"] != answer.fault
                    or any(key and not self.run(key) for key in keys.values())
                ):
                    raise Fault(f"task {shown(task.name)}: the answer {shown(answer.name)} {again}")
                found.append(
                    nearest(
                        [
                            self.graded_one(
                                by,
                                answer,
                                given,
                                keys.get(by.source, ""),
                                str(records.get(by.source, {}).get("trial", "")),
                            )
                            for by in task.references
                        ]
                    )
                )
        return replace(given, tasks=tuple(tasks)), found

    def graded_one(
        self, task: Task, answer: Answer, given: Exercise, key: str, trial_key: str = ""
    ) -> Graded:
        """The grade of an answer by the records of its run and of its trial."""
        record = self._record(key) if key else None
        ran = _ran(record) if record else None
        found = self.trial(trial_key) if trial_key else None
        return graded_answers.grade(
            task,
            answer,
            given.tables,
            given.settings,
            ran,
            key if ran else "",
            found,
            trial_key,
            bool(record is None or record.get("proved", True)),
        )

    def prune(self, keys: Collection[str]) -> None:
        """Removes the records of runs but those of these keys."""
        for path in self.runs.iterdir():
            key = path.name.removesuffix(".json").removesuffix(".trial")
            if re.fullmatch("[0-9a-f]{64}", key) and path.suffix == ".json" and key not in keys:
                path.unlink()


def _references(task: Task) -> dict[str, object]:
    """What was found of the references of a task."""
    first, *others = (
        {"text": digest(by.reference), "fault": by.fault, "limit": by.limit}
        for by in task.references
    )
    if not others:
        return dict(first)
    return {**first, "others": {by.source: one for by, one in zip(task.others, others)}}


def _answer(of: Graded) -> dict[str, object]:
    """An answer with the keys of its records, by each reference."""
    each = {one.task.source: {"run": one.key, "trial": one.trial_key} for one in (of, *of.others)}
    return {
        "task": of.task.name,
        "answer": of.answer.name,
        "text": digest(of.answer.text.whole),
        "fault": of.answer.fault,
        **each.pop(REFERENCE),
        **({"others": each} if each else {}),
    }


def trial_name(key: str) -> str:
    return f"runs/{key}.trial.json"


def _is_ours(name: str) -> bool:
    """Whether it names a text of an answer or a record, and nothing outside of their folders."""
    parts = name.split("/")
    return ".." not in parts and (
        len(parts) == 3 and parts[0] == "tasks" or len(parts) == 2 and parts[0] == "runs"
    )


def _json(value: object) -> bytes:
    return (json.dumps(value, indent=1) + "\n").encode("ascii")


def _ran(record: dict[str, Any]) -> Ran:
    texts = [str(record[name]).encode("utf-8", "surrogateescape") for name in ("stdout", "stderr")]
    return Ran(
        int(record["status"]), texts[0], texts[1], float(record["seconds"]), str(record["passed"])
    )
