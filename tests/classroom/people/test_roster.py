"""The class list, as universities export it."""
from __future__ import annotations

from pathlib import Path

import pytest
from classroom.base.errors import Fault
from classroom.people.roster import ClassList, read

ROWS = [("m1", "Anna Alvarez"), ("m2", "Kai König")]


def listed(folder: Path, raw: bytes) -> ClassList:
    (folder / "students.csv").write_bytes(raw)
    return read(folder / "students.csv")


def people(found: ClassList) -> list[tuple[str, str]]:
    return [(student.id, student.name) for student in found.students]


@pytest.mark.parametrize("encoding", ["utf-8", "utf-8-sig", "utf-16", "cp1252"])
@pytest.mark.parametrize("delimiter", [",", ";", "\t"])
@pytest.mark.parametrize("says_it", [False, True])
def test_encodings_and_delimiters(
    tmp_path: Path, encoding: str, delimiter: str, says_it: bool
) -> None:
    lines = [delimiter.join(row) for row in (("id", "name"), *ROWS)]
    text = "\r\n".join([*([f"sep={delimiter}"] if says_it else []), *lines, ""])
    assert people(listed(tmp_path, text.encode(encoding))) == ROWS


def test_usual_names_of_columns(tmp_path: Path) -> None:
    text = (
        "Nachname;Vorname;Matrikelnummer;E-Mail-Adresse;Anmeldename;Studiengang\n"
        "Alvarez;Anna;m1;anna@example.org;alva;Informatik\n"
    )
    found = listed(tmp_path, text.encode())
    assert people(found) == [("m1", "Anna Alvarez")]
    # The e-mail address and the login are other names of the id.
    for name in ("m1", "M1", "anna@example.org", "ALVA"):
        student = found.known("id", name)
        assert student and student.id == "m1", name
    assert dict(found.renamed)["id"] == "Matrikelnummer"


def test_moodle_s_list_of_participants(tmp_path: Path) -> None:
    text = '"First name",Surname,"ID number","Email address"\nAnna,Alvarez,m1,anna@example.org\n'
    assert people(listed(tmp_path, text.encode())) == [("m1", "Anna Alvarez")]


def test_the_plain_names_go_before(tmp_path: Path) -> None:
    text = "id,name,Matrikelnummer,Vorname,Nachname\nanna,Anna A,123,Anna,Alvarez\n"
    found = listed(tmp_path, text.encode())
    assert people(found) == [("anna", "Anna A")] and not found.renamed


@pytest.mark.parametrize(
    ("text", "why"),
    [
        ("name\nAnna\n", "id once among them"),
        ("id,Vorname\n1,Anna\n", "name once among them"),
        ("id,name,id\n1,Anna,2\n", "id twice"),
        ("id,name,email\n1,Anna,a@x.org\n2,Ben,A@x.org\n", "email a@x.org stands in line 2 too"),
    ],
)
def test_what_is_wrong_is_named(tmp_path: Path, text: str, why: str) -> None:
    with pytest.raises(Fault, match="students.csv: .*") as fault:
        listed(tmp_path, text.encode())
    assert why in str(fault.value)


def test_bytes_that_are_no_text(tmp_path: Path) -> None:
    with pytest.raises(Fault, match="no text in UTF-8, UTF-16 or Windows-1252"):
        listed(tmp_path, b"id,name\n1,A\x00\xff\n")
