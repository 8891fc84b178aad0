"""Wrong answers with the place and the kind that a teacher would name.

`wrong.txt` in the folder of a schema has for each task its reference, and then answers, each behind
the kinds of mistake that it may be said to have, with its place between « and ». `planted.txt` has
references, each written otherwise, and the mistakes that are made in that text, as `right =>
wrong`. """
from __future__ import annotations

from dataclasses import dataclass
from pathlib import Path

HERE = Path(__file__).resolve().parent
SCHEMAS = ("beers", "shop", "school")


@dataclass(frozen=True)
class Wrong:
    schema: str
    reference: str
    answer: str
    begin: int  # of the place
    end: int
    kinds: tuple[str, ...]  # empty of a planted mistake

    @property
    def marked(self) -> str:
        return f"{self.answer[:self.begin]}«{self.answer[self.begin:self.end]}»{self.answer[self.end:]}"


def wrong() -> list[Wrong]:
    found = []
    for schema, lines in texts("wrong.txt"):
        reference = ""
        for line in lines:
            head, _, text = line.partition(": ")
            if head == "reference":
                reference = text
            else:
                begin = text.index("«")
                end = text.index("»") - 1
                found.append(
                    Wrong(
                        schema,
                        reference,
                        text.replace("«", "").replace("»", ""),
                        begin,
                        end,
                        tuple(head.split(" | ")),
                    )
                )
    return found


def planted() -> list[Wrong]:
    found = []
    for schema, lines in texts("planted.txt"):
        reference = rewritten = ""
        for line in lines:
            head, _, text = line.partition(": ")
            if head == "reference":
                reference = text
            elif head == "rewritten":
                rewritten = text
            else:
                right, _, mistake = (line + " ").partition(" => ")
                mistake = mistake.removesuffix(" ")
                right = right if mistake else line.removesuffix("=>").removesuffix(" ")
                assert rewritten.count(right) >= 1, (right, rewritten)
                begin = rewritten.index(right)
                found.append(
                    Wrong(
                        schema,
                        reference,
                        rewritten.replace(right, mistake, 1),
                        begin,
                        begin + len(mistake),
                        (),
                    )
                )
    return found


def texts(name: str) -> list[tuple[str, list[str]]]:
    return [
        (
            schema,
            [
                line
                for line in (HERE / schema / name).read_text(encoding="utf-8").splitlines()
                if line and not line.startswith("#")
            ],
        )
        for schema in SCHEMAS
    ]
