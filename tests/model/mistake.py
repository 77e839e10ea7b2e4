"""One mistake: a text of one of the model's files, and the wrong text in its place."""

from dataclasses import dataclass
from pathlib import Path


@dataclass(frozen=True)
class Mistake:
    name: str
    file: str
    right: str
    wrong: str
    unseen_because: str = ""  # why no trace can show it, where that is so
    of_pairs: bool = False  # in what is told of two images

    def put_into(self, folder: Path) -> None:
        path = folder / self.file
        text = path.read_text()
        if text.count(self.right) != 1:
            raise ValueError(f"{self.name}: its text isn't once in {self.file}")
        path.write_text(text.replace(self.right, self.wrong))
