"""Wrong bodies, the edits crates/NAME/must-fail/*.edit: what each turns, and which are tried together."""
from dataclasses import dataclass, field
from pathlib import Path
from typing import Dict, List, Mapping, Optional, Sequence, Tuple

# The texts of a crate's files, by their paths.
Texts = Dict[str, str]


@dataclass
class Edit:
    """One wrong body: the function that has to be refused, and the texts that are exchanged.

    It is tried alone where its function calls what others turn: its own goals aren't looked at else.
    """

    name: str
    refused: str = ""
    alone: bool = False
    pairs: List[Tuple[str, str, str]] = field(default_factory=list)

    def turns_code(self) -> bool:
        """Whether it changes the code alone, and no definition."""
        return all(path.startswith("src/") for path, _, _ in self.pairs)

    def goes_with_others(self) -> bool:
        """Whether it may be tried in one copy with others."""
        return self.turns_code() and not self.alone

    def made_in(self, texts: Mapping[str, str]) -> Optional[Texts]:
        """The files' texts with the edit made, or None where an old text doesn't stand there just once."""
        made = dict(texts)
        for path, old, new in self.pairs:
            if made[path].count(old) != 1:
                return None
            made[path] = made[path].replace(old, new)
        return made


# Edits that are tried together, and the files' texts with them; no texts where one of them can't be made.
Round = Tuple[List[Edit], Optional[Texts]]


def read_edit(file: Path) -> Edit:
    """The edit that the file holds."""
    edit, path, old = Edit(file.stem), "", ""
    for line in file.read_text(encoding="utf-8").splitlines():
        word, _, rest = line.partition(":")
        rest = rest.removeprefix(" ")
        if word == "refused":
            edit.refused = rest.strip()
        elif word == "alone":
            edit.alone = True
        elif word == "file":
            path = rest.strip()
        elif word == "old":
            old = rest
        elif word == "new":
            edit.pairs.append((path, old, rest))
    return edit


def edits_of(crate: str) -> List[Edit]:
    """The crate's edits, by their names."""
    return [read_edit(it) for it in sorted(Path("crates", crate, "must-fail").glob("*.edit"))]


def rounds_of(crate: str, edits: Sequence[Edit]) -> List[Round]:
    """Edits that are tried together, with the files' texts: no two of one function, and one of a definition by itself, since
    it turns all that stands on it, as one that says so. An edit that can't be made stands alone, with no texts."""
    rounds: List[Round] = []
    for edit in edits:
        plain = {path: Path("crates", crate, path).read_text(encoding="utf-8") for path, _, _ in edit.pairs}
        alone = edit.made_in(plain)
        for tried, texts in rounds if alone and edit.refused and edit.goes_with_others() else []:
            apart = texts and all(it.goes_with_others() and it.refused != edit.refused for it in tried)
            made = edit.made_in({**plain, **texts}) if apart and texts else None
            if made and texts:
                tried.append(edit)
                texts.update(made)
                break
        else:
            rounds.append(([edit], alone))
    return rounds
