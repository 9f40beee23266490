"""Whether a golden file is sound and its line tables are whole."""

import os
from typing import List, NamedTuple, Optional, Tuple

from ._golden import Code, Golden
from ._reading import read_values
from ._refused import Refused
from ._tables import Locations
from ._totals import Path, contents


class NotWhole(NamedTuple):
    """A code object whose line table is cut or damaged."""

    code: Code
    locations: Locations

    def __str__(self) -> str:
        placed, count, last = self.locations.from_entries, len(self.locations), self.locations.last_row()
        row = "no row is placed" if last is None else f"the last row placed is {last}"
        return f"code object {self.code.qualified_name}: the line table places {placed} of {count} instructions; {row}"


class Checked(NamedTuple):
    """What is found in a file: the first refusal, of a table or else of reading, and every line table that is not whole."""

    path: str
    values: int
    code_objects: int
    instructions: int
    not_sure: int
    """instructions whose row no complete entry gives"""
    refused: Optional[Refused]
    not_whole: Tuple[NotWhole, ...]

    @property
    def verdict(self) -> str:
        """`refused`, `NOT WHOLE` or `accepted`, as `sill check` calls it."""
        return "refused" if self.refused else "NOT WHOLE" if self.not_whole else "accepted"

    def __str__(self) -> str:
        holds = f"{self.values} values, {self.code_objects} code objects, {self.instructions} instructions, {self.not_sure} not sure"
        return f"{self.verdict} {self.path}: {self.refused or (self.not_whole[0] if self.not_whole else holds)}"


def check(path: Path) -> Checked:
    """Says of a golden file whether it is sound and its line tables are whole.

    >>> print(check("goldens/cut-line-table.golden"))
    NOT WHOLE goldens/cut-line-table.golden: code object <module>: the line table places 33 of 45 instructions; the last row placed is 57
    """
    readings, ended = read_values(contents(path))
    refused: Optional[Refused] = None
    codes: List[Code] = list(Golden(readings).code_objects()) if readings else []
    instructions = not_sure = 0
    not_whole: List[NotWhole] = []
    for code in codes:
        instructions += code.instructions
        try:
            found = code.locations()
            not_sure += found.not_sure
            if not found.whole:
                not_whole.append(NotWhole(code, found))
            code.handlers()
        except Refused as told:
            refused = refused or told
    return Checked(os.fspath(path), len(readings), len(codes), instructions, not_sure, refused or ended, tuple(not_whole))
