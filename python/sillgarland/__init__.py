"""Golden files hold marshalled Python values: formulas compiled to code objects, and the results that are expected of them. This
package reads them through the proved functions of libsillgarland; a line table that was cut is an answer here, not a surprise.

>>> import sillgarland
>>> code = next(sillgarland.read(open("goldens/cut-line-table.golden", "rb").read()).code_objects())
>>> code.locations().whole, code.locations().row(40)
(False, None)
"""

from ._check import Checked, NotWhole, check
from ._forms import golden_from_fields, golden_to_fields
from ._golden import Code, Golden, Split, Value, loads, read
from ._refused import Refused, name_of
from ._session import Session
from ._tables import Handler, Location, Locations, Salvaged, Sources, handlers, locations, positions, salvage, sources
from ._totals import Totals, totals

__version__ = "0.1.0"

__all__ = [
    "Checked", "Code", "Golden", "Handler", "Location", "Locations", "NotWhole", "Refused", "Salvaged", "Session", "Sources", "Split", "Totals",
    "Value", "check", "golden_from_fields", "golden_to_fields", "handlers", "loads", "locations", "name_of", "positions", "read", "salvage", "sources", "totals",
]
