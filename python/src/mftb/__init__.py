"""Works with stores of mftb, a trajectory database whose answers are proved; this package itself is not.

store = mftb.Store("port.mftb")
store.load("monday.csv")
for leg in store.legs("crosses", (0, 0, 10, 10), ("2024-06-03T09:00:00Z", "2024-06-03T10:00:00Z")):
    print(leg.feature, leg.begin)
"""

from importlib import import_module
from typing import TYPE_CHECKING, Any

if TYPE_CHECKING:
    from mftb.errors import (
        FileRefused,
        FileUnreadable,
        MemoryExhausted,
        MftbError,
        OutputFailed,
        ProgramFailed,
        ProgramMissing,
        QuestionRefused,
        Refused,
        StoreDamaged,
        StoreError,
        StoreFull,
        StoreInUse,
        StoreMalformed,
        StoreMissing,
        StoreUnfinished,
        StoreVersion,
        WrongWords,
        ZonesRefused,
    )
    from mftb.fleet.book import Fleet
    from mftb.records import (
        Counts,
        Dwell,
        DwellTime,
        Feature,
        Gap,
        Info,
        Leg,
        Loaded,
        Report,
        Stay,
        Visit,
        VisitCount,
    )
    from mftb.results import Answer
    from mftb.runs import MftbWarning
    from mftb.store import Batch, Store
    from mftb.tallies import Dwells, Table, Visits

__version__ = "0.1.0"
__all__ = [
    "Answer",
    "Batch",
    "Counts",
    "Dwell",
    "DwellTime",
    "Dwells",
    "Feature",
    "FileRefused",
    "FileUnreadable",
    "Fleet",
    "Gap",
    "Info",
    "Leg",
    "Loaded",
    "MemoryExhausted",
    "MftbError",
    "MftbWarning",
    "OutputFailed",
    "ProgramFailed",
    "ProgramMissing",
    "QuestionRefused",
    "Refused",
    "Report",
    "Stay",
    "Store",
    "StoreDamaged",
    "StoreError",
    "StoreFull",
    "StoreInUse",
    "StoreMalformed",
    "StoreMissing",
    "StoreUnfinished",
    "StoreVersion",
    "Table",
    "Visit",
    "VisitCount",
    "Visits",
    "WrongWords",
    "ZonesRefused",
]


def __getattr__(name: str) -> Any:
    """A name of the package, when it is used first: a tool begins sooner without what it does not use."""
    if name in __all__:
        for module in "errors", "records", "results", "runs", "tallies", "store", "fleet.book":
            found = vars(import_module(f"mftb.{module}")).get(name)
            if found is not None:
                globals()[name] = found
                return found
    raise AttributeError(f"module 'mftb' has no attribute {name!r}")
