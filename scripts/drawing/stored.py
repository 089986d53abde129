"""The stored scripts of `blk steps`, as scripts/stored-runs reads them."""

from importlib.machinery import SourceFileLoader
from importlib.util import module_from_spec, spec_from_loader
from pathlib import Path

RUNS = Path(__file__).resolve().parent.parent / "stored-runs"


def stored_scripts():
    """By its name each stored script that is played to its end, with what is printed of it."""
    loader = SourceFileLoader("stored_runs", str(RUNS))
    runs = module_from_spec(spec_from_loader(loader.name, loader))
    loader.exec_module(runs)
    return {
        row["name"]: (row["input"], row["output"])
        for row in runs.stored_rows()
        if row["words"] == ["steps"] and row.get("input") and row.get("output")
    }
