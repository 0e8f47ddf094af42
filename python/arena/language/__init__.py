"""The job language: `compile_source` makes a job of a source; docs/LANGUAGE.md describes it."""
from arena.language.compiler import Compiled, compile_source
from arena.language.faults import SourceFault

__all__ = ["Compiled", "SourceFault", "compile_source"]
