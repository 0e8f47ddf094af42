"""What is shared with the checks of the host: the outcomes that its folder has."""
import pathlib
import sys

sys.path.append(str(pathlib.Path(__file__).resolve().parents[1] / "host"))
from outcomes import not_kept, outcomes  # noqa: E402

__all__ = ["not_kept", "outcomes"]
