"""How many requests a token may make."""
import time
from dataclasses import dataclass, field

KEPT = 10_000
"""How many tokens are kept in mind."""


@dataclass
class Rates:
    """Each token has so many requests a second, and as many in advance as are in two seconds."""

    _left: dict[str, tuple[float, float]] = field(default_factory=dict)

    def wait(self, token: str, rate: float) -> float:
        """Takes a request of a token; how many seconds it has to wait instead, if there is none left."""
        clock, most = time.monotonic(), max(1.0, 2 * rate)
        left, at = self._left.get(token, (most, clock))
        left = min(most, left + (clock - at) * rate)
        if token not in self._left and len(self._left) >= KEPT:
            self._left.clear()
        self._left[token] = (left - 1 if left >= 1 else left, clock)
        return 0.0 if left >= 1 else (1 - left) / rate
