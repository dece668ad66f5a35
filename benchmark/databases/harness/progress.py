"""Progress on standard error."""

import sys
import threading
import time

# Lines are at least so far apart, in seconds.
APART = 0.5


class Progress:
    """Writes what a run does, at most twice a second; a line that comes too early is left out."""

    def __init__(self) -> None:
        self._last = float("-inf")
        self._text = ""
        self._lock = threading.Lock()

    def say(self, text: str) -> None:
        """Writes a line, unless the last one was written a moment ago or says the same."""
        with self._lock:
            now = time.monotonic()
            if now - self._last < APART or text == self._text:
                return
            self._last, self._text = now, text
        self.write(text)

    def write(self, text: str) -> None:
        """Writes a line."""
        print(f"databases: {text}", file=sys.stderr, flush=True)
