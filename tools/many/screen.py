"""The one line on a terminal that shows how far a run is."""
import contextlib
import os
import shutil
import sys
import time

from many.texts import size_text


class Screen:
    """The line, on standard error; where that is no terminal there is none."""

    def __init__(self):
        self.is_on = sys.stderr.isatty() and os.environ.get("TERM") != "dumb"
        self.length, self.begun = 0, time.monotonic()

    def draw(self, text):
        """Draws the line anew, as far as there are columns."""
        columns = shutil.get_terminal_size().columns - 1
        self.write(text[:columns].ljust(min(self.length, columns)))
        self.length = len(text[:columns])

    def erase(self):
        """Leaves nothing of the line."""
        if self.length:
            self.draw("")
            self.write("")

    @staticmethod
    def write(text):
        """Writes at the start of the line."""
        with contextlib.suppress(OSError):
            sys.stderr.write(f"\r{text}")
            sys.stderr.flush()

    def seconds(self):
        """How long the run has taken, so that it can be divided by."""
        return max(time.monotonic() - self.begun, 0.001)

    def rate(self, done, total=None):
        """The bytes done, of how many, how many in a second, and the time that is left."""
        speed = done / self.seconds()
        text = f"{size_text(done)}{f' of {size_text(total)}' if total else ''}, {size_text(speed)}/s"
        if not total or not speed or done > total:
            return text
        minutes, seconds = divmod(int((total - done) / speed), 60)
        hours = f"{minutes // 60}:{minutes % 60:02}" if minutes >= 60 else f"{minutes}"
        return f"{text}, {hours}:{seconds:02} left"
