"""The kit of Rattle that is here."""

import subprocess
import tempfile


def ci_takes(*words: str) -> bool:
    """Whether the kit's `rt ci` takes these words. One that takes none proves everything anew each time, and
    answers words with its usage; in an empty folder any answer is at once."""
    with tempfile.TemporaryDirectory() as empty:
        ran = subprocess.run(["rt", "ci", *words], cwd=empty, capture_output=True, text=True)
    return ran.returncode != 2 or not ran.stderr.startswith("usage:")
