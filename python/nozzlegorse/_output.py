"""What a program writes to standard output."""
from __future__ import annotations

import os
import sys
from collections.abc import Iterable


def written(texts: Iterable[str]) -> OSError | None:
    """Writes all of the texts, or answers why it can't. Then nothing is left that Python would try again at its end."""
    try:
        for text in texts:
            sys.stdout.write(text)
        sys.stdout.flush()
    except OSError as fault:
        os.dup2(os.open(os.devnull, os.O_WRONLY), sys.stdout.fileno())
        return fault
    return None
