"""Second readings: what must come of each input, worked out from the standard and the documents, in another language and by no
function of the crates. A module reads a subject. `python3 -m readings.NAME`, at the repository's top, writes what is committed
of it, and the gate compares that (.ci/readings)."""

import os

TOP = os.path.normpath(os.path.join(os.path.dirname(os.path.abspath(__file__)), ".."))
ROW_DATA, END_DATA = (os.path.join(TOP, "crates", crate, "data") for crate in ("test_rows", "test_ends"))
GENERATED = os.path.join(TOP, "crates/test_generated")
