"""`python -m nozzlegorse.command` is the command `nozzlegorse`."""
import sys

from . import main

sys.exit(main())
