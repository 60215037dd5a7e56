"""Runs the command."""

import logging
import signal
import sys

from .command import main

if __name__ == "__main__":
    # What the cluster logs when workers and connections end isn't the command's output.
    logging.disable(logging.CRITICAL)
    # The end of a session interrupts a run as Ctrl-C does.
    signal.signal(signal.SIGTERM, signal.default_int_handler)
    sys.exit(main())
