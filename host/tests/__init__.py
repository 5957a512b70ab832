"""Tests of the host side, by running it."""

import signal

# What is started in the background of a shell is told to ignore Ctrl-C, and so is all that it starts: these tests send it.
signal.signal(signal.SIGINT, signal.default_int_handler)
