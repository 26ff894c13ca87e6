#!/usr/bin/env python3
"""Write a file to standard output one byte at a time, so that a reader of the pipe gets it in pieces. A reader that needs
no more bytes may leave."""
import os
import sys

try:
    for byte in open(sys.argv[1], "rb").read():
        os.write(1, bytes([byte]))
except BrokenPipeError:
    pass
