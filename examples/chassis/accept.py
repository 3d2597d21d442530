#!/usr/bin/env python3
"""Waits for one connection at the socket that systemd hands over, and becomes the command that is named, which reads
from the connection and writes to it: `accept.py COMMAND [WORDS..]`."""

import os
import socket
import sys

# The first descriptor that systemd hands over.
FIRST = 3

if __name__ == "__main__":
    with socket.socket(fileno=FIRST) as listening:
        talk, _ = listening.accept()
    for descriptor in (0, 1):
        os.dup2(talk.fileno(), descriptor)
    talk.close()
    os.execvp(sys.argv[1], sys.argv[1:])
