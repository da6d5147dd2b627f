#!/usr/bin/env python3
"""Runs a program whose standard input is a terminal: terminal.py typed|broken TEXT PROGRAM.

`typed`: TEXT is typed at the terminal, which stays open. `broken`: the program reads the far side of a terminal, gets TEXT, and then its
read fails, since the near side is closed. Escapes in TEXT are those of printf. Ends as the program does, or with 124 if that takes more
than ten seconds.
"""
import os
import pty
import subprocess
import sys
import tty

how, text, program = sys.argv[1:]
typed = text.encode().decode("unicode_escape").encode("latin-1")
far, near = pty.openpty()
if how == "typed":
    stdin = near
    os.write(far, typed)
else:
    stdin = far
    tty.setraw(near)
    os.write(near, typed)
    os.close(near)
try:
    sys.exit(subprocess.run([program], stdin=stdin, timeout=10).returncode)
except subprocess.TimeoutExpired:
    sys.exit(124)
