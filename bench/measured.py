#!/usr/bin/env python3
"""Runs a command and prints its seconds, its greatest memory in kilobytes, its status, and the processor's seconds: measured.py COMMAND..

A process of its own, since a child begins with the greatest memory of the process that made it: that of bench.py, which has read its inputs, would
be taken for the program's. What the command writes goes nowhere; what it writes to standard error is passed on.
"""
import os, subprocess, sys, time

start = time.monotonic()
child = subprocess.Popen(sys.argv[1:], stdout=subprocess.DEVNULL)
_, status, used = os.wait4(child.pid, 0)
print(time.monotonic() - start, used.ru_maxrss, os.waitstatus_to_exitcode(status), used.ru_utime + used.ru_stime)
