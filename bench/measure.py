#!/usr/bin/env python3
"""Runs a command under GNU time and prints its CPU seconds, its peak memory in MiB and its status, with a name before them and the last
line of its output behind them for the program. Usage: measure.py NAME COMMAND [ARGUMENT ..]"""
import subprocess
import sys

done = subprocess.run(["/usr/bin/time", "-q", "-f", "%U %S %M", *sys.argv[2:]], capture_output=True, text=True)
user, system, peak = done.stderr.strip().split("\n")[-1].split()
line = done.stdout.strip().split("\n")[-1] if sys.argv[1] == "tilebuild" else ""
print(f"{sys.argv[1]}: {float(user) + float(system):.2f} s of CPU, {int(peak) / 1024:.1f} MiB at most, status {done.returncode} {line}".rstrip())
