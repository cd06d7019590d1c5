"""Runs a program once and prints its processor time, its own and the kernel's for it: python3 bench/spent.py PROGRAM WORD .."""
import resource
import subprocess
import sys

subprocess.run(sys.argv[1:], check=True)
used = resource.getrusage(resource.RUSAGE_CHILDREN)
print(f"{used.ru_utime:.3f} s of its own and {used.ru_stime:.3f} s of the kernel")
