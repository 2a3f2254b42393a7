"""Counts the instructions of a program by valgrind, so that a busy machine counts as a quiet one."""
import re
import subprocess
import sys


def count(words, given, program):
    """The instructions of a run of a program on these bytes."""
    command = ["valgrind", "--tool=callgrind", "--callgrind-out-file=/dev/null", program] + words
    done = subprocess.run(command, input=given, stdout=subprocess.DEVNULL, stderr=subprocess.PIPE)
    told = re.search(rb"Collected : (\d+)", done.stderr)
    if done.returncode != 0 or not told:
        sys.exit("%s ended with status %d: %s" % (" ".join(words[:4]), done.returncode, done.stderr.decode()[-300:]))
    return int(told.group(1))
