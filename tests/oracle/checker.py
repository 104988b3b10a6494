"""Runs of chicheck, which CHICHECK names, from the top of the repository."""

import os
import subprocess

CHECKER = os.environ.get("CHICHECK", "crates/chi_check/out/chi_check")


def run(words, text):
    """Returns the status and the output, with what stood on standard error."""
    ran = subprocess.run([CHECKER, *words], input=text.encode(), capture_output=True, timeout=60)
    return ran.returncode, (ran.stdout + ran.stderr).decode()
