"""Runs a built test once for each allocation that is refused, alone and with all later ones. Needs cc."""
import os
import subprocess
import tempfile
from pathlib import Path

HERE = Path(__file__).resolve().parent


def runs(program: str, test: str) -> list:
    """Each run of the test, the first without a fault: the fault, the exit status, and what it printed."""
    with tempfile.TemporaryDirectory() as work:
        library, counts = Path(work) / "faults.so", Path(work) / "counts"
        subprocess.run(["cc", "-O2", "-shared", "-fPIC", "-o", library, HERE / "faults.c"], check=True)

        def run(**faults) -> tuple:
            env = {"PATH": os.environ["PATH"], "LD_PRELOAD": str(library), "COUNTS": str(counts)}
            env |= {name: str(value) for name, value in faults.items()}
            done = subprocess.run([program, test], capture_output=True, env=env, timeout=60)
            return faults, done.returncode, done.stdout + done.stderr

        first = run()
        allocations = int(counts.read_text().split()[0])
        faults = [{"FAIL_ALLOC": n} | on for n in range(1, allocations + 1) for on in ({}, {"FAIL_ON": 1})]
        return [first, *(run(**fault) for fault in faults)]
