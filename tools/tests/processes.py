"""Programs of the repository while they run, as Linux shows them."""

import os
import signal
import time
from pathlib import Path


def state_of(program: str, group: int) -> str:
    """The state of a program in a process group, as Linux tells it: S while it waits, T while it is stopped; nothing before it runs."""
    for process in Path("/proc").glob("[0-9]*"):
        try:
            if os.readlink(process / "exe").endswith(f"crates/{program}/out/{program}") and os.getpgid(int(process.name)) == group:
                return (process / "stat").read_text().rpartition(")")[2].split()[0]
        except OSError:  # it has ended, or is not ours to see
            continue
    return ""


def await_state(program: str, group: int, state: str) -> None:
    until = time.monotonic() + 60
    while state_of(program, group) != state:
        if time.monotonic() > until:
            raise TimeoutError(f"{program} is not in state {state}")
        time.sleep(0.01)


def interrupt_read(program: str, group: int) -> None:
    """Stops the program where it waits, and lets it go on: this interrupts a read of a socket that has a time limit."""
    await_state(program, group, "S")
    os.killpg(group, signal.SIGSTOP)
    await_state(program, group, "T")
    os.killpg(group, signal.SIGCONT)
