"""The scripts where nothing is built and nothing installed: each says in words what is missing."""

import os
import platform
import shutil
import subprocess
import sys
import tempfile
import unittest
from pathlib import Path

ROOT = Path(__file__).resolve().parents[2]

# What every machine has. Neither the kit nor a compiler is among them, nor what installs one.
EVERYWHERE = "awk basename bash cat chmod cmp cp cut dirname env grep id ln mkdir mktemp od readlink rm sed sh sort tee tr uname".split()

NATIVE = platform.machine() == "x86_64"
COMPILER = "cc" if NATIVE else "x86_64-linux-gnu-gcc"
SETUP = "tools/setup installs it or says where to get it"
LIST = "crates/list/out/list; `cd crates/list && rt run </dev/null` makes it"
PACKAGES = [("cc, a C compiler, with a C library", "gcc libc6-dev"), ("c++, a C++ compiler", "g++")]


class Scripts(unittest.TestCase):
    def setUp(self) -> None:
        folder = tempfile.TemporaryDirectory()
        self.addCleanup(folder.cleanup)
        self.root = Path(folder.name) / "repository"
        self.path = Path(folder.name) / "path"
        self.path.mkdir()
        for name in EVERYWHERE:
            (self.path / name).symlink_to(shutil.which(name))
        (self.path / "python3").symlink_to(sys.executable)
        for name in ("tools", "speed", "include", "samples", "crates", ".ci"):
            shutil.copytree(ROOT / name, self.root / name, ignore=shutil.ignore_patterns("__pycache__", "proofs", "specs", "out"))

    def install(self, *names: str) -> None:
        """Put commands on the path that do nothing."""
        for name in names:
            self.write(name, "")

    def write(self, name: str, body: str) -> None:
        """Put a command on the path."""
        command = self.path / name
        command.unlink(missing_ok=True)
        command.write_text(f"#!/bin/sh\n{body}\n")
        command.chmod(0o755)

    def write_program(self, name: str, machine: bytes) -> None:
        """Write the beginning of a program for a machine."""
        (self.root / name).write_bytes(b"\x7fELF" + bytes(14) + machine)

    def run_script(self, *command: str) -> tuple[int, str, str]:
        environment = {**os.environ, "PATH": str(self.path)}
        done = subprocess.run(command, cwd=self.root, env=environment, stdin=subprocess.DEVNULL, capture_output=True, text=True, timeout=60)
        return done.returncode, done.stdout, done.stderr

    def assert_missing(self, words: str, *command: str) -> None:
        with self.subTest(command=command):
            self.assertEqual((1, "", f"{command[0]}: {words}\n"), self.run_script(*command))

    def test_no_kit(self) -> None:
        self.install("gcc", "nm", "objcopy")
        words = f"there is no rt on the path; {SETUP}"
        for script in ("tools/module", "tools/threads", "speed/run", "speed/twin"):
            self.assert_missing(words, script)
        self.assert_missing(words, "tools/archive", "aarch64-linux")
        self.assert_missing("there is no rt on the path; tools/setup says where to get it", "tools/controls")
        self.write_program("program", b"\x3e\x00")
        if not NATIVE:
            self.assert_missing(words, "tools/run", "program")

    def test_kit_without_a_toolchain(self) -> None:
        # The kit is the folder above that of rt.
        self.install("rt")
        self.assert_missing(f"the Rattle kit in {self.path.parent.resolve()} has no folder toolchain", "tools/module")

    def test_no_emulator(self) -> None:
        # Another machine runs a program for x86-64 by qemu and the kit's C library.
        self.install("rt")
        (self.path.parent / "toolchain").mkdir()
        self.write("uname", "echo aarch64")
        self.write_program("program", b"\x3e\x00")
        self.assert_missing("there is no qemu-x86_64 on the path; in Debian it is in qemu-user", "tools/run", "program")

    def test_no_commands(self) -> None:
        self.assert_missing(f"there is no {COMPILER} on the path; {SETUP}", "tools/cc", "program.c")
        cross = "in Debian it is in gcc-riscv64-linux-gnu, with its C library in libc6-dev-riscv64-cross"
        self.assert_missing(f"there is no riscv64-linux-gnu-gcc on the path; {cross}", "tools/cc", "--target", "riscv64-linux", "program.c")
        self.assert_missing("there is no nm on the path; in Debian it is in binutils", "tools/contents", "libmondgurt.a")
        self.assert_missing("there is no gcc on the path; in Debian it is in gcc", "speed/count")

    def test_no_build(self) -> None:
        self.install(COMPILER, "riscv64-linux-gnu-gcc", "nm", "size", "gcc", "valgrind")
        self.assert_missing("there is no crates/mondgurt/out/libmondgurt.a; `cd crates/mondgurt && rt lib --cpu x86-64` makes it", "tools/cc", "program.c")
        archive = "there is no target/archive/riscv64-linux/libmondgurt.a; `tools/archive riscv64-linux` makes it"
        self.assert_missing(archive, "tools/cc", "--target", "riscv64-linux", "program.c")
        self.assert_missing("a target is missing after --target; tools/archive lists them", "tools/cc", "--target")
        self.assert_missing(f"there is no {LIST}", "tools/list")
        self.assert_missing("there is no program target/two_channels", "tools/run", "target/two_channels")
        self.assert_missing("there is no program to run", "tools/run")
        self.assert_missing("there is no archive libmondgurt.a", "tools/contents", "libmondgurt.a")
        target = f"{platform.machine()}-linux"
        self.assert_missing(f"there is no target/archive/{target}/libmondgurt.a; `tools/archive {target}` makes it", "speed/count")
        self.assert_missing("there is no target/archive/x86_64-none/mondgurt.su; `tools/archive x86_64-none` makes it", "speed/stack", "x86_64-none")
        self.assert_missing("name one or more targets; tools/archive lists them", "speed/stack")

    def test_wrong_target(self) -> None:
        words = "there is no target moon; tools/archive lists them"
        self.assert_missing(words, "tools/cc", "--target", "moon", "program.c")
        self.assert_missing(words, "speed/stack", "x86_64-none", "moon")
        words = "it makes programs for Linux; docs/TARGETS.md says how one without an operating system is linked"
        self.assert_missing(words, "tools/cc", "--target", "aarch64-none", "program.c")

    def test_stack(self) -> None:
        for target, functions in (("riscv64-none", {"load": 1360, "send": 64}), ("x86_64-none", {"load": 1336, "close": 248})):
            folder = self.root / "target/archive" / target
            folder.mkdir(parents=True)
            (folder / "mondgurt.su").write_text("".join(f"module.ll:{name}\t{taken}\tstatic\n" for name, taken in functions.items()))
        table = "| Function | x86_64-none | riscv64-none |\n|---|---|---|\n| `load` | 1336 | 1360 |\n| `close` | 248 | - |\n| `send` | - | 64 |\n"
        self.assertEqual((0, table, ""), self.run_script("speed/stack", "x86_64-none", "riscv64-none"))

    def test_program_for_another_machine(self) -> None:
        self.write_program("program", b"\xb7\x00")
        self.assert_missing("program is not a program for x86-64; one for this machine is run by its own name", "tools/run", "program")

    def test_setup(self) -> None:
        # Without apt-get nothing is installed: each thing has its line.
        lacking = ["rt", "cc", *([] if NATIVE else [COMPILER]), "gcc", "c++", "cargo"]
        for script in ("tools/setup", ".ci/run"):
            status, printed, told = self.run_script(script)
            self.assertEqual((1, ""), (status, printed))
            self.assertEqual(lacking, [line.split(",")[0].split()[-1] for line in told.splitlines()])
            self.assertTrue(all(line.startswith("tools/setup: there is no ") for line in told.splitlines()))
        status, printed, told = self.run_script("tools/demo")
        self.assertEqual((1, "", len(lacking) - 3), (status, printed, len(told.splitlines())))

    def test_setup_without_python(self) -> None:
        self.install("rt", "cc", "x86_64-linux-gnu-gcc", "gcc", "nm", "c++", "cargo")
        self.write("python3", "exit 1")
        for part in ("gate", "demo"):
            self.assert_missing("there is no python3, version 3.9 or later; as root, in Debian: apt-get install python3", "tools/setup", part)

    def test_setup_installs(self) -> None:
        # As root apt-get is asked for what Debian has, and what is missing then is told. Another user is told all.
        self.install("cargo", "x86_64-linux-gnu-gcc", "gcc", "nm")
        self.write("apt-get", f'echo "$@" >>{self.path}/asked\ncase $2 in install) cp {self.path}/cargo {self.path}/cc ;; esac')
        rt = "tools/setup: there is no rt, the program of the Rattle kit: put the folder bin of the kit on the path\n"
        c, cpp = (f"tools/setup: there is no {what}; as root, in Debian: apt-get install {packages}\n" for what, packages in PACKAGES)
        self.write("id", "echo 1000")
        self.assertEqual((1, "", rt + c + cpp), self.run_script("tools/setup"))
        self.assertFalse((self.path / "asked").exists())
        self.write("id", "echo 0")
        self.assertEqual((1, "", f"tools/setup: installing gcc libc6-dev g++\n{rt}{cpp}"), self.run_script("tools/setup"))
        self.assertEqual("-qq update\n-qq install -y gcc libc6-dev g++\n", (self.path / "asked").read_text())
        self.install("rt")
        self.assertEqual((0, "", ""), self.run_script("tools/setup", "demo"))

    def test_demo_fails(self) -> None:
        self.install("rt", "cc", "x86_64-linux-gnu-gcc")
        status, printed, told = self.run_script("tools/demo")
        self.assertEqual(1, status)
        self.assertEqual(f"tools/list: there is no {LIST}", told.splitlines()[0])
        self.assertRegex(told.splitlines()[-1], "^tools/demo: failed: listing .*; the log is target/demo.log$")
        self.assertNotIn("it worked", printed)


if __name__ == "__main__":
    unittest.main()
