"""The archives for other processors, which `tools/archive all` writes: what is refused, what their code does without, and programs that link them."""

import os
import re
import shutil
import struct
import subprocess
import tempfile
import unittest
from pathlib import Path

ROOT = Path(__file__).resolve().parents[2]
ARCHIVES = ROOT / "target/archive"

REFUSED = [
    ("armv7-none", "it is a 32-bit target: its size_t has 4 bytes, and the module takes each length in 8"),
    ("riscv32-none", "it is a 32-bit target: its size_t has 4 bytes, and the module takes each length in 8"),
    ("avr-none", "it is a 16-bit target: its size_t has 2 bytes, and the module takes each length in 8"),
    ("s390x-linux", "it is big-endian, and the module is made for numbers whose lowest byte comes first"),
    ("aarch64_be-none", "it is big-endian, and the module is made for numbers whose lowest byte comes first"),
    ("wasm64", "it is none of those below"),
    ("moon-none", "the kit's compiler does not know it"),
    (".*", "the kit's compiler does not know it"),
    ("", "the kit's compiler does not know it"),
]

# For each processor of qemu's machine `virt` what the compiler takes, where its memory begins, and how it is started.
MACHINES = [
    ("aarch64", ["-mstrict-align"], "0x40080000", ["-cpu", "cortex-a53"]),
    ("riscv64", ["-march=rv64gc", "-mabi=lp64d", "-mcmodel=medany"], "0x80000000", ["-bios", "none"]),
]
SCRIPT = "SECTIONS { . = %s; .all : { *(.text.start) *(.text*) *(.rodata*) *(.data*) *(.bss*) } }"
MEAN = "42F0AAAB"  # 120.33333, the mean of 120.5, 121 and 119.5


def run(*command: object) -> str:
    """What a command prints; it must succeed."""
    return subprocess.run([str(word) for word in command], cwd=ROOT, check=True, stdout=subprocess.PIPE, text=True, timeout=60).stdout


TOOLCHAIN = Path(run("sh", "-c", '. tools/need.sh; need_kit; echo "$toolchain"', "tools/test").strip(), "bin")


def stack(target: str, function: str) -> int:
    """The bytes of stack that a function takes, as the compiler says it."""
    [taken] = re.findall(rf":{function}\t(\d+)\t", (ARCHIVES / target / "mondgurt.su").read_text())
    return int(taken)


def is_unaligned(instruction: int) -> bool:
    """Whether an instruction of 64-bit Arm is a load or a store (LDUR, STUR) whose offset is no multiple of its size."""
    size = 4 if instruction >> 23 & 9 == 9 else instruction >> 30
    return instruction & 0x3B200C00 == 0x38000000 and (instruction >> 12) % (1 << size) > 0


class Archive(unittest.TestCase):
    def test_targets(self) -> None:
        done = subprocess.run([ROOT / "tools/archive"], capture_output=True, text=True)
        self.assertEqual((2, ""), (done.returncode, done.stdout))
        listed = re.findall(r"^  (\S+)  +\S", done.stderr, re.MULTILINE)
        self.assertEqual(sorted(listed), sorted(path.name for path in ARCHIVES.iterdir()))

    def test_refused(self) -> None:
        for target, why in REFUSED:
            with self.subTest(target=target):
                done = subprocess.run([ROOT / "tools/archive", target], capture_output=True, text=True)
                self.assertEqual((2, ""), (done.returncode, done.stdout))
                self.assertEqual(f"tools/archive: no archive is made for {target}: {why} (docs/TARGETS.md)", done.stderr.splitlines()[0])

    def test_no_red_zone(self) -> None:
        module = (ARCHIVES / "x86_64-none/module.ll").read_text()
        attributes = set(re.findall(r"^define .* (\S+) \{$", module, re.MULTILINE))
        self.assertEqual(attributes, set(re.findall(r"^attributes (#\d+) = \{.* noredzone ", module, re.MULTILINE)))
        # What lies in the red zone elsewhere lies on the stack here.
        self.assertLess(stack("x86_64-linux", "mondgurt_assemble"), stack("x86_64-none", "mondgurt_assemble"))

    def test_operations_on_floats(self) -> None:
        # An addition, a division, -0 as a constant, and a comparison of a float with itself: no difference, which of two infinities is a NaN.
        module = (ARCHIVES / "x86_64-linux/module.ll").read_text()
        operations = re.findall(r"= (f(?:add|sub|mul|div|rem|neg|cmp)) ", module)
        self.assertEqual(["fadd", "fcmp", "fdiv", "fneg"], sorted(operations))
        self.assertIn("= fneg float 0.0", module)
        fence = r"(%\w+) = call float @llvm\.arithmetic\.fence\.f32"
        self.assertRegex(module, rf"{fence}\(float (%\w+)\)\s+{fence}\(float \2\)\s+%\w+ = fcmp une float \1, \3\n")

    def test_no_unaligned_access(self) -> None:
        with tempfile.TemporaryDirectory() as name:
            script, code = Path(name, "script"), Path(name, "code")
            script.write_text(SCRIPT % 0)
            unaligned = {}
            for target in ("aarch64-linux", "aarch64-none"):
                options = ["--oformat", "binary", "--unresolved-symbols=ignore-all", "-T", script]
                run(TOOLCHAIN / "ld.lld", *options, ARCHIVES / target / "mondgurt.o", "-o", code)
                # The constants lie behind the code, and may end within a word.
                read = code.read_bytes()
                words = struct.iter_unpack("<I", read[: len(read) // 4 * 4])
                unaligned[target] = sum(is_unaligned(word) for (word,) in words)
        self.assertGreater(unaligned["aarch64-linux"], 0)
        self.assertEqual(0, unaligned["aarch64-none"])

    def test_answers_cross_as_in_c(self) -> None:
        # A byte or a word is widened by the callee where the C compiler takes that for granted.
        # For x86-64 clang says so of a byte, but its callers widen it themselves.
        functions = "unsigned char byte(void) { return 0; } unsigned word(void) { return 0; }"
        for target in ("aarch64-linux", "aarch64-none", "riscv64-linux", "riscv64-none"):
            with self.subTest(target=target):
                flags = [f"--target={target}", "-S", "-emit-llvm", "-x", "c", "-o", "-", "-"]
                text = subprocess.run([TOOLCHAIN / "clang", *flags], input=functions, check=True, stdout=subprocess.PIPE, text=True).stdout
                expected = {width: "ext" in line for line, width in re.findall(r"^define (.*)(i\d+) @", text, re.MULTILINE)}
                module = (ARCHIVES / target / "module.ll").read_text()
                answers = re.findall(r"^define noundef (\w+ )?(i\d+) @mondgurt_", module, re.MULTILINE)
                self.assertEqual(9, len(answers))
                for widened, width in answers:
                    self.assertEqual(expected[width], widened in ("zeroext ", "signext "))

    def test_without_an_operating_system(self) -> None:
        with tempfile.TemporaryDirectory() as name:
            folder = Path(name)
            headers = run("cc", "-print-file-name=include").strip()
            for processor, flags, origin, options in MACHINES:
                with self.subTest(processor=processor):
                    layout = '-DLAYOUT="samples/strain.layout"'
                    words = [*flags, "-O1", "-Wall", "-Wextra", "-Werror", "-ffreestanding", "-nostdlibinc", "-isystem", headers, "-I", "include"]
                    run(TOOLCHAIN / "clang", f"--target={processor}-none-elf", *words, layout, "-c", "tools/tests/bare.c", "-o", folder / "bare.o")
                    (folder / "script").write_text(SCRIPT % origin)
                    archive = ARCHIVES / f"{processor}-none/libmondgurt.a"
                    run(TOOLCHAIN / "ld.lld", "-T", folder / "script", folder / "bare.o", archive, "-o", folder / processor)
                    emulator = shutil.which(f"qemu-system-{processor}")
                    if emulator:
                        machine = ["-M", "virt", *options, "-nographic", "-nic", "none"]
                        self.assertEqual(MEAN, run(emulator, *machine, "-kernel", folder / processor).strip())


class Contents(unittest.TestCase):
    """What tools/contents says of an archive."""

    def setUp(self) -> None:
        folder = tempfile.TemporaryDirectory()
        self.addCleanup(folder.cleanup)
        self.folder = Path(folder.name)
        self.archive = self.folder / "libmondgurt.a"

    def make(self, more: str) -> None:
        """Make an archive that defines what the header declares, and more."""
        declared = re.findall(r"^\w+ (mondgurt_\w+)\(", (ROOT / "include/mondgurt.h").read_text(), re.MULTILINE)
        source, made = self.folder / "a.c", self.folder / "a.o"
        source.write_text("".join(f"void {name}(void) {{ }}\n" for name in declared) + more)
        run(TOOLCHAIN / "clang", "--target=aarch64-none-elf", "-c", source, "-o", made)
        run(TOOLCHAIN / "llvm-ar", "rcs", self.archive, made)

    def look(self, archive: Path, *needed: str) -> tuple[int, str, str]:
        path = f"{self.folder}:{os.environ['PATH']}"
        done = subprocess.run([ROOT / "tools/contents", archive, *needed], env={**os.environ, "PATH": path}, capture_output=True, text=True)
        return done.returncode, done.stdout, done.stderr

    def test_needed(self) -> None:
        archive = ARCHIVES / "aarch64-linux/libmondgurt.a"
        status, printed, told = self.look(archive, "memset")
        self.assertEqual((0, ""), (status, told))
        self.assertRegex(printed, r": \d+ bytes of code, \d+ of constants, no data\n$")
        self.assertEqual((1, "", f"{archive}: it may need (<), and it has (>):\n< memcpy\n> memset\n"), self.look(archive, "memcpy"))

    def test_wrong(self) -> None:
        self.make("")
        self.assertEqual(0, self.look(self.archive)[0])
        for more, told in (
            ("static char kept[5] __attribute__((used));", r": it keeps 5 bytes of data\n$"),
            ("static char kept[5] __attribute__((used)) = {1};", r": it keeps 5 bytes of data\n$"),
            ("void stray(void) { }", r"\n> stray\n$"),
            ("__attribute__((weak)) void stray(void) { }", r"\bstray\b"),
        ):
            with self.subTest(more=more):
                self.make(more)
                status, printed, words = self.look(self.archive)
                self.assertEqual((1, ""), (status, printed))
                self.assertRegex(words, told)

    def test_size_fails(self) -> None:
        self.make("")
        for body in ("exit 1", "exit 0"):
            with self.subTest(body=body):
                size = self.folder / "size"
                size.write_text(f"#!/bin/sh\n{body}\n")
                size.chmod(0o755)
                status, printed, told = self.look(self.archive)
                self.assertEqual((1, ""), (status, printed))
                self.assertIn("size finds no code in it", told)


if __name__ == "__main__":
    unittest.main()
