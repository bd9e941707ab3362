"""What the C headers define themselves: names of answers, FTCom's names of them, and the node that these work on. Small programs run on this machine."""

import re
import subprocess
import tempfile
import unittest
from pathlib import Path

INCLUDE = Path(__file__).resolve().parents[2] / "include"

NAMES = """
#include <stdio.h>
#include "mondgurt.h"
int main(void)
{
    uint32_t k;
    for (k = 0; k < 256; k++)
        printf("%s %s\\n", mondgurt_answer_name((uint8_t)k), mondgurt_refusal_name(k));
    printf("%s\\n", mondgurt_refusal_name(0xFFFF0A));
    printf("%s\\n", mondgurt_refusal_name(256));
    return 0;
}
"""

# The library's calls are replaced by ones that print the node they are on and what they were given.
CALLS = """
#include <stdio.h>
#include "mondgurt.h"
static mondgurt_node front, rear;
static mondgurt_node *chosen = &front;
#define TT_NODE chosen
#include "ttcom.h"
static uint8_t on(const mondgurt_node *node, const char *call, int number)
{
    printf("%s %s %d\\n", node == &front ? "front" : node == &rear ? "rear" : "neither", call, number);
    return 0;
}
uint8_t mondgurt_send(mondgurt_node *node, uint64_t message, int64_t value) { return on(node, "send", (int)message + (int)value); }
uint8_t mondgurt_receive(const mondgurt_node *node, uint64_t message, int64_t *value) { *value = 5; return on(node, "receive", (int)message); }
uint8_t mondgurt_invalidate(mondgurt_node *node, uint64_t message) { return on(node, "invalidate", (int)message); }
uint8_t mondgurt_read_flag(const mondgurt_node *node, uint64_t message, uint8_t *flag) { *flag = 1; return on(node, "read_flag", (int)message); }
int main(void)
{
    const ttAccessNameType sent = 40;
    ttAccessNameType got;
    ttFlagStatusType flag;
    ttSendMessage(2, &sent);
    chosen = &rear;
    ttReceiveMessage(3, &got);
    ttInvalidateMessage(4);
    ttReadFlag(5, &flag);
    return got == 5 && flag == TT_FLAG_SET ? 0 : 1;
}
"""

FTCOM = "OK ID ACCESS VALUE NOFUNC RDA_FAILED MSG_NOT_RECEIVED MSG_INVALIDATED".split()
CODES = """
#include <stdio.h>
#include "ttcom.h"
int main(void)
{
%s    return 0;
}
"""


class Headers(unittest.TestCase):
    def run_c(self, program: str, standard: str) -> list[str]:
        """The lines that a program prints."""
        with tempfile.TemporaryDirectory() as folder:
            built = str(Path(folder) / "program")
            strict = [f"-std={standard}", "-pedantic", "-Wall", "-Wextra", "-Werror"]
            subprocess.run(["cc", *strict, "-I", str(INCLUDE), "-x", "c", "-", "-o", built], input=program, text=True, check=True)
            return subprocess.run([built], stdout=subprocess.PIPE, text=True, check=True).stdout.splitlines()

    def test_names(self) -> None:
        # Every number that an answer or a refusal has in the header is told by its own name there, and every other one as unknown.
        header = (INCLUDE / "mondgurt.h").read_text()
        of_calls, of_loads = header.split("/* Layout refusals. */")
        answers, refusals = (
            {int(number): name for name, number in re.findall(r"^#define MONDGURT_(\w+) (\d+) +/\*", part, re.MULTILINE)}
            for part in (of_calls.split("/* Answers.")[1], of_loads)
        )
        self.assertEqual([0, *range(16, 24)], sorted(answers))
        self.assertEqual([*range(1, 11)], sorted(refusals))
        refusals[0] = "OK"
        named = [f"{answers.get(k, 'UNKNOWN')} {refusals.get(k, 'UNKNOWN')}" for k in range(256)]
        self.assertEqual(named + ["WIDTH", "UNKNOWN"], self.run_c(NAMES, "c89"))

    def test_ftcom_codes(self) -> None:
        equal = [f"TT_E_FTCOM_{name} == MONDGURT_{name.replace('MSG_', '')}" for name in FTCOM]
        equal += ["TT_FLAG_CLEARED == 0", "TT_FLAG_SET == 1"]
        prints = "".join(f'    puts({both} ? "{both}" : "not so");\n' for both in equal)
        self.assertEqual(equal, self.run_c(CODES % prints, "c89"))

    def test_chosen_node(self) -> None:
        expected = ["front send 42", "rear receive 3", "rear invalidate 4", "rear read_flag 5"]
        for standard in ("c89", "c99"):
            self.assertEqual(expected, self.run_c(CALLS, standard))


if __name__ == "__main__":
    unittest.main()
