"""Runs every command that README.md and docs/manual.md show after a `$`, and the lines of JavaScript of docs/api.md, and compares
what each prints with the lines below it; and the lines of Rattle of docs/api.md with those of the crate `caller`.

    python3 -m tests.docs.readme

It needs the built programs and libraries, and node. What is wrong is printed, and the exit status is then 1.
"""

import re
import subprocess
import sys
from pathlib import Path

ROOT = Path(__file__).parents[2]
DOCUMENTS = (ROOT / "README.md", ROOT / "docs" / "manual.md")
API = ROOT / "docs" / "api.md"
CALLER = ROOT / "crates" / "caller" / "src" / "lib.rt"
BLOCK = "    "
RUN_SECONDS = 60


def commands(text):
    """Each command shown, and the lines shown under it."""
    found, open_block = [], False
    for line in text.split("\n"):
        if line.startswith(BLOCK + "$ "):
            found.append([line[len(BLOCK) + 2:], ""])
        elif line.startswith(BLOCK) and open_block:
            found[-1][1] += line[len(BLOCK):] + "\n"
        open_block = line.startswith(BLOCK + "$ ") or open_block and line.startswith(BLOCK)
    return [tuple(command) for command in found]


def printed(command):
    done = subprocess.run(["sh", "-c", command], cwd=ROOT, capture_output=True, timeout=RUN_SECONDS, text=True)
    return done.stdout


def rattle_lines(text):
    """The blocks of Rattle shown."""
    return re.findall(r"^```rust\n(.*?)^```$", text, flags=re.MULTILINE | re.DOTALL)


def judge(text, run):
    """What is wrong with a document, where commands are run so."""
    shown = commands(text)
    wrong = [] if shown else ["no command is shown"]
    return wrong + [f"another text is printed: {command}" for command, lines in shown if run(command) != lines]


def judge_rattle(text, caller):
    """What is wrong with the lines of Rattle, where the crate `caller` has this text."""
    rattle = rattle_lines(text)
    return [] if len(rattle) == 1 and rattle[0] in caller else ["the lines of Rattle are not those of the crate caller"]


def javascript(text):
    """The lines of JavaScript shown, and what they print."""
    found = re.findall(r"^```js\n(.*?)^```\n\nIt prints:\n\n((?:    [^\n]*\n)+)", text, flags=re.MULTILINE | re.DOTALL)
    return [(program, re.sub(f"^{BLOCK}", "", lines, flags=re.MULTILINE)) for program, lines in found]


def printed_by_node(program):
    done = subprocess.run(["node", "--input-type=module", "-"], cwd=ROOT, capture_output=True, input=program, timeout=RUN_SECONDS, text=True)
    return done.stdout + done.stderr


def judge_javascript(text, run):
    """What is wrong with the lines of JavaScript, where they are run so."""
    shown = javascript(text)
    return [] if len(shown) == 1 and run(shown[0][0]) == shown[0][1] else ["the lines of JavaScript print something else"]


def main():
    api = API.read_text(encoding="utf-8")
    count, wrong = 0, judge_rattle(api, CALLER.read_text(encoding="utf-8")) + judge_javascript(api, printed_by_node)
    for document in DOCUMENTS:
        text = document.read_text(encoding="utf-8")
        count += len(commands(text))
        wrong += [f"{document.name}: {complaint}" for complaint in judge(text, printed)]
    for complaint in wrong:
        print(f"docs: {complaint}")
    if not wrong:
        print(f"docs: {count} commands and the lines of JavaScript print what is shown")
    return 1 if wrong else 0


if __name__ == "__main__":
    sys.exit(main())
