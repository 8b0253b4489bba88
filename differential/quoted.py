#!/usr/bin/env python3
"""What the documents quote: hex lines with their answers, and the example of README.md:  quoted.py

docs/HEX-LINES.md, session/README.md, docs/DIFFERENCES.md and docs/HANDOVER.md quote the fixed sample (crates/nas_hex/stdin and stdout),
which the gate runs: sample.py takes the lines from them. This compares the answers that they show with the sample's.
A quoted line stands alone in an indented block; `$ COMMAND` is a line too long to show, as the command that prints it;
`Rust: ANSWER` is what the Rust text answers, where it differs. The example of README.md stands in crates/example.
"""
import os
import subprocess
import sys

ROOT = os.path.join(os.path.dirname(os.path.abspath(__file__)), "..")
PAGES = ("docs/HEX-LINES.md", "session/README.md", "docs/DIFFERENCES.md", "docs/HANDOVER.md")


def printed(command):
    return subprocess.run(["sh", "-c", command], capture_output=True, text=True, check=True).stdout.rstrip("\n")


def pairs(page):
    """The lines of a page in order, each with the answer under it."""
    with open(os.path.join(ROOT, page), encoding="utf-8") as text:
        block = [line[4:].rstrip("\n") for line in text if line.startswith("    ")]
    shown = [line for line in block if not line.startswith("Rust: ")]
    if len(shown) % 2:
        sys.exit(f"{page}: a quoted line has no answer")
    for line, answer in zip(shown[::2], shown[1::2]):
        yield (printed(line[2:]) if line.startswith("$ ") else line), answer


def example_is_quoted():
    with open(os.path.join(ROOT, "README.md"), encoding="utf-8") as page:
        block = page.read().split("```rust\n")[1].split("```")[0]
    with open(os.path.join(ROOT, "crates/example/src/main.rt"), encoding="utf-8") as source:
        return block in source.read()


def main():
    if not example_is_quoted():
        sys.exit("README.md: its example does not stand in crates/example/src/main.rt")
    with open(os.path.join(ROOT, "crates/nas_hex/stdin"), encoding="latin-1", newline="\n") as lines:
        with open(os.path.join(ROOT, "crates/nas_hex/stdout"), encoding="latin-1", newline="\n") as answers:
            sample = list(zip(lines.read().split("\n"), answers.read().split("\n")))
    count = 0
    for page in PAGES:
        quotes = list(pairs(page))
        places = [i for i in range(len(sample)) if sample[i:i + len(quotes)] == quotes]
        if not places:
            sys.exit(f"{page}: its lines do not stand in the sample with the answers that it shows")
        count += len(quotes)
    print(f"{count} quoted lines stand in the sample with their answers, and README.md's example in crates/example")


if __name__ == "__main__":
    main()
