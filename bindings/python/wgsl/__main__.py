"""`python -m wgsl`: answers requests, and prints the layouts of a WGSL file."""
from __future__ import annotations

import argparse
import io
import json
import sys

try:
    from . import __version__
    from .requests import RULES, Refused, Unreadable, answer
    from .source import source_layout
except ImportError as wrong:
    sys.exit(f"wgsl: {wrong}")

NOTHING = "no words"  # what is told of a blank line, or of a comment


def read_arguments() -> argparse.Namespace:
    parser = argparse.ArgumentParser(
        prog="python -m wgsl",
        description="Answers each line of standard input, as `wgsl ask` and wgsl_check do. With --json and a "
        "file it prints the layouts of the structs of that WGSL file instead; - is standard input.",
        epilog="Exit status: 0, or 1 if there is an error or a finding in the file, 2 if a line or the file can't be read, 3 if "
        "memory ran out.",
    )
    parser.add_argument("--version", action="version", version=f"wgsl {__version__}")
    parser.add_argument("--rules", choices=list(RULES), default="wgsl", help="whose rules answer: WGSL's own or those of wgsl-types")
    parser.add_argument("--json", metavar="FILE", help="the layouts as JSON")
    return parser.parse_args()


def answer_lines(rules: str) -> int:
    """Prints the answer to each line, and returns the exit status."""
    status = 0
    for number, line in enumerate(sys.stdin, 1):
        request = line[:-1] if line.endswith("\n") else line
        try:
            print(answer(request, rules))
        except Refused as refused:
            print(refused)
        except Unreadable as unreadable:
            if str(unreadable) == NOTHING:
                continue
            print(f"bad line {number}")
            print(f"line {number}: {unreadable}", file=sys.stderr)
            status = 2
    return status


def print_layouts(name: str) -> int:
    """Prints the layouts of a file, says what is wrong with the file, and returns the exit status."""
    with open(sys.stdin.fileno() if name == "-" else name, "rb") as file:
        told = source_layout(file.read())
    print(json.dumps(told, ensure_ascii=False, indent=2))
    faults = [(kind, fault) for kind in ("error", "finding") for fault in told[f"{kind}s"]]
    for kind, fault in faults:
        print(f"{name}:{fault['line']}:{fault['column']}: {kind}: {fault['message']}", file=sys.stderr)
    return 1 if faults else 0


def main() -> int:
    arguments = read_arguments()
    for stream in (sys.stdin, sys.stdout):
        # What is no UTF-8 passes as it is, and so do ends of lines.
        if isinstance(stream, io.TextIOWrapper):
            stream.reconfigure(encoding="utf-8", errors="surrogateescape", newline="\n")
    try:
        return answer_lines(arguments.rules) if arguments.json is None else print_layouts(arguments.json)
    except OSError as wrong:
        print(f"wgsl: {wrong}", file=sys.stderr)
        return 2
    except MemoryError:
        return 3


if __name__ == "__main__":
    sys.exit(main())
