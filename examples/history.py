#!/usr/bin/env python3
"""history.py JOURNAL OUTPUT: writes the history of a replay, as the job plant writes its own, so that an audit can judge it.

JOURNAL is what `pol --job replay` read, OUTPUT what it wrote. Each line that isn't blank has one answer; an event that a full
history refused isn't in the history, nor is a line that was no event. What follows the answers follows the entries.
"""
import json
import sys

HISTORY_FULL = 38


def is_entry(answer):
    told = json.loads(answer)
    return "bad" not in told and told.get("refused") != HISTORY_FULL


def main(journal, output):
    lines = [line for line in open(journal, "rb").read().split(b"\n") if line.strip(b" \t\r")]
    answers = [line for line in open(output, "rb").read().split(b"\n") if line]
    if len(answers) <= len(lines):
        sys.exit("history.py: this is not the whole output of that journal")
    left_out = sum(not is_entry(answer) for answer in answers[:len(lines)])
    if left_out:
        print(f"history.py: {left_out} lines were no event, or too many, and aren't in the history", file=sys.stderr)
    for line, answer in zip(lines, answers):
        if is_entry(answer):
            sys.stdout.buffer.write(b'{"answer":%s,"event":%s}\n' % (answer, line.strip(b" \t\r")))
    for line in answers[len(lines):]:
        sys.stdout.buffer.write(line + b"\n")


if __name__ == "__main__":
    main(*sys.argv[1:])
