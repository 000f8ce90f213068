"""Answers a query text over a file of events, a line an answer: bank.py [--many] QUERIES EVENTS.

With --many it feeds many lines a call, and else a line a call.
"""

import sys

import core


def main(queries, events, many=False):
    with open(queries, "rb") as file:
        text = file.read()
    try:
        with core.Engine(text) as engine, open(events, "rb") as lines:
            for answer in engine.feed_bytes(lines.read()) if many else engine.feed_lines(lines):
                print(f"{answer.query} [{answer.start},{answer.end}] {{{','.join(map(str, answer.positions))}}}")
    except core.Refused as refused:
        sys.exit(refused.words)


if __name__ == "__main__":
    words = sys.argv[1:]
    main(*words[-2:], many=words[0] == "--many")
