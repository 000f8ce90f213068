"""A shard: an engine of the library for some of the keys, as an actor of Dask."""

import os
import subprocess
import sys
from bisect import bisect_left

sys.path.insert(0, os.path.join(os.path.dirname(os.path.abspath(__file__)), "..", "library"))
import core  # noqa: E402

BLOCKS_A_COMPACTION = 10


class Shard:
    """Answers the rules for its keys. Its calls come one after another.

    An engine counts the events that it took, and tells its answers by these positions. Here they are told
    by the events' numbers in the whole stream, the last value of each line. So the shard keeps, of the
    events that a later answer may reach, the positions and the lines.
    """

    def __init__(self, program, rules):
        self.program, self.rules = program, rules

    def open(self, blocks, lines):
        """Opens the engine over the lines that a checkpoint kept after so many blocks; at first over none.

        An engine stays on the thread that opened it. Dask makes an actor on one thread and calls it on
        another, always the same one; so a call opens the engine.
        """
        with open(self.rules, "rb") as file:
            self.engine = core.Engine(file.read())
        self.blocks, self.events, self.positions, self.lines = blocks, 0, [], []
        # The answers that end at these events were given before.
        self.answers(lines)

    def feed(self, number, block):
        """Takes the block of this number, from 0 in the shard's own stream, and gives its answers."""
        if number != self.blocks:
            raise RuntimeError(f"block {number} came, and {self.blocks} is the next")
        answers = self.answers(block)
        self.blocks += 1
        if self.blocks % BLOCKS_A_COMPACTION == 0:
            self.engine.compact()
        return answers

    def answers(self, block):
        lines = block.splitlines(keepends=True)
        self.positions.extend(range(self.events, self.events + len(lines)))
        self.lines.extend(lines)
        self.events += len(lines)
        return [self.answer_line(answer) for answer in self.engine.feed_bytes(block)]

    def answer_line(self, answer):
        """The answer as the program writes it over the whole stream."""
        marks = ",".join(str(self.number(position)) for position in answer.positions)
        return f"{answer.query} [{self.number(answer.start)},{self.number(answer.end)}] {{{marks}}}"

    def number(self, position):
        """The number in the whole stream of the event at this position."""
        line = self.lines[bisect_left(self.positions, position)]
        return int(line[line.rindex(b",") + 1 :])

    def checkpoint(self):
        """Gives what is to be kept outside of this process: how many blocks were taken, and the lines of
        the events that a later answer may reach. Of the others the shard forgets the lines.

        Which events these are is asked of the program's `save`, which is proved to keep exactly those in
        the window of the last event of some rule that reads them, and all that a rule without one reads.
        """
        words = [self.program, "save", self.rules, "/dev/stdin"]
        saved = subprocess.run(words, input=b"".join(self.lines), stdout=subprocess.PIPE, check=True).stdout
        # After the head's two lines come two for each event: `at N`, and its own.
        kept = [int(line[3:]) for line in saved.splitlines()[2::2]]
        self.positions, self.lines = [self.positions[at] for at in kept], [self.lines[at] for at in kept]
        return self.blocks, b"".join(self.lines)
