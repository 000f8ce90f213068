"""What sends a shard its blocks and takes its answers, and goes on where the shard's worker is gone."""

import os
import signal

import shard

BLOCKS_A_CHECKPOINT = 5
SECONDS = 60


class Sender:
    """The sender of one shard.

    It keeps what a log that stays, as Kafka's, would keep for the shard: the last checkpoint, which says
    how many blocks it covers, and all blocks from there on.
    """

    def __init__(self, client, made_of, blocks, workers):
        """The engine is made of the program and the rules, at the first of the workers that is there."""
        self.client, self.made_of, self.blocks, self.workers = client, made_of, list(blocks), list(workers)
        self.saved, self.answers, self.since, self.again, self.losses = (0, b""), [], set(), 0, []
        # Where this sender is to kill a worker: at which block, and its process.
        self.kills = None
        self.place()

    def place(self):
        """Makes the shard's engine, over what the last checkpoint kept."""
        where = dict(actor=True, workers=self.workers[:1], pure=False)
        self.shard = self.client.submit(shard.Shard, *self.made_of, **where).result(SECONDS)
        self.sent, lines = self.saved
        self.shard.open(self.sent, lines).result(SECONDS)

    def send_all(self, checkpoints):
        """Sends the blocks to the last. One at a time is under way, so they come in their order."""
        while self.sent < len(self.blocks):
            try:
                under_way = self.shard.feed(self.sent, self.blocks[self.sent])
                if self.kills and self.kills[0] == self.sent:
                    os.kill(self.kills[1], signal.SIGKILL)
                    self.kills = None
                self.take(under_way.result(SECONDS))
                self.sent += 1
                if checkpoints and self.sent % BLOCKS_A_CHECKPOINT == 0:
                    self.save()
            except (OSError, ValueError):
                # So Dask says that a worker is gone. What came since the checkpoint comes again elsewhere.
                self.losses.append((self.sent, self.saved[0]))
                del self.workers[0]
                self.place()

    def take(self, answers):
        """Takes answers, but for those that an engine which is gone gave since the checkpoint."""
        for answer in answers:
            if answer in self.since:
                self.again += 1
            else:
                self.since.add(answer)
                self.answers.append(answer)

    def save(self):
        """Takes a checkpoint. What it covers need not be kept: no engine begins before it any more."""
        covered, self.saved = self.saved[0], self.shard.checkpoint().result(SECONDS)
        self.blocks[covered : self.sent] = [None] * (self.sent - covered)
        self.since.clear()
