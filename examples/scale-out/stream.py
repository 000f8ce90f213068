"""The stream of the example: events of many users, made from a fixed seed, and how it is shared out."""

import random
import zlib

SEED = 20
USERS = 5_000
EVENTS_A_SECOND = 20


def event_lines(count):
    """Gives the lines of so many events, each with its number in the stream as the last value."""
    chance = random.Random(SEED).random
    for number in range(count):
        # Some users come more often than others, as it is with most keys.
        user, kind, at = int(USERS * chance() ** 1.5), chance(), number // EVENTS_A_SECOND
        if kind < 0.45:
            yield b"Visit,u%d,%d,%d,%d\n" % (user, 40 * chance(), at, number)
        elif kind < 0.80:
            yield b"Login,u%d,%s,%d,%d\n" % (user, b"true" if chance() < 0.7 else b"false", at, number)
        elif kind < 0.995:
            yield b"Transfer,u%d,%d,%d,%d\n" % (user, 1000 * chance(), at, number)
        else:
            yield b"%s,u%d,%d,%d\n" % (b"Block" if chance() < 0.6 else b"Release", user, at, number)


class ShardOfUser(dict):
    """The shard of each user: by a sum that is the same in every process, unlike Python's hash."""

    def __init__(self, shards):
        super().__init__()
        self.shards = shards

    def __missing__(self, user):
        self[user] = shard = zlib.crc32(user) % self.shards
        return shard


def share_out(lines, shards, lines_a_block):
    """Shares lines out by their users: of each shard its blocks, all but the last of so many lines."""
    shard_of, taken = ShardOfUser(shards), [[] for _ in range(shards)]
    for line in lines:
        taken[shard_of[line.split(b",", 2)[1]]].append(line)
    firsts = [range(0, len(own), lines_a_block) for own in taken]
    return [[b"".join(own[at : at + lines_a_block]) for at in its] for own, its in zip(taken, firsts)]
