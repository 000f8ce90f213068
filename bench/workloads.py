"""The workloads of bench/run: query texts and event files, the same ones at each call."""

import os
import random

DECLARED = """DECLARE EVENT A(v INT)
DECLARE EVENT B(v INT)
DECLARE EVENT C(v INT)
DECLARE EVENT D(v INT)
DECLARE STREAM S(A, B, C, D)
"""


def plain_events(dice, count, types="ABCD", high=999):
    """Events of equally likely types, each with a number from 0 to high."""
    for _ in range(count):
        yield f"{dice.choice(types)},{dice.randint(0, high)}"


def sequence(dice, count):
    """Three steps, each met by three events in a thousand."""
    query = "SELECT * FROM S WHERE A ; B ; C FILTER A[v < 12] AND B[v < 12] AND C[v < 12] WITHIN 1000 EVENTS\n"
    return DECLARED + query, plain_events(dice, count)


def window(length):
    """A beginning now and then, a frequent step, a rare end; with the window grows what is open."""

    def made(dice, count):
        query = f"SELECT A, C FROM S WHERE A ; B ; C FILTER A[v < 4] AND B[v < 80] AND C[v < 1] WITHIN {length} EVENTS\n"
        return DECLARED + query, plain_events(dice, count)

    return made


def iteration(dice, count):
    """Three repetitions; lists keep few of the positions, since the choices would be too many."""
    queries = """SELECT B FROM S WHERE A+ ; B FILTER A[v < 250] AND B[v < 50] WITHIN 50 EVENTS
SELECT * FROM S WHERE A :+ : B FILTER A[v < 500] WITHIN 50 EVENTS
SELECT B, C FROM S WHERE (A+ ; B) KEEP [B] ; C FILTER B[v < 40] AND C[v < 40] WITHIN 50 EVENTS
"""
    return DECLARED + queries, plain_events(dice, count)


def many(number):
    """So many queries of eight forms over eight types, none with many answers."""

    def made(dice, count):
        types = "ABCDEFGH"
        forms = [
            "SELECT * FROM S WHERE {0} ; {1} FILTER {0}[v < {n}] AND {1}[v < {n}] WITHIN 100 EVENTS",
            "SELECT * FROM S WHERE {0} : {1} FILTER {0}[v < {n}] AND {1}[v >= {n}] WITHIN 100 EVENTS",
            "SELECT {1} FROM S WHERE {0}+ ; {1} FILTER {0}[v < {n}] AND {1}[v < {n}] WITHIN 40 EVENTS",
            "SELECT * FROM S WHERE ({0} OR {1}) ; {2} FILTER {0}[v < {n}] AND {1}[v < {n}] AND {2}[v < {n}] WITHIN 60 EVENTS",
            "SELECT * FROM S WHERE {0} ; {1} ; {2} FILTER {0}[v < {n}] AND {1}[v < {n}] AND {2}[v < {n}] WITHIN 200 EVENTS",
            "SELECT STRICT * FROM S WHERE {0} ; {1} FILTER {0}[v < {n}] WITHIN 10 EVENTS",
            "SELECT {0} FROM S WHERE {0} AS x ; {1} FILTER x[v = {n}] AND {1}[v != {n}] WITHIN 5 EVENTS",
            "SELECT * FROM S WHERE {0} :+ : {1} FILTER {0}[v < {n}] AND {1}[v < {n}] WITHIN 20 EVENTS",
        ]
        text = "".join(f"DECLARE EVENT {it}(v INT)\n" for it in types) + f"DECLARE STREAM S({', '.join(types)})\n"
        for k in range(number):
            text += forms[k % 8].format(*dice.sample(types, 3), n=dice.randint(20, 60)) + "\n"
        return text, plain_events(dice, count, types)

    return made


def answers(dice, count):
    """One answer for every two events, each of two positions."""
    return DECLARED + "SELECT * FROM S WHERE A ; B WITHIN 8 EVENTS\n", plain_events(dice, count)


def partitions(dice, count):
    """A thousand users, each with a handful of events in the window; the key is a text."""
    text = """DECLARE EVENT A(user STRING, v INT, at INT)
DECLARE EVENT B(user STRING, v INT, at INT)
DECLARE EVENT C(user STRING, v INT, at INT)
DECLARE STREAM S(A, B, C)
SELECT * FROM S WHERE A ; B ; C FILTER A[v < 300] AND B[v < 300] AND C[v < 300] PARTITION BY [user] WITHIN 1 HOUR [at]
"""

    def events():
        at = 0
        for _ in range(count):
            at += dice.randint(0, 1)
            yield f"{dice.choice('ABC')},user{dice.randint(0, 999)},{dice.randint(0, 999)},{at}"

    return text, events()


def choices(dice, count):
    """64 queries whose conditions are choices of numbers and of texts, over a type for each."""
    words = [f"word{k}" for k in range(60)]
    text = "".join(f"DECLARE EVENT {it}(v INT, s STRING)\n" for it in "ABC") + "DECLARE STREAM S(A, B, C)\n"
    for _ in range(64):
        numbers = " OR ".join(f"v = {it}" for it in dice.sample(range(1000), 3))
        texts = " OR ".join(f"s = '{it}'" for it in dice.sample(words, 2))
        text += f"SELECT * FROM S WHERE A ; B FILTER A[{numbers}] AND B[{texts}] WITHIN 100 EVENTS\n"

    def events():
        for _ in range(count):
            yield f"{dice.choice('ABC')},{dice.randint(0, 999)},{dice.choice(words)}"

    return text, events()


def rules(number):
    """So many rules, each of two of eight types, by user and within minutes: an event concerns few of them."""

    def made(dice, count):
        types = [f"T{k}" for k in range(8)]
        text = "".join(f"DECLARE EVENT {it}(user STRING, v INT, at INT)\n" for it in types)
        text += f"DECLARE STREAM S({', '.join(types)})\n"
        for _ in range(number):
            one, other = dice.sample(types, 2)
            low, high = dice.randint(0, 90), dice.randint(910, 999)
            text += f"SELECT * FROM S WHERE {one} ; {other} FILTER {one}[v < {low}] AND {other}[v > {high}] PARTITION BY [user] WITHIN {dice.randint(1, 9)} MINUTES [at]\n"

        def events():
            at = 0
            for _ in range(count):
                at += dice.randint(0, 2)
                yield f"{dice.choice(types)},user{dice.randint(0, 4999)},{dice.randint(0, 999)},{at}"

        return text, events()

    return made


def ranges(number):
    """So many rules on ranges of prices, narrow ones and wide ones, and on limits that lie at one end of them."""

    def made(dice, count):
        text = "".join(f"DECLARE EVENT {it}(price INT, symbol STRING)\n" for it in "AB") + "DECLARE STREAM S(A, B)\n"
        for k in range(number):
            width = dice.choice([10, 100, 400])
            low = dice.randint(0, 9999 - width)
            limit = dice.randint(9000, 9999)
            test = f"price > {limit}" if k % 4 == 0 else f"price >= {low} AND price <= {low + width}"
            text += f"SELECT * FROM S WHERE A ; B FILTER A[{test}] AND B[price < {dice.randint(1, 60)} AND NOT symbol = 'S{k % 50}'] WITHIN 20 EVENTS\n"

        def events():
            for _ in range(count):
                yield f"{dice.choice('AB')},{dice.randint(0, 9999)},S{dice.randint(0, 49)}"

        return text, events()

    return made


def few_types(dice, count):
    """200 rules over eight declared types, of which the stream has seven; one rule in a hundred asks for what comes."""
    types = "ABCDEFGH"
    text = "".join(f"DECLARE EVENT {it}(v INT)\n" for it in types) + f"DECLARE STREAM S({', '.join(types[:7])})\n"
    for k in range(200):
        one, other = dice.sample(types[:7], 2)
        low = 30 if k % 100 == 0 else -1
        text += f"SELECT * FROM S WHERE {one} ; {other} FILTER {one}[v < {low}] AND {other}[v < 50] WITHIN 100 EVENTS\n"
    return text, plain_events(dice, count, types[:7])


ALL = {
    "sequence": sequence,
    "window-100": window(100),
    "window-1000": window(1000),
    "window-10000": window(10000),
    "window-100000": window(100000),
    "iteration": iteration,
    "queries": many(64),
    "answers": answers,
    "partitions": partitions,
    "choices": choices,
    "rules-64": rules(64),
    "rules-1000": rules(1000),
    "few-types": few_types,
    "queries-1000": many(1000),
    "ranges": ranges(1000),
}


def make(name, folder, events):
    """Writes the workload's queries.ceql and events.csv into the folder."""
    os.makedirs(folder, exist_ok=True)
    text, lines = ALL[name](random.Random(20260101), events)
    with open(f"{folder}/queries.ceql", "w", encoding="utf-8") as file:
        file.write(text)
    with open(f"{folder}/events.csv", "w", encoding="utf-8") as file:
        file.writelines(f"{line}\n" for line in lines)
