"""The histories that bench/run measures: many calls by many clients.

Each function of HISTORIES answers a specification and a history with an order that linearizes it, as bytes; each of RECORDED a
specification and a history without an order.
"""

import json
import random

COUNTER = """(spec counter (abstract (v 0 0))
  (op inc () 1 (branch (and) ((v 0 (+ (rd v 0) 1))) ((rd v 0))))
  (op get () 1 (branch (and) () ((rd v 0)))))
"""

QUEUE = """(spec queue (abstract (item 0 0) (head 0 0) (tail 0 0))
  (op enq (x) 0 (branch (and) ((item (rd tail 0) x) (tail 0 (+ (rd tail 0) 1))) ()))
  (op deq () 2
    (branch (<= (+ (rd head 0) 1) (rd tail 0)) ((head 0 (+ (rd head 0) 1))) (1 (rd item (rd head 0))))
    (branch (and) () (0 0))))
"""

BANK = """(spec bank (abstract (money 0 100))
  (op move (a b n) 1
    (branch (<= n (rd money a)) ((money a (- (rd money a) n)) (money b (+ (rd money b) n))) (1))
    (branch (and) () (0))))
"""


class Counter:
    def __init__(self):
        self.count = 0

    def call(self, dice):
        return ("inc", []) if dice.random() < 0.7 else ("get", [])

    def reply(self, name, numbers):
        before = self.count
        self.count += name == "inc"
        return [before]


class Queue:
    def __init__(self):
        self.items, self.head = [], 0

    def call(self, dice):
        return ("enq", [dice.randrange(1000)]) if dice.random() < 0.5 else ("deq", [])

    def reply(self, name, numbers):
        if name == "enq":
            self.items.append(numbers[0])
            return []
        if self.head == len(self.items):
            return [0, 0]
        self.head += 1
        return [1, self.items[self.head - 1]]


class Bank:
    def __init__(self):
        self.money = {}

    def call(self, dice):
        return "move", [dice.randrange(50), dice.randrange(50), dice.randrange(40)]

    def reply(self, name, numbers):
        giver, taker, amount = numbers
        has, gets = self.money.get(giver, 100), self.money.get(taker, 100)
        if amount > has:
            return [0]
        self.money[giver] = has - amount
        self.money[taker] = gets + amount
        return [1]


def history(thing, calls, clients, seed=1):
    """This many calls by this many clients, who call, take effect and return in any order."""
    dice = random.Random(seed)
    events, order, pending, replies = [], [], {}, {}
    begun = returned = 0
    while returned < calls:
        client = dice.randrange(clients)
        if client in replies:
            events.append([client, "return", replies.pop(client)])
            returned += 1
        elif client in pending:
            name, numbers = pending.pop(client)
            replies[client] = thing.reply(name, numbers)
            order.append([client, name, numbers, replies[client]])
        elif begun < calls:
            name, numbers = thing.call(dice)
            pending[client] = name, numbers
            events.append([client, "call", name, numbers])
            begun += 1
    return json.dumps({"events": events, "order": order}, separators=(",", ":")).encode()


def counter_64():
    return COUNTER.encode(), history(Counter(), 100_000, 64)


def counter_100000():
    return COUNTER.encode(), history(Counter(), 180_000, 100_000)


def queue_64():
    return QUEUE.encode(), history(Queue(), 100_000, 64)


def bank_64():
    return BANK.encode(), history(Bank(), 100_000, 64)


HISTORIES = {it.__name__: it for it in (counter_64, counter_100000, queue_64, bank_64)}


def recorded(thing, calls, clients, last=None):
    """The events alone of such a history; with another reply of the last return, if one is given."""
    events = json.loads(history(thing, calls, clients))["events"]
    if last is not None:
        events[-1][2] = last
    return json.dumps({"events": events}, separators=(",", ":")).encode()


def order_counter_8():
    return COUNTER.encode(), recorded(Counter(), 50_000, 8)


def order_wrong_8():
    return COUNTER.encode(), recorded(Counter(), 50_000, 8, [-1])


def order_bank_4():
    return BANK.encode(), recorded(Bank(), 50_000, 4)


RECORDED = {it.__name__: it for it in (order_counter_8, order_wrong_8, order_bank_4)}
