#!/usr/bin/env python3
"""Writes the table of cases that the acceptance program judges, and what it has to print.

    python3 crates/acceptance/table.py

writes `stdin`, the cases, and `stdout`, the answers, beside this file. The answers come from the reader, the pricing
and the ranges below, which follow the description of the format and the rules and share nothing with the crates: where
the program prints something else, one of the two is wrong, and the description says which.

A line of the table is a name, a space and what is asked. NAME has letters, digits and '-', the others have no space in
them, and one space stands between each two:

    NAME BYTES                                        reads a session file
    NAME price LOW HIGH TWICE BYTES                   prices the resting orders of a file in a range
    NAME joined price LOW HIGH TWICE BYTES BYTES2     likewise those of two files, one after the other
    NAME collar BID OFFER LASTSALE                    makes the ranges of a quote and a last sale

BYTES are runs, with ';' between them: a run is pairs of hex digits in lower case, one pair to a byte, and stands as
often as the number after a '*' says, once if there is none. So `0102;00*3;0a0b*2` is the file of the bytes
1, 2, 0, 0, 0, 10, 11, 10, 11. An empty file has no letters at all. A file that is to be read is alone after the name,
with no space in it or after it, so no line has two meanings.

LOW and HIGH are the ends of the range and TWICE is twice the tie-breaker; BID, OFFER and LASTSALE are prices, and a BID
or an OFFER of 0 is none. All are decimal numbers below 2^32, and prices are in cents.

An answer is `NAME refused,NUMBER,LAYER,BYTE` for a file that is refused, of two files for the first such one. For an
accepted one that is read it is `NAME read,LASTSALE,RANKING,ORDERS,EVENTS,NOTEBYTES` and then a line for each order and
for each event, of more than sixteen only the first eight and the last eight:

    order,PLACE,SIDE,LIMIT,SHARES,ENTRY,DISPLAYED,STAYS
    event,PLACE,TIME,enter,SIDE,LIMIT,SHARES,ENTRY,DISPLAYED,STAYS
    event,PLACE,TIME,cancel,ENTRY,SHARES
    event,PLACE,TIME,quote,BID,OFFER
    event,PLACE,TIME,publish     and likewise lock, shut and cross

The answer to a book that is priced is `NAME clears,PRICE,EXECUTED,IMBALANCE`: the clearing price, the shares that
execute there, and the shares willing to buy there less those willing to sell. To a quote it is
`NAME collar,REFLOW,REFHIGH,TWICE,LOW,HIGH`: the ends of the reference range, their sum, and the ends of the collar.
Where LOW, HIGH or a price of the quote is no price, or LOW is above HIGH, it is `NAME refused,5,0,0`, unless a file is
refused. To a line of any other form it is `NAME unreadable`.
"""

import os
import re

# ---------------------------------------------------------------------------------------------------------------------
# The reference reader


class Refused(Exception):
    def __init__(self, number, layer, byte):
        super().__init__(number, layer, byte)
        self.answer = (number, layer, byte)


def is_price(value):
    return 1 <= value <= 20_000_000


def is_shares(value):
    return 1 <= value <= 1_000_000


def is_entry(value):
    return 1 <= value <= 65_535


def is_time(value):
    return value <= 86_399_999


def is_bit(value):
    return value in (0, 1)


def is_ranking(value):
    return value in (1, 2)


def is_zero(value):
    return value == 0


def is_kind(value):
    return value in EVENT_KINDS


def is_quoted(value):
    return value == 0 or is_price(value)


def is_enter_flags(value):
    market, stays = value & 2, value & 4
    return value <= 1 + 2 + 4 + 8 and not (market and stays)


SELL, MARKET, STAYS, DISPLAYED = 1, 2, 4, 8

EVENT_KINDS = {1: "enter", 2: "cancel", 3: "quote", 4: "publish", 5: "lock", 6: "shut", 7: "cross"}

# The fields of a record in sequence: a name, a number of bytes, and a test of the value.
HEADING = [
    ("last-sale", 4, is_price),
    ("ranking", 1, is_ranking),
    ("first-zero", 1, is_zero),
    ("second-zero", 1, is_zero),
    ("third-zero", 1, is_zero),
]
RESTING = [
    ("side", 1, is_bit),
    ("displayed", 1, is_bit),
    ("entry", 2, is_entry),
    ("limit", 4, is_price),
    ("shares", 4, is_shares),
]


def event_fields(record):
    """The fields of an event, whose kind and flags say what the later ones may hold."""
    kind, flags = record[4], record[5]
    if kind == 1:
        limit = is_zero if flags & MARKET else is_price
        named = [is_enter_flags, is_entry, limit, is_shares]
    elif kind == 2:
        named = [is_zero, is_entry, is_zero, is_shares]
    elif kind == 3:
        named = [is_zero, is_zero, is_quoted, is_quoted]
    else:
        named = [is_zero, is_zero, is_zero, is_zero]
    flags_test, number_test, first_test, second_test = named
    return [
        ("time", 4, is_time),
        ("kind", 1, is_kind),
        ("flags", 1, flags_test),
        ("number", 2, number_test),
        ("first-amount", 4, first_test),
        ("second-amount", 4, second_test),
    ]


def values(fields, record):
    """The values of a record by their names, with the place of each and whether it is allowed."""
    found, place = {}, 0
    for name, width, allowed in fields:
        value = int.from_bytes(record[place : place + width], "big")
        found[name] = (value, place, allowed(value))
        place += width
    assert place == len(record)
    return found


def checked(fields, record, at):
    found = values(fields, record)
    bad = [place for _, place, good in found.values() if not good]
    if bad:
        raise Refused(5, 3, at + min(bad))
    return {name: value for name, (value, _, _) in found.items()}


def records(body, size):
    return [(place, body[place : place + size]) for place in range(0, len(body), size)]


def split_file(data):
    """The bodies of a file, each with the byte where it begins: layer 1."""
    if len(data) == 0 or len(data) > 65_535:
        raise Refused(1, 1, 0)
    mask = data[0]
    if mask > 15 or mask % 2 == 0:
        raise Refused(2, 1, 0)
    told = [bit for bit in (1, 2, 4, 8) if mask & bit]
    contents = 1 + 2 * len(told)
    if contents > len(data):
        raise Refused(2, 1, 0)
    lengths = [int.from_bytes(data[1 + 2 * i : 3 + 2 * i], "big") for i in range(len(told))]
    if contents + sum(lengths) != len(data):
        raise Refused(3, 1, 1)
    bodies, at = {}, contents
    for bit, length in zip(told, lengths):
        bodies[bit] = (at, data[at : at + length])
        at += length
    return bodies


def read_session(data):
    """What the file holds; raises `Refused`."""
    bodies = split_file(data)
    fits = {
        1: lambda n: n == 8,
        2: lambda n: n % 12 == 0 and n // 12 <= 256,
        4: lambda n: n % 16 == 0,
        8: lambda n: True,
    }
    for bit in sorted(bodies):
        at, body = bodies[bit]
        if not fits[bit](len(body)):
            raise Refused(4, 2, at)
    nothing = (0, b"")
    at, body = bodies[1]
    heading = checked(HEADING, body, at)
    at, body = bodies.get(2, nothing)
    orders = [checked(RESTING, record, at + place) for place, record in records(body, 12)]
    at, body = bodies.get(4, nothing)
    events = [checked(event_fields(record), record, at + place) for place, record in records(body, 16)]
    return heading, orders, events, bodies.get(8, nothing)[1]


def terms(side, limit, shares, entry, displayed, stays):
    return f"{'sell' if side else 'buy'},{limit},{shares},{entry},{int(bool(displayed))},{int(bool(stays))}"


def shown_order(order):
    return terms(order["side"], order["limit"], order["shares"], order["entry"], order["displayed"], True)


def shown_event(event):
    flags, number = event["flags"], event["number"]
    first, second = event["first-amount"], event["second-amount"]
    kind = EVENT_KINDS[event["kind"]]
    if kind == "enter":
        limit = "market" if flags & MARKET else first
        more = "," + terms(flags & SELL, limit, second, number, flags & DISPLAYED, flags & STAYS)
    elif kind == "cancel":
        more = f",{number},{second}"
    elif kind == "quote":
        more = f",{first or 'none'},{second or 'none'}"
    else:
        more = ""
    return f"{event['time']},{kind}{more}"


def shown(items):
    """The items with their places, of more than sixteen the first eight and the last eight."""
    placed = list(enumerate(items))
    return placed if len(placed) <= 16 else placed[:8] + placed[-8:]


def answer(name, data):
    try:
        heading, orders, events, note = read_session(data)
    except Refused as refused:
        number, layer, byte = refused.answer
        return [f"{name} refused,{number},{layer},{byte}"]
    counts = f"{len(orders)},{len(events)},{len(note)}"
    lines = [f"{name} read,{heading['last-sale']},{heading['ranking']},{counts}"]
    lines += [f"order,{place},{shown_order(order)}" for place, order in shown(orders)]
    lines += [f"event,{place},{shown_event(event)}" for place, event in shown(events)]
    return lines


# ---------------------------------------------------------------------------------------------------------------------
# The reference pricing

LOWEST_PRICE, HIGHEST_PRICE = 1, 20_000_000


class Pricing:
    """The orders of a book, each by its counted price in a range."""

    def __init__(self, orders, low, high):
        self.low, self.high = low, high
        self.buys = [(min(order["limit"], high), order["shares"]) for order in orders if order["side"] == 0]
        self.sells = [(max(order["limit"], low), order["shares"]) for order in orders if order["side"] == 1]

    def bought(self, price):
        return sum(shares for counted, shares in self.buys if counted >= price)

    def sold(self, price):
        return sum(shares for counted, shares in self.sells if counted <= price)

    def executed(self, price):
        return min(self.bought(price), self.sold(price))

    def better_priced(self, price):
        """The shares of buys counted above the price, and those of sells counted below it."""
        above = sum(shares for counted, shares in self.buys if counted > price)
        return above, sum(shares for counted, shares in self.sells if counted < price)

    def clearing_price(self, twice, prices):
        """The three steps, over these prices."""
        by_executed = {price: self.executed(price) for price in prices}
        most = max(by_executed.values())
        kept = [price for price, executed in by_executed.items() if executed == most]
        kept = [price for price in kept if max(self.better_priced(price)) <= most]
        return min(kept, key=lambda price: (abs(2 * price - twice), price))

    def all_prices(self):
        return range(self.low, self.high + 1)

    def turning_prices(self, twice):
        """The prices at which anything changes: each counted price and its neighbours, the ends of the range, and the
        prices next to the tie-breaker, moved into the range. Between two counted prices that follow one another no
        count changes, so of the prices there only the outermost and those next to the tie-breaker can win.
        """
        found = {self.low, self.high}
        for counted, _ in self.buys + self.sells:
            found |= {counted - 1, counted, counted + 1}
        found |= {min(max(price, self.low), self.high) for price in (twice // 2, (twice + 1) // 2)}
        return sorted(price for price in found if self.low <= price <= self.high)

    def clears(self, twice):
        """The price, and the executed shares and the imbalance there. In ranges of up to 3,000 prices each one is
        tried; in wider ones, of up to 20,000,000, only those at which anything changes.
        """
        few = self.high - self.low < 3_000
        price = self.clearing_price(twice, self.all_prices() if few else self.turning_prices(twice))
        return price, self.executed(price), self.bought(price) - self.sold(price)


def reference_range(bid, offer, last_sale):
    return (bid, offer) if bid != 0 and offer != 0 and bid <= offer else (last_sale, last_sale)


def collar_of(low, high):
    threshold = max(50, (low + high) // 20)
    return max(LOWEST_PRICE, low - threshold), min(HIGHEST_PRICE, high + threshold)


# ---------------------------------------------------------------------------------------------------------------------
# What a line asks: each kind has the text after the name, and the answer


class Read:
    def __init__(self, data):
        self.data = data

    def text(self):
        return told(self.data)

    def answer(self, name):
        return answer(name, self.data)


class Price:
    """One file or two; `clears` is the price and the executed shares where the case is known to give them."""

    def __init__(self, low, high, twice, *files, clears=None):
        self.low, self.high, self.twice, self.files, self.expected = low, high, twice, files, clears

    def text(self):
        joined = "joined " if len(self.files) == 2 else ""
        return f"{joined}price {self.low} {self.high} {self.twice} {' '.join(told(data) for data in self.files)}"

    def answer(self, name):
        orders = []
        try:
            for data in self.files:
                orders += read_session(data)[1]
        except Refused as refused:
            number, layer, byte = refused.answer
            return [f"{name} refused,{number},{layer},{byte}"]
        if not (is_price(self.low) and is_price(self.high) and self.low <= self.high):
            return [f"{name} refused,5,0,0"]
        price, executed, imbalance = Pricing(orders, self.low, self.high).clears(self.twice)
        assert self.expected in (None, (price, executed)), (name, price, executed)
        return [f"{name} clears,{price},{executed},{imbalance}"]


class Collar:
    """A quote; `collar` is its collar where the case is known to give it."""

    def __init__(self, bid, offer, last_sale, collar=None):
        self.bid, self.offer, self.last_sale, self.expected = bid, offer, last_sale, collar

    def text(self):
        return f"collar {self.bid} {self.offer} {self.last_sale}"

    def answer(self, name):
        if not (is_quoted(self.bid) and is_quoted(self.offer) and is_price(self.last_sale)):
            return [f"{name} refused,5,0,0"]
        low, high = reference_range(self.bid, self.offer, self.last_sale)
        collar = collar_of(low, high)
        assert self.expected in (None, collar), (name, collar)
        return [f"{name} collar,{low},{high},{low + high},{collar[0]},{collar[1]}"]


class Unreadable:
    def __init__(self, words):
        self.words = words

    def text(self):
        return self.words

    def answer(self, name):
        return [f"{name} unreadable"]


# ---------------------------------------------------------------------------------------------------------------------
# Making files


def number(value, width):
    return value.to_bytes(width, "big")


def heading(last_sale=1000, ranking=1, zeros=(0, 0, 0)):
    return number(last_sale, 4) + bytes([ranking, *zeros])


def order(side=0, displayed=0, entry=1, limit=1050, shares=300):
    return bytes([side, displayed]) + number(entry, 2) + number(limit, 4) + number(shares, 4)


def event(time, kind, flags=0, entry=0, first=0, second=0):
    return number(time, 4) + bytes([kind, flags]) + number(entry, 2) + number(first, 4) + number(second, 4)


def enter(time=34_000_000, flags=0, entry=1, limit=1050, shares=300):
    return event(time, 1, flags, entry, limit, shares)


def cancel(time=34_010_000, entry=1, shares=100):
    return event(time, 2, 0, entry, 0, shares)


def quote(time=34_000_000, bid=1000, offer=1100):
    return event(time, 3, 0, 0, bid, offer)


def bare(kind, time=34_100_000):
    return event(time, kind)


def packed(bodies, mask=None, lengths=None):
    """A file of these bodies by their bits, with another mask or other lengths where they are given."""
    bits = sorted(bodies)
    lengths = lengths or {}
    told = b"".join(number(lengths.get(bit, len(bodies[bit])), 2) for bit in bits)
    return bytes([sum(bits) if mask is None else mask]) + told + b"".join(bodies[bit] for bit in bits)


def file(heading=heading(), resting=None, events=None, note=None, **told):
    """A file; a body that is None is absent."""
    bodies = {1: heading, 2: resting, 4: events, 8: note}
    return packed({bit: body for bit, body in bodies.items() if body is not None}, **told)


def changed(data, place, width, value):
    return data[:place] + number(value, width) + data[place + width :]


ONE_OF_EACH_KIND = (
    quote()
    + enter(flags=STAYS)
    + enter(flags=SELL, entry=2, limit=1020, shares=200)
    + cancel()
    + bare(4)
    + bare(5)
    + bare(6)
    + bare(7)
)

# The first sample of a file with all four bodies; its parts are used below too.
TWO_ORDERS = order() + order(side=1, displayed=1, entry=0x0203, limit=0x0001_0205, shares=0x0001_0307)
ALL_FOUR = file(resting=TWO_ORDERS, events=ONE_OF_EACH_KIND, note=b"note")

SESSION = (
    quote(34_000_000, 1000, 1100)
    + enter(34_000_000, STAYS, 1, 1050, 300)
    + enter(34_000_000, SELL, 2, 1020, 200)
    + bare(5, 34_080_000)
    + bare(4, 34_100_000)
    + bare(6, 34_190_000)
    + bare(7, 34_200_000)
)


def many_orders(count):
    return b"".join(order(i % 2, i // 2 % 2, i + 1, 1000 + i, 100 + i) for i in range(count))


# ---------------------------------------------------------------------------------------------------------------------
# The cases


def sizes():
    yield "empty-file", b""
    yield "smallest-file", file()
    yield "one-byte-zero", b"\0"
    yield "heading-and-note-to-65535-bytes", file(note=b"n" * (65_535 - 13))
    yield "heading-and-note-to-65536-bytes", file(note=b"n" * (65_536 - 13))
    yield "zeros-65535-bytes", bytes(65_535)
    yield "zeros-65536-bytes", bytes(65_536)
    yield "zeros-65537-bytes", bytes(65_537)
    full = file(events=bare(4, 86_399_999) * 4095, note=b"")
    assert len(full) == 65_535
    yield "events-to-65535-bytes", full
    yield "events-to-65536-bytes", full + b"\0"
    yield "events-and-note-to-65535-bytes", file(events=bare(7) * 4094, note=b"0123456789abcdef")
    mixed = file(resting=many_orders(256), events=quote() * 3902, note=b"end")
    yield "all-four-bodies-near-the-largest", mixed
    yield "all-four-bodies-near-the-largest-and-a-byte", mixed + b"!"
    yield "largest-with-a-bad-amount-at-its-end", changed(full, 65_531, 4, 1)
    yield "largest-with-a-bad-kind-in-the-last-event", changed(full, 65_523, 1, 8)
    yield "largest-with-a-bad-time-past-byte-32767", changed(full, 15 + 16 * 2100, 4, 86_400_000)


def masks():
    filled = {1: heading(), 2: TWO_ORDERS, 4: quote() + bare(7), 8: b"a note"}
    empty = {1: heading(), 2: b"", 4: b"", 8: b""}
    for mask in [*range(16), 16, 17, 255]:
        for how, bodies in (("full", filled), ("empty", empty)):
            kept = {bit: body for bit, body in bodies.items() if mask & bit}
            yield f"mask-{mask}-with-{how}-bodies", packed(kept, mask=mask)
        yield f"mask-{mask}-alone", bytes([mask])
    for mask in range(1, 16, 2):
        contents = 1 + 2 * bin(mask).count("1")
        yield f"mask-{mask}-contents-a-byte-short", bytes([mask]) + bytes(contents - 2)
        yield f"mask-{mask}-contents-of-zeros-only", bytes([mask]) + bytes(contents - 1)
        yield f"mask-{mask}-contents-of-255s-only", bytes([mask]) + b"\xff" * (contents - 1)
    for mask in (3, 5, 9, 15):
        yield f"mask-{mask}-on-a-file-of-a-heading-only", changed(file(), 0, 1, mask)
    yield "mask-1-on-a-file-with-all-four-bodies", changed(ALL_FOUR, 0, 1, 1)


def cuts():
    for length in range(len(ALL_FOUR)):
        yield f"all-four-bodies-cut-to-{length}", ALL_FOUR[:length]
    yield "all-four-bodies-whole", ALL_FOUR
    yield "all-four-bodies-and-a-zero-byte", ALL_FOUR + b"\0"
    yield "all-four-bodies-and-a-byte-255", ALL_FOUR + b"\xff"
    yield "heading-only-and-a-byte", file() + b"\0"
    yield "all-four-bodies-twice", ALL_FOUR * 2
    yield "all-four-bodies-after-a-zero-byte", b"\0" + ALL_FOUR


def sums():
    parts = {1: heading(), 2: TWO_ORDERS, 4: ONE_OF_EACH_KIND, 8: b"note"}
    names = {1: "heading", 2: "resting", 4: "events", 8: "note"}
    for bit, body in parts.items():
        for more in (-1, 1, 256):
            told = len(body) + more
            if told >= 0:
                yield f"sum-wrong-by-{names[bit]}-told-{told}", packed(parts, lengths={bit: told})
        yield f"sum-wrong-by-{names[bit]}-told-0", packed(parts, lengths={bit: 0})
        yield f"sum-wrong-by-{names[bit]}-told-65535", packed(parts, lengths={bit: 65_535})
    yield "sum-wrong-by-all-told-65535", packed(parts, lengths={bit: 65_535 for bit in parts})
    # 65,536 too much, so that the sum is right in sixteen bits
    events, note = len(parts[4]), len(parts[8])
    over = {4: events + 32_768, 8: note + 32_768}
    yield "sum-right-but-for-65536", packed(parts, lengths=over)
    yield "sum-right-by-a-longer-note-and-fewer-events", packed(parts, lengths={4: events - 16, 8: note + 16})
    yield "sum-right-by-a-byte-moved-from-note-to-events", packed(parts, lengths={4: events + 1, 8: note - 1})
    yield "sum-right-by-a-byte-moved-from-events-to-note", packed(parts, lengths={4: events - 1, 8: note + 1})
    yield "sum-right-by-an-order-moved-to-the-events", packed(parts, lengths={2: 12, 4: events + 12})


def lengths():
    for length in (0, 7, 9, 16):
        body = (heading() * 2)[:length]
        yield f"heading-of-{length}-bytes", file(heading=body)
        yield f"heading-of-{length}-bytes-before-other-bodies", file(
            heading=body, resting=TWO_ORDERS, events=quote(), note=b"n"
        )
    yield "heading-of-256-bytes", file(heading=heading() * 32)
    long = many_orders(258)
    for length in (0, 1, 11, 12, 13, 23, 24, 25, 16, 3071, 3072, 3073, 3084):
        yield f"resting-of-{length}-bytes", file(resting=long[:length])
        yield f"resting-of-{length}-bytes-before-events", file(resting=long[:length], events=quote())
    for count in (1, 255, 256, 257, 258):
        yield f"resting-of-{count}-orders", file(resting=many_orders(count))
    long = ONE_OF_EACH_KIND * 40
    for length in (0, 1, 12, 15, 16, 17, 24, 31, 32, 33, 4095, 4096, 4097):
        yield f"events-of-{length}-bytes", file(events=long[:length])
        yield f"events-of-{length}-bytes-after-orders", file(resting=TWO_ORDERS, events=long[:length], note=b"")
    for length in (0, 1, 2, 255, 256, 257):
        yield f"note-of-{length}-bytes", file(note=bytes(i % 256 for i in range(length)))


# The values to try in a field: both ends of what it may hold, what lies just outside, and some far out.
PRICES = [0, 1, 2, 255, 256, 65_536, 0x0102_0304, 19_999_999, 20_000_000, 20_000_001, 0x8000_0000, 0xFFFF_FFFF]
SHARES = [0, 1, 2, 256, 65_536, 0x000A_0B0C, 999_999, 1_000_000, 1_000_001, 0x0100_0000, 0xFFFF_FFFF]
ENTRIES = [0, 1, 2, 255, 256, 0x0102, 32_768, 65_534, 65_535]
TIMES = [0, 1, 256, 65_536, 0x0102_0304, 86_399_998, 86_399_999, 86_400_000, 0x0600_0000, 0xFFFF_FFFF]
BITS = [0, 1, 2, 3, 128, 255]
ZERO_1 = [0, 1, 2, 128, 255]
ZERO_2 = [0, 1, 256, 65_535]
ZERO_4 = [0, 1, 256, 65_536, 0x0100_0000, 0xFFFF_FFFF]
KINDS = [0, 1, 2, 3, 4, 5, 6, 7, 8, 9, 128, 255]


def fields_of_heading():
    places = [("last-sale", 0, 4, PRICES), ("ranking", 4, 1, [0, 1, 2, 3, 128, 255])]
    places += [("first-zero", 5, 1, ZERO_1), ("second-zero", 6, 1, ZERO_1), ("third-zero", 7, 1, ZERO_1)]
    for name, place, width, tried in places:
        for value in tried:
            yield f"heading-{name}-{value}", file(heading=changed(heading(), place, width, value))


def fields_of_resting():
    places = [("side", 0, 1, BITS), ("displayed", 1, 1, BITS), ("entry", 2, 2, ENTRIES)]
    places += [("limit", 4, 4, PRICES), ("shares", 8, 4, SHARES)]
    for name, place, width, tried in places:
        for value in tried:
            body = changed(order(), place, width, value)
            yield f"resting-{name}-{value}", file(resting=body)
            yield f"resting-second-{name}-{value}", file(resting=order() + body, events=quote(), note=b"x")


EVENT_PLACES = {"time": (0, 4), "kind": (4, 1), "flags": (5, 1), "number": (6, 2), "first": (8, 4), "second": (12, 4)}


def fields_of_event(kind, sample, tried):
    for name, values_tried in tried.items():
        place, width = EVENT_PLACES[name]
        for value in values_tried:
            body = changed(sample, place, width, value)
            yield f"{kind}-{name}-{value}", file(events=body)
            yield f"{kind}-last-{name}-{value}", file(resting=order(), events=quote() + bare(5) + body, note=b"x")


def fields_of_events():
    limits = {"time": TIMES, "kind": KINDS, "number": ENTRIES, "first": PRICES, "second": SHARES}
    yield from fields_of_event("enter-limit", enter(), limits)
    yield from fields_of_event("enter-limit-sell", enter(flags=SELL + STAYS + DISPLAYED), {"first": PRICES})
    market = {"number": ENTRIES, "first": [0, 1, 1050, *ZERO_4[2:]], "second": SHARES}
    yield from fields_of_event("enter-market", enter(flags=MARKET, limit=0), market)
    yield from fields_of_event("enter-market-sell", enter(flags=SELL + MARKET + DISPLAYED, limit=0), {"first": ZERO_4})
    for flags in [*range(17), 17, 31, 32, 64, 128, 255]:
        right, wrong = (0, 1050) if flags & MARKET else (1050, 0)
        yield f"enter-flags-{flags}-with-the-right-limit", file(events=enter(flags=flags, limit=right))
        yield f"enter-flags-{flags}-with-the-wrong-limit", file(events=enter(flags=flags, limit=wrong))
    asked = {"time": TIMES, "kind": KINDS, "flags": ZERO_1 + [4, 8, 16], "number": ENTRIES}
    yield from fields_of_event("cancel", cancel(), {**asked, "first": ZERO_4, "second": SHARES})
    quoted = {"time": TIMES, "kind": KINDS, "flags": ZERO_1 + [4, 8, 16], "number": ZERO_2}
    yield from fields_of_event("quote", quote(), {**quoted, "first": PRICES, "second": PRICES})
    yield "quote-of-no-price", file(events=quote(bid=0, offer=0))
    yield "quote-with-bid-above-offer", file(events=quote(bid=1100, offer=1000))
    unnamed = {"flags": ZERO_1, "number": ZERO_2, "first": ZERO_4, "second": ZERO_4}
    for kind in (4, 5, 6, 7):
        tried = {"time": TIMES, "kind": KINDS, **unnamed}
        yield from fields_of_event(EVENT_KINDS[kind], bare(kind), tried)
    yield "events-back-in-time", file(events=bare(5, 200) + bare(4, 100) + bare(7, 0))
    yield "events-with-one-entry-number-twice", file(resting=order() * 2, events=enter() * 2)


def faults_at_once():
    bad_heading = heading(last_sale=0)
    bad_order, bad_enter = order(shares=0), enter(shares=0)
    yield "too-long-and-bad-mask", b"\x10" + bytes(65_535)
    yield "bad-mask-and-wrong-sum", changed(file(), 0, 1, 17) + b"\0"
    yield "bad-mask-and-bad-field", packed({1: bad_heading}, mask=33)
    yield "mask-without-heading-and-wrong-length", packed({2: bad_order[:11]})
    yield "wrong-sum-and-bad-field", file(heading=bad_heading) + b"\0"
    yield "wrong-sum-and-bad-field-of-an-event", file(events=bad_enter) + b"\0"
    yield "wrong-sum-and-wrong-length", file(heading=heading()[:7]) + b"\0\0"
    yield "wrong-sum-and-wrong-length-and-bad-field", file(heading=bad_heading, resting=b"12345") + b"\0"
    yield "wrong-lengths-of-heading-and-resting", file(heading=heading()[:7], resting=TWO_ORDERS[:23])
    yield "wrong-lengths-of-heading-and-events", file(heading=heading() + b"\0", events=quote()[:15], note=b"n")
    yield "wrong-lengths-of-resting-and-events", file(resting=TWO_ORDERS[:23], events=quote() + b"\0", note=b"n")
    yield "wrong-lengths-of-all-three", file(heading=b"", resting=b"1", events=b"2", note=b"3")
    yield "too-many-orders-and-wrong-length-of-events", file(resting=many_orders(257), events=b"\0")
    yield "bad-heading-and-wrong-length-of-resting", file(heading=bad_heading, resting=b"\0" * 11)
    yield "bad-heading-and-wrong-length-of-events", file(heading=bad_heading, events=quote()[:15])
    yield "bad-order-and-wrong-length-of-events", file(resting=bad_order, events=quote()[:15])
    yield "bad-order-and-too-many-orders", file(resting=bad_order + many_orders(256))
    yield "bad-order-and-bad-event", file(resting=order() + bad_order, events=bad_enter)
    yield "bad-heading-and-bad-order", file(heading=bad_heading, resting=bad_order)
    yield "bad-heading-and-bad-event", file(heading=heading(zeros=(0, 0, 1)), events=bad_enter)
    yield "bad-ranking-and-bad-zero", file(heading=heading(ranking=3, zeros=(0, 1, 0)))
    yield "two-bad-zeros", file(heading=heading(zeros=(0, 1, 1)))
    yield "bad-side-and-bad-shares", file(resting=order(side=2, shares=0))
    yield "bad-entry-and-bad-limit-of-an-order", file(resting=order(entry=0, limit=0))
    yield "all-fields-of-an-order-bad", file(resting=b"\xff" * 12)
    yield "all-fields-of-an-order-zero", file(resting=bytes(12))
    yield "bad-shares-of-the-first-order-and-bad-side-of-the-second", file(resting=bad_order + order(side=2))
    yield "good-order-between-two-bad-ones", file(resting=order(limit=0) + order() + order(side=9))
    yield "bad-shares-of-an-enter-and-bad-time-of-the-next", file(events=bad_enter + bare(4, 86_400_000))
    yield "second-and-third-events-bad", file(events=quote() + bare(8) + bare(9))
    yield "bad-time-and-bad-kind", file(events=bare(0, 86_400_000))
    yield "bad-kind-and-bad-flags", file(events=event(0, 8, flags=255))
    yield "bad-kind-and-all-after-it-bad", file(events=number(0, 4) + b"\xff" * 12)
    yield "bad-flags-and-bad-entry", file(events=enter(flags=6, entry=0))
    yield "bad-flags-and-bad-limit", file(events=enter(flags=16, limit=0))
    yield "market-that-stays-with-a-limit", file(events=enter(flags=MARKET + STAYS, limit=1050))
    yield "bad-entry-and-bad-limit-of-an-enter", file(events=enter(entry=0, limit=0))
    yield "bad-limit-and-bad-shares-of-an-enter", file(events=enter(limit=20_000_001, shares=1_000_001))
    yield "bad-flags-and-bad-shares-of-a-cancel", file(events=event(0, 2, 1, 1, 0, 0))
    yield "bad-bid-and-bad-offer", file(events=quote(bid=20_000_001, offer=20_000_001))
    yield "all-of-an-event-255", file(events=b"\xff" * 16)
    yield "all-of-an-event-zero", file(events=bytes(16))
    yield "bad-amounts-of-a-cross", file(events=event(0, 7, 0, 0, 1, 1))
    yield "bad-field-only-in-the-note", file(events=quote(), note=b"\xff" * 16)


def far_offsets():
    orders = many_orders(256)
    after = 7 + 8 + 3072
    good = file(resting=orders, events=ONE_OF_EACH_KIND)
    yield "events-after-256-orders", good
    yield "bad-side-of-the-order-at-place-20", changed(good, 15 + 12 * 20, 1, 2)
    yield "bad-shares-of-the-order-at-place-21", changed(good, 15 + 12 * 21 + 8, 4, 0)
    yield "bad-limit-of-the-last-of-256-orders", changed(good, 15 + 12 * 255 + 4, 4, 0)
    yield "bad-shares-of-the-last-of-256-orders", changed(good, 15 + 12 * 255 + 8, 4, 1_000_001)
    yield "bad-time-after-256-orders", changed(good, after, 4, 86_400_000)
    yield "bad-kind-after-256-orders", changed(good, after + 4, 1, 0)
    yield "bad-limit-of-an-enter-after-256-orders", changed(good, after + 16 + 8, 4, 0)
    yield "bad-flags-of-the-last-event-after-256-orders", changed(good, after + 16 * 7 + 5, 1, 1)
    yield "wrong-length-of-events-after-256-orders", file(resting=orders, events=ONE_OF_EACH_KIND[:-1])
    yield "wrong-length-of-events-after-256-orders-with-a-note", file(resting=orders, events=b"\0", note=b"\0")
    yield "note-after-256-orders", file(resting=orders, note=b"after")
    yield "bad-order-at-place-128-and-bad-event", changed(changed(good, after, 1, 255), 15 + 12 * 128, 1, 2)
    yield "wrong-sum-after-256-orders", good[:-1]


def sessions():
    yield "session-of-an-opening", file(events=SESSION)
    yield "session-of-an-opening-with-resting-orders", file(resting=TWO_ORDERS, events=SESSION)
    yield "session-with-a-note-and-the-other-ranking", file(heading=heading(ranking=2), events=SESSION, note=b"hello")
    yield "session-of-sixteen-events", file(events=ONE_OF_EACH_KIND * 2)
    yield "session-of-seventeen-events", file(events=ONE_OF_EACH_KIND * 2 + bare(7))
    yield "session-of-sixteen-orders", file(resting=many_orders(16))
    yield "session-of-seventeen-orders", file(resting=many_orders(17))


class Numbers:
    """Pseudo-random numbers that are the same everywhere."""

    def __init__(self, seed):
        self.state = seed

    def below(self, bound):
        self.state = (self.state * 6364136223846793005 + 1442695040888963407) % 2**64
        return (self.state >> 33) % bound

    def one_of(self, items):
        return items[self.below(len(items))]


def with_moved_length(numbers, data):
    """The file with some bytes of one body told as another's, so that the sum stays; where it has two bodies."""
    count = bin(data[0] & 15).count("1")
    if count < 2 or len(data) < 1 + 2 * count:
        return data
    taken, given = numbers.below(count), numbers.below(count)
    moved = numbers.one_of([1, 8, 12, 16, 24])
    for which, change in ((taken, -moved), (given, moved)):
        told = int.from_bytes(data[1 + 2 * which : 3 + 2 * which], "big")
        data = changed(data, 1 + 2 * which, 2, (told + change) % 65_536)
    return data


def mutated(numbers, data):
    """A word for what is done to the file, and the file after it."""
    place = numbers.below(len(data))
    how = numbers.below(12)
    if how < 4:
        return "set", changed(data, place, 1, numbers.below(256))
    if how < 6:
        return "flip", changed(data, place, 1, data[place] ^ 1 << numbers.below(8))
    if how < 8:
        return "nudge", changed(data, place, 1, numbers.one_of([0, 1, 2, 255, (data[place] + 1) % 256]))
    if how < 10:
        return "move", with_moved_length(numbers, data)
    if how == 10:
        return "cut", data[:place] + data[place + 1 :]
    return "insert", data[:place] + bytes([numbers.below(256)]) + data[place:]


def mutations():
    numbers = Numbers(20_260_117)
    goods = [
        ("all-four-bodies", ALL_FOUR),
        ("opening", file(events=SESSION)),
        ("thirty-orders", file(resting=many_orders(30), events=quote())),
        ("orders-and-note", file(heading=heading(ranking=2), resting=TWO_ORDERS, note=b"abcdefgh")),
        ("events-and-empty-note", file(events=ONE_OF_EACH_KIND * 3, note=b"")),
        ("heading-only", file()),
    ]
    for count in range(1, 201):
        name, data = numbers.one_of(goods)
        for _ in range(1 + numbers.below(3)):
            word, data = mutated(numbers, data)
            name += "-" + word
        yield f"mutation-{count}-of-{name}", data


# ---------------------------------------------------------------------------------------------------------------------
# The cases of quotes


def quotes_of_note():
    yield "collar-a-twentieth-of-the-sum", Collar(1000, 1100, 1000, collar=(895, 1205))
    for last_sale in (1, 50, 1000, 20_000_000):
        yield f"collar-of-40-and-60-with-last-sale-{last_sale}", Collar(40, 60, last_sale, collar=(1, 110))
    yield "collar-of-bid-above-offer-is-the-last-sales", Collar(1100, 1000, 1000, collar=(900, 1100))
    yield "collar-of-bid-a-cent-above-offer", Collar(1001, 1000, 2000, collar=(1800, 2200))
    yield "collar-of-bid-equal-to-offer", Collar(1000, 1000, 2000, collar=(900, 1100))
    yield "collar-of-bid-a-cent-below-offer", Collar(1000, 1001, 2000, collar=(900, 1101))
    yield "collar-with-no-bid", Collar(0, 1100, 1000, collar=(900, 1100))
    yield "collar-with-no-offer", Collar(1100, 0, 1000, collar=(900, 1100))
    yield "collar-with-no-bid-and-no-offer", Collar(0, 0, 1000, collar=(900, 1100))
    yield "collar-of-1380-and-1400", Collar(1380, 1400, 1390, collar=(1241, 1539))
    for bid, offer in ((499, 500), (500, 500), (500, 501), (509, 510), (510, 510), (510, 511), (1, 999), (20, 1000)):
        yield f"collar-threshold-of-sum-{bid + offer}-from-{bid}-and-{offer}", Collar(bid, offer, 7)
    for last_sale in (499, 500, 501, 509, 510, 519, 520):
        yield f"collar-threshold-of-last-sale-{last_sale}", Collar(0, 0, last_sale)


def quotes_at_the_ends():
    low, high = LOWEST_PRICE, HIGHEST_PRICE
    for name, bid, offer in (("lowest", low, low), ("highest", high, high), ("both-ends", low, high)):
        yield f"collar-of-quote-at-{name}", Collar(bid, offer, 1000)
    yield "collar-of-quote-at-both-ends-crossed", Collar(high, low, 1000)
    for last_sale in (1, 2, 50, 51, 52, 19_999_999, 20_000_000):
        yield f"collar-of-last-sale-{last_sale}", Collar(0, 0, last_sale)
        yield f"collar-of-last-sale-{last_sale}-with-a-bid-only", Collar(1000, 0, last_sale)
    for bid in (49, 50, 51, 52, 53):
        yield f"collar-low-end-of-bid-{bid}", Collar(bid, 100, 1000)
    for offer in (18_181_817, 18_181_818, 18_181_819, 18_181_820, 18_181_821):
        yield f"collar-high-end-of-offer-{offer}", Collar(offer, offer, 1000)
    yield "collar-low-end-far-below-a-wide-quote", Collar(1000, 20_000, 1)
    yield "collar-low-end-just-above-1-of-a-wide-quote", Collar(1_000_002, 19_000_000, 1)


def quotes_refused():
    for value in (20_000_001, 2**31, 2**32 - 1):
        yield f"collar-refused-bid-{value}", Collar(value, 1100, 1000)
        yield f"collar-refused-offer-{value}", Collar(1000, value, 1000)
        yield f"collar-refused-last-sale-{value}", Collar(0, 0, value)
    yield "collar-refused-last-sale-0", Collar(0, 0, 0)
    yield "collar-refused-last-sale-0-with-a-quote", Collar(1000, 1100, 0)
    yield "collar-refused-last-sale-20000001-with-a-quote", Collar(1000, 1100, 20_000_001)
    yield "collar-refused-bid-20000001-with-no-offer", Collar(20_000_001, 0, 1000)
    yield "collar-refused-all-three", Collar(20_000_001, 20_000_001, 0)


def quotes_drawn():
    numbers = Numbers(20_260_118)
    for count in range(1, 121):
        most = numbers.one_of([60, 600, 1100, 5000, 20_000_000])
        bid, offer, last_sale = (1 + numbers.below(most) for _ in range(3))
        if numbers.below(5) == 0:
            bid, offer = numbers.one_of([(0, offer), (bid, 0), (0, 0), (bid, bid)])
        yield f"collar-drawn-{count}", Collar(bid, offer, last_sale)


# ---------------------------------------------------------------------------------------------------------------------
# The cases of books


def buy(shares, limit):
    return (0, shares, limit)


def sell(shares, limit):
    return (1, shares, limit)


# A file has no market orders; these limits count as they would.
def market_buy(shares):
    return buy(shares, HIGHEST_PRICE)


def market_sell(shares):
    return sell(shares, LOWEST_PRICE)


def book(*orders):
    """The file whose resting orders these are."""
    placed = enumerate(orders)
    return file(resting=b"".join(order(side, 1, i + 1, limit, shares) for i, (side, shares, limit) in placed))


def in_collar(bid, offer, last_sale, *orders, clears=None):
    """The book in the collar of a quote."""
    low, high = reference_range(bid, offer, last_sale)
    return Price(*collar_of(low, high), low + high, book(*orders), clears=clears)


def books_of_note():
    def priced(*orders, clears):
        return Price(895, 1205, 2100, book(*orders), clears=clears)

    yield "price-more-bought-so-at-the-buy", priced(buy(300, 1050), sell(200, 1020), clears=(1050, 200))
    yield "price-more-bought-order-turned", priced(sell(200, 1020), buy(300, 1050), clears=(1050, 200))
    yield "price-more-sold-so-at-the-sell", priced(buy(200, 1060), sell(300, 1055), clears=(1055, 200))
    yield "price-as-many-so-at-the-tie-breaker", priced(buy(200, 1060), sell(200, 1020), clears=(1050, 200))
    yield "price-as-many-above-the-tie-breaker", priced(buy(200, 1080), sell(200, 1070), clears=(1070, 200))
    yield "price-as-many-below-the-tie-breaker", priced(buy(200, 1030), sell(200, 1020), clears=(1030, 200))
    sells = (sell(200, 1020), sell(200, 1040))
    yield "price-market-buy-at-the-high-end", priced(market_buy(500), *sells, clears=(1205, 400))
    yield "price-market-buy-of-as-many", priced(market_buy(400), *sells, clears=(1050, 400))
    yield "price-market-sell-at-the-low-end", priced(market_sell(500), buy(400, 1060), clears=(895, 400))
    yield "price-no-orders", priced(clears=(1050, 0))
    yield "price-no-resting-body", Price(895, 1205, 2100, file(), clears=(1050, 0))
    yield "price-no-overlap", priced(buy(200, 1040), sell(200, 1060), clears=(1050, 0))
    yield "price-no-overlap-above-the-tie-breaker", priced(buy(200, 1070), sell(200, 1090), clears=(1070, 0))
    yield "price-no-overlap-below-the-tie-breaker", priced(buy(200, 1020), sell(200, 1040), clears=(1040, 0))
    half = (buy(100, 1001), sell(100, 1000))
    yield "price-lower-of-two-as-near", in_collar(1000, 1001, 7, *half, clears=(1000, 100))
    yield "price-lower-of-two-as-near-turned", in_collar(1000, 1001, 7, *half[::-1], clears=(1000, 100))
    yield "price-with-events-and-note", Price(895, 1205, 2100, ALL_FOUR)
    yield "price-displayed-or-not-is-the-same", Price(1, 70_000, 2100, file(resting=TWO_ORDERS))


def books_published():
    def priced(*orders, clears):
        return Price(1009, 1011, 2020, book(*orders), clears=clears)

    yield "published-limits-at-the-middle", priced(buy(1500, 1010), sell(1000, 1010), clears=(1010, 1000))
    yield "published-market-sell", priced(buy(1500, 1010), market_sell(1000), clears=(1010, 1000))
    outer = (buy(500, 1009), sell(600, 1011))
    crossed = (buy(2000, 1011), sell(2000, 1009))
    yield "published-at-the-middle-of-the-quote", priced(*crossed, *outer, clears=(1010, 2000))
    beyond = (buy(2000, 1008), sell(2000, 1008))
    yield "published-held-to-the-quote", priced(*beyond, *outer, clears=(1009, 500))
    one = book(buy(1500, 1011), sell(1000, 1009))
    yield "published-one-price", Price(1010, 1010, 2020, one, clears=(1010, 1000))
    markets = [make(1000) for make in (market_buy, market_buy, market_sell, market_sell)]
    yield "published-market-orders-only", in_collar(0, 0, 1005, *markets, clears=(1005, 2000))
    buys = [buy(5000, 1375), buy(2000, 1400), buy(7000, 1350), buy(9000, 1375), buy(1000, 1380)]
    sells = [sell(5000, 1400), sell(1000, 1375), sell(2000, 1390), sell(4000, 1300), sell(6000, 1200)]
    yield "published-limits-only-at-1375", in_collar(1380, 1400, 7, *buys, *sells, clears=(1375, 11_000))
    sells = [sell(10_000, 1001), sell(10_000, 1002), market_sell(50_000), sell(20_000, 990), sell(30_000, 1005)]
    mixed = [buy(10_000, 1000), market_buy(100_000), *sells]
    yield "published-market-and-limits-at-1005", in_collar(1000, 1001, 7, *mixed, clears=(1005, 100_000))


def books_of_one_side():
    for limit in (1, 894, 895, 896, 1049, 1050, 1051, 1204, 1205, 1206, 20_000_000):
        for twice in (1790, 2100, 2101, 2410):
            yield f"price-one-buy-at-{limit}-twice-{twice}", Price(895, 1205, twice, book(buy(200, limit)))
            yield f"price-one-sell-at-{limit}-twice-{twice}", Price(895, 1205, twice, book(sell(200, limit)))
    limits = (1000, 1040, 1060, 1100)
    yield "price-buys-only", Price(895, 1205, 2100, book(*(buy(100, limit) for limit in limits)))
    yield "price-sells-only", Price(895, 1205, 2100, book(*(sell(100, limit) for limit in limits)))


def books_in_one_price():
    crossed = book(buy(300, 1060), sell(200, 1020))
    for price in (1, 2, 1010, 1040, 1070, 19_999_999, 20_000_000):
        for twice in (0, 2 * price, 2 * price + 1, 2**32 - 1):
            yield f"price-range-of-{price}-alone-twice-{twice}", Price(price, price, twice, crossed)
        yield f"price-range-of-{price}-alone-no-orders", Price(price, price, 2100, book())


def books_by_tie_breaker():
    """Twice the tie-breaker from far below the range to far above it."""
    books = {
        "no-orders": book(),
        "an-overlap": book(buy(200, 1060), sell(200, 1020)),
        "a-gap": book(buy(200, 1020), sell(200, 1060)),
        "more-bought": book(buy(300, 1060), buy(100, 1100), sell(200, 1020), sell(100, 1040)),
        "more-sold": book(buy(100, 1060), buy(100, 1040), sell(200, 1020), sell(100, 1000)),
    }
    tried = [0, 1, 2, 1788, 1789, 1790, 1791, 1792, 2038, 2039, 2040, 2041, 2042, 2080, 2081, 2099, 2100, 2101]
    tried += [2118, 2119, 2120, 2121, 2122, 2408, 2409, 2410, 2411, 2412, 40_000_000, 2**31, 2**32 - 2, 2**32 - 1]
    for name, data in books.items():
        for twice in tried:
            yield f"price-{name}-twice-{twice}", Price(895, 1205, twice, data)


def books_in_the_widest_range():
    ends = [buy(200, 20_000_000), sell(200, 1)]
    books = {
        "no-orders": [],
        "buy-at-the-high-end": ends[:1],
        "sell-at-the-low-end": ends[1:],
        "both-ends-crossed": ends,
        "both-ends-crossed-more-bought": [buy(300, 20_000_000), sell(200, 1)],
        "both-ends-crossed-more-sold": [buy(200, 20_000_000), sell(300, 1)],
        "both-ends-apart": [buy(200, 1), sell(200, 20_000_000)],
        "a-cent-from-the-ends": [buy(200, 19_999_999), sell(200, 2), buy(100, 2), sell(100, 19_999_999)],
        "a-cent-from-the-ends-apart": [buy(200, 2), sell(200, 19_999_999)],
        "buys-at-both-ends": [buy(200, 1), buy(300, 20_000_000), sell(400, 10_000_000)],
        "sells-at-both-ends": [sell(200, 1), sell(300, 20_000_000), buy(400, 10_000_000)],
        "an-overlap-of-one-price": [buy(100, 7_654_321), sell(100, 7_654_321)],
        "a-gap-of-one-price": [buy(100, 7_654_320), sell(100, 7_654_322)],
        "a-gap-of-none": [buy(100, 7_654_320), sell(100, 7_654_321)],
        "more-bought-at-7654321": [buy(300, 7_654_321), sell(200, 1)],
        "more-sold-at-7654321": [buy(200, 20_000_000), sell(300, 7_654_321)],
    }
    for name, orders in books.items():
        for twice in (0, 2, 3, 15_308_641, 20_000_001, 39_999_999, 40_000_000, 2**32 - 1):
            yield f"price-widest-{name}-twice-{twice}", Price(1, 20_000_000, twice, book(*orders))


def books_of_many_orders():
    ladder = file(resting=many_orders(256))
    ranges = [(895, 1205, 2100), (1, 20_000_000, 2255), (1128, 1128, 0), (1300, 1310, 2605), (1, 900, 9)]
    for low, high, twice in ranges:
        yield f"price-256-orders-in-{low}-to-{high}", Price(low, high, twice, ladder)
    most = 1_000_000
    books = {
        "buys": [buy(most, 1000 + i) for i in range(256)],
        "sells": [sell(most, 1000 + i) for i in range(256)],
        "of-each-side-128-crossed": [(i % 2, most, 1300 - i) for i in range(256)],
        "of-each-side-128-by-halves": [(i // 128, most, 1000 + i) for i in range(256)],
        "of-each-side-128-at-one-price": [(i % 2, most, 1100) for i in range(256)],
        "one-sell-among-buys-last": [buy(most, 1100)] * 255 + [sell(most, 1050)],
        "one-buy-among-sells-first": [buy(most, 1100)] + [sell(most, 1050)] * 255,
    }
    for name, orders in books.items():
        yield f"price-256-orders-{name}", Price(895, 1205, 2100, book(*orders))
    numbers = Numbers(20_260_119)
    for count in range(1, 9):
        orders = [(numbers.below(2), 1 + numbers.below(most), 980 + numbers.below(140)) for _ in range(256)]
        yield f"price-256-orders-drawn-{count}", Price(895, 1205, 2050 + 9 * count, book(*orders))


def books_refused():
    crossed = book(buy(300, 1060), sell(200, 1020))
    short = crossed[:-1]
    bad = file(resting=order() + order(side=2))
    ranges = [(0, 1205), (0, 0), (895, 0), (895, 20_000_001), (20_000_001, 20_000_001), (896, 895), (20_000_000, 1)]
    ranges += [(20_000_001, 895), (895, 2**32 - 1), (2**32 - 1, 895), (2**31, 2**31)]
    for low, high in ranges:
        yield f"price-refused-range-{low}-to-{high}", Price(low, high, 2100, crossed)
        yield f"joined-refused-range-{low}-to-{high}", Price(low, high, 2100, crossed, crossed)
    yield "price-refused-empty-file", Price(895, 1205, 2100, b"")
    yield "price-refused-file", Price(895, 1205, 2100, bad)
    yield "price-refused-file-before-the-range", Price(1205, 895, 2100, bad)
    yield "joined-refused-first", Price(895, 1205, 2100, short, crossed)
    yield "joined-refused-second", Price(895, 1205, 2100, crossed, short)
    yield "joined-refused-both-by-the-first", Price(895, 1205, 2100, bad, short)
    yield "joined-refused-both-by-the-first-turned", Price(895, 1205, 2100, short, bad)
    yield "joined-refused-both-empty", Price(895, 1205, 2100, b"", b"")
    yield "joined-refused-second-before-the-range", Price(1205, 895, 2100, crossed, b"")


def books_joined():
    def priced(first, second, clears=None):
        return Price(895, 1205, 2100, first, second, clears=clears)

    some, more = book(buy(300, 1050)), book(sell(200, 1020))
    yield "joined-a-side-in-each", priced(some, more, clears=(1050, 200))
    yield "joined-a-side-in-each-turned", priced(more, some, clears=(1050, 200))
    yield "joined-first-alone", priced(some, book())
    yield "joined-second-alone", priced(book(), some)
    yield "joined-first-with-no-resting-body", priced(file(), more)
    yield "joined-no-orders", priced(book(), file(), clears=(1050, 0))
    yield "joined-same-twice", priced(ALL_FOUR, ALL_FOUR)
    ladder = file(resting=many_orders(256))
    yield "joined-512-orders", priced(ladder, ladder)
    yield "joined-256-orders-and-1", priced(ladder, some)
    yield "joined-1-order-and-256", priced(more, ladder)
    buys, sells = [book(*[make(1_000_000)] * 256) for make in (market_buy, market_sell)]
    yield "joined-512-orders-with-most-shares", priced(buys, sells)
    yield "joined-512-buys-with-most-shares", priced(buys, buys)
    yield "joined-512-sells-with-most-shares", priced(sells, sells)


def drawn_range(numbers):
    """A small range, at the lowest prices, at the highest or in between, and a tie-breaker in it or near it."""
    width = numbers.below(13)
    low = numbers.one_of([1, 1 + numbers.below(6), 1000 + numbers.below(20), HIGHEST_PRICE - width - numbers.below(4)])
    low = min(low, HIGHEST_PRICE - width)
    twice = 2 * low + numbers.below(2 * width + 1)
    if numbers.below(4) == 0:
        twice = max(0, 2 * low - 8 + numbers.below(2 * width + 17))
    return low, low + width, twice


def drawn_order(numbers, low, high, most_shares):
    side = numbers.below(2)
    if numbers.below(12) == 0:
        limit = LOWEST_PRICE if side else HIGHEST_PRICE
    else:
        limit = min(max(low - 3 + numbers.below(high - low + 7), LOWEST_PRICE), HIGHEST_PRICE)
    return side, 1 + numbers.below(most_shares), limit


def drawn_orders(numbers, low, high, most):
    """Up to so many orders, of few numbers of shares, so that sums are often equal."""
    most_shares = numbers.one_of([1, 2, 3, 5, 1_000_000])
    return [drawn_order(numbers, low, high, most_shares) for _ in range(numbers.below(most + 1))]


def books_drawn():
    numbers = Numbers(20_260_120)
    for count in range(1, 1501):
        low, high, twice = drawn_range(numbers)
        yield f"price-drawn-{count}", Price(low, high, twice, book(*drawn_orders(numbers, low, high, 12)))
    for count in range(1, 201):
        low, high, twice = drawn_range(numbers)
        files = [book(*drawn_orders(numbers, low, high, 8)) for _ in range(2)]
        yield f"joined-drawn-{count}", Price(low, high, twice, *files)


def check_turning_prices():
    """Holds the prices that are tried in wide ranges to all prices, in small ones."""
    numbers = Numbers(20_260_121)
    for _ in range(500):
        low, high, twice = drawn_range(numbers)
        orders = read_session(book(*drawn_orders(numbers, low, high, 12)))[1]
        pricing = Pricing(orders, low, high)
        assert pricing.clearing_price(twice, pricing.all_prices()) == pricing.clearing_price(
            twice, pricing.turning_prices(twice)
        ), (low, high, twice, orders)


def unreadable_lines():
    data = told(book(buy(300, 1060)))
    lines = {
        "word-alone": "price",
        "unknown-word": f"prices 895 1205 2100 {data}",
        "capital-word": f"Price 895 1205 2100 {data}",
        "price-with-nothing": "price ",
        "price-with-two-numbers": f"price 895 1205 {data}",
        "price-with-no-file": "price 895 1205 2100",
        "price-with-two-files": f"price 895 1205 2100 {data} {data}",
        "price-with-two-spaces": f"price  895 1205 2100 {data}",
        "price-with-a-number-too-large": f"price 895 1205 4294967296 {data}",
        "price-with-a-number-below-zero": f"price -1 1205 2100 {data}",
        "price-with-a-file-cut-in-a-pair": f"price 895 1205 2100 {data[:-1]}",
        "joined-without-price": f"joined 895 1205 2100 {data} {data}",
        "joined-with-one-file": f"joined price 895 1205 2100 {data}",
        "joined-with-three-files": f"joined price 895 1205 2100 {data} {data} {data}",
        "collar-with-two-prices": "collar 1000 1100",
        "collar-with-four-prices": "collar 1000 1100 1000 1000",
        "collar-with-a-space-after-it": "collar 1000 1100 1000 ",
        "collar-with-a-word": "collar none 1100 1000",
        "file-with-a-space-after-it": f"{data} ",
        "file-with-a-space-before-it": f" {data}",
        "two-files": f"{data} {data}",
        "file-in-capitals": f"{data.upper()}AF",
    }
    for name, text in lines.items():
        yield f"line-{name}", Unreadable(text)


def all_cases():
    files = [sizes, masks, cuts, sums, lengths, fields_of_heading, fields_of_resting, fields_of_events]
    files += [faults_at_once, far_offsets, sessions, mutations]
    for group in files:
        for name, data in group():
            yield name, Read(data)
    others = [quotes_of_note, quotes_at_the_ends, quotes_refused, quotes_drawn, books_of_note, books_published]
    others += [books_of_one_side, books_in_one_price, books_by_tie_breaker, books_in_the_widest_range]
    others += [books_of_many_orders, books_refused, books_joined, books_drawn, unreadable_lines]
    for group in others:
        yield from group()


# ---------------------------------------------------------------------------------------------------------------------
# Writing the table


def times_at(data, place, size):
    """How often the bytes of this size at a place stand one after the other."""
    part, count = data[place : place + size], 1
    while len(part) == size and data[place + count * size : place + (count + 1) * size] == part:
        count += 1
    return count


def saving(run):
    size, count = run
    return size * (count - 1)


def runs(data):
    """The bytes as runs: what stands often enough is told once, with its number."""
    told, plain, place = [], b"", 0
    while place < len(data):
        size, count = max(((size, times_at(data, place, size)) for size in (1, 12, 16)), key=saving)
        if saving((size, count)) < 10:
            plain += data[place : place + 1]
            place += 1
            continue
        if plain:
            told.append(plain.hex())
        told.append(f"{data[place:place + size].hex()}*{count}")
        plain, place = b"", place + size * count
    if plain:
        told.append(plain.hex())
    return ";".join(told)


def from_runs(text):
    data = b""
    for run in text.split(";"):
        pairs, _, count = run.partition("*")
        data += bytes.fromhex(pairs) * int(count or "1")
    return data


def told(data):
    """The file as the table has it."""
    text = runs(data)
    assert from_runs(text) == data
    return text


def main():
    check_turning_prices()
    cases, answers, names = [], [], set()
    for name, case in all_cases():
        assert re.fullmatch("[A-Za-z0-9-]+", name) and name not in names, name
        names.add(name)
        cases.append(f"{name} {case.text()}")
        answers += case.answer(name)
    here = os.path.dirname(os.path.abspath(__file__))
    for name, lines in (("stdin", cases), ("stdout", answers)):
        with open(os.path.join(here, name), "w", encoding="ascii", newline="\n") as out:
            out.write("\n".join(lines) + "\n")
    print(f"{len(cases)} cases, {len(answers)} lines of answers")


if __name__ == "__main__":
    main()
