#!/usr/bin/env python3
"""Writes the table of sessions whose run the program `run_acceptance` reports, and what it has to print.

    python3 crates/run_acceptance/table.py

writes `stdin`, the cases, and `stdout`, the answers, beside this file. The answers come from the auction below, over the
reader, the pricing and the ranges of `crates/acceptance/table.py`. Both follow the description of the format and the
rules and share nothing with the crates: where the program prints something else, one of the two is wrong, and the
description says which.

    cd crates/run_acceptance && rt run < stdin; out/run_acceptance < stdin | diff - stdout

shows where.

A line of the table is `NAME report BYTES`, with the NAME and the BYTES of the other table. It runs the session of a file
and reports it. The answer is `NAME` alone and then the lines of the report, also where the file is refused; to a line of
any other form it is `NAME unreadable`.

The report of a session begins with the line `event,answer,price,shares`. A refused file has one line more,
`refused,NUMBER,LAYER,BYTE`. An accepted one has a line for each event, with its place, its answer (0, or the number of
the refusal), a price and shares: an enter shows its shares, a cancel those taken, a publish the reference price and the
paired shares, a cross its price and the shares executed, and what is not used is 0. After an accepted publish stands

    info,REFERENCE,PAIRED,IMBALANCE,INDICATIVE,AUCTIONONLY,LOW,HIGH,TWICE

and after an accepted cross a line `fill,PLACE,FILL` for each allotment and then a line `left,ENDED,RELEASED`.
"""

import importlib.util
import os
import re
import sys


def the_other_table():
    """The module `crates/acceptance/table.py`."""
    here = os.path.dirname(os.path.abspath(__file__))
    spec = importlib.util.spec_from_file_location("table_of_files", os.path.join(here, "..", "acceptance", "table.py"))
    module = importlib.util.module_from_spec(spec)
    sys.dont_write_bytecode = True
    spec.loader.exec_module(module)
    return module


files = the_other_table()
ALL_FOUR = files.ALL_FOUR
DISPLAYED = files.DISPLAYED
EVENT_KINDS = files.EVENT_KINDS
HIGHEST_PRICE = files.HIGHEST_PRICE
LOWEST_PRICE = files.LOWEST_PRICE
MARKET = files.MARKET
ONE_OF_EACH_KIND = files.ONE_OF_EACH_KIND
SELL = files.SELL
SESSION = files.SESSION
STAYS = files.STAYS
TWO_ORDERS = files.TWO_ORDERS
bare = files.bare
book = files.book
buy = files.buy
cancel = files.cancel
changed = files.changed
collar_of = files.collar_of
enter = files.enter
file = files.file
heading = files.heading
many_orders = files.many_orders
mutated = files.mutated
Numbers = files.Numbers
order = files.order
quote = files.quote
read_session = files.read_session
reference_range = files.reference_range
Refused = files.Refused
sell = files.sell
told = files.told
Unreadable = files.Unreadable

# ---------------------------------------------------------------------------------------------------------------------
# The reference pricing of a book that may have market orders

# In an order, the limit of a market order is this.
NO_LIMIT = None


def counted_price(order, low, high):
    limit = order["limit"]
    if order["side"] == 0:
        return high if limit is NO_LIMIT or limit > high else limit
    return low if limit is NO_LIMIT or limit < low else limit


class Pricing(files.Pricing):
    """The orders of a book, each by its counted price in a range."""

    def __init__(self, orders, low, high):
        self.low, self.high = low, high
        counted = [(order["side"], counted_price(order, low, high), order["shares"]) for order in orders]
        self.buys = [(price, shares) for side, price, shares in counted if side == 0]
        self.sells = [(price, shares) for side, price, shares in counted if side == 1]


# ---------------------------------------------------------------------------------------------------------------------
# The reference fills


def own_price(order):
    """The less, the better: market is best, then a higher buy or a lower sell."""
    if order["limit"] is NO_LIMIT:
        return -HIGHEST_PRICE - 1
    return order["limit"] if order["side"] else -order["limit"]


# For each ranking by its number, what it orders by, the least first.
RANKINGS = {
    1: lambda order: (own_price(order), 0 if order["displayed"] else 1, order["entry"]),
    2: lambda order: (own_price(order), -order["shares"], order["entry"]),
}


def is_willing(order, price, low, high):
    counted = counted_price(order, low, high)
    return counted <= price if order["side"] else counted >= price


def fills(orders, ranking, price, executed, low, high):
    """The fill of each order at a price of the range."""
    ranks = [RANKINGS[ranking](order) for order in orders]

    def is_as_good(a, b):
        return orders[a]["side"] == orders[b]["side"] and ranks[a] <= ranks[b]

    def is_ahead(a, b):
        return is_as_good(a, b) and (not is_as_good(b, a) or b > a)

    willing = [place for place, order in enumerate(orders) if is_willing(order, price, low, high)]
    filled = [0] * len(orders)
    for place in willing:
        ahead = sum(orders[other]["shares"] for other in willing if is_ahead(other, place))
        filled[place] = max(0, min(orders[place]["shares"], executed - ahead))
    for side in (0, 1):
        assert sum(fill for order, fill in zip(orders, filled) if order["side"] == side) == executed
    return filled


# ---------------------------------------------------------------------------------------------------------------------
# The reference auction

LOCK_TIME, SHUT_TIME, CROSS_TIME, END_OF_DAY = 34_080_000, 34_190_000, 34_200_000, 86_400_000

# The calls that each stage has, each with the first time at which it is taken and the first at which no more.
CALLS = {
    "open": {
        "enter": (0, LOCK_TIME),
        "cancel": (0, LOCK_TIME),
        "quote": (0, END_OF_DAY),
        "lock": (LOCK_TIME, END_OF_DAY),
    },
    "locked": {
        "enter": (0, SHUT_TIME),
        "quote": (0, END_OF_DAY),
        "publish": (0, END_OF_DAY),
        "shut": (SHUT_TIME, END_OF_DAY),
    },
    "shut": {
        "quote": (0, END_OF_DAY),
        "publish": (0, END_OF_DAY),
        "cross": (CROSS_TIME, END_OF_DAY),
    },
    "crossed": {},
}

MOST_ENTERED = 256


def entered(event):
    """The order of an enter."""
    flags = event["flags"]
    return {
        "side": 1 if flags & SELL else 0,
        "limit": NO_LIMIT if flags & MARKET else event["first-amount"],
        "shares": event["second-amount"],
        "entry": event["number"],
        "displayed": flags & DISPLAYED,
        "stays": flags & STAYS,
    }


class Auction:
    """An auction from its start; `entered` is the auction book, `filed` the filed one."""

    def __init__(self, last_sale, ranking, filed):
        self.last_sale, self.ranking, self.filed = last_sale, ranking, filed
        self.stage, self.entered, self.quoted = "open", [], (0, 0)
        self.last_time, self.last_entry = 0, 0
        self.accepted, self.gone = 0, 0

    def reference(self):
        return reference_range(*self.quoted, self.last_sale)

    def collar(self):
        return collar_of(*self.reference())

    def is_beyond_collar(self, order):
        low, high = self.collar()
        if order["limit"] is NO_LIMIT:
            return True
        return order["limit"] < low if order["side"] else order["limit"] > high

    def answer(self, event):
        """0, or the number of the refusal."""
        kind, time, number = EVENT_KINDS[event["kind"]], event["time"], event["number"]
        if kind not in CALLS[self.stage]:
            return 13
        start, end = CALLS[self.stage][kind]
        causes = {6: time < self.last_time, 7: not start <= time < end}
        if kind == "enter":
            causes[8] = number <= self.last_entry
            causes[9] = self.stage == "locked" and self.is_beyond_collar(entered(event))
            causes[10] = len(self.entered) == MOST_ENTERED
        if kind == "cancel":
            causes[11] = number not in [order["entry"] for order in self.entered]
        return min((cause for cause, applies in causes.items() if applies), default=0)

    def perform(self, event):
        """The answer, the price and the shares of an event, and the lines below its own."""
        answer = self.answer(event)
        if answer != 0:
            return answer, 0, 0, []
        self.last_time = event["time"]
        price, shares, below = getattr(self, EVENT_KINDS[event["kind"]])(event)
        assert self.accepted == self.gone + sum(order["shares"] for order in self.entered)
        return 0, price, shares, below

    def enter(self, event):
        order = entered(event)
        self.entered.append(order)
        self.last_entry = order["entry"]
        self.accepted += order["shares"]
        return 0, order["shares"], []

    def cancel(self, event):
        order = next(order for order in self.entered if order["entry"] == event["number"])
        taken = min(event["second-amount"], order["shares"])
        order["shares"] -= taken
        self.entered = [order for order in self.entered if order["shares"] != 0]
        self.gone += taken
        return 0, taken, []

    def quote(self, event):
        self.quoted = event["first-amount"], event["second-amount"]
        return 0, 0, []

    def lock(self, _):
        self.stage = "locked"
        return 0, 0, []

    def shut(self, _):
        self.stage = "shut"
        return 0, 0, []

    def publish(self, _):
        reference, collar = self.reference(), self.collar()
        twice = sum(reference)
        price, paired, imbalance = Pricing(self.entered, *reference).clears(twice)
        indicative, _, _ = Pricing(self.entered + self.filed, *collar).clears(twice)
        entered_only, _, _ = Pricing(self.entered, *collar).clears(twice)
        figures = [price, paired, imbalance, indicative, entered_only, *collar, twice]
        return price, paired, ["info," + ",".join(str(figure) for figure in figures)]

    def cross(self, _):
        orders, collar = self.entered + self.filed, self.collar()
        price, executed, _ = Pricing(orders, *collar).clears(sum(self.reference()))
        filled = fills(orders, self.ranking, price, executed, *collar)
        below = [f"fill,{place},{filled[place]}" for place in range(len(orders)) if orders[place]["side"] == 0]
        below += [f"fill,{place},{filled[place]}" for place in range(len(orders)) if orders[place]["side"] == 1]
        unfilled = [(order["stays"], order["shares"] - fill) for order, fill in zip(self.entered, filled)]
        ended = sum(shares for stays, shares in unfilled if not stays)
        released = sum(shares for stays, shares in unfilled if stays)
        self.gone += sum(filled[: len(self.entered)]) + ended + released
        self.stage, self.entered = "crossed", []
        return price if executed else 0, executed, below + [f"left,{ended},{released}"]


def report(data):
    """The lines of the report of a file."""
    lines = ["event,answer,price,shares"]
    try:
        heading, filed, events, _ = read_session(data)
    except Refused as refused:
        number, layer, byte = refused.answer
        return lines + [f"refused,{number},{layer},{byte}"]
    auction = Auction(heading["last-sale"], heading["ranking"], filed)
    for place, event in enumerate(events):
        answer, price, shares, below = auction.perform(event)
        lines += [f"{place},{answer},{price},{shares}", *below]
    return lines


class Report:
    """A session; `answers` are those of its first events, and `says` lines of its report, where they are known."""

    def __init__(self, data, answers=(), says=()):
        self.data, self.answers, self.says = data, answers, says

    def text(self):
        return f"report {told(self.data)}"

    def answer(self, name):
        lines = report(self.data)
        of_events = [int(line.split(",")[1]) for line in lines if line[0].isdigit()]
        assert of_events[: len(self.answers)] == list(self.answers), (name, of_events)
        missing = [line for line in self.says if line not in lines]
        assert not missing, (name, missing)
        return [name, *lines]


# ---------------------------------------------------------------------------------------------------------------------
# The cases of sessions that are reported

OPEN_TIME = 34_000_000


def enters(side, entry, shares, limit, marks=0, time=OPEN_TIME):
    """An enter; without a limit it is a market order's."""
    if limit is NO_LIMIT:
        return enter(time, side + MARKET + marks, entry, 0, shares)
    return enter(time, side + marks, entry, limit, shares)


def buys(entry, shares, limit, marks=0, time=OPEN_TIME):
    return enters(0, entry, shares, limit, marks, time)


def sells(entry, shares, limit, marks=0, time=OPEN_TIME):
    return enters(1, entry, shares, limit, marks, time)


def publish(time=LOCK_TIME):
    return bare(4, time)


def lock(time=LOCK_TIME):
    return bare(5, time)


def shut(time=SHUT_TIME):
    return bare(6, time)


def cross(time=CROSS_TIME):
    return bare(7, time)


def session(*events, resting=None, last_sale=1000, ranking=1):
    return file(heading(last_sale, ranking), resting, b"".join(events))


# From Open to the end, with figures on the way.
TO_THE_CROSS = lock() + publish(LOCK_TIME) + shut() + publish(SHUT_TIME) + cross()

# Two orders that cross at 1050, and a quote.
BUY_300 = buys(1, 300, 1050, STAYS)
SELL_200 = sells(2, 200, 1020)
QUOTE = quote(OPEN_TIME, 1000, 1100)


def many_enters(count, first=1, time=OPEN_TIME):
    """Enters of both sides, of which many cross."""
    marks = (0, STAYS, DISPLAYED, STAYS + DISPLAYED)
    placed = range(first, first + count)
    return b"".join(enters(i % 2, i, 100 + i, 980 + 7 * i % 130, marks[i % 4], time) for i in placed)


REFERENCE_REPORT = """\
event,answer,price,shares
0,0,0,0
1,0,0,300
2,0,0,200
3,0,0,0
4,0,1050,200
info,1050,200,100,1050,1050,895,1205,2100
5,0,0,0
6,0,1050,200
fill,0,200
fill,1,200
left,0,100
"""


def reports_of_note():
    reference = session(QUOTE, BUY_300, SELL_200, lock(), publish(), shut(), cross())
    assert "\n".join(report(reference)) + "\n" == REFERENCE_REPORT
    yield "report-reference-session", Report(reference)
    yield "report-reference-session-with-the-other-ranking", Report(
        session(QUOTE, BUY_300, SELL_200, lock(), publish(), shut(), cross(), ranking=2), says=["left,0,100"]
    )
    yield "report-reference-session-with-a-note", Report(file(events=SESSION, note=b"event,answer\n"))
    yield "report-of-one-of-each-kind", Report(file(events=ONE_OF_EACH_KIND), [0, 0, 0, 0, 13, 0, 7, 13])
    yield "report-of-all-four-bodies", Report(ALL_FOUR)
    yield "report-without-a-quote", Report(
        session(BUY_300, SELL_200, TO_THE_CROSS), says=["info,1000,0,300,1050,1050,900,1100,2000", "left,0,100"]
    )
    resting = order(0, 1, 7, 1060, 100) + order(1, 0, 8, 1040, 50)
    yield "report-with-resting-orders", Report(
        session(QUOTE, BUY_300, SELL_200, TO_THE_CROSS, resting=resting),
        says=["info,1050,200,100,1050,1050,895,1205,2100", "fill,0,150", "fill,2,100", "fill,1,200", "fill,3,50"],
    )
    yield "report-of-a-heading-only", Report(file())
    yield "report-of-a-heading-with-the-other-ranking", Report(file(heading=heading(ranking=2)))
    yield "report-of-a-heading-and-a-note", Report(file(note=b"note"))
    yield "report-of-an-empty-events-body", Report(file(events=b""))
    yield "report-of-resting-orders-and-no-events", Report(file(resting=TWO_ORDERS))
    yield "report-of-empty-bodies", Report(file(resting=b"", events=b"", note=b""))
    yield "report-of-lock-shut-and-cross-only", Report(
        session(lock(), shut(), cross()), [0, 0, 0], says=["2,0,0,0", "left,0,0"]
    )


def reports_by_time():
    def case(*events, answers):
        return Report(session(QUOTE, BUY_300, *events), [0, 0, *answers])

    late, locked = LOCK_TIME - 1, lock()
    yield "report-enter-at-34079999-in-open", case(sells(2, 200, 1020, 0, late), TO_THE_CROSS, answers=[0])
    yield "report-enter-at-34080000-in-open", case(sells(2, 200, 1020, 0, LOCK_TIME), TO_THE_CROSS, answers=[7])
    yield "report-enter-at-86399999-in-open", case(sells(2, 200, 1020, 0, 86_399_999), TO_THE_CROSS, answers=[7])
    yield "report-enter-at-0", Report(session(buys(1, 300, 1050, 0, 0), quote(0), TO_THE_CROSS), [0, 0])
    late = SHUT_TIME - 1
    yield "report-enter-at-34080000-in-locked", case(locked, sells(2, 200, 1020, 0, LOCK_TIME), answers=[0, 0])
    yield "report-enter-at-34189999-in-locked", case(locked, sells(2, 200, 1020, 0, late), answers=[0, 0])
    yield "report-enter-at-34190000-in-locked", case(locked, sells(2, 200, 1020, 0, SHUT_TIME), answers=[0, 7])
    yield "report-cancel-at-34079999", case(cancel(LOCK_TIME - 1), TO_THE_CROSS, answers=[0])
    yield "report-cancel-at-34080000", case(cancel(LOCK_TIME), TO_THE_CROSS, answers=[7])
    early = [lock(LOCK_TIME - 1), lock(), shut(SHUT_TIME - 1), publish(SHUT_TIME - 2), shut()]
    early += [cross(CROSS_TIME - 1), cross(SHUT_TIME), publish(CROSS_TIME - 2), cross()]
    yield "report-stages-a-millisecond-early-and-again", case(*early, answers=[7, 0, 7, 0, 0, 7, 7, 0, 0])
    far = [lock(0), lock(OPEN_TIME), lock(), shut(LOCK_TIME), shut(), cross(SHUT_TIME), cross()]
    yield "report-stages-far-too-early-and-again", case(*far, answers=[6, 7, 0, 7, 0, 7, 0])
    day = [lock(86_399_998), publish(86_399_998), shut(86_399_998), quote(86_399_999), cross(86_399_999)]
    yield "report-stages-at-the-end-of-the-day", case(*day, cross(86_399_999), answers=[0, 0, 0, 0, 0, 13])
    late_quote = [quote(86_399_999), buys(2, 1, 1), cancel(), lock(), quote(), lock(86_399_999), publish()]
    yield "report-quote-at-the-end-of-the-day", case(*late_quote, answers=[0, 6, 6, 6, 6, 0, 6])
    yield "report-quotes-at-any-time-in-open", case(quote(LOCK_TIME), quote(CROSS_TIME), lock(), answers=[0, 0, 6])
    yield "report-late-lock-and-enters-after-it", case(
        lock(SHUT_TIME + 5), buys(2, 1, 1000, 0, SHUT_TIME), buys(2, 1, 1000, 0, SHUT_TIME + 5), answers=[0, 6, 7]
    )


def reports_of_times_that_go_back():
    def case(*events, answers):
        return Report(session(*events), answers)

    now, before = OPEN_TIME, OPEN_TIME - 1
    buy_1, buy_2, buy_2_before = buys(1, 300, 1050), buys(2, 100, 1000), buys(2, 100, 1000, 0, before)
    yield "report-back-after-an-enter", case(buy_1, buy_2_before, buy_2, lock(), answers=[0, 6, 0, 0])
    yield "report-back-after-a-quote", case(QUOTE, buys(1, 1, 1, 0, before), buy_1, lock(), answers=[0, 6, 0, 0])
    cut = cancel(now + 5, 1, 10)
    yield "report-back-after-a-cancel", case(buy_1, cut, buy_2, cancel(now + 4), cut, answers=[0, 0, 6, 6, 0])
    later = LOCK_TIME + 1000
    yield "report-back-after-a-lock", case(lock(later), publish(later - 1), publish(later), answers=[0, 6, 0])
    yield "report-back-after-a-publish", case(
        lock(), publish(later), buys(1, 1, 1000, 0, later - 1), buys(1, 1, 1000, 0, later), answers=[0, 0, 6, 0]
    )
    yield "report-back-after-a-quote-in-locked", case(
        lock(), quote(later), publish(later - 1), quote(later - 1), publish(later), answers=[0, 0, 6, 6, 0]
    )
    late = SHUT_TIME + 1000
    yield "report-back-after-a-shut", case(lock(), shut(late), publish(late - 1), quote(late), answers=[0, 0, 6, 0])
    night = CROSS_TIME + 1000
    yield "report-back-after-a-publish-in-shut", case(
        lock(), shut(), publish(night), cross(night - 1), quote(night - 1), cross(night), answers=[0, 0, 0, 6, 6, 0]
    )
    yield "report-times-all-equal", case(
        lock(night), publish(night), quote(night), publish(night), shut(night), cross(night), answers=[0] * 6
    )
    yield "report-refused-events-keep-the-time", case(
        buy_1,
        lock(LOCK_TIME - 1),
        publish(86_399_999),
        cancel(LOCK_TIME),
        buys(1, 1, 1, 0, now + 9),
        cancel(now + 8, 3),
        buy_2,
        answers=[0, 7, 13, 7, 8, 11, 0],
    )
    yield "report-back-to-0", case(buy_1, cancel(0), quote(0), buys(2, 1, 1, 0, 0), lock(), answers=[0, 6, 6, 6, 0])
    falling = [buys(i + 1, 100, 1000, 0, now - i) for i in range(20)]
    yield "report-times-that-fall", case(*falling, TO_THE_CROSS, answers=[0] + [6] * 19)


def reports_of_what_a_refusal_leaves():
    """A refused event, and then ones that would be answered otherwise if it had left its time, number or effect."""

    def case(*events, answers, says=()):
        return Report(session(QUOTE, buys(5, 300, 1050, STAYS), *events), [0, 0, *answers], says)

    now, later, last = OPEN_TIME, LOCK_TIME + 50, LOCK_TIME + 90
    sell_6, sell_9_late, locked = sells(6, 200, 1020), sells(9, 1, 1000, 0, LOCK_TIME), lock(later)
    end = [shut(), cross()]
    yield "report-after-6-of-each", case(
        *(sells(9, 1, 1000, 0, now - 1), cancel(now - 1, 5, 300), quote(now - 1, 500, 600), lock(now - 1)),
        *(sell_6, lock(), publish(LOCK_TIME - 1), quote(LOCK_TIME - 1, 500, 600), publish(), shut(now)),
        *(shut(), quote(SHUT_TIME - 1, 500, 600), cross(SHUT_TIME - 1), publish(SHUT_TIME), cross()),
        answers=[6, 6, 6, 6, 0, 0, 6, 6, 0, 6, 0, 6, 6, 0, 0],
        says=["info,1050,200,100,1050,1050,895,1205,2100", "16,0,1050,200", "left,0,100"],
    )
    yield "report-after-7-of-an-enter", case(
        sell_9_late, sell_6, lock(), *end, answers=[7, 0, 0, 0, 0], says=["6,0,1050,200", "left,0,100"]
    )
    yield "report-after-7-of-an-enter-in-locked", case(
        *(locked, sells(9, 1, 1000, 0, SHUT_TIME), sells(6, 200, 1020, 0, later), *end),
        answers=[0, 7, 0, 0, 0],
        says=["left,0,100"],
    )
    yield "report-after-7-of-a-cancel", case(
        cancel(LOCK_TIME, 5, 300), sell_6, lock(), *end, answers=[7, 0, 0, 0, 0], says=["left,0,100"]
    )
    stages = [lock(LOCK_TIME - 1), sell_6, locked, shut(SHUT_TIME - 1), sells(7, 1, 1000, 0, later), shut()]
    stages += [cross(CROSS_TIME - 1), publish(SHUT_TIME), cross()]
    yield "report-after-7-of-each-change-of-stage", case(*stages, answers=[7, 0, 0, 7, 0, 0, 7, 0, 0])
    again = [sells(5, 77, 1000, 0, now + 9), cancel(now + 8, 5, 1), sells(6, 200, 1020, 0, now + 8), lock(), *end]
    yield "report-after-8", case(*again, answers=[8, 0, 0, 0, 0, 0], says=["left,0,99"])
    beyond = [locked, buys(9, 1, 1206, 0, last), publish(later), sells(6, 200, 1020, 0, later), *end]
    yield "report-after-9", case(*beyond, answers=[0, 9, 0, 0, 0, 0], says=["left,0,100"])
    full = [many_enters(255, 6), sells(999, 1, 1000, 0, now + 9), cancel(now + 8, 10, 500)]
    full += [sells(261, 1, 1, 0, now + 8), lock(), *end]
    yield "report-after-10", case(*full, answers=[0] * 255 + [10, 0, 0, 0, 0, 0])
    absent = [cancel(now + 9, 4, 1), cancel(now + 8, 5, 1), sells(6, 200, 1020, 0, now + 8), lock(), *end]
    yield "report-after-11", case(*absent, answers=[11, 0, 0, 0, 0, 0], says=["left,0,99"])
    lacks = [publish(last), shut(SHUT_TIME), cross(), sell_6, locked, cancel(last, 5, 300), lock(last), cross()]
    lacks += [publish(later), shut(), buys(9, 1, 1000, 0, SHUT_TIME + 9), cancel(SHUT_TIME + 9, 5), lock(CROSS_TIME)]
    yield "report-after-13", case(
        *(*lacks, shut(CROSS_TIME), quote(SHUT_TIME), cross()),
        answers=[13, 13, 13, 0, 0, 13, 13, 13, 0, 0, 13, 13, 13, 13, 0, 0],
        says=["17,0,1050,200", "left,0,100"],
    )


def reports_by_entry_number():
    def case(*entries, answers):
        return Report(session(QUOTE, *(buys(entry, 100, 1000) for entry in entries), TO_THE_CROSS), [0, *answers])

    yield "report-entry-number-again", case(1, 1, 2, 2, 3, answers=[0, 8, 0, 8, 0])
    yield "report-entry-number-below-the-last", case(5, 4, 1, 5, 6, answers=[0, 8, 8, 8, 0])
    yield "report-entry-number-with-gaps", case(1, 10, 9, 500, 65_534, 65_535, 65_535, answers=[0, 0, 8, 0, 0, 0, 8])
    yield "report-highest-entry-number-first", case(65_535, 1, 65_534, 65_535, answers=[0, 8, 8, 8])
    gone = [buys(1, 100, 1000), buys(2, 100, 1000), cancel(OPEN_TIME, 2, 100), cancel(OPEN_TIME, 1, 100)]
    again = [buys(2, 100, 1000), buys(1, 100, 1000), buys(3, 100, 1000)]
    yield "report-entry-number-of-a-cancelled-order", Report(
        session(*gone, *again, TO_THE_CROSS), [0, 0, 0, 0, 8, 8, 0]
    )
    in_locked = [buys(9, 100, 1000), lock(), *(buys(i, 50, 1000, 0, LOCK_TIME) for i in (9, 8, 10, 10, 11))]
    yield "report-entry-number-in-locked", Report(session(*in_locked, shut(), cross()), [0, 0, 8, 8, 0, 8, 0, 0, 0])
    refused = [lock(), sells(8, 1, 1, 0, LOCK_TIME), buys(3, 1, 1000, 0, LOCK_TIME), buys(2, 1, 1, 0, LOCK_TIME)]
    yield "report-entry-number-of-a-refused-enter", Report(session(*refused), [0, 9, 0, 8])
    resting = order(entry=400) + order(side=1, entry=3)
    yield "report-entry-numbers-of-resting-orders-do-not-count", Report(
        session(buys(3, 100, 1050), buys(4, 100, 1050), TO_THE_CROSS, resting=resting), [0, 0]
    )


def reports_in_locked():
    """Enters at the ends of the collar."""

    def case(*enters_after, answers, before=QUOTE, last_sale=1000):
        return Report(session(before, lock(), *enters_after, publish(), shut(), cross(), last_sale=last_sale), answers)

    def at(make, limit, entry=1):
        return make(entry, 100, limit, 0, LOCK_TIME)

    for make, limit, answer in ((buys, 1205, 0), (buys, 1206, 9), (sells, 895, 0), (sells, 894, 9)):
        yield f"report-locked-{make.__name__}-at-{limit}", case(at(make, limit), answers=[0, 0, answer])
    for make in (buys, sells):
        yield f"report-locked-{make.__name__}-at-the-market", case(at(make, NO_LIMIT), answers=[0, 0, 9])
        for limit in (1050, 896, 1204):
            yield f"report-locked-{make.__name__}-at-{limit}", case(at(make, limit), answers=[0, 0, 0])
    yield "report-locked-buy-at-1", case(at(buys, 1), answers=[0, 0, 0])
    yield "report-locked-buy-at-894", case(at(buys, 894), answers=[0, 0, 0])
    yield "report-locked-buy-at-20000000", case(at(buys, 20_000_000), answers=[0, 0, 9])
    yield "report-locked-sell-at-20000000", case(at(sells, 20_000_000), answers=[0, 0, 0])
    yield "report-locked-sell-at-1206", case(at(sells, 1206), answers=[0, 0, 0])
    yield "report-locked-sell-at-1", case(at(sells, 1), answers=[0, 0, 9])
    both = [at(buys, 1205, 1), at(buys, 1206, 2), at(sells, 894, 2), at(sells, 895, 2), at(buys, NO_LIMIT, 3)]
    yield "report-locked-all-ends", case(*both, answers=[0, 0, 0, 9, 9, 0, 9])
    ends = {
        "crossed-quote": (quote(bid=1100, offer=1000), 900, 1100),
        "no-bid": (quote(bid=0, offer=1100), 900, 1100),
        "no-offer": (quote(bid=1100, offer=0), 900, 1100),
        "no-bid-and-no-offer": (QUOTE + quote(bid=0, offer=0), 900, 1100),
        "no-quote": (b"", 900, 1100),
        "second-quote": (QUOTE + quote(bid=2000, offer=2000), 1800, 2200),
        "quote-of-1000-and-1001": (quote(bid=1000, offer=1001), 900, 1101),
        "quote-of-1380-and-1400": (quote(bid=1380, offer=1400), 1241, 1539),
        "low-quote": (quote(bid=52, offer=60), 2, 110),
    }
    for name, (before, low, high) in ends.items():
        found = [at(buys, high, 1), at(buys, high + 1, 2), at(sells, low, 2), at(sells, low - 1, 3)]
        answers = [0] * (len(before) // 16) + [0, 0, 9, 0, 9]
        yield f"report-locked-ends-of-{name}", case(*found, answers=answers, before=before)
    lowest = [at(sells, 1, 1), at(buys, 110, 2), at(buys, 111, 3)]
    before = quote(bid=40, offer=60)
    yield "report-locked-ends-at-the-lowest-price", case(*lowest, answers=[0, 0, 0, 0, 9], before=before)
    highest = [at(buys, 20_000_000, 1), at(sells, 17_100_000, 2), at(sells, 17_099_999, 3)]
    before = quote(bid=19_000_000, offer=19_000_000)
    yield "report-locked-ends-at-the-highest-price", case(*highest, answers=[0, 0, 0, 0, 9], before=before)
    of_sale = [at(buys, 110, 1), at(sells, 10, 2), at(sells, 9, 3), at(buys, 111, 3)]
    yield "report-locked-ends-of-a-last-sale", case(*of_sale, answers=[0, 0, 0, 9, 9], before=b"", last_sale=60)
    moved = [at(buys, 1205, 1), quote(LOCK_TIME, 500, 520), at(buys, 572, 2), at(buys, 571, 2), at(sells, 449, 3)]
    moved += [at(sells, 448, 4), publish(), quote(LOCK_TIME, 0, 520), at(buys, 1100, 4), at(buys, 1101, 5)]
    yield "report-locked-ends-move-with-the-quote", case(*moved, answers=[0, 0, 0, 0, 9, 0, 0, 9, 0, 0, 0, 9])
    open_orders = [buys(1, 100, NO_LIMIT), sells(2, 100, NO_LIMIT), buys(3, 50, 1206), sells(4, 60, 1)]
    yield "report-open-orders-beyond-the-collar", Report(session(QUOTE, *open_orders, TO_THE_CROSS), [0] * 10)


def reports_of_full_books():
    def ending(entry):
        return [buys(entry, 10, 1000, 0, LOCK_TIME), publish(), shut(), cross()]

    full = many_enters(255)
    passes = [0] * 255
    for ranking in (1, 2):
        yield f"report-256th-order-passes-the-next-does-not-by-ranking-{ranking}", Report(
            session(QUOTE, full, buys(256, 7, 1060), buys(257, 8, 1060), lock(), *ending(258), ranking=ranking),
            [0, *passes, 0, 10, 0, 10, 0, 0, 0],
        )
    yield "report-256th-order-in-locked", Report(
        session(QUOTE, full, lock(), *(buys(i, 7, 1060, 0, LOCK_TIME) for i in (256, 257)), *ending(258)),
        [0, *passes, 0, 0, 10, 10, 0, 0, 0],
    )
    room = [cancel(OPEN_TIME, 100, 50), buys(257, 8, 1060), cancel(OPEN_TIME, 100, 1000), buys(257, 8, 1060)]
    room += [buys(258, 9, 1060), cancel(OPEN_TIME, 257, 8), sells(257, 1, 1060), sells(258, 11, 1060), sells(259, 1, 1)]
    yield "report-full-book-with-cancels", Report(
        session(QUOTE, full, buys(256, 7, 1060), *room, TO_THE_CROSS),
        [0, *passes, 0, 0, 10, 0, 0, 10, 0, 8, 0, 10],
    )
    bad = [sells(256, 1, 1), sells(300, 1, 1), cancel(OPEN_TIME, 300, 1), sells(300, 1, 1, 0, OPEN_TIME - 1)]
    locked = [sells(256, 1, 1, 0, LOCK_TIME), sells(300, 1, 1, 0, LOCK_TIME), sells(300, 1, 1000, 0, LOCK_TIME)]
    locked += [sells(300, 1, NO_LIMIT, 0, LOCK_TIME), sells(256, 1, NO_LIMIT, 0, SHUT_TIME), sells(1, 1, 1, 0, 0)]
    yield "report-full-book-and-other-causes", Report(
        session(QUOTE, full, buys(256, 7, 1060), *bad, lock(), *locked, shut(), cross()),
        [0, *passes, 0, 8, 10, 11, 6, 0, 8, 9, 10, 9, 7, 6],
    )
    yield "report-300-enters", Report(session(QUOTE, many_enters(300), TO_THE_CROSS), [0] * 257 + [10] * 44)
    emptied = b"".join(cancel(OPEN_TIME, i, 1_000_000) for i in range(1, 257))
    refilled = [many_enters(256), emptied, many_enters(257, 1000), TO_THE_CROSS]
    yield "report-book-filled-emptied-and-filled", Report(session(*refilled), [0] * (256 + 256 + 256) + [10])
    backwards = b"".join(cancel(OPEN_TIME, i, 1_000_000) for i in range(256, 0, -1))
    yield "report-book-filled-and-emptied-from-its-end", Report(session(many_enters(256), backwards, TO_THE_CROSS))
    odd = b"".join(cancel(OPEN_TIME, i, 1_000_000) for i in range(1, 257, 2))
    yield "report-every-other-order-of-256-cancelled", Report(session(many_enters(256), odd, TO_THE_CROSS))
    for ranking in (1, 2):
        yield f"report-256-entered-and-256-resting-by-ranking-{ranking}", Report(
            session(QUOTE, many_enters(256), TO_THE_CROSS, resting=many_orders(256), ranking=ranking)
        )


def reports_of_cancels():
    three = buys(1, 100, 1060, STAYS) + buys(2, 200, 1055) + buys(3, 400, 1050, STAYS) + sells(4, 350, 1040)

    def case(*asked, answers, says=(), resting=None):
        cancels = [cancel(OPEN_TIME, entry, shares) for entry, shares in asked]
        return Report(session(QUOTE, three, *cancels, TO_THE_CROSS, resting=resting), [0] * 5 + answers, says)

    yield "report-cancel-nothing", case(answers=[], says=["fill,0,100", "fill,1,200", "fill,2,50", "left,0,350"])
    for entry, shares in ((1, 100), (2, 200), (3, 400), (4, 350)):
        yield f"report-cancel-{entry}-to-nothing", case((entry, shares), answers=[0], says=[f"5,0,0,{shares}"])
        yield f"report-cancel-{entry}-by-more-than-it-has", case(
            (entry, shares + 1), answers=[0], says=[f"5,0,0,{shares}"]
        )
        yield f"report-cancel-{entry}-by-the-most", case((entry, 1_000_000), answers=[0], says=[f"5,0,0,{shares}"])
        yield f"report-cancel-{entry}-but-for-a-share", case(
            (entry, shares - 1), answers=[0], says=[f"5,0,0,{shares - 1}"]
        )
        yield f"report-cancel-{entry}-by-a-share", case((entry, 1), answers=[0], says=["5,0,0,1"])
        yield f"report-cancel-{entry}-to-nothing-twice", case((entry, shares), (entry, 1), answers=[0, 11])
        yield f"report-cancel-{entry}-by-steps", case(
            *[(entry, shares // 2)] * 3, answers=[0, 0, 11], says=[f"6,0,0,{shares // 2}"]
        )
    yield "report-cancel-cut-and-then-more-than-is-left", case((3, 399), (3, 5), answers=[0, 0], says=["6,0,0,1"])
    yield "report-cancel-the-first-and-then-the-third", case((1, 100), (3, 100), answers=[0, 0])
    yield "report-cancel-the-third-and-then-the-first", case((3, 500), (1, 60), answers=[0, 0])
    yield "report-cancel-all", case((2, 999), (4, 999), (1, 999), (3, 999), answers=[0] * 4, says=["left,0,0"])
    yield "report-cancel-a-number-not-there", case((5, 1), (65_535, 1), answers=[11, 11])
    resting = order(0, 1, 2, 1070, 150) + order(1, 1, 9, 1030, 80)
    yield "report-cancel-a-number-of-a-resting-order", case((9, 80), answers=[11], resting=resting)
    yield "report-cancel-a-number-of-both-books", case((2, 500), (2, 1), answers=[0, 11], resting=resting)
    yield "report-cancel-in-an-empty-book", Report(session(cancel(), TO_THE_CROSS), [11])
    early = [cancel(OPEN_TIME), BUY_300, cancel()]
    yield "report-cancel-before-its-enter", Report(session(*early, TO_THE_CROSS), [11, 0, 0])
    refused = [BUY_300, cancel(OPEN_TIME - 1), cancel(LOCK_TIME), lock(), cancel(LOCK_TIME), cancel(OPEN_TIME)]
    yield "report-cancel-refused", Report(session(*refused, shut(), cross()), [0, 6, 7, 0, 13, 13], ["left,0,300"])
    for ranking in (1, 2):
        alike = buys(1, 300, 1050) + buys(2, 250, 1050) + buys(3, 200, 1050) + sells(4, 320, 1050)
        yield f"report-cut-under-ranking-{ranking}", Report(
            session(QUOTE, alike, cancel(OPEN_TIME, 1, 100), TO_THE_CROSS, ranking=ranking),
            says=["fill,0,200", "fill,1,120"] if ranking == 1 else ["fill,1,250", "fill,0,70"],
        )
    market = buys(1, 500, NO_LIMIT) + sells(2, 200, 1020) + cancel(OPEN_TIME, 1, 450) + cancel(OPEN_TIME, 2, 170)
    yield "report-cut-of-a-market-order", Report(session(QUOTE, market, TO_THE_CROSS), says=["left,20,0"])


# The events that bring an auction to a stage, with two orders in its book.
STAGES = {
    "open": QUOTE + BUY_300 + SELL_200,
    "locked": QUOTE + BUY_300 + SELL_200 + lock(),
    "shut": QUOTE + BUY_300 + SELL_200 + lock() + shut(),
    "crossed": QUOTE + BUY_300 + SELL_200 + lock() + shut() + cross(),
}


def reports_by_stage():
    """Each kind in each stage, at a time that suits it, before all accepted ones, and at the day's end."""
    lawful = {
        "open": {"enter": OPEN_TIME, "cancel": OPEN_TIME, "quote": OPEN_TIME, "lock": LOCK_TIME},
        "locked": {"enter": LOCK_TIME, "quote": LOCK_TIME, "publish": LOCK_TIME, "shut": SHUT_TIME},
        "shut": {"quote": SHUT_TIME, "publish": SHUT_TIME, "cross": CROSS_TIME},
        "crossed": {},
    }
    late = {"enter": 7, "cancel": 7}
    for stage, before in STAGES.items():
        done = [0] * (len(before) // 16)
        for kind, name in EVENT_KINDS.items():
            for word, time in (("", lawful[stage].get(name, CROSS_TIME)), ("-at-0", 0), ("-at-the-end", 86_399_999)):
                asked = {1: buys(3, 50, 1060, STAYS, time), 2: cancel(time, 2, 60), 3: quote(time, 1020, 1040)}
                expected = 13
                if name in lawful[stage]:
                    expected = {"": 0, "-at-0": 6, "-at-the-end": late.get(name, 0)}[word]
                yield f"report-{name}-in-{stage}{word}", Report(
                    session(before, asked.get(kind, bare(kind, time)), TO_THE_CROSS), [*done, expected]
                )
    every = [buys(3, 50, 1060, 0, CROSS_TIME), cancel(CROSS_TIME), quote(CROSS_TIME)]
    every += [bare(kind, CROSS_TIME) for kind in (4, 5, 6, 7, 7)]
    for stage, before in STAGES.items():
        done = [0] * (len(before) // 16)
        again = [*every, lock(86_399_999), shut(86_399_999), cross(86_399_999)]
        yield f"report-all-kinds-at-once-in-{stage}", Report(session(before, *again), done)
    after = [*every * 3, enter(0), cancel(0, 65_535, 1_000_000), quote(0, 0, 0), publish(0), lock(0), shut(0), cross(0)]
    done = [0] * (len(STAGES["crossed"]) // 16)
    yield "report-many-events-after-the-cross", Report(session(STAGES["crossed"], *after), done + [13] * 31)
    yield "report-second-session-after-the-cross", Report(session(STAGES["crossed"] * 2), done + [13] * 6)


def reports_by_first_cause():
    """Events that are refused for two causes or more."""

    def case(*events, answers):
        return Report(session(QUOTE, buys(5, 300, 1050), sells(6, 200, 1020), *events), [0, 0, 0, *answers])

    now = LOCK_TIME + 10
    locked = [lock(now)]
    yield "report-13-before-6", case(publish(0), shut(0), cross(0), *locked, cancel(0), answers=[13, 13, 13, 0, 13])
    yield "report-13-before-7", case(*locked, cancel(now), cross(now), lock(now), answers=[0, 13, 13, 13])
    yield "report-13-before-8", case(*locked, shut(), buys(6, 1, 1000, 0, SHUT_TIME), answers=[0, 0, 13])
    yield "report-13-before-9", case(*locked, shut(), buys(7, 1, NO_LIMIT, 0, SHUT_TIME), answers=[0, 0, 13])
    yield "report-13-before-11", case(*locked, cancel(now, 9), answers=[0, 13])
    yield "report-6-before-7", case(lock(OPEN_TIME - 1), *locked, shut(now - 1), answers=[6, 0, 6])
    yield "report-6-before-7-of-an-enter", case(
        quote(now), buys(7, 1, 1000, 0, now - 1), cancel(now - 1), buys(7, 1, 1000, 0, now), answers=[0, 6, 6, 7]
    )
    yield "report-6-before-8", case(buys(6, 1, 1000, 0, OPEN_TIME - 1), answers=[6])
    yield "report-6-before-9", case(*locked, buys(7, 1, 1206, 0, now - 1), answers=[0, 6])
    yield "report-6-before-11", case(cancel(OPEN_TIME - 1, 9), answers=[6])
    yield "report-7-before-8", case(buys(6, 1, 1000, 0, LOCK_TIME), answers=[7])
    yield "report-7-before-9", case(*locked, buys(7, 1, NO_LIMIT, 0, SHUT_TIME), answers=[0, 7])
    yield "report-7-before-8-in-locked", case(*locked, buys(6, 1, 1000, 0, SHUT_TIME), answers=[0, 7])
    yield "report-7-before-11", case(cancel(LOCK_TIME, 9), answers=[7])
    yield "report-8-before-9", case(
        *locked, buys(6, 1, NO_LIMIT, 0, now), sells(2, 1, 894, 0, now), buys(7, 1, 1206, 0, now), answers=[0, 8, 8, 9]
    )
    full = [many_enters(254, 7), lock()]
    done = [0] * 255
    yield "report-8-before-10", case(*full, buys(260, 1, 1000, 0, LOCK_TIME), answers=[*done, 8])
    yield "report-9-before-10", case(*full, buys(261, 1, 1206, 0, LOCK_TIME), answers=[*done, 9])
    yield "report-7-before-10", case(*full, buys(261, 1, 1000, 0, SHUT_TIME), answers=[*done, 7])
    yield "report-6-before-10", case(*full, buys(261, 1, 1000, 0, OPEN_TIME), answers=[*done, 6])
    yield "report-10-alone", case(*full, buys(261, 1, 1000, 0, LOCK_TIME), answers=[*done, 10])
    yield "report-13-before-10", case(*full, shut(), buys(261, 1, 1000, 0, SHUT_TIME), answers=[*done, 0, 13])
    every = [buys(6, 1, NO_LIMIT, 0, 0), buys(6, 1, NO_LIMIT, 0, SHUT_TIME), buys(6, 1, NO_LIMIT, 0, LOCK_TIME)]
    every += [buys(261, 1, NO_LIMIT, 0, LOCK_TIME), buys(261, 1, 1000, 0, LOCK_TIME)]
    yield "report-each-cause-of-an-enter", case(*full, *every, answers=[*done, 6, 7, 8, 9, 10])


def reports_with_nothing_to_cross():
    def case(*events, says=("left,0,0",), **heading_and_resting):
        return Report(session(QUOTE, *events, TO_THE_CROSS, **heading_and_resting), says=says)

    yield "report-cross-of-no-orders", case(says=["5,0,0,0", "left,0,0"])
    yield "report-cross-of-no-orders-without-a-quote", Report(session(TO_THE_CROSS, last_sale=777))
    yield "report-cross-of-a-buy", case(BUY_300, says=["6,0,0,0", "fill,0,0", "left,0,300"])
    yield "report-cross-of-a-sell", case(SELL_200, says=["6,0,0,0", "fill,0,0", "left,200,0"])
    yield "report-cross-of-buys", case(many_enters(1), buys(2, 50, NO_LIMIT), buys(3, 60, 1, STAYS), says=())
    yield "report-cross-of-a-market-buy", case(buys(1, 50, NO_LIMIT), says=["6,0,0,0", "left,50,0"])
    gap = [buys(1, 300, 1040, STAYS), sells(2, 200, 1060), sells(3, 70, 1061, STAYS)]
    yield "report-cross-of-a-gap", case(*gap, says=["8,0,0,0", "fill,0,0", "fill,1,0", "fill,2,0", "left,200,370"])
    yield "report-cross-of-a-gap-of-a-cent", case(buys(1, 300, 1049), sells(2, 200, 1050), says=["left,500,0"])
    outside = [buys(1, 100, 894, STAYS), sells(2, 100, 1206, STAYS)]
    yield "report-cross-of-orders-outside-the-collar", case(*outside, says=["7,0,0,0", "left,0,200"])
    below = [buys(1, 100, 894, STAYS), sells(2, 100, 890, STAYS)]
    yield "report-cross-of-orders-that-meet-below-the-collar", case(*below, says=["7,0,0,0", "left,0,200"])
    gone = [BUY_300, SELL_200, cancel(OPEN_TIME, 1, 300)]
    yield "report-cross-after-the-buy-was-cancelled", case(*gone, says=["fill,0,0", "left,200,0"])
    resting = order(0, 1, 1, 1040, 100) + order(0, 0, 2, 1000, 100) + order(1, 1, 3, 1060, 100)
    yield "report-cross-of-resting-orders-apart", case(resting=resting, says=["fill,2,0", "left,0,0"])
    yield "report-cross-of-resting-orders-apart-and-entered-ones-apart", case(*gap, resting=resting, says=["8,0,0,0"])
    for twice in (0, 1):
        apart = [buys(1, 300, 1048), sells(2, 200, 1052)]
        quoted = quote(OPEN_TIME, 1000, 1100 + twice)
        yield f"report-publish-of-a-gap-with-an-offer-of-{1100 + twice}", case(quoted, *apart, says=())


def reports_of_prices():
    """Books whose clearing price is known, entered and then published and crossed."""

    def case(*entered_orders, cross_says, before=QUOTE, resting=None):
        events = [enters(side, i + 1, shares, limit) for i, (side, shares, limit) in enumerate(entered_orders)]
        place = len(before) // 16 + len(events) + 4
        return Report(session(before, *events, TO_THE_CROSS, resting=resting), says=[f"{place},0,{cross_says}"])

    yield "report-price-at-the-tie-breaker", case(buy(200, 1060), sell(200, 1020), cross_says="1050,200")
    yield "report-price-at-the-high-end", case(
        buy(500, NO_LIMIT), sell(200, 1020), sell(200, 1040), cross_says="1205,400"
    )
    yield "report-price-at-the-low-end", case(sell(500, NO_LIMIT), buy(400, 1060), cross_says="895,400")
    markets = [buy(1000, NO_LIMIT), sell(1000, NO_LIMIT), buy(500, NO_LIMIT), sell(300, NO_LIMIT)]
    yield "report-price-of-market-orders-only", case(*markets, cross_says="1205,1300")
    yield "report-price-of-as-many-market-orders", case(*markets[:2], cross_says="1050,1000")
    half = [buy(100, 1001), sell(100, 1000)]
    between = quote(bid=1000, offer=1001)
    yield "report-price-the-lower-of-two-as-near", case(*half, cross_says="1000,100", before=between)
    yield "report-price-under-a-crossed-quote", case(
        buy(200, 1060), sell(200, 990), cross_says="1000,200", before=quote(bid=1100, offer=1000)
    )
    yield "report-price-under-a-bid-only", case(
        buy(200, NO_LIMIT), sell(100, 990), cross_says="1100,100", before=quote(bid=1100, offer=0)
    )
    yield "report-price-under-an-offer-only", case(
        buy(100, 990), sell(200, NO_LIMIT), cross_says="900,100", before=quote(bid=0, offer=1100)
    )
    resting = order(1, 1, 1, 1020, 200) + order(1, 1, 2, 1040, 200)
    yield "report-price-of-an-entered-buy-and-resting-sells", case(
        buy(500, NO_LIMIT), cross_says="1205,400", resting=resting
    )
    wide = quote(bid=1, offer=20_000_000)
    yield "report-price-in-the-widest-collar", case(
        buy(300, 7_654_321), sell(200, 5), cross_says="7654321,200", before=wide
    )
    yield "report-price-in-the-widest-collar-at-the-tie-breaker", case(
        buy(300, NO_LIMIT), sell(300, NO_LIMIT), cross_says="10000000,300", before=wide
    )
    low = quote(bid=1, offer=1)
    yield "report-price-of-a-cent", case(buy(300, 1), sell(200, NO_LIMIT), cross_says="1,200", before=low)
    high = quote(bid=20_000_000, offer=20_000_000)
    yield "report-price-of-20000000", case(
        buy(300, NO_LIMIT), sell(200, 20_000_000), cross_says="20000000,200", before=high
    )


def reports_of_figures():
    """What is published: in the reference range, in the collar, with and without the resting orders."""

    def case(*events, says, resting=None, last_sale=1000):
        return Report(session(*events, TO_THE_CROSS, resting=resting, last_sale=last_sale), says=says)

    less = [buys(1, 200, 1050), sells(2, 300, 1020)]
    yield "report-imbalance-below-0", case(QUOTE, *less, says=["info,1020,200,-100,1020,1020,895,1205,2100"])
    yield "report-imbalance-of-0", case(
        QUOTE, buys(1, 200, 1050), sells(2, 200, 1050), says=["info,1050,200,0,1050,1050,895,1205,2100"]
    )
    most = [sells(i, 1_000_000, 1000) for i in range(1, 257)]
    yield "report-imbalance-of-256-sells", case(QUOTE, *most, says=["info,1000,0,-256000000,1000,1000,895,1205,2100"])
    most = [buys(i, 1_000_000, 1100) for i in range(1, 257)]
    yield "report-imbalance-of-256-buys", case(QUOTE, *most, says=["info,1100,0,256000000,1100,1100,895,1205,2100"])
    for shares in (1, 9, 10, 11, 99, 100, 101, 110, 1000, 1009, 90_000, 100_001, 999_999, 1_000_000):
        yield f"report-imbalance-of-{shares}-sold", case(QUOTE, sells(1, shares, 1050), says=())
    narrow = quote(bid=1009, offer=1011)
    beyond = [buys(1, 2000, 1008), sells(2, 2000, 1008), buys(3, 500, 1009), sells(4, 600, 1011)]
    yield "report-reference-price-held-to-the-quote", case(narrow, *beyond, says=())
    beyond = [buys(1, 700, 1060), sells(2, 400, 1030), sells(3, 100, 1062)]
    yield "report-reference-price-above-the-quote", case(narrow, *beyond, says=())
    yield "report-figures-of-no-orders", case(QUOTE, says=["info,1050,0,0,1050,1050,895,1205,2100"])
    yield "report-figures-of-no-orders-without-a-quote", case(says=["info,1000,0,0,1000,1000,900,1100,2000"])
    resting = order(0, 1, 1, 1090, 500) + order(1, 1, 2, 1010, 100)
    yield "report-figures-of-resting-orders-only", case(
        QUOTE, resting=resting, says=["info,1050,0,0,1090,1050,895,1205,2100"]
    )
    yield "report-figures-of-both-books", case(QUOTE, *less, resting=resting, says=())
    moving = [QUOTE, *less, lock(), publish(), quote(LOCK_TIME, 1200, 1210), publish(), quote(LOCK_TIME, 0, 0)]
    moving += [publish(), buys(3, 150, 1100, STAYS, LOCK_TIME), publish(), quote(SHUT_TIME, 990, 1010)]
    moving += [publish(SHUT_TIME), shut(), publish(SHUT_TIME), quote(SHUT_TIME, 1020, 1030), publish(SHUT_TIME)]
    moving += [quote(CROSS_TIME, 500, 600), cross()]
    for ranking in (1, 2):
        yield f"report-figures-under-many-quotes-by-ranking-{ranking}", Report(
            session(*moving, resting=resting, ranking=ranking), [0] * 19
        )
    alike = [lock(), publish() * 5, shut(), publish(SHUT_TIME) * 5]
    yield "report-figures-alike-each-time", Report(session(QUOTE, *less, *alike))
    for last_sale in (1, 2, 50, 51, 52, 499, 500, 1019, 1020, 19_047_620, 19_999_999, 20_000_000):
        yield f"report-figures-of-last-sale-{last_sale}", case(last_sale=last_sale, says=())
    for bid, offer in ((1, 1), (1, 20_000_000), (20_000_000, 1), (20_000_000, 20_000_000), (49, 51), (999, 1000)):
        yield f"report-figures-of-quote-{bid}-and-{offer}", case(quote(OPEN_TIME, bid, offer), *less, says=())


def reports_of_fills():
    hidden_first = buys(1, 200, 1050) + buys(2, 200, 1050, DISPLAYED) + sells(3, 300, 1050)
    for ranking, says in ((1, ["fill,0,100", "fill,1,200"]), (2, ["fill,0,200", "fill,1,100"])):
        yield f"report-fills-hidden-and-displayed-by-ranking-{ranking}", Report(
            session(QUOTE, hidden_first, TO_THE_CROSS, ranking=ranking), says=[*says, "fill,2,300", "left,100,0"]
        )
    books = {
        "displayed-last": [(0, 100, 1060, 0), (0, 100, 1060, DISPLAYED), (0, 150, 1060, 0), (1, 240, 1060, 0)],
        "more-shares-last": [(0, 100, 1060, 0), (0, 200, 1060, 0), (0, 300, 1060, 0), (1, 450, 1060, 0)],
        "market-last": [(0, 100, 1060, DISPLAYED), (0, 300, 1205, 0), (0, 50, NO_LIMIT, 0), (1, 170, 1060, 0)],
        "buys-by-own-price": [(0, 100, 1205, DISPLAYED), (0, 100, 1300, 0), (0, 100, 1400, 0), (1, 150, 1, 0)],
        "sells-by-own-price": [(1, 100, 895, DISPLAYED), (1, 100, 800, 0), (1, 100, NO_LIMIT, 0), (0, 250, 2000, 0)],
        "one-price-all-alike": [(0, 100, 1060, 0)] * 5 + [(1, 70, 1060, 0)] * 5,
        "sides-mixed": [(1, 10, 1000, 0), (0, 20, 1100, 0), (1, 30, 1000, 0), (0, 5, 1100, 0), (1, 1, 1300, 0)],
        "sells-first": [(1, 100, 1000, STAYS), (1, 50, 1010, 0), (1, 70, 1200, STAYS), (0, 120, 1040, STAYS)],
        "stays-and-not": [(0, 100, 1060, STAYS), (0, 90, 1060, 0), (0, 80, 1060, STAYS), (1, 150, 1060, STAYS)],
        "a-share-each": [(i % 2, 1, 1050, DISPLAYED * (i % 3 == 0)) for i in range(9)],
    }
    resting = order(0, 1, 1, 1060, 100) + order(1, 0, 1, 1060, 60) + order(0, 0, 4, 1100, 10) + order(1, 1, 9, 1000, 5)
    ends = [(0, 100, 20_000_000, DISPLAYED), (0, 90, NO_LIMIT, 0), (1, 80, 1, DISPLAYED), (1, 70, NO_LIMIT, 0)]
    books["market-before-the-best-limits"] = [*ends, (0, 1, NO_LIMIT, 0)]
    books["market-before-the-best-limits-of-sells"] = [*ends, (1, 150, NO_LIMIT, 0)]
    for name, orders in books.items():
        events = [enters(side, i + 1, shares, limit, marks) for i, (side, shares, limit, marks) in enumerate(orders)]
        for ranking in (1, 2):
            yield f"report-fills-{name}-by-ranking-{ranking}", Report(
                session(QUOTE, *events, TO_THE_CROSS, ranking=ranking)
            )
            yield f"report-fills-{name}-with-resting-by-ranking-{ranking}", Report(
                session(QUOTE, *events, TO_THE_CROSS, ranking=ranking, resting=resting)
            )
    for ranking in (1, 2):
        yield f"report-fills-of-resting-orders-only-by-ranking-{ranking}", Report(
            session(QUOTE, TO_THE_CROSS, ranking=ranking, resting=resting + resting), says=["left,0,0"]
        )
        same = order(0, 0, 1, 1050, 300) * 2 + order(1, 0, 1, 1050, 450)
        yield f"report-fills-of-one-entry-number-in-both-books-by-ranking-{ranking}", Report(
            session(QUOTE, buys(1, 300, 1050), TO_THE_CROSS, ranking=ranking, resting=same),
            says=["fill,0,300", "fill,1,150", "fill,2,0", "left,0,0"],
        )


def reports_of_large_sessions():
    most = 1_000_000
    entered_buys = [buys(i, most, NO_LIMIT) for i in range(1, 257)]
    resting_sells = b"".join(order(1, 1, i, 1, most) for i in range(1, 257))
    yield "report-256-buys-and-256-resting-sells-with-most-shares", Report(
        session(QUOTE, *entered_buys, TO_THE_CROSS, resting=resting_sells), says=["261,0,1050,256000000", "left,0,0"]
    )
    resting_buys = b"".join(order(0, 1, i, 20_000_000, most) for i in range(1, 257))
    yield "report-256-buys-and-256-resting-buys-with-most-shares", Report(
        session(QUOTE, *entered_buys, TO_THE_CROSS, resting=resting_buys), says=["261,0,0,0", "left,256000000,0"]
    )
    quotes = b"".join(quote(OPEN_TIME, 1000 + i % 7, 1100 - i % 5) for i in range(20))
    events = [quotes * 10, many_enters(256), lock(), publish(), quote(LOCK_TIME, 1010, 1050) * 3431]
    events += [publish(LOCK_TIME + 1), publish(LOCK_TIME) * 10, shut(), cross(), cross()]
    largest = session(*events, resting=many_orders(256))
    assert 65_535 - 16 < len(largest) <= 65_535
    yield "report-of-the-largest-session", Report(largest)
    yield "report-of-a-session-of-4095-crosses", Report(file(events=cross() * 4095, note=b""), [13] * 4095)
    refused = [lock(0), shut(0), cross(0), cancel(0), publish(0), buys(1, 5, 1000, 0, LOCK_TIME), quote(1), quote(0)]
    answers = [7, 13, 13, 11, 13, 7, 0, 6] + [6, 13, 13, 6, 13, 7, 0, 6] * 24 + [0, 0, 0, 0, 0]
    yield "report-of-a-session-in-which-many-events-are-refused", Report(session(*refused * 25, TO_THE_CROSS), answers)
    yield "report-of-a-session-in-which-all-events-are-refused", Report(
        session(lock(LOCK_TIME - 1), publish(), shut(), cross(), cancel(LOCK_TIME), cancel(), enter(LOCK_TIME)),
        [7, 13, 13, 13, 7, 11, 7],
    )


def reports_of_refused_files():
    good = session(QUOTE, BUY_300, SELL_200, TO_THE_CROSS, resting=TWO_ORDERS)
    events_at = 7 + 8 + 24
    yield "report-refused-empty-file", Report(b"")
    yield "report-refused-65536-bytes", Report(bytes(65_536))
    yield "report-refused-65535-zeros", Report(bytes(65_535))
    for mask in (0, 2, 16, 255):
        yield f"report-refused-mask-{mask}", Report(changed(good, 0, 1, mask))
    yield "report-refused-a-byte-less", Report(good[:-1])
    yield "report-refused-a-byte-more", Report(good + b"\0")
    yield "report-refused-contents-only", Report(good[:6])
    yield "report-refused-heading-of-7-bytes", Report(file(heading=heading()[:7], events=SESSION))
    yield "report-refused-resting-of-13-bytes", Report(file(resting=order() + b"\0", events=SESSION))
    yield "report-refused-257-resting-orders", Report(file(resting=many_orders(257), events=SESSION))
    yield "report-refused-events-of-17-bytes", Report(file(resting=TWO_ORDERS, events=lock() + b"\0"))
    yield "report-refused-last-sale-0", Report(file(heading=heading(last_sale=0), events=SESSION))
    yield "report-refused-ranking-3", Report(file(heading=heading(ranking=3), events=SESSION))
    yield "report-refused-zero-of-the-heading", Report(file(heading=heading(zeros=(0, 0, 9)), events=SESSION))
    yield "report-refused-shares-of-a-resting-order", Report(changed(good, 7 + 8 + 12 + 8, 4, 1_000_001))
    bad_fields = [(0, 0, 86_400_000), (0, 4, 0), (0, 8, 20_000_001), (1, 5, 16), (1, 6, 0), (1, 8, 0), (1, 12, 0)]
    bad_fields += [(2, 5, 6), (3, 6, 1), (4, 12, 1), (7, 4, 8), (7, 0, 2**32 - 1), (7, 15, 1)]
    widths = {0: 4, 4: 1, 5: 1, 6: 2, 8: 4, 12: 4, 15: 1}
    for which, place, value in bad_fields:
        data = changed(good, events_at + 16 * which + place, widths[place], value)
        yield f"report-refused-byte-{place}-of-event-{which}-by-{value}", Report(data)
    yield "report-refused-entry-number-0-of-a-cancel", Report(session(cancel(entry=0)))
    yield "report-refused-shares-0-of-a-cancel", Report(session(BUY_300, cancel(shares=0)))
    yield "report-refused-shares-1000001-of-a-cancel", Report(session(BUY_300, cancel(shares=1_000_001)))
    yield "report-refused-market-order-that-stays", Report(session(buys(1, 1, NO_LIMIT, STAYS)))


def nudged(numbers, data):
    """The file with one of its last ten events changed a little, so that it mostly stays a good one."""
    at = len(data) - 16 * (1 + numbers.below(10))
    kind = data[at + 4]
    if kind > 3 and numbers.below(3) == 0:
        return changed(data, at + 4, 1, 4 + numbers.below(4))
    if kind == 1 and numbers.below(4) == 0:
        return changed(data, at + 5, 1, data[at + 5] ^ numbers.one_of([SELL, STAYS, DISPLAYED]))
    places = {1: [7, 11, 11, 14, 15], 2: [7, 15], 3: [11, 15]}
    place = at + numbers.one_of([1, 2, 2, 3, 3, *places.get(kind, [])])
    return changed(data, place, 1, (data[place] + numbers.one_of([-9, -1, 1, 9])) % 256)


def reports_mutated():
    numbers = Numbers(20_260_122)
    goods = [
        session(QUOTE, BUY_300, SELL_200, cancel(OPEN_TIME, 2, 50), TO_THE_CROSS, resting=TWO_ORDERS),
        session(QUOTE, many_enters(8), cancel(OPEN_TIME, 3), TO_THE_CROSS, cross(), ranking=2),
        ALL_FOUR,
    ]
    for count in range(1, 61):
        data = numbers.one_of(goods)
        for _ in range(1 + numbers.below(3)):
            _, data = mutated(numbers, data)
        yield f"report-mutation-{count}", Report(data)
    for count in range(1, 101):
        data = numbers.one_of(goods[:2])
        for _ in range(1 + numbers.below(4)):
            data = nudged(numbers, data)
        yield f"report-nudge-{count}", Report(data)


class Drawing:
    """Draws sessions that are mostly in order: times and entry numbers rise, and prices lie near the collar."""

    KINDS = {
        "open": ["enter"] * 12 + ["cancel"] * 4 + ["quote"] * 2 + ["publish", "lock", "shut", "cross"],
        "locked": ["enter"] * 8 + ["publish"] * 4 + ["quote"] * 3 + ["cancel", "lock", "shut", "cross"],
        "shut": ["quote"] * 3 + ["publish"] * 4 + ["enter", "cancel", "lock", "shut", "cross"],
        "crossed": ["enter", "cancel", "quote", "publish", "lock", "shut", "cross"],
    }
    ENDS = {"open": LOCK_TIME, "locked": SHUT_TIME, "shut": CROSS_TIME, "crossed": END_OF_DAY - 1}

    def __init__(self, numbers):
        self.numbers = numbers
        self.last_sale = numbers.one_of([1 + numbers.below(130), 900 + numbers.below(300), 900 + numbers.below(300)])
        if numbers.below(12) == 0:
            self.last_sale = numbers.one_of([HIGHEST_PRICE - numbers.below(90), 1 + numbers.below(HIGHEST_PRICE)])
        self.ranking = 1 + numbers.below(2)
        self.most_shares = numbers.one_of([1, 3, 10, 300, 1_000_000])
        self.disorder = numbers.one_of([2, 6, 20, 1000])
        self.quoted, self.time, self.entries = (0, 0), 33_900_000 + numbers.below(100_000), []

    def chance(self):
        """Whether something out of order comes now."""
        return self.numbers.below(self.disorder) == 0

    def limit(self):
        low, high = reference_range(*self.quoted, self.last_sale)
        collar = collar_of(low, high)
        near = self.numbers.one_of([low, high, (low + high) // 2, *collar])
        inside = collar[0] + self.numbers.below(collar[1] - collar[0] + 1)
        found = self.numbers.one_of([near - 2 + self.numbers.below(5), near, inside, inside])
        return min(max(found, LOWEST_PRICE), HIGHEST_PRICE)

    def shares(self):
        return 1 + self.numbers.below(self.most_shares)

    def at(self, stage, late=False):
        """A time before the end of the stage and at or after the one before; now and then before it, or too late."""
        end = self.ENDS[stage]
        if self.chance():
            return self.numbers.one_of([0, self.time - 1, end] if late else [0, self.time - 1])
        steps = [0, 0, 0, 1, self.numbers.below(max(1, end - self.time)) // 8]
        self.time += self.numbers.one_of(steps)
        return self.time

    def enter(self, stage):
        last = self.entries[-1] if self.entries else 0
        entry = min(last + self.numbers.one_of([1, 1, 1, 2, 40]), 65_535)
        if self.chance():
            entry = max(1, last - self.numbers.below(3))
        self.entries.append(max(entry, last))
        market = self.numbers.below(6 if stage == "open" else 20) == 0
        marks = self.numbers.one_of([0, DISPLAYED]) + (0 if market else self.numbers.one_of([0, STAYS]))
        limit = NO_LIMIT if market else self.limit()
        return enters(self.numbers.below(2), entry, self.shares(), limit, marks, self.at(stage, late=True))

    def cancel(self, stage):
        entry = 1 + self.numbers.below(50) if self.chance() else self.numbers.one_of(self.entries or [1])
        shares = self.numbers.one_of([self.shares(), self.shares(), 1_000_000])
        return cancel(self.at(stage, late=True), entry, shares)

    def quote(self, stage):
        middle = self.limit()
        bid = max(LOWEST_PRICE, middle - self.numbers.below(30))
        offer = min(HIGHEST_PRICE, middle + self.numbers.below(30))
        wide = max(LOWEST_PRICE, bid // 2), min(HIGHEST_PRICE, 2 * offer)
        odd = [(offer, bid), (0, offer), (bid, 0), (0, 0), (bid, bid), wide]
        self.quoted = self.numbers.one_of([(bid, offer)] * 7 + odd)
        return quote(self.at(stage), *self.quoted)

    def event(self, stage):
        name = self.numbers.one_of(self.KINDS[stage])
        kind = next(kind for kind in EVENT_KINDS if EVENT_KINDS[kind] == name)
        return getattr(self, name)(stage) if kind <= 3 else bare(kind, self.at(stage))

    def move(self, kind, time):
        """The event that ends a stage, now and then first too early."""
        early = [bare(kind, time - 1)] if self.chance() else []
        self.time = max(self.time, time)
        return [*early, bare(kind, self.time)]

    def events(self, opens, others):
        found = [self.event("open") for _ in range(opens)]
        for stage, kind, time in (("locked", 5, LOCK_TIME), ("shut", 6, SHUT_TIME), ("crossed", 7, CROSS_TIME)):
            found += self.move(kind, time)
            found += [self.event(stage) for _ in range(self.numbers.below(others + 1))]
        return found

    def resting(self, count):
        placed = [(self.numbers.below(2), self.numbers.below(2), 1 + self.numbers.below(60)) for _ in range(count)]
        return b"".join(order(*marks, self.limit(), self.shares()) for marks in placed)

    def session(self, resting, opens, others):
        events = self.events(opens, others)
        return session(*events, resting=self.resting(resting), last_sale=self.last_sale, ranking=self.ranking)


def reports_drawn():
    numbers = Numbers(20_260_123)
    for count in range(1, 321):
        resting = numbers.one_of([0, 0, 1, 3, 8, 8, 20, 40])
        opens = numbers.one_of([0, 2, 5, 10, 10, 20, 20, 40, 60])
        yield f"report-drawn-{count}", Report(Drawing(numbers).session(resting, opens, numbers.one_of([0, 6, 12, 24])))
    for count in range(1, 31):
        drawing = Drawing(numbers)
        events = drawing.events(20, 6)
        for _ in range(8):
            place = numbers.below(len(events))
            events.insert(max(0, place - 3 + numbers.below(7)), events[place])
        yield f"report-drawn-with-events-twice-{count}", Report(session(*events, resting=drawing.resting(4)))


def reports_drawn_full():
    """256 resting orders, and enters until the auction book has 256."""
    numbers = Numbers(20_260_124)
    for count in range(1, 9):
        drawing = Drawing(numbers)
        drawing.last_sale, drawing.disorder = 900 + numbers.below(300), 1000
        before = [drawing.enter("open") for _ in range(250)] + [drawing.cancel("open") for _ in range(3)]
        after = drawing.events(20, 12)
        yield f"report-drawn-full-{count}", Report(
            session(*before, *after, resting=drawing.resting(256), last_sale=drawing.last_sale, ranking=1 + count % 2)
        )


def unreadable_lines():
    data = told(book(buy(300, 1060)))
    lines = {
        "report-alone": "report",
        "report-with-two-files": f"report {data} {data}",
        "report-with-a-file-cut-in-a-pair": f"report {data[:-1]}",
        "report-with-two-spaces": f"report  {data}",
        "reports": f"reports {data}",
    }
    for name, text in lines.items():
        yield f"line-{name}", Unreadable(text)


def all_cases():
    groups = [unreadable_lines, reports_of_note, reports_by_time, reports_of_times_that_go_back]
    groups += [reports_of_what_a_refusal_leaves, reports_by_entry_number]
    groups += [reports_in_locked, reports_of_full_books, reports_of_cancels, reports_by_stage, reports_by_first_cause]
    groups += [reports_with_nothing_to_cross, reports_of_prices, reports_of_figures, reports_of_fills]
    groups += [reports_of_large_sessions, reports_of_refused_files, reports_mutated, reports_drawn, reports_drawn_full]
    for group in groups:
        yield from group()


# ---------------------------------------------------------------------------------------------------------------------
# Writing the table


def main():
    cases, answers, names = [], [], set()
    for name, case in all_cases():
        assert re.fullmatch("[A-Za-z0-9-]+", name) and name not in names, name
        names.add(name)
        cases.append(f"{name} {case.text()}")
        answers += case.answer(name)
    here = os.path.dirname(os.path.abspath(__file__))
    for name, lines in (("stdin", cases), ("stdout", answers)):
        with open(os.path.join(here, name), "w", encoding="ascii", newline="\n") as out:
            out.write("\n".join(lines) + "\n")
    print(f"{len(cases)} cases, {len(answers)} lines of answers")


if __name__ == "__main__":
    main()
