"""A second machine for days: slow and plain, and written from docs/FORMATS.md alone, beside which the program is tried.

    second_machine.py FILE [DEPTH]

prints the trace of a day file, with 10 levels of each side where no other depth is named.

A day is a list of payloads. `replayed` makes a Day of it, which keeps what became of each message and all that they built
up; the functions below it give the lines that the program's commands print.
"""
import struct
import sys

# The mnemonic of each type and its body, after the 11 bytes that all have: a field's name, its width, and n for a number or a
# for text.
BODIES = {
    "S": ("system", "event:1a"),
    "R": ("directory", "stock:8a category:1a status:1a lot:4n lots_only:1a issue_class:1a issue_subtype:2a"
          " authenticity:1a short_sale:1a ipo:1a luld:1a etp:1a leverage:4n inverse:1a"),
    "H": ("trading", "stock:8a state:1a reserved:1a reason:4a"),
    "Y": ("regsho", "stock:8a action:1a"),
    "L": ("participant", "mpid:4a stock:8a primary:1a mode:1a state:1a"),
    "V": ("decline", "level1:8n level2:8n level3:8n"),
    "W": ("breach", "level:1a"),
    "K": ("ipo", "stock:8a release:4n qualifier:1a price:4n"),
    "J": ("collar", "stock:8a reference_price:4n upper:4n lower:4n extension:4n"),
    "h": ("operational", "stock:8a market:1a action:1a"),
    "A": ("add", "reference:8n side:1a shares:4n stock:8a price:4n"),
    "F": ("add_mpid", "reference:8n side:1a shares:4n stock:8a price:4n attribution:4a"),
    "E": ("execute", "reference:8n shares:4n match_no:8n"),
    "C": ("execute_price", "reference:8n shares:4n match_no:8n printable:1a price:4n"),
    "X": ("cancel", "reference:8n shares:4n"),
    "D": ("delete", "reference:8n"),
    "U": ("replace", "reference:8n new_reference:8n shares:4n price:4n"),
    "P": ("trade", "reference:8n side:1a shares:4n stock:8a price:4n match_no:8n"),
    "Q": ("cross", "shares:8n stock:8a price:4n match_no:8n cross_type:1a"),
    "B": ("broken", "match_no:8n"),
    "I": ("imbalance", "paired:8n imbalance:8n direction:1a stock:8a far:4n near:4n reference_price:4n"
          " cross_type:1a variation:1a"),
    "N": ("retail", "stock:8a interest:1a"),
}
# The checks of each type, in their order.
CHECKS = {
    "S": [1], "R": [1, 4], "H": [1, 2, 3], "Y": [1, 2, 3], "L": [1, 2, 3], "J": [1, 2, 3], "h": [1, 2, 3],
    "I": [1, 2, 3], "N": [1, 2, 3], "V": [1], "W": [1], "K": [1], "A": [1, 2, 3, 7, 8, 5, 12],
    "F": [1, 2, 3, 7, 8, 5, 12], "E": [1, 2, 6, 9], "C": [1, 2, 10, 6, 9], "X": [1, 2, 6, 9], "D": [1, 2, 6],
    "U": [1, 2, 6, 5, 12, 8], "P": [1, 2, 3, 7], "Q": [1, 2, 3], "B": [1, 2, 11],
}
# The types whose messages are of no stock.
NO_STOCK = "SVWK"


def fields_of(body):
    for word in body.split():
        name, form = word.split(":")
        yield name, int(form[:-1]), form[-1]


SIZES = {kind: 11 + sum(width for _, width, _ in fields_of(body)) for kind, (_, body) in BODIES.items()}


def entries(data):
    """The payloads of a file, whether it is marked, and its tail."""
    payloads, at = [], 0
    while len(data) - at >= 2:
        (length,) = struct.unpack_from(">H", data, at)
        if length == 0:
            return payloads, True, data[at + 2:]
        if len(data) - at - 2 < length:
            break
        payloads.append(data[at + 2:at + 2 + length])
        at += 2 + length
    return payloads, False, data[at:]


def parse(payload):
    """A message as a dictionary; None for an unknown type, False for a wrong length."""
    kind = chr(payload[0])
    if kind not in BODIES:
        return None
    if len(payload) != SIZES[kind]:
        return False
    number = int.from_bytes
    message = {"type": kind, "locate": number(payload[1:3], "big"), "tracking": number(payload[3:5], "big"),
               "time": number(payload[5:11], "big")}
    at = 11
    for name, width, form in fields_of(BODIES[kind][1]):
        piece = payload[at:at + width]
        message[name] = number(piece, "big") if form == "n" else piece
        at += width
    return message


def is_of_stock(message):
    return bool(message) and message["type"] not in NO_STOCK


def quoted(text):
    """A text field as reports and texts show it."""
    text = text.rstrip(b" ")
    return '"' + "".join(chr(b) if 0x20 <= b <= 0x7E and b not in b'"\\' else "\\x%02x" % b for b in text) + '"'


class Day:
    """All that messages have built up, and what became of each."""

    def __init__(self):
        self.orders, self.spent, self.trades, self.directory = {}, set(), [], {}
        self.trading, self.regsho, self.event = {}, {}, None
        # What became of each message, each message, and the numbers of each stock's.
        self.number, self.outcomes, self.messages, self.own = 0, [], [], {}

    def fails(self, check, m):
        """Whether a check of a message fails."""
        locate = m["locate"]
        key = (locate, m.get("reference"))
        new = (locate, m.get("new_reference", m.get("reference")))
        order = self.orders.get(key)
        if check == 2:
            return locate not in self.directory
        if check == 3:
            return self.directory[locate] != m["stock"]
        if check == 4:
            return locate in self.directory and self.directory[locate] != m["stock"]
        if check == 5:
            return new in self.orders
        if check == 6:
            return order is None
        if check == 7:
            return m["side"] not in (b"B", b"S")
        if check == 8:
            return m["shares"] == 0
        if check == 9:
            return m["shares"] > order["shares"]
        if check == 10:
            return m["printable"] not in (b"Y", b"N")
        if check == 11:
            return not any(t["locate"] == locate and t["match_no"] == m["match_no"] and t["broken"] is None
                           for t in self.trades)
        if check == 12:
            return new in self.spent and new not in self.orders
        return False

    def take(self, payload):
        self.number += 1
        m = parse(payload)
        outcome = self.outcome(m)
        if outcome == "applied":
            self.apply(m)
        self.outcomes.append(outcome)
        self.messages.append(m)
        if is_of_stock(m):
            self.own.setdefault(m["locate"], []).append(self.number)

    def outcome(self, m):
        """What becomes of a message."""
        if m is None:
            return "passed"
        if m is False:
            return "F1"
        for check in CHECKS[m["type"]]:
            if self.fails(check, m):
                return "F%d" % check
        return "applied"

    def apply(self, m):
        kind, locate = m["type"], m["locate"]
        key = (locate, m.get("reference"))
        if kind == "S":
            self.event = m["event"]
        elif kind == "R":
            self.directory[locate] = m["stock"]
        elif kind == "H":
            self.trading[locate] = (m["state"], m["reserved"], m["reason"])
        elif kind == "Y":
            self.regsho[locate] = m["action"]
        elif kind in "AF":
            self.orders[key] = {"side": m["side"], "shares": m["shares"], "price": m["price"],
                                "attribution": m.get("attribution")}
            self.spent.add(key)
        elif kind in "ECX":
            order = self.orders[key]
            if kind != "X":
                self.trade(m, order["side"], m.get("price", order["price"]), m.get("printable", b"Y") == b"Y")
            order["shares"] -= m["shares"]
            if order["shares"] == 0:
                del self.orders[key]
        elif kind == "D":
            del self.orders[key]
        elif kind == "U":
            order = self.orders.pop(key)
            new = (locate, m["new_reference"])
            self.orders[new] = dict(order, shares=m["shares"], price=m["price"])
            self.spent.add(new)
        elif kind == "P":
            self.trade(m, m["side"], m["price"], True)
        elif kind == "Q":
            self.trade(m, b"", m["price"], True)
        elif kind == "B":
            for trade in self.trades:
                if trade["locate"] == locate and trade["match_no"] == m["match_no"] and trade["broken"] is None:
                    trade["broken"] = self.number

    def trade(self, m, side, price, printed):
        self.trades.append({"message": self.number, "time": m["time"], "locate": m["locate"], "type": m["type"],
                            "side": side.decode(), "price": price, "shares": m["shares"],
                            "match_no": m["match_no"], "printed": printed, "broken": None})

    def levels(self, locate, side):
        """A side's levels, the best first."""
        sums = {}
        for (under, _), order in self.orders.items():
            if under == locate and order["side"] == side:
                sums[order["price"]] = sums.get(order["price"], 0) + order["shares"]
        return sorted(((p, s) for p, s in sums.items() if s), reverse=side == b"B")

    def totals(self, locate):
        """Over the unbroken trades: how many are printed, their shares, these times prices, and the unprinted shares."""
        mine = [t for t in self.trades if t["locate"] == locate and t["broken"] is None]
        printed = [t for t in mine if t["printed"]]
        return (len(printed), sum(t["shares"] for t in printed), sum(t["shares"] * t["price"] for t in printed),
                sum(t["shares"] for t in mine if not t["printed"]))


def replayed(payloads):
    day = Day()
    for payload in payloads:
        day.take(payload)
    return day


def text_line(payload, message):
    """The line of a payload in the day's text."""
    if not message:
        return "raw " + payload.hex()
    mnemonic, body = BODIES[message["type"]]
    words = [mnemonic] + ["%s=%d" % (name, message[name]) for name in ("locate", "tracking", "time")]
    for name, _, form in fields_of(body):
        value = message[name]
        words.append("%s=%s" % (name, value if form == "n" else quoted(value)))
    return " ".join(words)


def side_fields(levels):
    return ["%d" % number for number in levels[0]] if levels else ["", ""]


def tops(payloads, locate, every):
    """A stock's best bid and ask after each of its messages, or each that changes them."""
    yield "message,time,bid_price,bid_shares,ask_price,ask_shares"
    day, before = Day(), ["", "", "", ""]
    for payload in payloads:
        day.take(payload)
        message = day.messages[-1]
        if is_of_stock(message) and message["locate"] == locate:
            sides = side_fields(day.levels(locate, b"B")) + side_fields(day.levels(locate, b"S"))
            if every or sides != before:
                yield ",".join(["%d" % day.number, "%d" % message["time"], *sides])
            before = sides


def type_field(payload):
    """The type of a payload as a trace has it."""
    b = payload[0]
    return chr(b) if 0x21 <= b <= 0x7E and b not in b',"\\' else "\\x%02x" % b


def begins(payloads, symbol):
    """The locate code of the stock of the first directory message that gives a symbol and is applied, and its number."""
    day = Day()
    for payload in payloads:
        day.take(payload)
        message = day.messages[-1]
        if message and message["type"] == "R" and day.outcomes[-1] == "applied" and message["stock"] == symbol:
            return message["locate"], day.number
    return None


def trace(payloads, depth=1, first=1, last=1 << 32, locate=None):
    """A line for each message, or for those of one stock: what became of it, and its stock's best levels after it."""
    names = ["message", "time", "type", "locate", "outcome"]
    for place in range(1, depth + 1):
        number = "" if place == 1 else "_%d" % place
        names += [side + field + number for side in ("bid_", "ask_") for field in ("price", "shares")]
    yield ",".join(names)
    day = Day()
    for payload in payloads:
        day.take(payload)
        m = day.messages[-1]
        if not first <= day.number <= last or locate is not None and not (is_of_stock(m) and m["locate"] == locate):
            continue
        sides = [day.levels(m["locate"], side) if is_of_stock(m) else [] for side in (b"B", b"S")]
        fields = [day.number, m["time"] if m else "", type_field(payload), m["locate"] if m else "", day.outcomes[-1]]
        for place in range(depth):
            for levels in sides:
                fields += levels[place] if place < len(levels) else ("", "")
        yield ",".join(map(str, fields))


def trades(day, locate=None):
    """The lines of the trades of a stock, or of all."""
    yield "message,time,locate,type,side,price,shares,match_no,printed,broken"
    for t in day.trades:
        if locate in (None, t["locate"]):
            yield "%d,%d,%d,%s,%s,%d,%d,%d,%s,%s" % (
                t["message"], t["time"], t["locate"], t["type"], t["side"], t["price"], t["shares"], t["match_no"],
                "Y" if t["printed"] else "N", "" if t["broken"] is None else t["broken"])


def summary(day):
    """A line for each stock that has messages."""
    yield ("locate,symbol,messages,refused,bid_price,bid_shares,ask_price,ask_shares,orders,trades,shares,"
           "notional,unprinted")
    for locate in sorted(day.own):
        outcomes = [day.outcomes[n - 1] for n in day.own[locate]]
        symbol = quoted(day.directory[locate]) if locate in day.directory else ""
        orders = sum(under == locate for under, _ in day.orders)
        sides = side_fields(day.levels(locate, b"B")) + side_fields(day.levels(locate, b"S"))
        refused = sum(outcome != "applied" for outcome in outcomes)
        yield ",".join(map(str, [locate, symbol, len(outcomes), refused, *sides, orders, *day.totals(locate)]))


def order_line(reference, order):
    attribution = "none" if order["attribution"] is None else quoted(order["attribution"])
    return "order %d %s %d %d %s" % (reference, order["side"].decode(), order["shares"], order["price"], attribution)


def life(day, payloads, locate, reference):
    """The lines of an order's life, from any of its references."""
    own = [(n, day.messages[n - 1], day.outcomes[n - 1]) for n in day.own.get(locate, [])]
    first = {}
    for _, m, outcome in own:
        if m["type"] == "U" and outcome == "applied":
            first[m["new_reference"]] = first.get(m["reference"], m["reference"])
    begins = first.get(reference, reference)
    for n, m, outcome in own:
        named = [m[name] for name in ("reference", "new_reference") if name in m]
        if any(first.get(other, other) == begins for other in named):
            yield "%d %s %s" % (n, outcome_words(outcome), text_line(payloads[n - 1], m))
    alive = [other for under, other in day.orders if under == locate and first.get(other, other) == begins]
    if alive:
        yield order_line(alive[0], day.orders[locate, alive[0]])
    else:
        yield "gone" if (locate, reference) in day.spent else "no order %d" % reference


def outcome_words(outcome):
    return "refused " + outcome if outcome.startswith("F") else outcome


def stock_line(day, locate):
    state = day.trading.get(locate)
    regsho = day.regsho.get(locate)
    return "stock %d %s state %s reason %s regsho %s" % (
        locate, quoted(day.directory[locate]), quoted(state[0]) if state else "none",
        quoted(state[2]) if state else "none", "none" if regsho is None else quoted(regsho))


def level_lines(day, locate):
    for word, side in ("bid", b"B"), ("ask", b"S"):
        for price, shares in day.levels(locate, side):
            yield "%s %d %d" % (word, price, shares)


def trades_line(day, locate):
    return "trades %d shares %d notional %d unprinted %d" % day.totals(locate)


def position_at(payloads, time):
    """How many messages come before the first that is later than a time."""
    for number, message in enumerate(map(parse, payloads)):
        if message and message["time"] > time:
            return number
    return len(payloads)


def shown(payloads, position, locate):
    """A stock after so many messages."""
    day = replayed(payloads[:position])
    yield "at %d %s" % (position, outcome_words(day.outcomes[-1]) if position else "start")
    if locate not in day.directory:
        yield "no stock %d" % locate
        return
    yield stock_line(day, locate)
    yield from level_lines(day, locate)
    for under, reference in sorted(day.orders):
        if under == locate:
            yield order_line(reference, day.orders[under, reference])
    yield trades_line(day, locate)


NAMES = ["WrongLength", "NoDirectory", "StockDiffers", "LocateTaken", "ReferenceInUse", "ReferenceUnknown", "BadSide",
         "ZeroShares", "TooManyShares", "BadPrintable", "NoTrade", "ReferenceSpent"]


def reason(day, number, payload, m):
    """Why a message is refused by the check of this number, where it comes next in a day."""
    if number == 1:
        kind = chr(payload[0])
        return "a message of type %s has %d bytes, and this one %d" % (kind, SIZES[kind], len(payload))
    if number == 2:
        return "locate code %d has no directory message before it" % m["locate"]
    if number in (3, 4):
        return "stock %s, and locate code %d is %s" % (quoted(m["stock"]), m["locate"], quoted(day.directory[m["locate"]]))
    if number in (5, 12):
        words = "order %d lives" if number == 5 else "an earlier order had reference %d"
        return words % m.get("new_reference", m["reference"])
    if number == 6:
        return "no order %d lives" % m["reference"]
    if number == 7:
        return 'side %s, which is neither "B" nor "S"' % quoted(m["side"])
    if number == 8:
        return "order %d would have no shares" % m.get("new_reference", m["reference"])
    if number == 9:
        return "%d shares %s of order %d, which has %d" % (
            m["shares"], "cancelled" if m["type"] == "X" else "executed", m["reference"],
            day.orders[m["locate"], m["reference"]]["shares"])
    if number == 10:
        return 'printable %s, which is neither "Y" nor "N"' % quoted(m["printable"])
    return "no unbroken trade has match number %d" % m["match_no"]


def references_in(m):
    """The references by which a message names orders, each once. That of a trade is none."""
    if m["type"] == "P":
        return []
    return list(dict.fromkeys(m[name] for name in ("reference", "new_reference") if name in m))


def why(payloads, number):
    """What became of a message, and why."""
    payload = payloads[number - 1]
    day, m = replayed(payloads[:number - 1]), parse(payload)
    outcome = day.outcome(m)
    yield "at %d %s" % (number, outcome_words(outcome))
    yield text_line(payload, m)
    if outcome.startswith("F"):
        check = int(outcome[1:])
        yield "%s %s: %s" % (outcome, NAMES[check - 1], reason(day, check, payload, m))
    if not is_of_stock(m):
        return
    for reference in references_in(m):
        key = (m["locate"], reference)
        if key in day.orders:
            yield order_line(reference, day.orders[key])
        else:
            yield "no order %d%s" % (reference, " spent" if key in day.spent else "")
    for n in day.own.get(m["locate"], []):
        earlier = day.messages[n - 1]
        if m["type"] == "B":
            led = earlier.get("match_no") == m["match_no"]
        else:
            led = set(references_in(earlier)) & set(references_in(m))
        if led and day.outcomes[n - 1] == "applied":
            yield "%d %s" % (n, text_line(payloads[n - 1], earlier))


def report(day, marked, tail):
    """The lines of a day's report."""
    for number, outcome in enumerate(day.outcomes, 1):
        if outcome.startswith("F"):
            yield "message %d refused %s" % (number, outcome)
    refused = sum(o.startswith("F") for o in day.outcomes)
    yield "messages %d applied %d passed %d refused %d marked %s tail %d event %s" % (
        len(day.outcomes), day.outcomes.count("applied"), day.outcomes.count("passed"), refused,
        "yes" if marked else "no", len(tail), "none" if day.event is None else quoted(day.event))
    for locate in sorted(day.directory):
        yield stock_line(day, locate)
        yield from level_lines(day, locate)
        yield trades_line(day, locate)


if __name__ == "__main__":
    with open(sys.argv[1], "rb") as file:
        print("\n".join(trace(entries(file.read())[0], int(sys.argv[2]) if len(sys.argv) > 2 else 10)))
