#!/usr/bin/env python3
"""A reading of docs/01-scope.md and docs/PROGRAMS.md in Python, to say what the programs must write before they are run.

usage: scripts/paper.py explain|till [ATT.RS] < INPUT > EXPECTED

It shares nothing with the Rattle code or its definitions. The error texts are read from the text of att.rs, whose
path may be given (default ../shared/docs/src/att.rs). crates/explain/stdout and crates/till/stdout were made by it.
"""
import re
import sys

NAMES = {1: "InsufficientSpace", 2: "InvalidValue", 3: "TableFull", 4: "BadHandle", 5: "BadType", 6: "BadValue", 7: "NoRoom",
         8: "UnknownHandle", 9: "NotStorable", 10: "TooLong", 11: "BadTable", 12: "BadLink"}


class Bad(Exception):
    """A line that cannot be read."""


class Refused(Exception):
    """A refusal of document 01's table."""


# ---- lines and words

def lines(raw):
    """Yields (number, line) without ending; a line over 16,384 bytes is None."""
    parts = raw.split(b"\n")
    if parts[-1] == b"":
        parts.pop()
    for k, part in enumerate(parts, 1):
        if part.endswith(b"\r"):
            part = part[:-1]
        yield k, (None if len(part) > 16384 else part)


def skipped(line):
    bare = line.strip(b" \t")
    return bare == b"" or bare.startswith(b"#")


def digits(word):
    if not re.fullmatch(rb"[0-9A-Fa-f]*", word) or len(word) % 2:
        raise Bad("not hexadecimal")
    return bytes.fromhex(word.decode())


def hexed(word, limit):
    if word == b"-":
        return b""
    if word == b"":
        raise Bad("not hexadecimal")
    data = digits(word)
    if len(data) > limit:
        raise Bad("too long")
    return data


def show_hex(data):
    return data.hex().upper() if data else "-"


def number(word, limit=None):
    if not re.fullmatch(rb"[0-9]+", word) or int(word) >= 2 ** 64:
        raise Bad("not a number")
    if limit is not None and int(word) > limit:
        raise Bad("too long")
    return int(word)


def handle_of(word):
    if not re.fullmatch(rb"[0-9A-Fa-f]{4}", word):
        raise Bad("not hexadecimal")
    return int(word, 16)


def type_of(word):
    """A UUID as its own bytes, little-endian: 2, 4 or 16 of them."""
    if re.fullmatch(rb"[0-9A-Fa-f]{4}|[0-9A-Fa-f]{8}", word):
        return bytes.fromhex(word.decode())[::-1]
    if re.fullmatch(rb"[0-9A-Fa-f]{8}(-[0-9A-Fa-f]{4}){3}-[0-9A-Fa-f]{12}", word):
        return bytes.fromhex(word.decode().replace("-", ""))[::-1]
    raise Bad("not a type")


def show_type(own):
    text = own[::-1].hex().upper()
    return text if len(own) < 16 else "-".join((text[:8], text[8:12], text[12:16], text[16:20], text[20:]))


def marks_of(word, letters):
    if word == b"-":
        return set()
    text = word.decode("latin-1")
    if len(set(text)) != len(text) or any(c not in letters for c in text):
        raise Bad("not marks")
    return set(text)


def show_marks(marks, letters):
    return "".join(c for c in letters if c in marks) or "-"


# ---- packets: document 01's table

def le(data):
    return int.from_bytes(data, "little")


def u16(v):
    return v.to_bytes(2, "little")


FIXED = {0x01: (1, 2, 1), 0x02: (2,), 0x03: (2,), 0x04: (2, 2), 0x05: (1,), 0x06: (2, 2, 2), 0x07: (), 0x08: (2, 2), 0x09: (1,),
         0x0A: (2,), 0x0B: (), 0x0C: (2, 2), 0x0D: (), 0x10: (2, 2), 0x11: (1,), 0x12: (2,), 0x13: (), 0x16: (2, 2), 0x18: (1,),
         0x1B: (2,), 0x1D: (2,), 0x1E: (), 0x20: (), 0x52: (2,)}
DATA = (0x06, 0x0B, 0x0D, 0x12, 0x16, 0x1B, 0x1D, 0x20, 0x52)
LISTS = (0x05, 0x07, 0x09, 0x11)


def item_length(op, fields):
    if op == 0x05:
        return {1: 4, 2: 18}.get(fields[0], 0)
    return 4 if op == 0x07 else fields[0]


def decode(packet):
    """(opcode, fields, rest) or None."""
    if not packet or packet[0] not in FIXED:
        return None
    op, p = packet[0], packet[1:]
    widths = FIXED[op]
    if len(p) < sum(widths):
        return None
    fields, at = [], 0
    for w in widths:
        fields.append(le(p[at:at + w]))
        at += w
    rest = p[at:]
    if op in (0x08, 0x10):
        return (op, fields, rest) if len(rest) in (2, 16) else None
    if op in LISTS:
        return (op, fields, rest) if item_length(op, fields) >= 2 else None
    return (op, fields, rest if op in DATA else b"")


def strict(packet):
    got = decode(packet)
    if got is None:
        return False
    op, fields, _ = got
    rest = packet[1 + sum(FIXED[op]):]
    if op in LISTS:
        n = item_length(op, fields)
        return n >= (4 if op == 0x11 else 2) and len(rest) >= n and len(rest) % n == 0
    if op == 0x20:
        return len(rest) >= 4 and len(rest) % 2 == 0
    return op in DATA or op in (0x08, 0x10) or rest == b""


def encode(got):
    op, fields, rest = got
    out = bytes([op]) + b"".join(f.to_bytes(w, "little") for f, w in zip(fields, FIXED[op]))
    if op in LISTS:
        rest = rest[:len(rest) - len(rest) % item_length(op, fields)]
    return out + rest


def items(got):
    op, fields, rest = got
    n = item_length(op, fields)
    return [rest[i:i + n] for i in range(0, len(rest) - n + 1, n)]


# ---- explain

KINDS = {0x01: "server response Error", 0x02: "client request ExchangeMtu", 0x03: "server response ExchangeMtu",
         0x04: "client request FindInformation", 0x05: "server response FindInformation", 0x06: "client request FindByTypeValue",
         0x07: "server response FindByTypeValue", 0x08: "client request ReadByType", 0x09: "server response ReadByType",
         0x0A: "client request Read", 0x0B: "server response Read", 0x0C: "client request ReadBlob", 0x0D: "server response ReadBlob",
         0x10: "client request ReadByGroupType", 0x11: "server response ReadByGroupType", 0x12: "client request Write",
         0x13: "server response Write", 0x16: "client request PrepareWrite", 0x18: "client request ExecuteWrite",
         0x1B: "server unsolicited Notify", 0x1D: "server unsolicited Indicate", 0x1E: "client confirmation ConfirmIndication",
         0x20: "client request ReadMultiple", 0x52: "client command Write"}
LABELS = {0x01: ("request", "handle", "code"), 0x02: ("mtu",), 0x03: ("mtu",), 0x04: ("start_handle", "end_handle"), 0x05: ("format",),
          0x06: ("start_handle", "end_handle", "att_type"), 0x08: ("start", "end"), 0x0A: ("handle",), 0x0C: ("handle", "offset"),
          0x10: ("start", "end"), 0x12: ("handle",), 0x16: ("handle", "offset"), 0x18: ("flags",), 0x1B: ("handle",), 0x1D: ("handle",),
          0x52: ("handle",)}
REST = {0x06: "att_value", 0x0B: "data", 0x0D: "data", 0x12: "data", 0x16: "value", 0x1B: "data", 0x1D: "data", 0x20: "handles", 0x52: "data"}


def texts(path):
    source = open(path, encoding="utf-8").read()
    codes = {m.group(1): int(m.group(2), 16) for m in re.finditer(r"pub const (\w+): Self = Self \{ value: (0x\w+) \}", source)}
    found = {}
    for m in re.finditer(r"&Self::(\w+) => (?:\{\s*)?f\.write_str\(\s*\"([^\"]*)\"", source):
        found[codes[m.group(1)]] = m.group(2)
    app = re.search(r"write!\(f, \"(application[^\"]*)\"", source).group(1)
    unknown = re.search(r"write!\(f, \"(unknown[^\"]*)\"", source).group(1)
    for c in range(256):
        if c not in found:
            found[c] = app.replace("{}", str(c)) if 0x80 <= c <= 0x9F else unknown.replace("{other}", str(c))
    return found


def explained(packet, text):
    got = decode(packet)
    if got is None:
        return "refused 2 InvalidValue"
    op, fields, rest = got
    words = [KINDS[op]]
    for label, value, width in zip(LABELS.get(op, ()), fields, FIXED[op]):
        words.append(f"{label}={value:0{2 * width}X}")
    if op == 0x01:
        words[-1] += f" ({text[fields[2]]})"
    if op in (0x09, 0x11):
        words.append(f"item_len={fields[0]}")
    if op in (0x08, 0x10):
        words.append(("attribute_type=" if op == 0x08 else "group_type=") + show_type(rest))
    if op in REST:
        words.append(f"{REST[op]}={show_hex(rest)}")
    if op in LISTS:
        for it in items(got):
            tail = {0x05: lambda b: show_type(b), 0x07: lambda b: f"{le(b):04X}"}.get(op, show_hex)(it[2:])
            words.append(f"item={le(it[:2]):04X}:{tail}")
    sent = encode(got)
    words.append(f"size={len(sent)}")
    words.append("strict" if strict(packet) else f"tolerant encodes={show_hex(sent)}")
    return " ".join(words)


def explain_line(line, text):
    return explained(hexed(re.sub(rb"[ \t]", b"", line), 2048), text)


# ---- till: the table, the link and the responder

class Till:
    def __init__(self):
        self.fixed, self.live, self.out = b"", bytearray(), 247
        self.mtu, self.marks = 23, set()
        self.new()

    def new(self):
        if len(self.live) > 32768:
            raise Refused(11)
        self.records, self.built = [], (len(self.fixed), len(self.live))

    def sound(self):
        return (len(self.fixed), len(self.live)) == self.built

    def must_be_sound(self):
        if not self.sound():
            raise Refused(11)

    def used(self):
        return sum(r["capacity"] for r in self.records if r["live"])

    def add(self, r):
        self.must_be_sound()
        if len(self.records) >= 64:
            raise Refused(3)
        if r["handle"] == 0 or (self.records and r["handle"] <= self.records[-1]["handle"]):
            raise Refused(4)
        if len(r["type"]) == 4:
            raise Refused(5)
        if r["live"]:
            if r["capacity"] > 512:
                raise Refused(6)
            if len(self.live) - self.used() < r["capacity"]:
                raise Refused(7)
            r["at"], r["len"] = self.used(), 0
        elif r["len"] > 512 or r["at"] > len(self.fixed) or r["len"] > len(self.fixed) - r["at"] or "w" in r["marks"]:
            raise Refused(6)
        self.records.append(r)

    def find(self, handle):
        return next((r for r in self.records if r["handle"] == handle), None)

    def value(self, r):
        area = self.live if r["live"] else self.fixed
        return bytes(area[r["at"]:r["at"] + r["len"]])

    def put(self, r, data):
        self.live[r["at"]:r["at"] + len(data)] = data
        r["len"] = len(data)

    def store(self, handle, data):
        self.must_be_sound()
        r = self.find(handle)
        if r is None:
            raise Refused(8)
        if not r["live"]:
            raise Refused(9)
        if len(data) > r["capacity"]:
            raise Refused(10)
        self.put(r, data)

    def lookup(self, handle):
        self.must_be_sound()
        r = self.find(handle)
        if r is None:
            raise Refused(8)
        return self.value(r)

    # "may read", "may write": 0, or the error code
    def unread(self, r):
        return 0x02 if "r" not in r["marks"] else 0x0F if "R" in r["marks"] and "e" not in self.marks else 0

    def unwritten(self, r):
        return 0x03 if "w" not in r["marks"] else 0x0F if "W" in r["marks"] and "e" not in self.marks else 0

    def serve(self, packet):
        self.must_be_sound()
        if not 23 <= self.mtu <= 247:
            raise Refused(12)
        if self.out < self.mtu:
            raise Refused(1)
        if not packet:
            raise Refused(2)
        op = packet[0]
        if op % 2 or op == 0x1E or op & 0x40:
            if op == 0x52 and strict(packet) and len(packet) <= self.mtu:
                r = self.find(le(packet[1:3]))
                if r and not self.unwritten(r) and len(packet) - 3 <= r["capacity"]:
                    self.put(r, packet[3:])
            return None
        if len(packet) > self.mtu:
            return self.error(op, 0, 0x04)
        if op not in (0x02, 0x04, 0x06, 0x08, 0x0A, 0x0C, 0x10, 0x12):
            return self.error(op, 0, 0x06)
        if not strict(packet):
            return self.error(op, 0, 0x04)
        _, fields, rest = decode(packet)
        if op == 0x02:
            return self.exchange(fields[0])
        if op in (0x0A, 0x0C, 0x12):
            return self.one(op, fields, rest)
        return self.many(op, fields, rest)

    def error(self, op, handle, code):
        return bytes([1, op]) + u16(handle) + bytes([code])

    def exchange(self, mtu):
        if "x" in self.marks:
            return self.error(0x02, 0, 0x06)
        self.marks.add("x")
        self.mtu = max(23, min(247, mtu))
        return b"\x03\xF7\x00"

    def one(self, op, fields, data):
        r = self.find(fields[0])
        if r is None:
            return self.error(op, fields[0], 0x01)
        code = self.unwritten(r) if op == 0x12 else self.unread(r)
        if code:
            return self.error(op, fields[0], code)
        if op == 0x12:
            if len(data) > r["capacity"]:
                return self.error(op, fields[0], 0x0D)
            self.put(r, data)
            return b"\x13"
        v = self.value(r)
        if op == 0x0C:
            if fields[1] > len(v):
                return self.error(op, fields[0], 0x07)
            return b"\x0D" + v[fields[1]:][:self.mtu - 1]
        return b"\x0B" + v[:self.mtu - 1]

    def is_group(self, own):
        return own in (b"\x00\x28", b"\x01\x28")

    def group_end(self, r):
        end = r["handle"]
        for s in self.records:
            if s["handle"] > r["handle"]:
                if self.is_group(s["type"]):
                    break
                end = s["handle"]
        return end

    def many(self, op, fields, rest):
        start, end = fields[0], fields[1]
        if start == 0 or start > end:
            return self.error(op, start, 0x01)
        if op == 0x10 and not self.is_group(rest):
            return self.error(op, start, 0x10)
        kind = u16(fields[2]) if op == 0x06 else rest
        room = self.mtu - (1 if op == 0x06 else 2)
        found = []
        for r in self.records:
            if not start <= r["handle"] <= end:
                continue
            if op != 0x04 and r["type"] != kind:
                continue
            code = 0 if op == 0x04 else self.unread(r)
            if op == 0x06 and (code or self.value(r) != rest):
                continue
            if code:
                if not found:
                    return self.error(op, r["handle"], code)
                break
            item = u16(r["handle"])
            if op == 0x04:
                item += r["type"]
            elif op == 0x06:
                item += u16(self.group_end(r) if self.is_group(kind) else r["handle"])
            elif op == 0x08:
                item += self.value(r)[:self.mtu - 4]
            else:
                item += u16(self.group_end(r)) + self.value(r)[:self.mtu - 6]
            if found and len(item) != len(found[0]) or len(item) * (len(found) + 1) > room:
                break
            found.append(item)
        if not found:
            return self.error(op, start, 0x0A)
        n = len(found[0])
        head = {0x04: [5, 1 if n == 4 else 2], 0x06: [7], 0x08: [9, n], 0x10: [0x11, n]}[op]
        return bytes(head) + b"".join(found)

    def show(self):
        out = [f"link mtu={self.mtu} marks={show_marks(self.marks, 'ex')}"]
        if not self.sound():
            return out + ["refused 11 BadTable", "end"]
        for r in self.records:
            place = f"live at={r['at']} capacity={r['capacity']}" if r["live"] else f"fixed at={r['at']}"
            out.append(f"record {r['handle']:04X} {show_type(r['type'])} {show_marks(r['marks'], 'rwRW')} {place} value={show_hex(self.value(r))}")
        return out + [f"live {show_hex(bytes(self.live))}", "end"]


SHAPES = {b"fixed": (1, 1), b"live": (1, 1), b"table": (0, 0), b"add": (5, 6), b"store": (2, 2), b"lookup": (1, 1), b"link": (2, 2),
          b"output": (1, 1), b"send": (1, 1), b"show": (0, 0)}


def count(args, least, most):
    if len(args) < least:
        raise Bad("missing word")
    if len(args) > most:
        raise Bad("too many words")


def till_line(till, line):
    words = re.split(rb"[ \t]+", line.strip(b" \t"))
    name, args = words[0], words[1:]
    if name not in SHAPES:
        raise Bad("unknown command")
    if name != b"add":
        count(args, *SHAPES[name])
    if name == b"fixed":
        till.fixed = hexed(args[0], 4096)
    elif name == b"live":
        till.live = bytearray(number(args[0], 40000))
    elif name == b"table":
        till.new()
    elif name == b"add":
        count(args, 4, 6)
        r = {"handle": handle_of(args[0]), "type": type_of(args[1]), "marks": marks_of(args[2], "rwRW"), "capacity": 0}
        if args[3] == b"fixed":
            count(args, 6, 6)
            r.update(live=False, at=number(args[4]), len=number(args[5]))
        elif args[3] == b"live":
            count(args, 5, 5)
            r.update(live=True, capacity=number(args[4]))
        else:
            raise Bad("unknown command")
        till.add(r)
    elif name == b"store":
        till.store(handle_of(args[0]), hexed(args[1], 8192))
    elif name == b"lookup":
        return ["value " + show_hex(till.lookup(handle_of(args[0])))]
    elif name == b"link":
        mtu, marks = number(args[0]), marks_of(args[1], "ex")
        if mtu > 65535:
            raise Bad("not a number")
        till.mtu, till.marks = mtu, marks
    elif name == b"output":
        till.out = number(args[0], 1024)
    elif name == b"send":
        answer = till.serve(hexed(args[0], 8192))
        return ["silent" if answer is None else "answer " + show_hex(answer)]
    elif name == b"show":
        return till.show()
    return ["ok"]


def main():
    text = texts(sys.argv[2] if len(sys.argv) > 2 else "../shared/docs/src/att.rs") if sys.argv[1] == "explain" else None
    till = Till()
    for k, line in lines(sys.stdin.buffer.read()):
        try:
            if line is None:
                raise Bad("too long")
            if skipped(line):
                continue
            out = [explain_line(line, text)] if text else till_line(till, line)
        except Bad as bad:
            out = [f"error line {k}: {bad}"]
        except Refused as no:
            out = [f"refused {no.args[0]} {NAMES[no.args[0]]}"]
        print("\n".join(out))


main()
