#!/usr/bin/env python3
"""nghttp3 and this library read each other's QPACK (docs/DIFFERENCES.md): peers.py PEER REPLAY SEED SECTIONS

PEER is the program of nghttp3.c, REPLAY the program replay. Both directions, over random lists of fields:
  theirs   nghttp3 encodes; on_encoder_recv and section_on read it; nghttp3 gets our increment and acknowledgement
  ours     begin, find, insert, commit and the writers encode; nghttp3 reads it; on_decoder_recv gets what it reports
A section that comes back otherwise than it went in ends the run with one line.
"""
import os
import random
import subprocess
import sys

sys.path.insert(0, os.path.join(os.path.dirname(os.path.abspath(__file__)), ".."))
from replay import script_of

NAMES = [":authority", ":path", ":method", "cookie", "accept", "user-agent", "x-a", "x-b", "custom-key", "etag"]
VALUES = ["", "/", "GET", "gzip, deflate, br", "www.example.com", "custom-value", "0"]


def stop(what):
    print(f"peers.py: {what}", file=sys.stderr)
    sys.exit(1)


class Program:
    """A child that answers each command with a line."""

    def __init__(self, path):
        try:
            self.child = subprocess.Popen([path], stdin=subprocess.PIPE, stdout=subprocess.PIPE)
        except OSError as why:
            stop(f"{path} cannot be started: {why.strerror}")

    def ask(self, command):
        self.child.stdin.write(command)
        self.child.stdin.flush()
        line = self.child.stdout.readline().decode()
        if not line.endswith("\n"):
            stop("a program has ended")
        return line[:-1]


class Peer(Program):
    def do(self, *words):
        answer = self.ask((" ".join(words) + "\n").encode())
        if answer.startswith("error"):
            stop(f"nghttp3 refuses {words[0]}: {answer}")
        return answer


class Ours(Program):
    def call(self, line):
        return self.ask(script_of(line)).split(" ")

    def done(self, line):
        answer = self.call(line)
        if answer[0] != "0":
            stop(f"ours answers {answer[0]} to {line}")
        return answer[1:]

    def written(self, line, room):
        """The bytes that a writer puts at the front of a buffer."""
        word, _, rest = line.partition(" ")
        end, text = self.done(f"{word} room={room} fill=0 at=0 {rest}")[:2]
        return bytes.fromhex(text[2:]).ljust(int(end), b"\0")


def hexed(s):
    return s.hex() or "-"


def unhexed(word):
    return b"" if word == "-" else bytes.fromhex(word)


def given(s):
    return "0x" + s.hex()


def fields(chance):
    """A list of fields as a page load has it: some repeat, some are new."""
    some = []
    for _ in range(chance.randint(1, 14)):
        name = chance.choice(NAMES)
        value = chance.choice(VALUES) if chance.random() < 0.7 else str(chance.randint(0, 60)) * chance.randint(1, 30)
        some.append((name.encode(), value.encode()))
    return some


def section_read(answer, line):
    """The fields of a section as section_on gives them."""
    number, _, count, used = answer[:4]
    if number != "0":
        stop(f"ours answers {number} to a section of nghttp3: {line}")
    records = [tuple(map(int, r.split(":"))) for r in answer[6:6 + int(count)]]
    text = next(w for w in answer[6 + int(count):] if w.startswith("0x"))
    body = bytes.fromhex(text[2:]).ljust(int(used), b"\0")
    return [(body[s:s + n], body[s + n:s + n + v]) for s, n, v in records]


def theirs(chance, peer, ours, sections):
    capacity = chance.choice([220, 512, 4096, 16384])
    peer.do("encoder", str(capacity), str(chance.choice([0, 1, 100])))
    ours.done("fresh 0")
    for stream in range(0, 4 * sections, 4):
        sent = fields(chance)
        words = [w for n, v in sent for w in (hexed(n), hexed(v))]
        instructions, section = peer.do("encode", str(stream), *words).split(" ")
        got = ours.done(f"on_encoder_recv 0 arena=16384 room=8 fill=0 bytes={given(unhexed(instructions))}")
        if int(got[0]) != len(unhexed(instructions)):
            stop(f"ours leaves bytes of nghttp3's instructions unread: {instructions}")
        if int(got[2]) > 0 and chance.random() < 0.9:
            peer.do("reports", hexed(bytes.fromhex(got[3][2:]).ljust(int(got[2]), b"\0")))
        line = f"section_on 0 arena=16384 room=65536 fill=255 records=64 bytes={given(unhexed(section))}"
        answer = ours.call(line)
        if section_read(answer, line) != sent:
            stop(f"ours reads other fields from nghttp3's section {section}")
        if answer[1] == "1":
            peer.do("reports", hexed(ours.written(f"stream_write_integer kind=acknowledge value={stream}", 12)))


def field_written(ours, name, value, refer):
    """One field by our calls: the instruction, the line, and the absolute index that the line names (0 for none)."""
    pair = f"name={given(name)} value={given(value)}"
    value_of = f"value={given(value)}"
    fixed = ours.done(f"static_find {pair}")
    if fixed[0] == "found":
        return b"", ours.written(f"block_write_indexed reference=static index={fixed[1]}", 12), 0
    found = ours.done(f"find 0 arena=16384 {pair}")
    if found[0] in ("relative", "post-base"):
        return b"", ours.written(f"block_write_indexed reference={found[0]} index={found[1]}", 12), int(found[2])
    made = ours.done(f"insert 0 arena=16384 {pair}")
    room = len(name) + len(value) + 30
    if made[0] == "not-inserted":
        return b"", line_written(ours, made[1:], name, value, room), refer(made[1:])
    if made[0] == "duplicated":
        instruction = ours.written(f"stream_write_integer kind=duplicate value={made[1]}", 12)
        post, absolute = made[2], made[3]
    elif made[0] == "with-name":
        instruction = ours.written(f"stream_write_name_ref static=0 index={made[2]} {value_of}", room)
        post, absolute = made[1], made[3]
    elif made[0] == "with-static-name":
        instruction = ours.written(f"stream_write_name_ref static=1 index={made[2]} {value_of}", room)
        post, absolute = made[1], made[3]
    else:
        instruction = ours.written(f"stream_write_literal {pair}", room)
        post, absolute = made[1], made[2]
    return instruction, ours.written(f"block_write_indexed reference=post-base index={post}", 12), int(absolute)


def line_written(ours, lookup, name, value, room):
    if lookup[0] == "not-found":
        return ours.written(f"block_write_literal name={given(name)} value={given(value)}", room)
    return ours.written(f"block_write_named reference={lookup[0]} index={lookup[1]} value={given(value)}", room)


def prefix_written(ours, required, base, capacity):
    """RFC 9204, 4.5.1."""
    if required == 0:
        return ours.written("int_write width=8 flags=0 value=0", 12) + ours.written("int_write width=7 flags=0 value=0", 12)
    count = required % (2 * (capacity // 32)) + 1
    sign, delta = (1, required - base - 1) if required > base else (0, base - required)
    return ours.written(f"int_write width=8 flags=0 value={count}", 12) + ours.written(f"int_write width=7 flags={sign} value={delta}", 12)


def base_of(ours):
    """A section's base: the live count."""
    shown = ours.done("show 0")
    return int(shown[shown.index("base") + 1])


def ours_to_peer(chance, peer, ours, sections):
    capacity = chance.choice([220, 512, 4096, 16384])
    peer.do("decoder", str(capacity), "100")
    ours.done("fresh 0")
    ours.done(f"set_capacity 0 capacity={capacity}")
    ours.done(f"set_max_blocked 0 most={chance.choice([0, 1, 20])}")
    peer.do("instructions", hexed(ours.written(f"stream_write_integer kind=capacity value={capacity}", 12)))
    refer = lambda lookup: int(lookup[2]) if lookup[0] in ("relative", "post-base") else 0
    for stream in range(0, 4 * sections, 4):
        sent = fields(chance)
        ours.done(f"begin 0 stream={stream}")
        base = base_of(ours)
        parts = [field_written(ours, name, value, refer) for name, value in sent]
        required = max(absolute for _, _, absolute in parts)
        ours.done(f"commit 0 largest={required}")
        instructions = b"".join(p[0] for p in parts)
        section = prefix_written(ours, required, base, capacity) + b"".join(p[1] for p in parts)
        if peer.do("instructions", hexed(instructions)) != str(len(instructions)):
            stop(f"nghttp3 leaves bytes of our instructions unread: {instructions.hex()}")
        got = peer.do("section", str(stream), hexed(section)).split(" ")[1:]
        pairs = [(unhexed(n), unhexed(v)) for n, v in zip(got[::2], got[1::2])]
        if pairs != sent:
            stop(f"nghttp3 reads other fields from our section {section.hex()} after {instructions.hex()}: {' '.join(got)}")
        reports = unhexed(peer.do("written"))
        if required == 0:
            ours.done(f"acknowledge 0 stream={stream}")
        consumed = ours.done(f"on_decoder_recv 0 bytes={given(reports)}")[0]
        if int(consumed) != len(reports):
            stop(f"ours leaves nghttp3's reports unread: {reports.hex()}")


def main():
    try:
        peer_path, replay_path, seed, sections = sys.argv[1], sys.argv[2], int(sys.argv[3]), int(sys.argv[4])
    except (IndexError, ValueError):
        stop("usage: peers.py PEER REPLAY SEED SECTIONS")
    chance = random.Random(seed)
    peer, ours = Peer(peer_path), Ours(replay_path)
    read, done = [theirs, ours_to_peer], [0, 0]
    while sum(done) < sections:
        way = chance.randrange(2)
        length = chance.randint(1, 40)
        read[way](chance, peer, ours, length)
        done[way] += length
    print(f"seed {seed}: {done[0]} sections of nghttp3 read by ours, {done[1]} of ours read by nghttp3, with their instructions and reports")


main()
