#!/usr/bin/env python3
"""wrong.py: whether the driver refuses wrong answers where a listed difference is near.

Each case is a script in readable lines, the right answer to its last call, and wrong ones. The driver is run over the script with this file
in place of the program replay, which it calls and in whose output it puts the wrong answer for the right one.
"""
import os
import subprocess
import sys

os.chdir(os.path.join(os.path.dirname(os.path.abspath(__file__)), "../.."))
REPLAY = "target/bin/replay"

TWO_ENTRIES = """set_capacity 0 capacity=220
put 0 arena=16384 name=":authority" value="www.example.com"
put 0 arena=16384 name=":path" value="/sample/path"
"""
PATH = "0 0 1 17 49 records 0:5:12 +7 0x3a706174682f73616d706c652f70617468 +47"
NOTHING = "0 0 0 0 records +8 0x +64"


def section(data, records=8, room=64):
    return f"{TWO_ENTRIES}section_on 0 arena=16384 room={room} fill=0 records={records} bytes={data}"


def stateless(data):
    return f"section_stateless room=64 fill=0 records=8 max=100 bytes={data}"


def encoder(data, room=4):
    return f"on_encoder_recv 0 arena=16384 room={room} fill=0 bytes={data}"


CASES = [
    ("delta-at-count-0, relative", section("0x000280"), PATH, [f"5 {NOTHING}", f"0 {NOTHING}", PATH.replace("49", "50")]),
    ("delta-at-count-0, post-base", section("0x000110"), PATH, [f"0 {NOTHING}", PATH.replace("0 0 1", "0 1 1")]),
    ("delta-at-count-0, no table", stateless("0x000280"), f"13 {NOTHING}", [f"0 {NOTHING}", f"5 {NOTHING}"]),
    ("sign-at-count-0", section("0x0080d1"), f"14 {NOTHING}", [f"13 {NOTHING}", "14 1 0 0 0 records +8 0x +64"]),
    ("a static index, and room", section("0x0300ff24"), "4 1 0 0 0 records +8 0x +64", ["24 1 0 0 0 records +8 0x +64"]),
    ("a field that fits, and one that does not", section("0x0000d1d1", records=1), "24 0 1 10 42 records 0:7:3 0x3a6d6574686f64474554 +54",
     ["24 0 0 0 0 records +1 0x +64", "4 0 1 10 42 records 0:7:3 0x3a6d6574686f64474554 +54"]),
    ("a field that does not fit, and a bad line", section("0x0000d1ff24", room=9), "24 0 0 0 0 records +8 0x +9", ["4 0 0 0 0 records +8 0x +9"]),
    ("H inside a string", section("0x0000216102285f"), "0 0 1 3 35 records 0:1:2 +7 0x61285f +61", [f"3 {NOTHING}"]),
    ("H where a line begins", section("0x0000d12961"), "3 0 1 10 42 records 0:7:3 +7 0x3a6d6574686f64474554 +54", [f"3 {NOTHING}", f"1 {NOTHING}"]),
    ("a post-base line with H, no table", stateless("0x00000081"), f"13 {NOTHING}", [f"3 {NOTHING}"]),
    ("a refused line after a good one", section("0x0000d1ff24"), "4 0 1 10 42 records 0:7:3 +7 0x3a6d6574686f64474554 +54",
     [f"4 {NOTHING}", "4 0 1 10 42 records 0:7:3 +7 0x3a6d6574686f64474555 +54"]),
    ("a cut string with H", encoder("0x61"), "3 0 0 0 0x +4", ["0 0 0 0 0x +4", "1 0 0 0 0x +4"]),
    ("a short buffer", encoder("0x61", room=2), "22 0 0 0 0x +2", ["22 1 0 0 0x +2", "22 0 0 0 0x01 +1"]),
    ("a capacity above the room", encoder("0x3fe2ff01"), "10 0 0 0 0x +4", ["10 4 0 0 0x +4", "9 0 0 0 0x +4"]),
    ("an unknown stream", "on_decoder_recv 0 bytes=0x81", "12 0", ["12 1", "0 1"]),
    ("a cancellation of nothing", "on_decoder_recv 0 bytes=0x41", "12 0", ["0 1"]),
    ("a static entry", "static_get index=17", "0 167 7 3", ["0 168 7 3", "0 167 7 4"]),
    ("a static entry's bytes", "static_copy room=12 fill=0 at=1 start=167 len=10", "0 11 0x003a6d6574686f64474554 +1", ["0 11 0x003a6d6574686f64474555 +1"]),
    ("a refused writer", "int_write room=3 fill=0 at=0 width=5 flags=0 value=18446744073709551615", "23 0x +3", ["23 0x01 +2", "22 0x +3"]),
    ("where an empty string starts", "text_read at=0 width=3 bytes=0x00", "0 0 1 0 1", ["0 0 0 0 1"]),
    ("a plain string", 'text_write room=4 fill=0 at=0 width=7 flags=0 text="ab"', "0 3 0x026162 +1", ["0 3 0x826162 +1", "0 3 0x026162 +2"]),
]


def between(right, wrong):
    """The program replay, with the wrong answer for the right one."""
    program = subprocess.Popen([REPLAY], stdout=subprocess.PIPE, text=True)
    for line in program.stdout:
        answer = line.rstrip("\n")
        print(wrong if answer == right else answer, flush=True)


def is_taken(differ, lines, right, wrong):
    script = subprocess.run([sys.executable, "tests/replay.py"], input=lines.encode(), stdout=subprocess.PIPE, check=True).stdout
    told = dict(os.environ, RIGHT=right, WRONG=wrong)
    return subprocess.run([differ, "tests/oracle/wrong.py", "script"], input=script, env=told, capture_output=True).returncode == 0


def main():
    differ = sys.argv[1] if len(sys.argv) == 2 else sys.exit("usage: wrong.py DIFFER (run.sh wrong)")
    wrongs = 0
    for name, lines, right, answers in CASES:
        if not is_taken(differ, lines, right, right):
            sys.exit(f"wrong.py: {name}: the right answer is refused")
        for wrong in answers:
            wrongs += 1
            if is_taken(differ, lines, right, wrong):
                sys.exit(f"wrong.py: {name}: the wrong answer {wrong} is taken")
    print(f"{wrongs} wrong answers in {len(CASES)} cases, all refused; the right ones taken")


if "RIGHT" in os.environ:
    between(os.environ["RIGHT"], os.environ["WRONG"])
else:
    main()
