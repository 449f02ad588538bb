#!/usr/bin/env python3
"""Turns readable lines of calls into the binary script that the program replay reads, and back (docs/REPLAY.md).

    python3 tests/replay.py [FILE..] < lines > script
    python3 tests/replay.py --answers [FILE..] < lines > answers
    python3 tests/replay.py --show [FILE..] < script > lines

With --leaves only the calls that need no table, which are those that the program replay_leaves takes.
"""
import re
import sys

# Each opcode's name, in the order of the opcodes, whether it has a table (1) and an arena (2), whether an output buffer, its other numbers and its strings.
CALLS = [
    ("fresh", 1, 0, "", ""), ("set_capacity", 1, 0, "capacity", ""),
    ("set_max_blocked", 1, 0, "most", ""), ("put", 2, 0, "", "name value"),
    ("begin", 1, 0, "stream", ""), ("find", 2, 0, "", "name value"),
    ("insert", 2, 0, "", "name value"), ("commit", 1, 0, "largest", ""), ("abandon", 1, 0, "", ""),
    ("acknowledge", 1, 0, "stream", ""), ("cancel", 1, 0, "stream", ""),
    ("increment", 1, 0, "inserts", ""), ("checked", 1, 0, "", ""),
    ("on_encoder_recv", 2, 1, "", "bytes"), ("on_decoder_recv", 1, 0, "", "bytes"),
    ("show", 1, 0, "", ""), ("set", 1, 0, "field index value", ""),
    ("write_arena", 1, 0, "at", "bytes"), ("read_arena", 1, 0, "at len", ""),
    ("copy", 1, 0, "from", ""), ("compare", 1, 0, "with", ""),
    ("line_on", 1, 0, "base at", "bytes"), ("read_report", 0, 0, "at", "bytes"),
    ("read_instruction", 0, 0, "at", "bytes"), ("read_prefix", 0, 0, "at total capacity", "bytes"),
    ("line_static", 0, 0, "at", "bytes"), ("int_read", 0, 0, "at width", "bytes"),
    ("int_size", 0, 0, "value width", ""), ("int_ok", 0, 0, "width flags", ""),
    ("int_write", 0, 1, "at width flags value", ""), ("text_read", 0, 0, "at width", "bytes"),
    ("text_size", 0, 0, "len width flags", ""), ("text_write", 0, 1, "at width flags", "text"),
    ("static_get", 0, 0, "index", ""), ("static_find", 0, 0, "", "name value"),
    ("static_find_name", 0, 0, "", "name"), ("static_copy", 0, 1, "at start len", ""),
    ("vas_relative", 0, 0, "inserted dropped index", ""),
    ("vas_relative_base", 0, 0, "inserted dropped base index", ""),
    ("vas_post_base", 0, 0, "inserted dropped base index", ""),
    ("vas_index", 0, 0, "inserted dropped position", ""),
    ("vas_largest_ref", 0, 0, "inserted dropped", ""),
    ("stream_read_integer", 0, 0, "kind at", "bytes"),
    ("stream_read_name_ref", 0, 0, "at", "bytes"), ("stream_read_literal", 0, 0, "at", "bytes"),
    ("stream_write_integer", 0, 1, "kind at value", ""),
    ("stream_write_name_ref", 0, 1, "at static index", "value"),
    ("stream_write_literal", 0, 1, "at", "name value"), ("block_read_line", 0, 0, "at", "bytes"),
    ("block_write_indexed", 0, 1, "reference at index", ""),
    ("block_write_named", 0, 1, "reference at index", "value"),
    ("block_write_literal", 0, 1, "at", "name value"), ("encoder_kind", 0, 0, "first", ""),
    ("decoder_kind", 0, 0, "first", ""), ("line_kind", 0, 0, "first", ""),
    ("form_of", 0, 0, "kind", ""), ("head_of", 0, 0, "kind lowest", ""),
    ("capacity_test", 0, 0, "capacity", ""), ("section_on", 2, 1, "records", "bytes"),
    ("section_stateless", 0, 1, "records max", "bytes"),
    ("shape_text_after", 0, 0, "at width", "bytes"), ("shape_texts", 0, 0, "at width", "bytes"),
    ("shape_write_int_text", 0, 1, "at width flags index", "value"),
    ("shape_write_texts", 0, 1, "at width flags", "name value"),
    ("push_reply", 0, 0, "push capacity", ""), ("arena_write", 2, 0, "at", "bytes"),
    ("arena_is_at", 2, 0, "at", "bytes"), ("arena_move", 2, 0, "len from to", ""),
    ("arena_copy", 2, 1, "from len at", ""),
    ("entries_check", 1, 0, "dropped inserted size capacity tail head", ""),
    ("entries_fewest", 1, 0, "dropped inserted size tail free room", ""),
    ("entries_newest", 2, 0, "dropped inserted whole", "name value"), ("ring_sound", 1, 0, "", ""),
    ("ring_room", 1, 0, "low name value", ""),
    ("ring_push", 2, 0, "source position low", "name value"),
    ("ring_cut", 1, 0, "low capacity", ""), ("ring_newest", 2, 0, "gone whole", "name value"),
    ("track_note", 1, 0, "offset", ""), ("track_section_floor", 1, 0, "dropped inserted low", ""),
    ("track_queue_floor", 1, 0, "dropped inserted low", ""), ("track_push", 1, 0, "", ""),
    ("track_release", 1, 0, "stream", ""), ("track_waiting_ok", 1, 0, "", ""),
    ("track_block", 1, 0, "largest", ""), ("track_let_go", 1, 0, "known", ""),
    ("answer_number", 0, 0, "refusal", ""), ("answer_ends_early", 0, 0, "refusal", ""),
    ("next_on", 2, 1, "records started dynamic base at used count size", "bytes"),
    ("next_stateless", 0, 1, "records started dynamic base at used count size max", "bytes"),
    ("static_entry", 0, 0, "index", ""), ("entry_on", 1, 0, "reference base index", ""),
    ("entry_static", 0, 0, "reference index", ""), ("decode_header", 2, 1, "records", "bytes"),
    ("decode_stateless", 0, 1, "records max", "bytes"),
    ("section_begin", 2, 0, "started dynamic base at used count size", "bytes"),
    ("section_line", 2, 1, "records started dynamic base at used count size", "bytes"),
    ("open_floor", 1, 0, "dropped inserted low", ""), ("lookup_of", 0, 0, "base absolute", ""),
    ("with_uses", 1, 0, "place", ""), ("waiting_with", 1, 0, "largest", ""),
    ("kind_int", 0, 0, "kind at", "bytes"), ("past_limit", 0, 0, "kind value", ""),
    ("text_ok", 0, 0, "width flags", ""), ("section_new", 0, 0, "", ""),
    ("byte_write", 0, 1, "at start len", "bytes"),
]

# The opcodes that the program replay_leaves takes: calls that need no table.
LEAVES = {*range(26, 57), *range(60, 64), 85, 86, *range(100, 103), 104}

# Words that may stand for a number.
WORDS = {
    "kind": [
        "duplicate", "capacity", "literal", "name-ref", "increment", "cancel", "acknowledge",
        "line-post-base-name", "line-indexed-post-base", "line-literal", "line-name", "line-indexed",
    ],
    "reference": ["static", "relative", "post-base"],
    "push": ["made", "too-large", "no-room", "full", "bad-call"],
    "source": ["given", "copy-of", "name-of"],
    "field": [
        "inserted", "dropped", "size", "capacity", "tail", "head", "starts", "names", "values", "known", "most",
        "total", "distinct", "largest", "sections", "queued", "place.stream", "place.from", "place.used",
        "place.offset", "place.count", "active", "base", "open.stream", "open.from", "open.used", "open.offset",
        "open.count",
    ],
}
OPCODES = {call[0]: number for number, call in enumerate(CALLS)}
LONGEST = 65536
ITEM = re.compile(r'\s*(?:([a-z_]+)=)?("(?:[^"\\]|\\.)*"|[^\s"*]+)(?:\*(\d+))?(?=\s|$)')


class Bad(Exception):
    pass


def number_of(name, text):
    words = WORDS.get(name, [])
    if text in words:
        return words.index(text)
    try:
        n = int(text, 0)
    except ValueError:
        raise Bad(f"{name}={text} is not a number")
    if not 0 <= n < 1 << 64:
        raise Bad(f"{name}={text} is not below 2 to the 64")
    return n


def bytes_of(name, text, times):
    if text.startswith('"'):
        body = re.sub(r"\\(.)", r"\1", text[1:-1]).encode()
    elif re.fullmatch(r"0x([0-9a-fA-F]{2})*", text):
        body = bytes.fromhex(text[2:])
    else:
        raise Bad(f'{name}={text} is neither "text" nor 0x and pairs of digits')
    return body * int(times or 1)


def items_of(line):
    """The words of a line: each one's name (or None), text and repeat count."""
    items, at, line = [], 0, line.rstrip()
    while at < len(line):
        m = ITEM.match(line, at)
        if not m:
            raise Bad(f"cannot read {line[at:].strip()}")
        items.append(m.groups())
        at = m.end()
    return items


def slots_of(call):
    """The names of a call's numbers, and of its strings, in their order."""
    _, place, out, numbers, strings = call
    return ["arena"] * (place == 2) + ["room", "fill"] * out + numbers.split(), strings.split()


def script_of(line):
    """The bytes of one readable line."""
    (key, word, times), *rest = items_of(line)
    if word == "raw" and key is None:
        return b"".join(bytes_of("raw", text, many) for _, text, many in rest)
    if key or times or word not in OPCODES:
        raise Bad(f"no call {word}")
    op = OPCODES[word]
    call = CALLS[op]
    table = 0
    if call[1]:
        if not rest or rest[0][0] or not re.fullmatch(r"[0-3]", rest[0][1]):
            raise Bad(f"{word} wants a table, 0 to 3")
        table = int(rest.pop(0)[1])
    given = {}
    for name, text, many in rest:
        if name is None or name in given:
            raise Bad(f"{word}: {name or text} is out of place")
        given[name] = (text, many)
    numbers, strings = slots_of(call)
    for name in numbers + strings:
        if name not in given:
            raise Bad(f"{word} wants {name}=")
    for name in given:
        if name not in numbers + strings:
            raise Bad(f"{word} has no {name}=")
    script = bytes([op, table])
    for name in numbers:
        text, times = given[name]
        if times:
            raise Bad(f"{name}={text} is a number, and not repeated")
        script += number_of(name, text).to_bytes(8, "little")
    for name in strings:
        body = bytes_of(name, *given[name])
        if len(body) > LONGEST:
            raise Bad(f"{name}= has more than {LONGEST} bytes")
        script += len(body).to_bytes(8, "little") + body
    return script


def calls_of(files):
    """Each call's line in some files: where it stands, the line, and the answers that are expected after it."""
    calls = []
    for name, data in files:
        for at, line in enumerate(data.decode().split("\n"), 1):
            where, line = f"{name}line {at}", line.strip()
            if not line or line.startswith("#"):
                continue
            if not line.startswith("="):
                calls.append((where, line, []))
                continue
            if not calls:
                raise Bad(f"{where}: an answer before the first call")
            calls[-1][2].append((where, line[1:].strip()))
    return calls


def leaves_of(calls):
    """The calls among them that need no table."""
    return [call for call in calls if OPCODES.get(call[1].split()[0]) in LEAVES]


def write_script(calls, out):
    for where, line, _ in calls:
        try:
            out.write(script_of(line))
        except Bad as why:
            raise Bad(f"{where}: {why}")


def write_answers(calls, out):
    for where, line, answers in calls:
        if not answers:
            raise Bad(f"{where}: no answer is expected of {line.split()[0]}")
        if len(answers) > 1:
            raise Bad(f"{answers[1][0]}: a second answer to one call")
        out.write(answers[0][1] + "\n")


def shown(body):
    text = body.decode("latin-1")
    if text and all(32 <= ord(c) < 127 and c not in '"\\' for c in text):
        return f'"{text}"'
    return "0x" + body.hex()


def write_lines(data, out):
    at, count = 0, 0

    def take(n):
        nonlocal at
        if len(data) - at < n:
            raise Bad(f"command {count}: the script ends inside it")
        at += n
        return data[at - n:at]

    while at < len(data):
        count += 1
        op, table = take(2)
        if op >= len(CALLS):
            raise Bad(f"command {count}: no opcode {op}")
        call = CALLS[op]
        numbers, strings = slots_of(call)
        words = [call[0]] + [str(table)] * (call[1] > 0)
        for name in numbers:
            n = int.from_bytes(take(8), "little")
            known = WORDS.get(name, [])
            words.append(f"{name}={known[n] if n < len(known) else n}")
        for name in strings:
            n = int.from_bytes(take(8), "little")
            if n > LONGEST:
                raise Bad(f"command {count}: a string of {n} bytes")
            words.append(f"{name}={shown(take(n))}")
        out.write(" ".join(words) + "\n")


def read_files(names):
    """Each file's name as messages say it, and its bytes; standard input where no file is named."""
    if not names:
        return [("", sys.stdin.buffer.read())]
    files = []
    for name in names:
        try:
            with open(name, "rb") as f:
                files.append((f"{name}: ", f.read()))
        except OSError as why:
            raise Bad(f"{name}: {why.strerror}")
    return files


def main():
    modes = [word for word in sys.argv[1:] if word.startswith("--")]
    files = [word for word in sys.argv[1:] if not word.startswith("--")]
    if modes not in ([], ["--show"], ["--answers"], ["--leaves"], ["--leaves", "--answers"]):
        raise Bad("usage: replay.py [--show | [--leaves] [--answers]] [FILE..]")
    data = read_files(files)
    if modes == ["--show"]:
        write_lines(b"".join(part for _, part in data), sys.stdout)
        return
    calls = leaves_of(calls_of(data)) if "--leaves" in modes else calls_of(data)
    if "--answers" in modes:
        write_answers(calls, sys.stdout)
    else:
        write_script(calls, sys.stdout.buffer)


if __name__ == "__main__":
    try:
        main()
        sys.stdout.flush()
    except Bad as why:
        sys.stdout.flush()
        print(f"replay.py: {why}", file=sys.stderr)
        sys.exit(2)
    except UnicodeDecodeError:
        print("replay.py: the lines are not UTF-8", file=sys.stderr)
        sys.exit(2)
    except BrokenPipeError:
        sys.exit(2)
