"""Examples whose answers are known: those of docs/language.md, of docs/formats.md and of docs/today.md."""

from meaning import records
from record_text import records_of

HIT = b"""page "/hit" { let n = read("hits"); if n == null { set n = 0; } set n = n + 1; do write("hits", n); echo n; }"""
FG = b"""page "/f" { do write("A", 1); echo read("B"); } page "/g" { do write("B", 1); echo read("A"); }"""
THREE = b"""page "/e" { echo 3; }"""
SUM = b"""page "/e" { echo 1 + 2; }"""
BOTH = b"""page "/h" { echo read("h"); do write("h", 1); }"""
TABLE = b"""table t (k, v); page "/x" { let a = transact { update t set v = 1; insert t ("a", 2); };
  echo a == null; let b = transact { select v from t; }; echo b[0][0][0]; }"""
TWICE = b"""function f(x) { return x + 1; } page "/z" { let a = f(num(param("a"))); let b = f(num(param("b"))); }"""
LOOP = b"""page "/w" { do write("a", 1); while true { } }"""
LONG = b"""page "/s" { let t = "a"; let i = 0; while i < 15 { set t = t + t; set i = i + 1; }
  echo len(t + slice(t, 0, 32767)); }"""
TOO_LONG = LONG.replace(b"slice(t, 0, 32767)", b"t")
STORE = b"""store s; page "/p" { do put(s, "k", [1, "x"]); echo get(s, "k")[1]; do remove(s, "k"); echo get(s, "k") == null; }"""
OVERFLOW = b"""page "/o" { echo 9223372036854775807 + 1; }"""
CLOCK = b"""page "/t" { echo clock(); }"""
DICE = b"""page "/d" { echo random(6); }"""
ROW = b"""table t (k, n); page "/row" { let r = transact { expect 0 from t where k == param("k"); insert t (param("k"), 0); };
  if r == null { do transact { update t set n = 1 where k == param("k"); }; } echo "ok"; }"""

TWO_HITS = [(0, "/hit"), (0, 200, "1"), (1, "/hit"), (1, 200, "2")]
TWO_AT_ONCE = [(0, "/hit"), (1, "/hit"), (0, 200, "1"), (1, 200, "1")]
ONE = [(0, "/e"), (0, 200, "3")]
OVERLAP = [(0, "/h"), (1, "/h"), (1, 200, "1"), (0, 200, "")]


def trace(events):
    """Of requests (id, path, parameters) and responses (id, status, body)."""
    spelled = []
    for number, *parts in events:
        if isinstance(parts[0], int):
            spelled.append(("response", number, parts[0], parts[1].encode()))
        else:
            pairs = [(name.encode(), value.encode()) for name, value in parts[1:]]
            spelled.append(("request", number, b"GET", parts[0].encode(), pairs, b""))
    return records.write("trace", spelled)


def schedule(words):
    """Of A0 for an arrival of request 0, X0 or X0=5 for an operation, D0 for a departure."""
    moments = []
    for word in words.split():
        number, _, choice = word[1:].partition("=")
        kind = {"A": "arrive", "X": "act", "D": "depart"}[word[0]]
        moments.append((kind, int(number), *([int(choice) if choice else None] if kind == "act" else [])))
    return records.write("schedule", moments)


def replays():
    """Four files and their line."""
    for program, events, words, line, *state in worked():
        yield program, (state or [b"{}"])[0], trace(events), schedule(words), line
    whole, moments = trace(ONE), schedule("A0 D0")
    for size, line in [
        (0, "trace: unreadable at 0"), (7, "trace: unreadable at 0"), (8, "differs 2: moment 0 request 0"),
        (9, "trace: unreadable at 8"), (37, "trace: unreadable at 8"), (38, "trace: not balanced at request 0"),
        (39, "trace: unreadable at 38"), (53, "trace: unreadable at 38"), (54, "agrees: moments 2"),
    ]:
        yield THREE, b"{}", whole[:size], moments, line
    for size, line in [
        (0, "differs 1: unreadable at 0"), (7, "differs 1: unreadable at 0"), (8, "differs 10: request 0"),
        (9, "differs 1: unreadable at 8"), (16, "differs 1: unreadable at 8"), (17, "differs 10: request 0"),
        (18, "differs 1: unreadable at 17"), (25, "differs 1: unreadable at 17"), (26, "agrees: moments 2"),
    ]:
        yield THREE, b"{}", whole, moments[:size], line
    yield THREE, b"{}", whole + b"m", moments, "trace: unreadable at 54"
    yield THREE, b"{}", whole, moments + b"m", "differs 1: unreadable at 26"
    for text, line in [
        ('{"registers":[["h",7]]}', "agrees: moments 4"), ('{"registers":[[{"hex":"68"},{"hex":"37"}]]}', "agrees: moments 4"),
        ('{"registers":[', "state: kind 1"), ('{"registers":[["h",1e400]]}', "state: kind 1"),
        ('{"registers":[["h",7.0]]}', "state: kind 2"), ('{"registers":[[7,"h"]]}', "state: kind 2"),
        (f'{{"registers":[["{"a" * 1025}",7]]}}', "state: kind 4"),
        ('{"registers":[["h",[[[[[[[[[[[[[[[[[]]]]]]]]]]]]]]]]]]]}', "state: kind 4"),
        ('{"registers":[["h",7],["h",7]]}', "state: kind 5"),
    ]:
        yield BOTH, text.encode(), trace([(0, "/h"), (0, 200, "7")]), schedule("A0 X0 X0 D0"), line
    faulty = trace([(0, "/h"), (0, 500, "fault 1\n")])
    yield BOTH, b'{"registers":[["h",[7]]]}', faulty, schedule("A0 X0 D0"), "agrees: moments 3"
    yield SUM, b'{"tables":{"u":[]}}', whole, moments, "state: kind 3"


def worked():
    """A program, the events, the schedule, the line, and a state that isn't empty."""
    hits = "A0 X0 X0 D0 A1 X1 X1 D1"
    yield HIT, TWO_HITS, hits, "agrees: moments 8"
    yield HIT, [*TWO_HITS[:3], (1, 200, "1")], hits, "differs 9: moment 7 request 1"
    for words, line in [
        ("A7", "differs 2: moment 0 request 7"), ("A0 A0", "differs 3: moment 1 request 0"),
        ("A0 A1", "differs 4: moment 1 request 1"), ("A0 X0 X0 D0 D0", "differs 5: moment 4 request 0"),
        ("A0 X0 X0 X0", "differs 6: moment 3 request 0"), ("A0 X0=0", "differs 7: moment 1 request 0"),
        ("A0 X0 D0", "differs 8: moment 2 request 0"), (hits[:-3], "differs 10: request 1"),
        ("", "differs 10: request 0"), ("X0", "differs 5: moment 0 request 0"),
    ]:
        yield HIT, TWO_HITS, words, line
    yield HIT, TWO_AT_ONCE, "A0 X0 A1 X1 X0 D0 X1 D1", "agrees: moments 8"
    yield FG, [(0, "/f"), (0, 200, ""), (1, "/g"), (1, 200, "1")], hits, "agrees: moments 8"
    yield FG, [(0, "/f"), (0, 200, ""), (1, "/g"), (1, 200, "2")], hits, "differs 9: moment 7 request 1"
    yield BOTH, OVERLAP, "A0 A1 X0 X0 X1 X1 D1 D0", "agrees: moments 8"
    yield BOTH, OVERLAP, "A0 A1 X0 X1 X0 X1 D1 D0", "differs 9: moment 6 request 1"
    yield BOTH, [(9, "/h"), (4, "/h"), (4, 200, "1"), (9, 200, "")], "", "differs 10: request 9"
    yield SUM, [(0, "/e")], "", "trace: not balanced at request 0"
    yield SUM, [(0, "/e"), (0, "/e"), (0, 200, "3")], "", "trace: not balanced at request 0"
    yield SUM, [(0, 200, "3"), (0, "/e")], "", "trace: not balanced at request 0"
    yield SUM, [*ONE, (0, 200, "3")], "", "trace: not balanced at request 0"
    yield SUM, ONE, "A0 D0", "agrees: moments 2"
    yield SUM, [(0, "/none"), (0, 404, "no page\n")], "A0 D0", "agrees: moments 2"
    yield b'page "/a" { echo x; }', [], "", "program: check 1 at 17"
    yield b'page "/a" { echo ; }', [], "", "program: syntax 2 at 17"
    yield b'page "/a" { echo 9223372036854775808; }', [], "", "program: syntax 3 at 17"
    yield OVERFLOW, [(0, "/o"), (0, 500, "fault 2\n")], "A0 D0", "agrees: moments 2"
    yield LOOP, [(0, "/w"), (0, 500, "fault 6\n")], "A0 X0 D0", "agrees: moments 3"
    yield LONG, [(0, "/s"), (0, 200, "65535")], "A0 D0", "agrees: moments 2"
    yield TOO_LONG, [(0, "/s"), (0, 500, "fault 5\n")], "A0 D0", "agrees: moments 2"
    both = [(0, "/z", ("a", "x"), ("b", "1")), (1, "/z", ("a", "1"), ("b", "x")), (0, 500, "fault 1\n"), (1, 500, "fault 1\n")]
    yield TWICE, both, "A0 A1 D1 D0", "agrees: moments 4"
    yield TABLE, [(0, "/x"), (0, 200, "true0")], "A0 X0 X0 D0", "agrees: moments 4", b'{"tables":{"t":[["a",0]]}}'
    yield STORE, [(0, "/p"), (0, 200, "xtrue")], "A0 X0 X0 X0 X0 D0", "agrees: moments 6"
    times = [(0, "/t"), (1, "/t"), (0, 200, "5"), (1, 200, "4")]
    yield CLOCK, times, "A0 A1 X0=5 X1=4", "differs 7: moment 3 request 1"
    yield CLOCK, [*times[:3], (1, 200, "5")], "A0 A1 X0=5 X1=5 D0 D1", "agrees: moments 6"
    yield CLOCK, [(0, "/t"), (0, 200, "6")], "A0 X0=6", "differs 7: moment 1 request 0", b'{"clock":7}'
    yield DICE, [(0, "/d"), (0, 200, "6")], "A0 X0=6", "differs 7: moment 1 request 0"
    yield DICE, [(0, "/d"), (0, 200, "5")], "A0 X0=5 D0", "agrees: moments 3"
    rows = [(0, "/row", ("k", "b")), (0, 200, "ok"), (1, "/row", ("k", "b")), (1, 200, "ok")]
    yield ROW, rows, "A0 X0 D0 A1 X1 X1 D1", "agrees: moments 7"


# ---- audits

READ = b"""page "/r" { echo read("a"); }"""
ONE_REPORT = "count 0 0 / group 0"
HITS = (
    'count 0 2 / count 1 2 / log register "hits" / entry 0 1 read / entry 0 2 write 1 / entry 1 1 read / entry 1 2 write 2'
    " / group 0 / group 1"
)
AT_ONCE = (
    'count 0 2 / count 1 2 / log register "hits" / entry 0 1 read / entry 1 1 read / entry 0 2 write 1 / entry 1 2 write 1'
    " / group 0 1"
)
CHANGES = [
    (" / group 0 /", f"{HITS[HITS.index(' / log') : HITS.index(' / group')]} / group 0 /", 'rejected 2: register "hits"'),
    (" / log", " / count 0 2 / log", "rejected 3: request 0"), (" / log", " / count 7 0 / log", "rejected 4: request 7"),
    (" / count 1 2", "", "rejected 5: request 1"), ("0 1 read", "0 1 now", 'rejected 6: register "hits" position 0'),
    (" / group 0", " / entry 5 1 read / group 0", 'rejected 7: register "hits" position 4'),
    ("0 1 read / entry 0 2 write 1", "0 2 write 1 / entry 0 1 read", 'rejected 11: register "hits" position 1'),
    ("group 1", "group 1 9", "rejected 14: request 9"), ("group 1", "group 1 / group 0", "rejected 15: request 0"),
    (" / group 1", "", "rejected 16: request 1"), ("group 0 / group 1", "group 0 1", "rejected 17: group 0 mark 1"),
]
"""Of the report of two hits: a part, what stands in its place, and the line."""


def report(text):
    """Of lines as tools/pack reads them, with a slash between two."""
    return records.write("report", records_of("report", text.replace(" / ", "\n").encode())[0])


def accepted(requests, groups, evaluated, plain):
    """The line of an audit that accepts."""
    return f"accepted: requests {requests}, groups {groups}, evaluated {evaluated}, plain {plain}"


def audits():
    """Four files, their line, and the schedule where it is told."""
    for program, events, text, line, *more in audited():
        yield program, (more[1:] or [b"{}"])[0], trace(events), report(text), line, schedule(more[0]) if more and more[0] else None
    whole, whole_report, is_accepted = trace(ONE), report(ONE_REPORT), accepted(1, 1, 4, 4)
    for size, line in [
        (0, "trace: unreadable at 0"), (7, "trace: unreadable at 0"), (8, "rejected 4: request 0"), (9, "trace: unreadable at 8"),
        (37, "trace: unreadable at 8"), (38, "trace: not balanced at request 0"), (39, "trace: unreadable at 38"),
        (53, "trace: unreadable at 38"), (54, is_accepted),
    ]:
        yield SUM, b"{}", whole[:size], whole_report, line, None
    for size, line in [
        (0, "rejected 1: unreadable at 0"), (7, "rejected 1: unreadable at 0"), (8, "rejected 5: request 0"),
        (9, "rejected 1: unreadable at 8"), (20, "rejected 1: unreadable at 8"), (21, "rejected 16: request 0"),
        (22, "rejected 1: unreadable at 21"), (33, "rejected 1: unreadable at 21"), (34, is_accepted),
    ]:
        yield SUM, b"{}", whole, whole_report[:size], line, None
    yield SUM, b"{}", whole + b"m", whole_report, "trace: unreadable at 54", None
    yield SUM, b"{}", whole, whole_report + b"m", "rejected 1: unreadable at 34", None


def audited():
    """A program, the events, the report, the line, and the schedule and the state where they are told."""
    yield HIT, TWO_HITS, HITS, accepted(2, 2, 36, 36), "A0 X0 X0 D0 A1 X1 X1 D1"
    yield HIT, TWO_AT_ONCE, AT_ONCE, accepted(2, 1, 21, 38), "A0 X0 A1 X1 X0 D0 X1 D1"
    yield HIT, [*TWO_HITS[:3], (1, 200, "1")], AT_ONCE, "rejected 13: cycle 0.2 0.end 1.0 1.1"
    for old, new, line in CHANGES:
        yield HIT, TWO_HITS, HITS.replace(old, new, 1), line
    longer = HITS.replace("count 1 2", "count 1 3").replace(" / group 0", " / entry 1 3 write 2 / group 0")
    yield HIT, TWO_HITS, longer, "rejected 19: request 1 operation 3"
    yield HIT, [*TWO_HITS[:3], (1, 200, "3")], HITS, "rejected 20: request 1"
    both = 'count 0 1 / log register "a" / entry 0 1 read / log register "b" / entry 0 1 read / group 0'
    yield READ, [(0, "/r"), (0, 200, "")], both, 'rejected 9: register "b" position 0'
    three = 'count 0 1 / count 1 1 / count 2 1 / log register "a" / entry 2 1 read / entry 0 1 read / entry 1 1 read'
    readings = [event for number in range(3) for event in [(number, "/r"), (number, 200, "")]]
    yield READ, readings, f"{three} / group 0 / group 1 / group 2", "rejected 13: cycle 0.1 1.1 1.end 2.0 2.1"
    one = 'count 0 2 / log register "hits" / entry 0 1 read / entry 0 2 write 1 / group 0'
    yield HIT, TWO_HITS[:2], one.replace("count 0 2", "count 0 3"), "rejected 10: request 0 operation 3"
    yield HIT, TWO_HITS[:2], one.replace("count 0 2", "count 0 1"), 'rejected 8: register "hits" position 1'
    yield HIT, [(0, "/hit"), (0, 200, "2")], one.replace("write 1", "write 2"), "rejected 18: request 0 operation 2"
    times = "count 0 1 / count 1 1 / log clock / entry 0 1 now choice 5 / entry 1 1 now choice"
    asked = [(0, "/t"), (1, "/t"), (0, 200, "5")]
    yield CLOCK, [*asked, (1, 200, "4")], f"{times} 4 / group 0 / group 1", "rejected 12: clock position 1"
    yield CLOCK, [*asked, (1, 200, "5")], f"{times} 5 / group 0 1", accepted(2, 1, 3, 4)
    dice = "count 0 1 / log dice / entry 0 1 roll 6 choice 6 / group 0"
    yield DICE, [(0, "/d"), (0, 200, "6")], dice, "rejected 12: dice position 0"
    yield DICE, [(0, "/d"), (0, 200, "5")], dice.replace("choice 6", "choice 5"), accepted(1, 1, 3, 3), "A0 X0=5 D0"
    twice = [(0, "/z", ("a", "x"), ("b", "1")), (1, "/z", ("a", "1"), ("b", "x")), (0, 500, "fault 1\n"), (1, 500, "fault 1\n")]
    yield TWICE, twice, "count 0 0 / count 1 0 / group 0 / group 1", accepted(2, 2, 23, 23)
    yield TWICE, twice, "count 0 0 / count 1 0 / group 0 1", "rejected 17: group 0 mark 0"
    written = 'count 0 1 / log register "a" / entry 0 1 write 1 / group 0'
    yield LOOP, [(0, "/w"), (0, 500, "fault 6\n")], written, accepted(1, 1, 100_000, 100_000)
    table = (
        'count 0 2 / log tables / entry 0 1 transact { update 0 set 1 = 1; insert 0 ("a", 2); } / entry 0 2 transact { select 1'
        " from 0; } / group 0"
    )
    yield TABLE, [(0, "/x"), (0, 200, "true0")], table, accepted(1, 1, 19, 19), None, b'{"tables":{"t":[["a",0]]}}'
    store = 'count 0 4 / log store "s" / entry 0 1 put "k" [1, "x"] / entry 0 2 get "k" / entry 0 3 remove "k" / entry 0 4 get "k"'
    yield STORE, [(0, "/p"), (0, 200, "xtrue")], f"{store} / group 0", accepted(1, 1, 19, 19)
    sums = lambda count, wrong: [
        event for number in range(count) for event in [(number, "/e"), (number, 200, "4" if number in wrong else "3")]
    ]
    counts = lambda count: " / ".join(f"count {number} 0" for number in range(count))
    yield SUM, sums(100, []), f"{counts(100)} / group {' '.join(map(str, range(100)))}", accepted(100, 1, 4, 400)
    alone = " / ".join(f"group {number}" for number in range(6))
    yield SUM, sums(6, [2, 5]), f"{counts(6)} / {alone}", "rejected 20: request 2"
    crossed = (
        'count 0 2 / count 1 2 / log register "A" / entry 1 2 read / entry 0 1 write 1 / log register "B" / entry 0 2 read'
        " / entry 1 1 write 1 / group 0 / group 1"
    )
    zeros = [(0, "/f"), (1, "/g"), (0, 200, "0"), (1, 200, "0")]
    yield FG, zeros, crossed, "rejected 13: cycle 0.1 0.2 1.1 1.2", None, b'{"registers":[["A",0],["B",0]]}'
    yield SUM, [], "", accepted(0, 0, 0, 0)


def paths():
    """A program, a request's path and parameters, a state, and the steps, the decisions and the response."""
    yield HIT, "/hit", [], b"{}", 19, [True], (200, b"1")
    yield SUM, "/e", [], b"{}", 4, [], (200, b"3")
    yield TWICE, "/z", [(b"a", b"x"), (b"b", b"1")], b"{}", 7, [], (500, b"fault 1\n")
    yield TWICE, "/z", [(b"a", b"1"), (b"b", b"x")], b"{}", 16, [], (500, b"fault 1\n")
    yield LOOP, "/w", [], b"{}", 100_000, [True] * 49_998, (500, b"fault 6\n")
    yield OVERFLOW, "/o", [], b"{}", 3, [], (500, b"fault 2\n")
    yield LONG, "/s", [], b"{}", 196, [True] * 15 + [False], (200, b"65535")
    yield TOO_LONG, "/s", [], b"{}", 191, [True] * 15 + [False], (500, b"fault 5\n")
    yield STORE, "/p", [], b"{}", 19, [], (200, b"xtrue")
    yield TABLE, "/x", [], b'{"tables":{"t":[["a",0]]}}', 19, [], (200, b"true0")
    yield CLOCK, "/t", [], b"{}", 2, [], (200, b"0")
    yield DICE, "/d", [], b"{}", 3, [], (200, b"0")
    yield SUM, "/none", [], b"{}", 0, [], (404, b"no page\n")
