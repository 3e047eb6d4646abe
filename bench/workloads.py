"""The workloads that bench/replay, bench/record, bench/audit and others time, and how a run is timed.

A workload is a program, a state, and the path and parameters of each request:

    straight   two operations on registers, without a branch
    hit        the page /hit of docs/language.md: two operations on a register, a branch
    shop       eight parameters, a store, and one transaction of four statements by key
    heavy      a loop of 10,000 steps of sums and texts; fewer requests
    wide       as hit, but each hundredth request walks a list of 1,000 members of a store
    rows       a table of 100,000 rows: each request selects by key and updates one row
    fewer      the same with 1,000 rows
    page       a table of 40 rows in HTML, built by functions with `escape`, `str` and `+`, a list of 20 numbers walked, a `get`
               and a `put`; fewer requests
    same       the same page, asked as often as others
    state      one request on a table of 1,000,000 rows
"""

import json
import os
import subprocess
import time

COUNTS = [4096, 16384, 65536]
FEWER = [64, 256, 1024]
MIB = 1 << 20

STRAIGHT = b"""page "/f" { do write("A", 1); echo read("B"); }
page "/g" { do write("B", 1); echo read("A"); }
"""
HIT = b"""page "/hit" {
  let n = read("hits");
  if n == null { set n = 0; }
  set n = n + 1;
  do write("hits", n);
  echo n;
}
"""
SHOP = b"""store carts;
table orders (id, user, item, count, price, state);
page "/buy" {
  let id = param("id");
  let user = param("user");
  let visits = get(carts, user);
  if visits == null { set visits = 0; }
  do put(carts, user, visits + 1);
  let count = num(param("count"));
  let price = num(param("price"));
  let done = transact {
    delete orders where id == id;
    insert orders (id, user, param("item"), count, count * price, "new");
    update orders set state = "paid" where id == id;
    select item, price, state from orders where id == id;
  };
  let row = done[3][0];
  echo "<p>" + escape(param("name")) + ", " + row[0] + "</p>";
}
"""
HEAVY = b"""page "/heavy" {
  let i = 0;
  let sum = 0;
  let text = "";
  while i < 416 {
    set sum = sum + i * 3;
    set text = slice("abcdefghij", i % 7, 8) + str(sum);
    set i = i + 1;
  }
  echo text;
}
"""
WIDE = HIT + b"""store lists;
page "/walk" {
  let sum = 0;
  for x in get(lists, "all") { set sum = sum + x; }
  echo sum;
}
"""
ROWS = b"""table stock (item, left, shelf);
page "/sell" {
  let item = param("item");
  let rows = transact { select left, shelf from stock where item == item; };
  let left = rows[0][0][0] - 1;
  do transact { update stock set left = left where item == item; };
  echo str(left) + " on " + rows[0][0][1];
}
"""
PAGE = rb"""store visits;
function cell(value) { return "<td>" + escape(value) + "</td>"; }
function row(number) { return "<tr>" + cell(str(number)) + cell("item <" + str(number * 7) + ">") + "</tr>\n"; }
page "/page" {
  let seen = get(visits, path());
  if seen == null { set seen = 0; }
  do put(visits, path(), seen + 1);
  let sum = 0;
  for price in [12, 7, 30, 4, 19, 25, 8, 16, 3, 21, 14, 9, 27, 5, 11, 18, 2, 23, 6, 10] { set sum = sum + price; }
  let html = "<table>\n";
  let number = 0;
  while number < 40 {
    set html = html + row(number);
    set number = number + 1;
  }
  echo html + "</table>\n<p>" + str(sum) + "</p>\n";
}
"""


# ---- workloads: a program, a state, the path and parameters of each request, and as much of the state as these ask for

def straight():
    return STRAIGHT, b"{}", [("/g" if number % 2 else "/f", {}) for number in range(COUNTS[-1])]


def hit():
    return HIT, b"{}", [("/hit", {})] * COUNTS[-1]


def shop():
    orders = [
        {
            "id": f"order-{number % 1000:04}", "user": f"user-{number % 100}", "name": "Ada & Bob",
            "item": f"item {number % 37}", "count": str(1 + number % 5), "price": str(100 + number % 900), "city": "Paris", "note": "leave it at the door",
        }
        for number in range(COUNTS[-1])
    ]
    return SHOP, b"{}", [("/buy", order) for order in orders]


def heavy():
    return HEAVY, b"{}", [("/heavy", {})] * FEWER[-1]


def wide():
    requests = [("/hit" if number % 100 else "/walk", {}) for number in range(COUNTS[-1])]
    return WIDE, b'{"stores":{"lists":[["all",%s]]}}' % str(list(range(1000))).encode(), requests


def item(number):
    return f"item-{number:07}"


def stock(numbers):
    """A state with a row for each of these numbers."""
    rows = (f'["{item(number)}",100000,"shelf {number % 100}, left"]' for number in numbers)
    return '{"tables":{"stock":[%s]}}' % ",".join(rows)


def rows(count):
    return ROWS, stock(range(count)).encode(), [("/sell", {"item": item(number * 7919 % count)}) for number in range(COUNTS[-1])]


def page():
    return PAGE, b'{"stores":{"visits":[["/page",0]]}}', [("/page", {})] * FEWER[-1]


def same():
    return PAGE, b'{"stores":{"visits":[["/page",0]]}}', [("/page", {})] * COUNTS[-1]


def large_state():
    return ROWS, stock(range(1_000_000)).encode(), [("/sell", {"item": item(7919)})], stock([7919]).encode()


KINDS = {
    "straight": straight, "hit": hit, "shop": shop, "heavy": heavy, "wide": wide, "rows": lambda: rows(100_000),
    "fewer": lambda: rows(1000), "page": page, "same": same, "state": large_state,
}
LONG = ["heavy", "page"]


def counts(kind):
    """How many requests of a kind are timed."""
    return FEWER if kind in LONG else [1] if kind == "state" else COUNTS


def parted(report, size):
    """The records of a report, with groups of so many members at most."""
    others = [record for record in report if record[0] != "group"]
    groups = [members for kind, *rest in report if kind == "group" for members in rest]
    return others + [("group", members[at : at + size]) for members in groups for at in range(0, len(members), size)]


# ---- runs

# A recording by turns, of which none are listed, and one by workers.
BY_WORKERS = ["record", "program", "state", "requests", "trace", "report"]
BY_TURNS = [*BY_WORKERS, "--turns", "turns"]


def prepare(folder, text, state, requests):
    """Makes a folder with the inputs of a recording."""
    jobs = [{"path": path, "params": list(parameters.items())} for path, parameters in requests]
    os.mkdir(folder)
    for name, data in {"program": text, "state": state, "requests": json.dumps(jobs).encode(), "turns": b"[]"}.items():
        with open(os.path.join(folder, name), "wb") as file:
            file.write(data)


def run(words, folder, processors="0"):
    """The line, the status, the seconds, the processors' seconds and the peak MiB of one run, on these processors.

    `time` starts the program, since a child of this script would count the script's own peak as its own.
    """
    told = os.path.join(folder, "told")
    timed = ["taskset", "-c", processors, "time", "-q", "-f", "%U %S %M", "-o", told]
    start = time.perf_counter()
    child = subprocess.run(timed + words, cwd=folder, stdout=subprocess.PIPE)
    seconds = time.perf_counter() - start
    with open(told) as file:
        user, system, peak = map(float, file.read().split())
    return child.stdout, child.returncode, seconds, user + system, peak / 1024


def machine():
    with open("/proc/cpuinfo") as lines:
        models = [line.split(":", 1)[1].strip() for line in lines if line.startswith("model name")]
    model = models[0] if models else "unknown processor"
    return f"{model}, {os.cpu_count()} processors, {os.uname().sysname} {os.uname().release}"
