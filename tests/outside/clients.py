"""Runs one of two Python clients, bmemcached or pylibmc, against a server, and writes a line for each step: its name and result.

    clients.py CLIENT PORT before|after

The steps `after` ask for what those `before` have left. Each step is of one of two clients with a connection each, so what one
stores the other has to see.
"""

import random
import re
import sys
import time

# Debian's modules aren't there for every Python: an import that fails is told by tests/outside/clients.
NOISE = random.Random(1).randbytes(3_000)
MANY = {f"sonar-{number:03}": f"contact {number}" for number in range(150)}


def told(result):
    """A result as text, without what differs from run to run."""
    text = result if isinstance(result, str) else repr(result)
    text = re.sub(r"0x[0-9a-f]{6,}|127\.0\.0\.1:\d+", "..", text)
    return text.strip() if len(text) <= 100 else f"{len(text)} characters, {text[:40]}"


def step(name, ask):
    try:
        result = repr(ask())
    except Exception as error:
        result = f"{type(error).__name__}: {error}"
    print(f"{name}: {told(result)}")


def changed(cas, other):
    return "another CAS" if cas != other else "the same CAS"


def plain_steps(one, two):
    """Steps that both clients write in the same way."""
    step("set", lambda: one.set("shoal", "cod, 40 t"))
    step("get by the other", lambda: two.get("shoal"))
    step("set by the other", lambda: two.set("shoal", "cod, 41 t"))
    step("get", lambda: one.get("shoal"))
    step("get of nothing", lambda: one.get("nothing"))
    step("add of what is there", lambda: one.add("shoal", "herring"))
    step("add", lambda: one.add("reef", "awash"))
    step("replace of nothing", lambda: one.replace("nothing", "something"))
    step("replace", lambda: two.replace("reef", "dry"))
    step("get what was replaced", lambda: one.get("reef"))
    step("set of an empty text", lambda: one.set("empty", ""))
    step("get of an empty text", lambda: two.get("empty"))
    step("set of bytes", lambda: one.set("bytes", b"\x00\xff\r\n\x80"))
    step("get of bytes", lambda: two.get("bytes"))
    step("set of a number", lambda: one.set("number", 41))
    step("get of a number", lambda: two.get("number"))
    step("set of an object", lambda: one.set("bearing", {"degrees": 143, "kind": ["rock", None]}))
    step("get of an object", lambda: two.get("bearing"))
    step("set of letters beyond ASCII", lambda: one.set("fjord", "Sørfjorden"))
    step("get of letters beyond ASCII", lambda: two.get("fjord"))
    step("set with a key of 250 bytes", lambda: one.set("k" * 250, "long"))
    step("get with a key of 250 bytes", lambda: two.get("k" * 250))
    step("set with a key of 251 bytes", lambda: one.set("k" * 251, "longer"))
    step("delete", lambda: one.delete("reef"))
    step("get of what was deleted", lambda: two.get("reef"))
    step("delete of nothing", lambda: two.delete("reef"))
    step("add of what was deleted", lambda: two.add("reef", "awash again"))


def many_steps(one, two):
    step("set of many", lambda: one.set_multi(MANY))
    step("get of many by the other", lambda: two.get_multi([*MANY, "nothing"]) == MANY)
    step("delete of many", lambda: two.delete_multi(["sonar-000", "sonar-001"]))
    step("get of those left", lambda: len(one.get_multi([*MANY])))


def size_steps(one, two):
    step("set of 1,024 bytes", lambda: one.set("most", NOISE[:1_024]))
    step("get of 1,024 bytes", lambda: two.get("most") == NOISE[:1_024])
    step("set of 1,025 bytes", lambda: one.set("over", NOISE[:1_025]))
    step("get of 1,025 bytes", lambda: two.get("over") == NOISE[:1_025])
    step("set of 3,000 bytes", lambda: one.set("over", NOISE))
    step("get after it", lambda: one.get("most") == NOISE[:1_024])
    step("get of 3,000 bytes", lambda: two.get("over") == NOISE)


def expiry_steps(one, two):
    step("set for a second", lambda: one.set("brief", "gone soon", time=1))
    step("set for an hour", lambda: one.set("hour", "there", time=3_600))
    step("set for 31 days", lambda: one.set("long past", "1970", time=31 * 86_400))
    step("set till 2100", lambda: one.set("far", "2100", time=4_102_444_800))
    time.sleep(3)
    for key in ("brief", "hour", "long past", "far"):
        step(f"get {key}", lambda: two.get(key))


def left_out_steps(one, two):
    step("flush", lambda: one.flush_all())
    step("get after flush", lambda: two.get("shoal"))


def after_steps(one, two):
    for key in ("shoal", "reef", "bytes", "number", "bearing", "fjord", "k" * 250, "brief", "hour", "counter"):
        step(f"get {key[:10]}", lambda: one.get(key))
    step("get of many", lambda: len(two.get_multi([*MANY])))
    step("get of 1,024 bytes", lambda: two.get("most") == NOISE[:1_024])
    step("set", lambda: one.set("shoal", "none"))
    step("get by the other", lambda: two.get("shoal"))


class Bmemcached:
    def __init__(self, port):
        import bmemcached

        self.one, self.two = (bmemcached.Client((f"127.0.0.1:{port}",), socket_timeout=5) for _ in range(2))

    def own_steps(self):
        one, two = self.one, self.two
        step("count from 10", lambda: one.incr("counter", 5, default=10, time=0))
        step("count up", lambda: two.incr("counter", 5))
        step("count down", lambda: one.decr("counter", 6))
        step("count down below 0", lambda: two.decr("counter", 600))
        step("count past the end", lambda: [one.incr("counter", 2**64 - 1), one.incr("counter", 3)])
        step("count on a text", lambda: one.incr("shoal", 1))
        value, cas = one.gets("shoal")
        step("gets", lambda: value)
        step("cas", lambda: two.cas("shoal", "cod, 42 t", cas))
        step("gets after cas", lambda: changed(one.gets("shoal")[1], cas))
        step("cas with the old number", lambda: one.cas("shoal", "cod, 43 t", cas))
        step("delete with the old number", lambda: one.delete("shoal", cas=cas))
        step("get after both", lambda: two.get("shoal"))
        step("set of 5,000 bytes that compress", lambda: one.set("net", "m" * 5_000))
        step("get of 5,000 bytes that compress", lambda: two.get("net") == "m" * 5_000)

    def end_steps(self):
        step("statistics", lambda: [len(found) > 0 for found in self.one.stats().values()])
        step("quit", lambda: self.one.disconnect_all())
        step("get after quit", lambda: self.two.get("number"))


class Pylibmc:
    def __init__(self, port):
        import pylibmc

        self.one = pylibmc.Client([f"127.0.0.1:{port}"], binary=True, behaviors={"cas": True, "receive_timeout": 5_000_000})
        self.two = self.one.clone()

    def own_steps(self):
        one, two = self.one, self.two
        step("count on nothing", lambda: one.incr("counter", 5))
        step("add of a number", lambda: one.add("counter", 10))
        step("count up", lambda: two.incr("counter", 5))
        step("count down", lambda: one.decr("counter", 6))
        step("count down below 0", lambda: two.decr("counter", 600))
        step("count on a text", lambda: one.incr("shoal"))
        value, cas = one.gets("shoal")
        step("gets", lambda: value)
        step("cas", lambda: one.cas("shoal", "cod, 42 t", cas))
        step("gets after cas", lambda: changed(one.gets("shoal")[1], cas))
        step("cas with the old number", lambda: one.cas("shoal", "cod, 43 t", cas))
        step("get after both", lambda: two.get("shoal"))
        step("append", lambda: one.append("shoal", ", deep"))
        step("prepend", lambda: two.prepend("shoal", "at dawn "))
        step("get of what was joined", lambda: one.get("shoal"))
        step("append to nothing", lambda: one.append("nothing", "more"))
        step("touch", lambda: one.touch("shoal", 600))
        step("touch of nothing", lambda: two.touch("nothing", 600))
        step("get of what was touched", lambda: two.get("shoal"))
        step("add of many", lambda: one.add_multi({"shoal": 1, "wreck": 2}))
        step("count of many", lambda: two.incr_multi(["counter", "wreck"], delta=3))
        step("get of many counted", lambda: one.get_multi(["counter", "wreck"]))
        step("set of 5,000 bytes that compress", lambda: one.set("net", "m" * 5_000, min_compress_len=100))
        step("get of 5,000 bytes that compress", lambda: two.get("net") == "m" * 5_000)

    def end_steps(self):
        step("statistics", lambda: [len(found) > 0 for _, found in self.one.get_stats()])
        step("quit", lambda: self.one.disconnect_all())
        step("get after quit", lambda: self.one.get("number"))


def main(name, port, when):
    clients = {"bmemcached": Bmemcached, "pylibmc": Pylibmc}[name](port)
    pair = clients.one, clients.two
    if when == "before":
        plain_steps(*pair)
        clients.own_steps()
        many_steps(*pair)
        size_steps(*pair)
        expiry_steps(*pair)
    else:
        after_steps(*pair)
        clients.end_steps()
        left_out_steps(*pair)


main(*sys.argv[1:])
