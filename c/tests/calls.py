"""The calls of c/a429.py that no script reaches: words and their fields, the places of outputs, and what is refused.

    python3 calls.py TABLE NEWER     TABLE: examples/displays/table.toml; NEWER: examples/displays/faster.toml
"""
import os
import sys

sys.path.insert(0, os.path.join(os.path.dirname(os.path.abspath(__file__)), ".."))
import a429  # noqa: E402

checks, wrong = 0, 0


def check(what, got, wanted):
    global checks, wrong
    checks += 1
    if got != wanted:
        wrong += 1
        print(f"calls.py: {what}: {got}")


def refusal(call, *arguments):
    """The status and the text by which a call is refused; OverflowError if a number is out of range."""
    try:
        return call(*arguments)
    except a429.Refused as refused:
        return refused.status, str(refused)
    except OverflowError:
        return OverflowError


def words():
    for word, fields in ((0x600000c1, (0o203, 0, 0, 3)), (0x80000300, (0, 3, 0, 0)), (0x048d1400, (0, 0, 0x12345, 0)),
                         (0xfffffffe, (0o177, 3, 0x7ffff, 3))):
        check("encode", a429.encode(*fields), word)
        check("decode", a429.decode(word), fields)
        check("decode", a429.decode(word)._fields, ("label", "sdi", "data", "ssm"))
        check("decode", refusal(a429.decode, word ^ 1), (a429.PARITY, "refused parity"))
    for fields in ((0, 4, 0, 0), (0, 0, 1 << 19, 0), (0, 0, 0, 4), (255, 255, 0xffffffff, 255)):
        check("encode", refusal(a429.encode, *fields), (a429.FIELD, "refused field"))
    for fields in ((256, 0, 0, 0), (-1, 0, 0, 0), (0, 256, 0, 0), (0, 0, 1 << 32, 0), (0, 0, 0, -1)):
        check("encode", refusal(a429.encode, *fields), OverflowError)
    check("decode", refusal(a429.decode, 1 << 32), OverflowError)


def planned(table):
    text = (b"plan 2\ngroup displays rate 12500 frame 32 buses 1\noutput airspeed period 32 bus 0 offset 5 hold none\n"
            b"output altitude period 16 bus 0 offset 3 hold none\nbound 3 > 0 * 32\n")
    with a429.Station(table, plan=text) as station:
        check("places", station.places(0), [(0, 3, 16), (0, 5, 32)])
    check("open_planned", refusal(a429.Station, table, 0, text.replace(b"offset 3", b"offset 16")),
          (a429.PLAN_LINE, "refused plan line 4 place"))
    check("open_planned", refusal(a429.Station, table, 0, b""), (a429.PLAN_LINE, "refused plan line 1 form"))


def places(table, newer):
    slow, fast = [(0, 0, 16), (0, 8, 32)], [(0, 0, 8), (0, 4, 32)]
    station = a429.Station(table)
    with station:
        check("places", station.places(0), slow)
        check("place", station.place(0, 1), slow[1])
        check("place", station.place(0, 0)._fields, ("bus", "offset", "period"))
        check("place", refusal(station.place, 0, 2), (a429.NO_SUCH, "refused no-such"))
        check("places", refusal(station.places, 1), (a429.NO_SUCH, "refused no-such"))
        check("place", refusal(station.place, 0, -1), OverflowError)
        station.publish(newer)
        check("places", station.places(0), slow)
        for _ in station.cells(0):
            pass
        station.frame(0)
        check("places", station.places(0), fast)
    check("places", refusal(station.places, 0), (a429.CLOSED, "refused closed"))
    check("place", refusal(station.place, 0, 0), (a429.CLOSED, "refused closed"))


def read(name):
    with open(name, "rb") as file:
        return file.read()


if __name__ == "__main__":
    if len(sys.argv) != 3:
        sys.exit("words: TABLE NEWER")
    words()
    places(*map(read, sys.argv[1:]))
    planned(read(sys.argv[1]))
    print(f"calls: {checks} checks, {wrong} wrong")
    sys.exit(wrong != 0)
