"""Replays a script on the station of a table, like `a429 replay TABLE SCRIPT TABLE..`.

    python3 replay.py TABLE SCRIPT TABLE..
"""
import os
import re
import sys

sys.path.insert(0, os.path.join(os.path.dirname(os.path.abspath(__file__)), ".."))
import a429  # noqa: E402


def event(station, further, line):
    """The call of a line, as a function that gives the line of its answer; None if the line is not an event."""
    verb, _, words = line.partition(b" ")
    try:
        if verb == b"arrive":
            name, _, word = words.partition(b" ")
            receiver = station.receiver(name)
            if not re.fullmatch(b"[0-9a-fA-F]{8}", word):
                return None
            return lambda: f"accepted {station.source_name(station.arrive(receiver, int(word, 16)))}"
        if verb == b"cell":
            group = station.group(words)
            return lambda: sent_line(station.cell(group))
        if verb == b"frame":
            group = station.group(words)
            return lambda: f"changed {station.frame(group)}"
    except a429.Refused:
        return None
    if verb == b"publish" and re.fullmatch(b"[1-9][0-9]{0,9}", words) and int(words) <= len(further):
        return lambda: f"published {station.publish(further[int(words) - 1])}"
    return None


def sent_line(sent):
    word = "none" if sent.word is None else f"{sent.word:08x}"
    return f"sent {sent.bus} {sent.slot} {word}"


def replay(table, script, further):
    """Prints the lines of the answers, and gives the exit status."""
    try:
        station = a429.Station(table)
    except a429.Refused as refused:
        print(refused)
        return 1
    with station:
        *lines, rest = script.split(b"\n")
        calls = []
        for number, line in enumerate(lines + ([rest] if rest else []), 1):
            call = event(station, further, line) if number <= len(lines) else None
            if call is None:
                print(f"refused script line {number}")
                return 1
            calls.append(call)
        for call in calls:
            try:
                print(call())
            except a429.Refused as refused:
                print(refused)
    return 0


def read(name):
    with open(name, "rb") as file:
        return file.read()


if __name__ == "__main__":
    if len(sys.argv) < 3:
        sys.exit("words: TABLE SCRIPT TABLE..")
    table, script, *further = map(read, sys.argv[1:])
    sys.exit(replay(table, script, further))
