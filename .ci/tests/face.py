#!/usr/bin/env python3
"""Tries the module for Python.

    face.py PROGRAM SCRIPT..

What the built program writes of each script under `run` and `run --hex` is what a bus answers of
its lines. Then each call is tried with what it may be given."""

import gc
import os
import pathlib
import subprocess
import sys
import threading
import traceback

TOP = pathlib.Path(__file__).resolve().parents[2]
sys.path.insert(0, str(TOP / "python"))

import gbus  # noqa: E402
from gbus import BadLine, Bus, BusClosed, BusError  # noqa: E402


def raised(error, call, *args):
    """The error that a call raises."""
    try:
        call(*args)
    except error as it:
        return it
    raise AssertionError(f"no {error.__name__} of {args}")


def reported(script, hex):
    """The report of a script by a bus, and whether it ends with a bad line."""
    with Bus(hex=hex) as bus:
        try:
            return bus.run(script.split(b"\n")), False
        except BadLine as bad:
            return bad.report, True


def is_the_programs(program, scripts):
    for script in scripts:
        text = pathlib.Path(script).read_bytes()
        for words in (["run"], ["run", "--hex"]):
            done = subprocess.run([program, *words], input=text, capture_output=True, timeout=60)
            report, is_bad = reported(text, len(words) == 2)
            assert report.encode() == done.stdout, f"{' '.join(words)} <{script}"
            assert is_bad == (done.returncode == 1), f"{' '.join(words)} <{script}"


def a_bus_is_open_until_it_is_closed():
    bus = Bus()
    assert not bus.closed
    assert bus.line("insert 2 gpio") == "line 1 ok\n"
    bus.close()
    bus.close()
    assert bus.closed
    assert isinstance(raised(BusClosed, bus.line, "boot"), (BusError, ValueError))
    with Bus() as other:
        assert other.line("pull 2") == "line 1 refused NoInterface\n"
    assert other.closed


def lines_have_any_end():
    with Bus() as bus:
        assert bus.line("") == bus.line(b"") == bus.line("\n") == bus.line("# none") == ""
        assert bus.line("insert 2 gpio\r\n") == "line 5 ok\n"
        assert bus.line(b"pull 2\r") == "line 6 ok\n"
        assert raised(BadLine, bus.line, "boot\nboot").report == "line 7: bad byte 5\n"
        assert raised(BadLine, bus.line, b"boot\0").report == "line 8: bad byte 5\n"
        assert raised(BadLine, bus.line, "boot \u00e4").report == "line 9: bad byte 6\n"
        assert raised(BadLine, bus.line, "boot \udcff").report == "line 10: bad byte 6\n"
        longest = "tick 1".ljust(gbus.LONGEST_LINE)
        assert str(raised(BadLine, bus.line, longest + " ")) == "line 11: too long"
        assert bus.line(longest) == "line 12 ok\n"


def a_bad_line_ends_nothing():
    with Bus() as bus:
        bad = raised(BadLine, bus.run, "insert 2 gpio\nsned\nboot")
        assert bad.report == "line 1 ok\nline 2: bad word 1\n"
        assert str(bad) == "line 2: bad word 1" and isinstance(bad, ValueError)
        assert bus.run("pull 2\npull 2\n") == "line 3 ok\nline 4 refused NoInterface\n"


def lines_come_one_by_one():
    with Bus() as bus:
        asked = []

        def script():
            for line in ("insert 2 gpio\n", "pull 2\n"):
                asked.append(line)
                yield line

        reports = bus.lines(script())
        assert next(reports) == "line 1 ok\n" and len(asked) == 1
        assert list(reports) == ["line 2 ok\n"] and len(asked) == 2
        assert bus.run("") == "" and bus.run([]) == "" and bus.run("\n\n# none") == ""


def many_buses_take_turns(script):
    lines = pathlib.Path(script).read_text().split("\n")
    with Bus(hex=True) as bus:
        wanted = [bus.line(line) for line in lines]
    buses = [Bus(hex=True) for _ in range(50)]
    for turn in range(len(lines) + len(buses)):
        for late, bus in enumerate(buses):
            if late <= turn < late + len(lines):
                assert bus.line(lines[turn - late]) == wanted[turn - late]
    for bus in buses:
        bus.close()


def threads_share_a_bus():
    with Bus() as bus:
        told = []

        def work():
            for _ in range(200):
                told.append(bus.line("tick 1"))

        threads = [threading.Thread(target=work) for _ in range(8)]
        for thread in threads:
            thread.start()
        for thread in threads:
            thread.join()
        assert sorted(told) == sorted(f"line {n} ok\n" for n in range(1, 1601))


def memory_is_given_back():
    def resident():
        pages = int(pathlib.Path("/proc/self/statm").read_text().split()[1])
        return pages * os.sysconf("SC_PAGESIZE")

    def use():
        for _ in range(200):
            bus = Bus()
            bus.run(f"send @n{n} svc ping" for n in range(500))

    use()
    before = resident()
    use()
    gc.collect()
    assert resident() - before < 8 << 20


def main():
    program, scripts = sys.argv[1], sys.argv[2:]
    session = str(TOP / "examples" / "session.gbus")
    failed = False
    for call, args in (
        (is_the_programs, (program, scripts)),
        (a_bus_is_open_until_it_is_closed, ()),
        (lines_have_any_end, ()),
        (a_bad_line_ends_nothing, ()),
        (lines_come_one_by_one, ()),
        (many_buses_take_turns, (session,)),
        (threads_share_a_bus, ()),
        (memory_is_given_back, ()),
    ):
        try:
            call(*args)
        except Exception:  # noqa: BLE001
            traceback.print_exc(file=sys.stdout)
            failed = True
    sys.exit(failed)


main()
