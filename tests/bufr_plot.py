#!/usr/bin/env python3
"""Tests scripts/bufr-plot: maps with unusual positions and strings, soundings, and the error messages when there is nothing to
draw or matplotlib is missing. A failed run must leave no files behind.

    tests/bufr_plot.py [PROGRAM]

The test draws with the first python3 that has matplotlib: the one that runs the test, the one on PATH, or /usr/bin/python3.
If none of them has it, the tests that draw are skipped.
"""
import os
import pathlib
import re
import resource
import shutil
import subprocess
import sys
import tempfile

import lib
from lib import TABLES, TOP, want

PLOT = TOP / "scripts/bufr-plot"


def drawing_python():
    for python in (sys.executable, shutil.which("python3"), "/usr/bin/python3"):
        if python and subprocess.run([python, "-c", "import matplotlib"], stderr=subprocess.DEVNULL).returncode == 0:
            return python
    return None


def run(python: str, words: list, text: bytes = b"", **others) -> subprocess.CompletedProcess:
    return subprocess.run([python, PLOT, *words], input=text, stdout=subprocess.PIPE, stderr=subprocess.PIPE, **others)


def stations(count: int, latitude: str = "50.5", longitude: str = "10.25", name: bytes = b"A") -> bytes:
    """Returns a document with the temperature at `count` stations, each in its own subset. The first is at 10.5 N, 20.5 E."""
    head = (TOP / "examples/synop.txt").read_bytes().partition(b"subset 1\n")[0]
    text = re.sub(rb"subsets \d+", b"subsets %d" % count, head)
    for number in range(1, count + 1):
        place = ("10.5", "20.5") if number == 1 else (latitude, longitude)
        text += b"subset %d\n005001 %s\n006001 %s\n" % (number, place[0].encode(), place[1].encode())
        text += b'001015 "%s"  # N\xdf\xe6\xb8\xa9$x^{$ [$y$]\n012101 28%d.5\n' % (name, number)
    return text + b"end\n"


def strange(python: str, folder: pathlib.Path) -> None:
    """`bufr-plot` draws positions beyond the map, many labels, and strings that look like formulas."""
    # With these settings, pictures of the same map are identical.
    (folder / "matplotlibrc").write_text("svg.fonttype: none\nsvg.hashsalt: a\n")
    environment = {**os.environ, "SOURCE_DATE_EPOCH": "0"}

    def draw(text: bytes, *words: str) -> tuple:
        picture = folder / "picture.svg"
        done = run(python, ["map", *words, picture], text, cwd=folder, env=environment)
        want(done.returncode == 0, f"a map ends with {done.returncode}: {done.stderr}")
        drawn = picture.read_text(encoding="utf-8")
        picture.unlink()
        return drawn, done.stderr.decode()

    plain = draw(stations(3))
    want(plain[1] == "", f"a map tells {plain[1]}")
    for longitude in ("370.25", "-349.75", "730.25"):
        want(draw(stations(3, longitude=longitude)) == plain, f"longitude {longitude} is not wrapped")
    referred = stations(3).replace(b"\n005001 ", b"\nR 005001 -900\n005001 ")
    want(draw(referred) == plain, "a reference value is taken for a latitude")
    want(draw(stations(3, longitude="180.0")) != draw(stations(3, longitude="-180.0")), "180 degrees are wrapped")
    for latitude, pole in (("91.5", "90.0"), ("-100.0", "-90.0")):
        at_pole, told = draw(stations(3, pole))
        want(told == "", f"of latitude {pole} it tells {told}")
        told = (at_pole, "bufr-plot: 2 latitudes are beyond a pole; their points are drawn at the pole\n")
        want(draw(stations(3, latitude)) == told, f"latitude {latitude} is not clipped, or not told")
    _, told = draw(stations(2, "91.5"))
    want(told == "bufr-plot: 1 latitude is beyond a pole; its point is drawn at the pole\n", f"of one latitude it tells {told}")
    # A value of 0 must have a label. A missing value must not, and neither must the value in a subset without a position.
    odd = stations(4).replace(b" 281.5", b" 0.00").replace(b" 282.5", b" MISSING").replace(b"subset 3\n005001 50.5", b"subset 3")
    drawn, _ = draw(odd, "--value", "012101")
    labels = re.findall(r">(0\.00|None|28\d\.5)</text>", drawn)
    want(labels == ["0.00", "284.5"] and ">3 points: 012101 []<" in drawn, f"the labels are {labels}")
    # A map that spans more than half of the world shows the whole world. The first point is at 10.5 N, 20.5 E.
    for place, is_whole in (
        ({"longitude": "-159.5"}, False), ({"latitude": "-79.5"}, False), ({"longitude": "-160.0"}, True), ({"latitude": "-80.0"}, True)
    ):
        drawn, _ = draw(stations(3, **place))
        ticks = re.findall(r">(\u2212?\d+)</text>", drawn)
        edges = [float(tick.replace("\u2212", "-")) for tick in ticks]
        want(((min(edges), max(edges)) == (-150, 150)) == is_whole, f"the map to {place} has {ticks}")
    want(">93<" not in draw(stations(1).replace(b" 10.5\n", b" 90.0\n"))[0], "a map of the pole shows far more than its point")
    want("2 points: 012101 []" in draw(stations(2).replace(b"\n012101 282.5", b""), "--value", "012101")[0], "a last subset without the value hides its name")
    # If all levels have a temperature of 0 degrees Celsius, the temperature axis is symmetric about 0.
    head = stations(1).partition(b"subset 1\n")[0]
    level = b"007004 %d00\n012101 273.15\n"
    (folder / "text").write_bytes(head + b"subset 1\n" + level % 1000 + level % 500 + b"end\n")
    done = run(python, ["sounding", folder / "picture.svg", folder / "text"], cwd=folder, env=environment)
    want(done.returncode == 0, f"two levels end with {done.returncode}: {done.stderr}")
    ticks = re.findall(r">(\u2212?0\.\d+)</text>", (folder / "picture.svg").read_text(encoding="utf-8"))
    values = sorted(float(tick.replace("\u2212", "-")) for tick in ticks)
    want(len(values) > 2 and values == [-value for value in reversed(values)], f"0 degrees Celsius have {ticks}")
    drawn, _ = draw(stations(100), "--value", "012101")
    labels = re.findall(r">28\d+\.5<", drawn)
    want(len(labels) == 100 and ">100 points: 012101 []<" in drawn, f"100 values have {len(labels)} labels")
    radius = f"M 0 {30**0.5 / 2:.6f} "
    want(radius in drawn and radius not in draw(stations(101))[0], "101 points are as large as 100")
    drawn, told = draw(stations(101), "--value", "012101")
    want("281.5" not in drawn, "101 values have labels")
    want(told == "bufr-plot: did not label the points: there are 101 values, but at most 100 can be shown\n", f"of 101 values it tells {told}")
    drawn, told = draw(stations(2, name=b"$x^{..$ \\\\$\\x07\\xFF"), "--value", "001015")
    want("$x^{..$ \\$?\ufffd" in drawn and "[$y$]" in drawn, "a text is taken for a formula")
    want(told == "", f"of a text it tells {told}")
    drawn, _ = draw(stations(1) + stations(1).replace(b"006001 20.5", b"006001 " + b"9" * 400), "--value", "012101:1")
    want("1 point:" in drawn, "a longitude without end is drawn")


def first_of_a_level(python: str, folder: pathlib.Path, text: bytes) -> None:
    """`bufr-plot` draws the first temperature and the first dew point in each level."""

    def draw(text: bytes) -> str:
        environment = {**os.environ, "SOURCE_DATE_EPOCH": "0"}
        done = run(python, ["sounding", folder / "picture.svg"], text, cwd=folder, env=environment)
        want(done.returncode == 0, f"a sounding ends with {done.returncode}: {done.stderr}")
        return (folder / "picture.svg").read_text(encoding="utf-8")

    twice = re.sub(rb"\n(01210[13]) ([\d.]+)([^\n]*)", rb"\g<0>\n\1 300\3", text)
    whole = draw(text)
    want(twice.count(b" 300 ") > 40 and draw(twice) == whole, "the last temperature of a level counts")
    others = re.sub(rb"\n0121(0[13])", rb"\n0120\1", text)
    want(others != text and draw(others) == whole, "0 12 001 and 0 12 003 count otherwise")
    # These are not levels: a temperature before the first pressure, invalid pressures, and a pressure without a temperature.
    odd = b"subset 1\n012101 250\n007004 MISSING\n012101 250\n007004 0\n012101 250\n007004 -100\n012101 250\n007004 2000\n"
    want(draw(text.replace(b"subset 1\n", odd)) == whole, "what is no level is drawn")
    one = text.partition(b"subset 1\n")[0] + b"subset 1\n007004 50000\n012101 250\nend\n"
    want(run(python, ["sounding", folder / "picture.svg"], one, cwd=folder).returncode == 1, "one level is drawn")


def chosen_sounding(python: str, folder: pathlib.Path) -> None:
    """`bufr-plot` draws the first sounding or the first selected one. The title contains the message and subset numbers."""
    bare, level = b"subset 1\n012101 250\n", b"007004 %d00\n012101 273.15\n"
    head = stations(1).partition(b"subset 1\n")[0].replace(b"subsets 1", b"subsets 3")
    text = head + bare + b"".join(b"subset %d\n" % number + level % 1000 + level % 500 for number in (2, 3)) + b"end\n"
    text += text.replace(b"\nyear 2023", b"\nyear 2022").replace(b"\nhour 18", b"\nhour 6").replace(b"\nmonth 3", b"\nmonth 11")
    for words, title in (
        ([], "message 1, subset 2: centre 78, 2023-03-14 18:00"),
        (["--message", "2"], "message 2, subset 2: centre 78, 2022-11-14 06:00"),
        (["--subset", "3"], "message 1, subset 3: centre 78, 2023-03-14 18:00"),
        (["--subset", "3", "--message", "2"], "message 2, subset 3: centre 78, 2022-11-14 06:00"),
    ):
        done = run(python, ["sounding", *words, folder / "picture.svg", "-"], text, cwd=folder)
        want(done.returncode == 0, f"a sounding of {words} ends with {done.returncode}: {done.stderr}")
        titles = re.findall(">(message .*?)<", (folder / "picture.svg").read_text(encoding="utf-8"))
        want(titles == [title], f"a sounding of {words} has the titles {titles}, not {title}")


def memory_of_points(python: str, folder: pathlib.Path) -> None:
    """`bufr-plot` needs at most 120 MB for a map, plus 250 bytes for each point."""
    head, _, rest = stations(100, name=b"A" * 250).partition(b"subset 1\n")
    sizes = []
    for messages in (2, 502):
        with open(folder / "many.txt", "wb") as file:
            for _ in range(messages):
                file.write(head + b"subset 1\n" + rest)
        words = [python, PLOT, "map", "--value", "001015", folder / "many.svg", folder / "many.txt"]
        status, usage = lib.usage_of(words, stderr=subprocess.DEVNULL)
        want(status == 0, f"a map of {messages} messages ends with {status}")
        sizes.append(usage.ru_maxrss)
    growth = (sizes[1] - sizes[0]) * 1000 / 50_000
    print(f"bufr_plot: a map takes {sizes[0] // 1000} MB, and {growth:.0f} bytes for each of 50,000 points")
    want(sizes[0] <= 120_000 and growth <= 250, "a map takes more than 120 MB or 250 bytes for each point")


def draws_whole(python: str, folder: pathlib.Path) -> None:
    """If `bufr-plot` cannot write a picture, it leaves any old picture unchanged, and leaves no other files behind."""
    place = folder / "whole"
    place.mkdir()
    (place / "old.png").write_bytes(b"old")
    (place / "full.png").symlink_to("/dev/full")

    def limit() -> None:
        resource.setrlimit(resource.RLIMIT_FSIZE, (100, 100))

    def close() -> None:
        os.close(0)

    for name, others, told in [
        ("old.png", {"preexec_fn": limit}, b"File too large"),
        ("new.png", {"preexec_fn": limit}, b"File too large"),
        ("full.png", {}, b"No space left"),
        ("new.png", {"preexec_fn": close}, b""),
    ]:
        done = run(python, ["map", place / name], stations(2), **others)
        lines = done.stderr.splitlines()
        want(done.returncode == 2 and len(lines) == 1 and told in lines[0], f"{name} ends with {done.returncode}: {lines}")
        left = sorted(path.name for path in place.iterdir())
        want(left == ["full.png", "old.png"] and (place / "old.png").read_bytes() == b"old", f"{name} leaves {left}")
    done = run(python, ["map", place / "old.png"], stations(2))
    want(done.returncode == 0 and (place / "old.png").read_bytes()[:4] == b"\x89PNG", "an old picture stays")
    # Without a home directory, matplotlib creates a temporary directory, which must not remain.
    (place / "temporary").mkdir()
    environment = {"PATH": os.environ["PATH"], "HOME": "/proc/nowhere", "TMPDIR": str(place / "temporary")}
    done = run(python, ["map", place / "new.png"], stations(2), env=environment)
    want((done.returncode, done.stderr) == (0, b""), f"without a home it ends with {done.returncode}: {done.stderr}")
    want(not list((place / "temporary").iterdir()), "a temporary folder stays")


def draws(python: str, program: str, folder: pathlib.Path) -> None:
    texts = {
        path.stem: subprocess.run([program, "dump", *TABLES, path], stdout=subprocess.PIPE, check=True).stdout
        for path in (TOP / "examples").glob("*.bufr")
        if path.stem != "bulletins"
    }
    for words, name, told in [
        (["map"], "synop", ["3 points"]),
        (["map", "--value", "012101"], "buoys", ["8 points", "281.85", "287.35"]),
        (["map", "--value", "001015"], "synop", [">SODANKYLA<", ">HEATHROW<", ">SAENTIS<"]),
        (["sounding"], "sounding", ["temperature", "dew point", "2023-03-14 23:31", ">850</text>", ">30</text>"]),
        (["sounding", "--message", "1", "--subset", "1"], "sounding", ["pressure"]),
    ]:
        # With this setting, the labels in an SVG file are text that the test can search for.
        picture = folder / "picture.svg"
        (folder / "matplotlibrc").write_text("svg.fonttype: none\n")
        done = run(python, [*words, picture], texts[name], cwd=folder)
        want(done.returncode == 0, f"{words} of {name} ends with {done.returncode}: {done.stderr}")
        drawn = picture.read_text(encoding="utf-8")
        for text in told:
            want(text in drawn, f"{words} of {name} does not have {text}")
        want(words[0] == "map" or ">20</text>" not in drawn, "a sounding has a tick beyond its levels")
        picture.unlink()
    coarse = texts["synop"].replace(b"\n005001", b"\n005002").replace(b"\n006001", b"\n006002")
    want(run(python, ["map", folder / "a.png"], coarse).returncode == 0, "no PNG is drawn")
    want((folder / "a.png").read_bytes().startswith(b"\x89PNG"), "a PNG is none")
    (folder / "linked.pdf").symlink_to(folder / "a.pdf")
    want(run(python, ["map", folder / "linked.pdf"], coarse).returncode == 0, "no PDF is drawn")
    want((folder / "a.pdf").read_bytes().startswith(b"%PDF"), "a PDF is none, or does not stand where a link leads")
    for words, text, status, told in [
        (["map", folder / "b.png"], texts["one_block_number"], 1, "no subset has both a latitude and a longitude"),
        (["map", "--value", "012104", folder / "b.png"], texts["synop"], 1, "no subset contains 012104"),
        (["sounding", folder / "b.png"], texts["synop"], 1, "no selected subset has at least two levels"),
        (["sounding", "--subset", "2", folder / "b.png"], texts["sounding"], 1, "no selected subset has at least two levels"),
        (["sounding", "--message", "2", folder / "b.png"], texts["sounding"], 1, "no selected subset has at least two levels"),
        (["map", "--value", "012101:2", folder / "b.png"], texts["synop"], 1, "no subset contains 012101:2"),
        (["map", folder / "b.png"], b"", 1, "bufr-plot: the input contains no messages"),
        (["sounding", folder / "b.png"], b"# a note\n", 1, "bufr-plot: the input contains no messages"),
        (["map", "--value", "", folder / "b.png"], texts["synop"], 2, "--value '': expected a descriptor such as 012101, found ''"),
        (["map", "--value", "T", folder / "b.png"], texts["synop"], 2, "--value 'T': expected a descriptor such as 012101, found 'T'"),
        (["map", ""], texts["synop"], 2, "expected a PICTURE whose name ends in .png, .svg or .pdf, found ''"),
        (["map", folder / "b.png", ""], b"", 2, "cannot open ''"),
        (["sounding", "--message", "x", folder / "b.png"], b"", 2, "--message 'x': expected a whole number of at least 1"),
        (["sounding", "--subset", "0", folder / "b.png"], b"", 2, "--subset '0': expected a whole number of at least 1"),
        (["sounding", "--value", "012101", folder / "b.png"], b"", 2, "unknown option --value"),
        (["map", "--message", "1", folder / "b.png"], b"", 2, "unknown option --message"),
        (["map"], b"", 2, "expected one PICTURE and at most one DUMP after 'map'"),
        (["map", folder / "b.png", folder / "c", folder / "d"], b"", 2, "expected one PICTURE and at most one DUMP after 'map'"),
        ([], b"", 2, "expected 'map' or 'sounding' as the first argument"),
        (["map", folder / "b.png"], b"no dump\n", 2, "line 1: expected 'message'"),
        (["map", folder / "b.png", folder / "nosuch"], b"", 2, "nosuch"),
        (["map", folder / "no" / "b.png"], texts["synop"], 2, f"cannot write {folder / 'no' / 'b.png'}: No such file"),
        (["map", folder / "b.text"], texts["synop"], 2, "expected a PICTURE whose name ends in .png, .svg or .pdf, found '"),
        (["map", folder / "b.png.old"], texts["synop"], 2, "expected a PICTURE whose name ends in .png, .svg or .pdf, found '"),
        (["map", folder / "bpng"], texts["synop"], 2, "expected a PICTURE whose name ends in .png, .svg or .pdf, found '"),
        (["picture", folder / "b.png"], b"", 2, "expected 'map' or 'sounding' as the first argument"),
    ]:
        done = run(python, words, text)
        want(
            done.returncode == status and told in done.stderr.decode(),
            f"{words} ends with {done.returncode}: {done.stderr}",
        )
        want(done.stderr.count(b"\n") == 1, f"{words} tells {done.stderr}")
        want(not (folder / "b.png").exists(), f"{words} leaves a picture")
    for words, name in ((["map", "--value", "011002"], "buoys"), (["sounding"], "sounding")):
        kept, picture = (TOP / f"docs/pictures/{name}.png").read_bytes(), folder / f"{name}.png"
        want(run(python, [*words, picture], texts[name]).returncode == 0, f"the guide's picture of {name} is not drawn")
        version = re.search(rb"Matplotlib version[\d.]+", kept)[0]
        drawn = picture.read_bytes()
        want(version not in drawn or drawn == kept, f"docs/pictures/{name}.png is not what the guide's command draws")
    done = run(python, ["--version"], env={**os.environ, "BUFR": program})
    want(done.stdout.startswith(b"bufr-plot, with bufr "), f"its version is {done.stdout}")
    strange(python, folder)
    first_of_a_level(python, folder, texts["sounding"])
    chosen_sounding(python, folder)
    draws_whole(python, folder)
    memory_of_points(python, folder)


def main() -> None:
    with tempfile.TemporaryDirectory() as place:
        folder = pathlib.Path(place)
        # Python finds this matplotlib first, and cannot import it.
        (folder / "hidden").mkdir()
        (folder / "hidden/matplotlib.py").write_text("raise ModuleNotFoundError(name=__name__)\n")
        done = run(
            sys.executable,
            ["map", folder / "a.png"],
            b"",
            env={"PYTHONPATH": str(folder / "hidden"), "PATH": "/usr/bin:/bin"},
        )
        want(
            done.returncode == 2 and b"matplotlib is not installed" in done.stderr,
            f"without matplotlib it tells {done.stderr}",
        )
        python = drawing_python()
        if python:
            draws(python, lib.program(), folder)
        else:
            print("bufr_plot: skipped, no python3 here has matplotlib")


if __name__ == "__main__":
    main()
