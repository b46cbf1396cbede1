#!/usr/bin/env python3
"""Tests tables/convert.py against the program: convert.py must leave out and report the rows that the program rejects.

    tests/table_converter.py [PROGRAM]

Each row is tested in a separate table. In the lists of rows, the text after `|` is the reason for leaving the row out; it is
blank if the row is kept. Other tests cover sources with conflicting rows, and files with an invalid layout.
"""
import functools
import pathlib
import resource
import subprocess
import sys
import tempfile

from lib import TOP, finish, program

AS_IT_IS = {"encoding": "utf-8", "errors": "surrogateescape"}
HEADERS = {"B": "fxy,name,unit,scale,reference,width", "D": "fxy,member"}
WIDE, WHOLE = "the width must be from 1 to 63 bits", "the width of a string must be a multiple of 8 bits, from 8 to 2040"
SCALE, REFERENCE = "the scale must be a whole number from -127 to 127", "the reference value must be a signed 64-bit integer"
FACTOR = "a replication factor must be a number with scale 0, reference 0 and width 8"

# fxy,name,unit,scale,reference,width | the reason for leaving the row out, if any
ELEMENTS = f"""
063255,NAME,K,2,-7,16 |
064000,NAME,K,2,0,16 | X is over 63
012256,NAME,K,2,0,16 | Y is over 255
112101,NAME,K,2,0,16 | expected six digits, beginning with 0
12101,NAME,K,2,0,16 | expected six digits, beginning with 0
0121010,NAME,K,2,0,16 | expected six digits, beginning with 0
01210\u0661,NAME,K,2,0,16 | expected six digits, beginning with 0
012101,{'n' * 512},K,2,0,16 |
012101,{'n' * 513},K,2,0,16 | the name is longer than 512 bytes
012101,{'°' * 256},K,2,0,16 |
012101,{'°' * 257},K,2,0,16 | the name is longer than 512 bytes
012101,\udcb0\udcff,\udcb0C,2,0,16 |
012101,A\x01B,K,2,0,16 | the name contains a control character
012101,A\x1bB,K,2,0,16 | the name contains a control character
012101,A\x7fB,K,2,0,16 | the name contains a control character
012101,NAME,{'u' * 512},2,0,16 |
012101,NAME,{'u' * 513},2,0,16 | the unit is longer than 512 bytes
012101,NAME,A\x08B,2,0,16 | the unit contains a control character
012101,,,-127,0,16 |
012101,NAME,K,127,0,16 |
012101,NAME,K,128,0,16 | {SCALE}
012101,NAME,K,-128,0,16 | {SCALE}
012101,NAME,K,+1,0,16 | {SCALE}
012101,NAME,K,,0,16 | {SCALE}
012101,NAME,K,{'1' * 5000},0,16 | {SCALE}
012101,NAME,K,{'0' * 5000}1,{'0' * 5000}2,16 |
012101,NAME,K,\u0661,0,16 | {SCALE}
012101,NAME,K,-007,-0,0016 |
012101,NAME,K,2,-9223372036854775808,16 |
012101,NAME,K,2,9223372036854775807,16 |
012101,NAME,K,2,9223372036854775808,16 | {REFERENCE}
012101,NAME,K,2,-9223372036854775809,16 | {REFERENCE}
012101,NAME,K,2,1.5,16 | {REFERENCE}
012101,NAME,K,2,-,16 | {REFERENCE}
012101,NAME,K,2,0, | no width
012101,NAME,K,2,0,0 | {WIDE}
012101,NAME,K,2,0,1 |
012101,NAME,K,2,0,63 |
012101,NAME,K,2,0,64 | {WIDE}
012101,NAME,CCITT IA5,0,0,0 | {WHOLE}
012101,NAME,ccitt ia5,0,0,8 |
012101,NAME,CCITT IA5,0,0,12 | {WHOLE}
012101,NAME,CCITT IA5,0,0,2040 |
012101,NAME,CCITT IA5,0,0,2048 | {WHOLE}
012101,NAME,CCITT \u0131a5,0,0,12 |
031000,NAME,Numeric,0,0,1 |
031001,NAME,Code table 1,0,0,8 |
031002,NAME,Numeric,0,0,16 |
031001,NAME,Numeric,0,0,16 | {FACTOR}
031001,NAME,Numeric,1,0,8 | {FACTOR}
031001,NAME,Numeric,0,-1,8 | {FACTOR}
031001,NAME,CCITT IA5,0,0,8 | {FACTOR}
031011,NAME,Numeric,1,-1,9 |
""".strip("\n")
# fxy,member | the reason for leaving the row out, if any
SEQUENCES = """
363255,363254 |
364000,001001 | X is over 63
307256,001001 | Y is over 255
207060,001001 | expected six digits, beginning with 3
30706,001001 | expected six digits, beginning with 3
307060,263255 |
307060,163255 |
307060,064000 | member '064000': X is over 63
307060,107256 | member '107256': Y is over 255
307060,400000 | member '400000': expected six digits, beginning with 0-3
307060, | member '': expected six digits, beginning with 0-3
""".strip("\n")



def wreport_row(fxy: str, name: str, unit: str, scale: str, reference: str, width: str, rest: str = "") -> str:
    """Returns a line in the format of wreport's B*.txt."""
    return f" {fxy} {name:65}{unit:24}{scale:>4} {reference:>12} {width:>3}{rest}\n"


ELEMENT = "012101,NAME,K,2,0,16\n"
# The first of the two lines in which changes.py lists the elements whose definitions differ between versions 13 and 14.
CHANGED = "  elements changed: 13: 014001 014002 014003 014004 014011 014012 014013 014014 014017 014018 014028"
# Two small table sets, and the output of changes.py for them.
ONE = """\
001033,A \udcff,CODE TABLE,0,0,8
001034,B,Numeric,0,0,8
001035,C,K,0,0,8
001036,D,CCITT IA5,0,0,8
001037,E,FLAG TABLE,0,0,8
001038,F
001040,H,K,0,0,8
001041,I,K,0,0,8
""", "301001,001033\n301002,001033\n301003,001035\n301003,001036\n"
OTHER = """\
001033,A,COMMON CODE TABLE C-1,0,0,8
001035,C,M,0,0,9
001036,D,Numeric,0,0,8
001037,E,Code table,0,0,8
001038,F
001039,G,K,0,0,8
001040,H,K,1,0,8
001041,I,K,0,1,8
""", "301001,001034\n301003,001036\n301003,001035\n"
TOLD = """\
one to ot\\x1Bher
  elements changed: 4: 001035 001036 001040 001041
  elements removed: 1: 001034
  elements added: 1
  sequences changed: 2: 301001 301003
  sequences removed: 1: 301002
  sequences added: 0
"""
TWICE = "source: left out %s: the source contains conflicting rows for this descriptor\n"
# A file, its text, and what convert.py must produce: the exit status, the messages, and the rows of the new set without
# headers (None if there is no new set).
SOURCES = [
    ("B.csv", f"{HEADERS['B']}\n{ELEMENT}\n{ELEMENT}", 0, "", ELEMENT),
    ("B.csv", "", 2, "source/B.csv has no column 'fxy'\n", None),
    ("B.csv", f"\ufeff{HEADERS['B']}\n{ELEMENT}", 0, "", ELEMENT),
    ("B.csv", f'{HEADERS["B"]}\n012101,"A  NAME\n OF TWO LINES ",K,2,0,16\n', 0, "", "012101,A NAME OF TWO LINES,K,2,0,16\n"),
    (
        "B.csv",
        f"{HEADERS['B']}\n064000,A\x1bB,K,2,0,16\n064000,\udcff,K,2,0,16\n",
        1,
        "source: left out 064000 A\\x1bB K 2 0 16: X is over 63\nsource: left out 064000 \\udcff K 2 0 16: X is over 63\n",
        "",
    ),
    (
        "B.csv",
        f"{HEADERS['B']}\n064000,{'N' * 64},K,2,0,16\n064001,{'N' * 65},K,2,0,16\n",
        1,
        f"source: left out 064000 {'N' * 64} K 2 0 16: X is over 63\nsource: left out 064001 {'N' * 65} K 2 0..: X is over 63\n",
        "",
    ),
    ("BUFR_TableD_en_01.csv", "FXY1,FXY2\n301001,001001\n", 0, "", "301001,001001\n"),
    (
        "B.csv",
        f"{HEADERS['B']}\n{ELEMENT}012101,NAME,K,1,0,12\n012103,NAME,K,2,0,16\n",
        1,
        TWICE % "012101 NAME K 2 0 16" + TWICE % "012101 NAME K 1 0 12",
        "012103,NAME,K,2,0,16\n",
    ),
    (
        "D.csv",
        "fxy,member\n307060,001001\n307061,001001\n307060,001002\n",
        1,
        TWICE % "307060 001001" + TWICE % "307060 001002",
        "307061,001001\n",
    ),
    (
        "sequence.def",
        '"307060" = [ 001001, 12101, 001002 ]\n"307061" = [ ]\n"307062" = [ 001001 , 001002, ] # a \udcb0 comment\n',
        1,
        "source: left out 307060 001001 12101 001002: member '12101': expected six digits, beginning with 0-3\n"
        "source: left out 307061: no members\n",
        "307062,001001\n307062,001002\n",
    ),
    (
        "element.table",
        "#code|..\n\n012101|a|long|A | NAME|K|2|0|16|C|2|4\n",
        1,
        "source: left out 012101 A NAME K 2 0: the scale must be a whole number from -127 to 127\n",
        "",
    ),
    ("element.table", "#\n012101|a|long|NAME|K|2|0\n", 2, "source/element.table, line 2: expected at least eight fields, found 7\n", None),
    ("element.table", "012101|a|long|NO # \udcb0|K|2|0|16\n", 0, "", "012101,NO # \udcb0,K,2,0,16\n"),
    ("sequence.def", '"307060" = 001001\n', 2, 'source/sequence.def: expected "FXY" = [ MEMBER, ... ], found "307060" = 001001\n', None),
    (
        "B.csv",
        f"{HEADERS['B']}\n012101,A, B,K,2,0,16\n",
        2,
        "source/B.csv, line 2: found 7 fields, but the header has 6\n",
        None,
    ),
    ("D.csv", "fxy\n307060\n", 2, "source/D.csv has no column 'member'\n", None),
    ("other.csv", "", 2, "source contains no tables in a known format; see convert.py --help\n", None),
    # wreport's layout: units without spaces, a space after a sign, a name that fills its columns, and a two-byte letter.
    (
        "Bmade.txt",
        wreport_row("001210", "MADE UP", "CCITTIA5", "0", "0", "72")
        + wreport_row("001211", "A CODE", "CODETABLE 1211", "0", "0", "8")
        + wreport_row("001212", "A FLAG", "FLAG TABLE 1212", "0", "0", "8", "\r\r")
        + wreport_row("001213", "A COMMON ONE", "COMMONCODETABLEC-1", "0", "0", "16")
        + "\n"
        + wreport_row("007030", "N" * 65, "M", "1", "- 4000", "17", " M      1   5")
        + wreport_row("041003", "DISSOLVED NITRATES", "\u03bcMOL KG-1", "3", "0", "17")
        + wreport_row("041004", "OF NO WIDTH", "K", "3", "0", "0"),
        1,
        "source: left out 041004 OF NO WIDTH K 3 0 0: the width must be from 1 to 63 bits\n",
        "001210,MADE UP,CCITT IA5,0,0,72\n001211,A CODE,CODE TABLE 1211,0,0,8\n001212,A FLAG,FLAG TABLE 1212,0,0,8\n"
        f"001213,A COMMON ONE,COMMON CODE TABLE C-1,0,0,16\n007030,{'N' * 65},M,1,-4000,17\n"
        "041003,DISSOLVED NITRATES,\u03bcMOL KG-1,3,0,17\n",
    ),
    # If a sequence occurs twice, the first one is used. Counts can have one or three digits, and text can follow a member.
    (
        "Dmade.txt",
        " 307210  2 001210  of this centre\n           001211\r\n 307211  1 307210\n 307210  1 001212\n"
        " 307212100 001210\n" + "           001211\n" * 99 + " 307213 101 001210\n" + "            001212\n" * 100,
        0,
        "",
        "307210,001210\n307210,001211\n307211,307210\n307212,001210\n"
        + "307212,001211\n" * 99
        + "307213,001210\n"
        + "307213,001212\n" * 100,
    ),
    ("Dmade.txt", " 307210  2 001210\n", 2, "source/Dmade.txt: 307210 declares 2 members but has 1\n", None),
    ("Dmade.txt", "           001210\n", 2, "source/Dmade.txt, line 1: expected a sequence or one of its members\n", None),
    ("Dmade.txt", " D07210  1 B01210\n", 2, "source/Dmade.txt, line 1: expected a sequence or one of its members\n", None),
    ("Dmade.txt", "\n 307210  1 0012101\n", 2, "source/Dmade.txt, line 2: expected a sequence or one of its members\n", None),
    (
        "Bmade.txt",
        wreport_row("012101", "NAME", "K", "2", "0", ""),
        2,
        "source/Bmade.txt, line 1: expected a scale, a reference value and a width in columns 98 to 118\n",
        None,
    ),
]


def convert(place: pathlib.Path, name: str, text: str):
    """Runs convert.py on a source that contains one file, and returns the completed process. The new set is in `out`."""
    for folder in (place / "source", place / "out"):
        folder.mkdir(exist_ok=True)
        for path in folder.iterdir():
            path.unlink()
    (place / "source" / name).write_bytes(text.encode(**AS_IT_IS))
    words = [sys.executable, TOP / "tables/convert.py", "out", "source"]
    return subprocess.run(words, cwd=place, stdout=subprocess.PIPE, stderr=subprocess.PIPE, **AS_IT_IS)


def behind_headers(place: pathlib.Path):
    """Returns the rows of both tables in the new set, or None if the set was not written."""
    paths = [place / "out" / f"{table}.csv" for table in HEADERS]
    if not all(path.exists() for path in paths):
        return None
    return "".join(path.read_bytes().decode(**AS_IT_IS).partition("\n")[2] for path in paths)


def wrong_row(place: pathlib.Path, table: str, row: str, reason: str) -> str:
    """Returns an error message, which is empty if convert.py and the program treat this row as expected."""
    texts = {name: f"{header}\n" + f"{row}\n" * (name == table) for name, header in HEADERS.items()}
    done = convert(place, f"{table}.csv", texts[table])
    kept = behind_headers(place)
    if (done.returncode, bool(kept)) != ((1, False) if reason else (0, True)):
        return f"convert.py ends with {done.returncode} and keeps {kept!r}"
    if not (done.stderr.endswith(f": {reason}\n") and done.stderr.count("\n") == 1 if reason else done.stderr == ""):
        return f"convert.py says {done.stderr!r}"
    for name, text in texts.items():
        (place / f"{name}.csv").write_bytes(text.encode(**AS_IT_IS))
    words = [program(), "dump", "-B", "B.csv", "-D", "D.csv"]
    done = subprocess.run(words, cwd=place, stdin=subprocess.DEVNULL, stderr=subprocess.PIPE, **AS_IT_IS)
    said = (2, f"table {table}: 41 row 2\n") if reason else (0, "")
    return "" if (done.returncode, done.stderr) == said else f"the program says {done.stderr!r}"


def several_sources(place: pathlib.Path) -> list:
    """Returns complaints about sets from two sources. Rows in the last source take precedence, unless they are left out.

    Rows that are left out must be reported, whichever source contains them.
    """
    tables = {
        "fi\x1brst/B.csv": "012103,OLD,K,2,0,16\n064000,NAME,K,2,0,16\n012102,OLD,K,2,0,16\n012101,OLD,K,2,0,16\n",
        "fi\x1brst/D.csv": "301002,001002\n301001,001002\n301001,001001\n",
        "second/B.csv": "012102,NEW,K,2,0,64\n012101,NEW,K,2,0,16\n",
    }
    for name, rows in tables.items():
        (place / name).parent.mkdir(exist_ok=True)
        (place / name).write_text(f"{HEADERS[name[-5]]}\n{rows}")
    wanted = "012101,NEW,K,2,0,16\n012102,OLD,K,2,0,16\n012103,OLD,K,2,0,16\n301001,001002\n301001,001001\n301002,001002\n"
    told = "fi\\x1Brst: left out 064000 NAME K 2 0 16: X is over 63\n"
    last = f"second: left out 012102 NEW K 2 0 64: {WIDE}\n"
    wrongs = []
    for rows, more in ((tables["second/B.csv"], last), ("012101,NEW,K,2,0,16\n", "")):
        (place / "second/B.csv").write_text(f"{HEADERS['B']}\n{rows}")
        words = [sys.executable, TOP / "tables/convert.py", "both", "fi\x1brst", "second"]
        done = subprocess.run(words, cwd=place, stdout=subprocess.PIPE, stderr=subprocess.PIPE, text=True)
        made = "".join((place / f"both/{name}.csv").read_text().partition("\n")[2] for name in HEADERS)
        if (done.returncode, done.stdout, done.stderr, made) != (1, "", told + more, wanted):
            wrongs.append(f"two sources: {done}, {made!r}")
    # This directory contains both tables in wreport's format.
    (place / "pair").mkdir()
    (place / "pair/Bone.txt").write_text(wreport_row("001210", "MADE UP", "CCITTIA5", "0", "0", "72"))
    (place / "pair/Done.txt").write_text(" 307210  1 001210\n")
    done = subprocess.run([*words[:2], "out", "pair"], cwd=place, stdout=subprocess.PIPE, stderr=subprocess.PIPE)
    if done.returncode or behind_headers(place) != "001210,MADE UP,CCITT IA5,0,0,72\n307210,001210\n":
        wrongs.append(f"two files of wreport: {done}, {behind_headers(place)!r}")
    return wrongs


def failures(place: pathlib.Path) -> list:
    """Returns complaints about the handling of failures, such as a full disk, and about the output of changes.py.

    If convert.py cannot write a set, the old set must remain unchanged.
    """
    wrongs = []

    def run(name: str, *words, **more):
        words = [sys.executable, TOP / "tables" / name, *words]
        done = subprocess.run(words, cwd=place, stdout=subprocess.PIPE, stderr=subprocess.PIPE, text=True, **more)
        return done.returncode, done.stdout, done.stderr

    def holds(what: str, done, wanted) -> None:
        if done != wanted:
            wrongs.append(f"{what}: {done}, not {wanted}")

    convert(place, "B.csv", f"{HEADERS['B']}\n{ELEMENT}")
    before = behind_headers(place)
    for limit in (0, 100, 40_000):
        limited = functools.partial(resource.setrlimit, resource.RLIMIT_FSIZE, (limit, limit))
        done = run("convert.py", "out", TOP / "tables/wmo-39", preexec_fn=limited)
        holds(f"files of {limit} octets", done, (2, "", "convert.py: cannot write out/B.csv: File too large\n"))
        holds(f"the set behind files of {limit} octets", behind_headers(place), before)
        holds(f"what is left behind files of {limit} octets", len(list((place / "out").iterdir())), 2)
    for out in ("out", "new/out"):
        holds("a whole set", run("convert.py", out, TOP / "tables/wmo-39"), (0, "", ""))
    for name in ("Bone.txt", "Dother.txt"):
        (place / "several").mkdir(exist_ok=True)
        (place / "several" / name).touch()
    holds("what is left", len(list((place / "out").iterdir())), 2)
    for told, words in (
        ("expected OUT and at least one SOURCE; see convert.py --help", ["out"]),
        (r"no\x1Bsuch contains no tables in a known format; see convert.py --help", ["out", "no\x1bsuch"]),
        ("Bnosuch.txt contains no tables in a known format; see convert.py --help", ["out", "Bnosuch.txt"]),
        ("several contains several wreport tables; pass one of its B*.txt files as SOURCE", ["out", "several"]),
        ("long/B.csv, line 2: field larger than field limit (131072)", ["out", "long"]),
    ):
        (place / "long").mkdir(exist_ok=True)
        (place / "long/B.csv").write_text(f"{HEADERS['B']}\n012101,{'N' * 200_000},K,2,0,16\n")
        holds(f"convert.py {words}", run("convert.py", *words), (2, "", f"convert.py: {told}\n"))
    holds("convert.py of a full device", run("convert.py", "/dev/full", TOP / "tables/wmo-39")[0], 2)
    old = TOP / "tables/wmo-39"
    for told, words in (
        ("expected OLD and NEW; see changes.py --help", [old]),
        ("expected OLD and NEW; see changes.py --help", [old, old, old]),
        ("nosuch/B.csv: No such file or directory", ["nosuch", old]),
        ("out/D.csv has no column 'member'", [old, "out"]),
        ("empty/B.csv has no column 'fxy'", [old, "empty"]),
    ):
        (place / "empty").mkdir(exist_ok=True)
        (place / "empty/B.csv").touch()
        (place / "out/D.csv").write_text("fxy\n")
        holds(f"changes.py {words}", run("changes.py", *words), (2, "", f"changes.py: {told}\n"))
    status, told, _ = run("changes.py", TOP / "tables/wmo-13", TOP / "tables/wmo-14")
    holds("changes.py", (status, told.splitlines()[:2]), (0, ["wmo-13 to wmo-14", CHANGED]))
    holds("the next line of changes.py", told.splitlines()[2][:10], "    014029")
    for name, elements, sequences in (("one", *ONE), ("ot\x1bher", *OTHER)):
        (place / name).mkdir()
        (place / name / "B.csv").write_text(f"\ufeff{HEADERS['B']}\n{elements}", **AS_IT_IS)
        (place / name / "D.csv").write_text(f"{HEADERS['D']}\n{sequences}")
    holds("changes.py of two small sets", run("changes.py", "one/", "ot\x1bher"), (0, TOLD, ""))
    for name in ("convert.py", "changes.py"):
        holds(f"{name} --help", run(name, "--help")[0], 0)
    return wrongs


def main() -> None:
    wrongs = []
    with tempfile.TemporaryDirectory() as folder:
        place = pathlib.Path(folder)
        for table, lines in (("B", ELEMENTS), ("D", SEQUENCES)):
            for line in lines.split("\n"):
                row, reason = line.split(" |")
                wrong = wrong_row(place, table, row, reason.strip())
                wrongs += [f"{row[:60]!a}: {wrong}"] * bool(wrong)
        for name, text, status, told, kept in SOURCES:
            done = convert(place, name, text)
            told = f"convert.py: {told}" if status == 2 else told
            if (done.returncode, done.stderr, behind_headers(place)) != (status, told, kept):
                wrongs.append(f"{text!a} in {name}: {done.returncode}, {done.stderr!r}, {behind_headers(place)!r}")
        wrongs += several_sources(place) + failures(place)
    finish(wrongs)


if __name__ == "__main__":
    main()
