"""The folder in which tools/command_lines runs each command line: feeds, scripts, zones, rectangles and stores. Most of
them have a fault."""

import hashlib
import json
import random
import subprocess
from pathlib import Path

PAGE, HEAD_BYTES, LEAF = 4096, 8, 2
T1, T2 = "2020-01-01T00:00:00Z", "2020-01-01T00:01:00Z"
HEAD = "@stboundedby,local,2D,,,2020-01-01T00:00:00Z,,sec\n@columns,mfidref,trajectory,kind,xsd:token\n"
SOLID = HEAD.replace("2D", "3D")
GOOD = {
    "one.csv": HEAD + "a,0,10,0 0 10 0,x\nb,0,10,0 5 10 5 20 5,\na,15,20,9 0 0 -3,\n",
    "two.csv": HEAD + "a,20,30,10 0 0 0,y\nc,0,30,3 3,z\n",
    "minutes.csv": HEAD.replace(",sec", ",minute") + "m,0.5,1,0 0 1 1,q\n",
    "absolute.csv": HEAD.replace(",sec", ",absolute") + f"n,{T1},{T2},0 0 1 1,q\n",
    "quoted.csv": HEAD + '"x, ""y""",0,1,1 1 2 2,"a,b"\n',
    "solid.csv": SOLID + "s,0,10,0 0 0 4 4 4,\n",
    "many.csv": HEAD
    + "".join(f"m{n % 5},{n},{n + 5},{n % 17} {n % 11} {n % 13} {n % 7},k{n % 3}\n" for n in range(400)),
    "none.csv": HEAD,
}
# By the code that each is refused with, in a store of `one.csv`; what is in more than one way begins so.
BAD = {
    "f1.csv": HEAD.encode() + b"\xff,0,1,0 0\n",
    "f2.csv": HEAD * 2,
    "f3.csv": "@stboundedby,local,2D\n",
    "f4.csv": HEAD.replace("2D", "4D"),
    "f5.csv": HEAD.replace("2020-01-01T00:00:00Z", "noon"),
    "f5-range.csv": HEAD.replace("2020-01-01T00:00:00Z", "9999-06-01T00:00:00Z"),
    "f6.csv": HEAD.replace(",sec", ",hour"),
    "f7.csv": HEAD.replace("mfidref", "id"),
    "f8.csv": "a,0,1,0 0 1 1\n",
    "f8-end.csv": HEAD.split("\n", maxsplit=1)[0],
    "f9.csv": HEAD.replace("local", "global") + "n,0,1,0 0\n",
    "f9-solid.csv": SOLID + "n,0,1,0 0 0\n",
    "f10.csv": HEAD.replace("kind", "sort") + "n,0,1,0 0\n",
    "f11.csv": HEAD + "a,0,1\n",
    "f11-more.csv": HEAD + "n,0,1,0 0,x,y\n",
    "f12.csv": HEAD + " ,0,1,0 0\n",
    "f12-long.csv": HEAD + "n" * 256 + ",0,1,0 0\n",
    "f13.csv": HEAD + "a,zero,1,0 0\n",
    "f13-range.csv": HEAD + "n,0,1000000000001,0 0\n",
    "f14.csv": HEAD + "a,1,1,0 0\n",
    "f15.csv": HEAD + "n,0,1,0 zero\n",
    "f15-range.csv": HEAD + "n,0,1,0 100000001\n",
    "f16.csv": HEAD + "n,0,1,0 0 1\n",
    "f16-none.csv": HEAD + "n,0,1,\n",
    "f17.csv": HEAD + "n,0,0.001,0 0 1 1 2 2\n",
    "f18.csv": HEAD + "a,5,6,0 0 1 1\n",
    "ais.csv": "MMSI,BaseDateTime,LAT,LON\n1,2020-01-01T00:00:00,1,2\n",
    "movebank.csv": "event-id,location-long,location-lat\n1,1,2\n",
    "gpx.csv": '<?xml version="1.0"?>\n<gpx></gpx>\n',
    "empty.csv": "",
}
# Lines of scripts, by the code that they are refused with.
LINES = {
    "": ["", "# a comment", "count", "count\r", "write", "trajectory a", 'trajectory x, "y"', "trajectory nobody"],
    "boxes": ["box 0 0 5 5 {T}", "box -1e8 0 5 5 {T}", "box 0 0 5 5 2031-01-01T00:00:00Z 2032-01-01T00:00:00Z"],
    "legs": [f"legs {it} 0 0 5 1 {{T}}" for it in ("ever", "always", "enters", "leaves", "crosses", "bypasses")],
    "features": [
        f"features {it} 4 -1 6 9 {{T}}" for it in ("ever", "always", "enters", "leaves", "crosses", "bypasses")
    ],
    "far": ["legs ever 100 100 200 200 {T}", "box 0 100 1 200 {T}", "features ever 50 0 60 1 {T}"],
    "q1": [b"count \xff", b"\xef\xbb\xbfcount"],
    "q2": ["COUNT", "cuont", "caf\u00e9", "load\u00a0one.csv", "select * from legs"],
    "q3": ["write now", "count 1", "trajectory", "load", "box 0 0 5 {T}", "legs ever", "features"],
    "q4": ["legs near 0 0 1 1 {T}", "features EVER 0 0 1 1 {T}"],
    "q5": ["box a 0 1 1 {T}", "legs ever 0 0 1 100000001 {T}", "box 0 1e3 1 1 {T}"],
    "q6": ["box 5 0 0 5 {T}", "features ever 0 5 5 0 {T}"],
    "q7": [
        "box 0 0 1 1 noon {T2}",
        "legs ever 0 0 1 1 {T1} 2020-01-01T00:00:00",
        "box 0 0 1 1 {T1} 9999-06-01T00:00:00Z",
    ],
    "q8": ["box 0 0 1 1 {T2} {T1}"],
    "q9": ["load absent.csv"],
}
TRIANGLE, GATE = "POLYGON ((0 0, 8 0, 4 6, 0 0))", "LINESTRING (5 -1, 5 6)"
SHAPES = {
    "zones.csv": [("three", TRIANGLE), ("gate", GATE), ("far", "POLYGON ((90 90, 91 90, 91 91, 90 90))")],
    "several.csv": [("two", "MULTIPOLYGON (((0 0, 2 0, 2 2, 0 0)), ((4 4, 9 4, 9 9, 4 4), (5 5, 6 5, 6 6, 5 5)))")],
    "z3-empty.csv": [("", TRIANGLE)],
    "z3-long.csv": [("n" * 256, TRIANGLE)],
    "z3-twice.csv": [("three", TRIANGLE), ("three", GATE)],
    "z4.csv": [("point", "POINT (1 1)")],
    "z4-open.csv": [("three", TRIANGLE[:-1])],
    "z4-long.csv": [("line", "LINESTRING (0 0, 1 1, 2 2)")],
    "z5.csv": [("three", TRIANGLE.replace("6", "x"))],
    "z5-exponent.csv": [("three", TRIANGLE.replace("6", "6e1"))],
    "z5-range.csv": [("three", TRIANGLE.replace("6", "100000001"))],
    "z6.csv": [("three", TRIANGLE.replace(", 0 0))", ", 0 1))"))],
    "z6-short.csv": [("two", "POLYGON ((0 0, 1 1, 0 0))")],
    "z6-gate.csv": [("gate", "LINESTRING (1 1, 1 1)")],
    "z7.csv": [("none", "POLYGON EMPTY")],
    "z7-third.csv": [("three", "POLYGON Z ((0 0 0, 8 0 0, 4 6 0, 0 0 0))")],
}
OTHER_ZONES = {
    "z1.csv": b"name,wkt\n\xff,x\n",
    "z2.csv": "name,shape\nthree,x\n",
    "z2-twice.csv": "name,wkt,name\n",
    "z2-empty.csv": "",
    "no-zones.csv": "wkt,name\n",
    "shapes.geojson": json.dumps({"type": "FeatureCollection", "features": []}),
    "shapes.shp": b"\0\0\x27\x0a" + bytes(96),
    "shapes.gpkg": b"SQLite format 3\0" + bytes(84),
    "shapes.kml": "<kml></kml>",
}
RECTS = {
    "rects.csv": "name,x1,y1,x2,y2\nhere,0,0,5,5\nfar,90,90,91,91\n",
    "rects-other.csv": "Y2,note,NAME,X1,Y1,X2\n5,n,here,0,0,5\n",
    "rects-none.csv": "name,x1,y1,x2,y2\n",
    "rects-empty.csv": "",
    "rects-column.csv": "name,x1,y1,x2\nhere,0,0,5\n",
    "rects-number.csv": "name,x1,y1,x2,y2\nhere,0,0,5,x\n",
    "rects-order.csv": "name,x1,y1,x2,y2\nhere,5,0,0,5\n",
    "rects-name.csv": "name,x1,y1,x2,y2\n ,0,0,5,5\n",
    "rects-twice.csv": "name,x1,y1,x2,y2\nhere,0,0,5,5\nhere,1,1,2,2\n",
    "rects-bytes.csv": b"name,x1,y1,x2,y2\n\xff,0,0,5,5\n",
}
TEXTS = {**GOOD, **BAD, **OTHER_ZONES, **RECTS, "letter": "Dear captain", "zeros": bytes(PAGE), "bytes": ""}
# Words in the place of a name that name no file that can be read.
NAMES = [
    "absent",
    "none/there",
    "one.csv/there",
    "folder",
    "nowhere",
    "loop",
    "",
    "n" * 300,
    "\udcff",
    "a\nb",
    "\u202ex",
]


def line_of(line: str | bytes) -> bytes:
    """A line of a script, its moments filled in."""
    if isinstance(line, bytes):
        return line
    return line.replace("{T}", f"{T1} {T2}").replace("{T1}", T1).replace("{T2}", T2).encode()


def scripts() -> dict[str, bytes]:
    """A script of each line alone, of all lines of a code, and of each load."""
    texts = {f"load-{name}.txt": f"load {name}\n".encode() for name in (*GOOD, *BAD)}
    for code, lines in LINES.items():
        lines_ = [line_of(line) for line in lines]
        texts |= {f"line-{code}-{place}.txt": line for place, line in enumerate(lines_)}
        texts[f"lines-{code}.txt"] = b"\n".join(lines_)
    texts["ask.txt"] = b"\n".join(map(line_of, [*LINES[""], *LINES["boxes"], *LINES["legs"], *LINES["features"]]))
    texts["both.txt"] = b"load one.csv\nload two.csv\ncount\n"
    return texts


def random_scripts(chance: random.Random) -> dict[str, bytes]:
    """Scripts of a few lines each, of all codes and of loads."""
    known = [line_of(line) for lines in LINES.values() for line in lines]
    known += [f"load {name}".encode() for name in (*GOOD, *BAD)]
    texts = {}
    for number in range(40):
        lines = chance.choices(known, k=chance.randrange(1, 12))
        texts[f"random-{number}.txt"] = chance.choice([b"\n", b"\r\n"]).join(lines) + chance.choice([b"", b"\n"])
    return texts


def zone_texts() -> dict[str, str]:
    return {name: "name,wkt\n" + "".join(f'{it},"{wkt}"\n' for it, wkt in shapes) for name, shapes in SHAPES.items()}


def sealed(page: bytes) -> bytes:
    """A page with the digest of its other bytes."""
    return page[:-32] + hashlib.sha256(page[:-32]).digest()


def altered(store: bytes, at: int, text: bytes) -> bytes:
    """A store with other bytes at a place, in a page that is sealed again."""
    text = store[:at] + text + store[at + len(text) :]
    begin = at - at % PAGE
    return text[:begin] + sealed(text[begin : begin + PAGE]) + text[begin + PAGE :]


def former_leaf(page: bytes) -> bytes:
    """A leaf as version 1 has it: legs of 64 bytes, without z."""
    head, count = page[: HEAD_BYTES + 16], int.from_bytes(page[20:22], "big")
    legs = [page[24 + 80 * place : 104 + 80 * place] for place in range(count)]
    text = head + b"".join(leg[:40] + leg[48:64] + leg[72:] for leg in legs)
    return sealed(text.ljust(PAGE, b"\0"))


def former(store: bytes) -> bytes:
    """The store of two dimensions as version 1 has it."""
    pages = [store[begin : begin + PAGE] for begin in range(0, len(store), PAGE)]
    text = b"".join(former_leaf(page) if page[4] == LEAF else page for page in pages)
    return altered(altered(text, 12, (1).to_bytes(4, "big")), 64, bytes(4))


def stores(sound: bytes) -> dict[str, bytes]:
    """Stores of each form, of one that is sound."""
    old = former(sound)
    texts = {
        "left": sound,
        "left.mftb-copy": sound[:5000],
        "left.mftb-lock": b"",
        "cut": sound[:-PAGE],
        "rest": sound + b"rest",
        "unfinished": altered(sound, 16, bytes(4)),
        "state": altered(sound, 16, b"\0\0\0\7"),
        "version-3": altered(sound, 12, b"\0\0\0\3"),
        "letters": altered(sound, 8, b"NFTB"),
        "root": altered(sound, 40, b"\0\0\xff\xff"),
        "text": altered(sound, 56, b"\xff" * 8),
        "former": old,
        "former-unfinished": altered(old, 16, bytes(4)),
    }
    for number in range(len(sound) // PAGE):
        at = number * PAGE + 99
        texts[f"bent-{number}"] = sound[:at] + bytes([sound[at] ^ 1]) + sound[at + 1 :]
        texts[f"lies-{number}"] = altered(sound, number * PAGE + 50, b"\x7f\7")
        texts[f"former-bent-{number}"] = old[:at] + bytes([old[at] ^ 1]) + old[at + 1 :]
    return texts


def fill(folder: Path, program: Path, chance: random.Random) -> None:
    """Makes the folder. A program loads the sound stores."""
    for name, text in {**TEXTS, **scripts(), **random_scripts(chance), **zone_texts()}.items():
        (folder / name).write_bytes(text if isinstance(text, bytes) else text.encode())
    (folder / "folder").mkdir()
    (folder / "link").symlink_to("sound")
    (folder / "nowhere").symlink_to("gone")
    (folder / "loop").symlink_to("loop")
    loads = {"sound": "one.csv", "large": "many.csv", "solid": "solid.csv"}
    for store, name in loads.items():
        words = [program, "run", "-q", store, f"load-{name}.txt", name]
        subprocess.run(words, cwd=folder, check=True, capture_output=True)
    words = [program, "run", "-q", "--most-legs", "4", "--most-features", "2", "small", "load-one.csv.txt", "one.csv"]
    subprocess.run(words, cwd=folder, check=True, capture_output=True)
    for name, text in stores((folder / "sound").read_bytes()).items():
        (folder / name).write_bytes(text)
