"""How the readers of feeds read texts: coordinates, instants, names, spans and speeds.

Coordinates stay texts from end to end, and what cannot be read is said with its place.
"""

from __future__ import annotations

import argparse
import math
import re
from collections.abc import Callable, Iterable, Sequence
from contextlib import suppress
from datetime import date
from decimal import Decimal
from functools import lru_cache
from typing import Any, TypeVar

Made = TypeVar("Made")
NEEDS_QUOTES = re.compile('[",\r\n]')
PLAIN_DECIMAL = re.compile(r"[+-]?(?:[0-9]+\.?[0-9]*|\.[0-9]+)")
# A decimal with an exponent, as pandas writes small ones.
EXPONENT = re.compile(r"[+-]?(?:[0-9]{1,20}\.?[0-9]{0,20}|\.[0-9]{1,20})[eE][+-]?[0-9]{1,2}")
# Plain decimals from -180 to 180, and from -90 to 90, in their usual forms.
LONGITUDE = re.compile(r"-?(?:[0-9]{1,2}|1[0-7][0-9])(?:\.[0-9]{1,20})?")
LATITUDE = re.compile(r"-?[0-8]?[0-9](?:\.[0-9]{1,20})?")
# What plain decimals are made of.
DECIMAL_SIGNS = b"-.0123456789"
# What stands for a longitude or a latitude that is not known.
NO_LONGITUDE = re.compile(r"181(?:\.0*)?")
NO_LATITUDE = re.compile(r"91(?:\.0*)?")
CLOCK = re.compile(r"([01][0-9]|2[0-3]):([0-5][0-9]):([0-5][0-9])(?:\.([0-9]+))?")
INSTANT = re.compile(
    r"([0-9]{4})-([0-9]{2})-([0-9]{2})[Tt ]([0-9:]{8}(?:\.[0-9]+)?)"
    r"(?: ?(?:[Zz]|UTC|GMT)|([+-])([0-9]{2}):?([0-9]{2})?)?"
)
DAY = re.compile(r"([0-9]{4})-([0-9]{2})-([0-9]{2})")
DURATION = re.compile(r"([0-9]{1,9}(?:\.[0-9]{1,3})?)([smhd]?)")
SECONDS = {"": 1, "s": 1, "m": 60, "h": 3600, "d": 86400}
SPEED = re.compile(r"([0-9]{1,9}(?:\.[0-9]{1,3})?) ?(m/s|km/h|kn|mph)")
# Metres a second.
SPEEDS = {"m/s": 1, "km/h": 1 / 3.6, "kn": 1852 / 3600, "mph": 1609.344 / 3600}
GREATEST = Decimal(100_000_000)


class Refused(Exception):
    """Why nothing can be made of the files, in the words that are printed."""


class BadLine(Exception):
    """Why a line cannot be read."""


class LeftOut(Exception):
    """Why a line that can be read gives no position, in words that follow a number."""


# Places and names


def exact_units(text: str) -> int:
    """Any plain decimal in units of 10^-7, rounded as the file format does."""
    scaled = Decimal(text).scaleb(7)
    return int(scaled.quantize(Decimal(1), rounding="ROUND_HALF_UP"))


def plain_decimal(text: str, what: str) -> str:
    """The text of a coordinate, as it stands, where it is one that the profile reads."""
    text = text.strip(" \t")
    if EXPONENT.fullmatch(text):
        text = f"{Decimal(text):f}"
    if not PLAIN_DECIMAL.fullmatch(text) or len(text) > 40:
        raise BadLine(f"{what} {text!r} is not a plain decimal")
    if len(text) > 8 and abs(Decimal(text)) > GREATEST:
        raise BadLine(f"{what} {text!r} is out of range")
    return text


def degrees(longitude: str, latitude: str, names: Sequence[str]) -> tuple[str, ...]:
    """A place of a longitude and a latitude, as texts; `names` are what they are called.

    Receivers without a fix say 0 0, or 181 and 91: that is no place.
    """
    if LONGITUDE.fullmatch(longitude) and LATITUDE.fullmatch(latitude):
        if latitude.strip("-0.") or longitude.strip("-0."):
            return longitude, latitude
        raise LeftOut("at 0 0")
    if NO_LONGITUDE.fullmatch(longitude) or NO_LATITUDE.fullmatch(latitude):
        raise LeftOut("without a position")
    place = plain_decimal(longitude, names[0]), plain_decimal(latitude, names[1])
    for text, most, what in zip(place, (180, 90), names):
        if abs(Decimal(text)) > most:
            raise BadLine(f"{what} {text!r} is not from -{most} to {most}")
    if not any(map(Decimal, place)):
        raise LeftOut("at 0 0")
    return place


def numbers(texts: Sequence[str]) -> list[float]:
    """The numbers of texts that are plain decimals, without a +; of others it may be none."""
    if not "".join(texts).encode(errors="replace").translate(None, DECIMAL_SIGNS) and max(map(len, texts)) <= 40:
        with suppress(ValueError):
            return list(map(float, texts))
    return [float(text) if LONGITUDE.fullmatch(text) else math.nan for text in texts]


@lru_cache(maxsize=50_000)
def feature_name(text: str, what: str) -> str:
    """A feature's name, where the profile has a place for it."""
    name = text.strip(" \t")
    if not name:
        raise BadLine(f"{what} is blank")
    if name.startswith("@"):
        raise BadLine(f"{what} {name!r} begins with @, as only header lines do")
    if len(utf8(name, what)) > 255:
        raise BadLine(f"{what} has more than 255 bytes")
    return name


def utf8(text: str, what: str) -> bytes:
    try:
        return text.encode()
    except UnicodeEncodeError:
        raise BadLine(f"{what} is not UTF-8 (see --encoding)") from None


# Fields


def field(text: str) -> str:
    """A field of CSV, in quotes where it needs them."""
    if NEEDS_QUOTES.search(text):
        return '"' + text.replace('"', '""') + '"'
    return text


def further_fields(values: tuple[str, ...]) -> str:
    """Fields that stand behind others, each with its comma."""
    return "".join(["," + field(value) for value in values])


# Moments


@lru_cache(maxsize=1000)
def midnight(year: str, month: str, day: str) -> int:
    """The first moment of a day in UTC, from the three numbers as texts."""
    days = date(int(year), int(month), int(day)).toordinal() - date(1970, 1, 1).toordinal()
    if int(year) > 9998:
        raise ValueError("the profile's last year is 9998")
    return days * 86_400_000


def moment(day: Sequence[str], clock: str) -> int:
    """A moment from a day (three texts) and hh:mm:ss, rounded down to the millisecond."""
    parts = CLOCK.fullmatch(clock)
    if not parts:
        raise ValueError("no time of day")
    hour, minute, second, fraction = parts.groups()
    thousandths = int((fraction + "000")[:3]) if fraction else 0
    seconds = int(hour) * 3600 + int(minute) * 60 + int(second)
    return midnight(*day) + seconds * 1000 + thousandths


@lru_cache(maxsize=10_000)
def read_instant(text: str) -> int:
    """The moment of 2024-06-03T09:00:00Z, or with another offset; without one it is in UTC."""
    parts = INSTANT.fullmatch(text)
    if not parts:
        raise ValueError("no instant")
    *day, clock, sign, hours, minutes = parts.groups()
    offset = (int(hours) * 60 + int(minutes or 0)) * 60_000 if sign else 0
    return moment(day, clock) + (offset if sign == "-" else -offset)


class Known(dict[Any, Made]):
    """What was made of texts or numbers that were met: of the last 20,000 or so."""

    def __init__(self, make: Callable[[Any], Made]) -> None:
        super().__init__()
        self.make = make

    def __missing__(self, given: Any) -> Made:
        if len(self) >= 20_000:
            self.clear()
        self[given] = made = self.make(given)
        return made


class Clock:
    """Reads instants that begin with a day of ten signs and a sign between, and go on with hh:mm:ss.

    Days that were met are known, and so are all minutes and seconds; what else there is, `read` reads.
    """

    def __init__(self, read: Callable[[str], int]) -> None:
        self.read = read
        # Few seconds of a feed are new, since its lines are mostly in the order of time.
        self.known = Known(self.moment)
        self.days: dict[str, int] = {}
        pairs = [f"{number:02}" for number in range(60)]
        self.minutes = {
            f"{hour}:{minute}:": (place * 60 + at) * 60_000
            for place, hour in enumerate(pairs[:24])
            for at, minute in enumerate(pairs)
        }
        self.seconds = {second: place * 1000 for place, second in enumerate(pairs)}

    def moment(self, text: str) -> int:
        """The moment of an instant, in milliseconds since 1970."""
        try:
            return self.days[text[:11]] + self.minutes[text[11:17]] + self.seconds[text[17:]]
        except KeyError:
            return self.met(text)

    def moments(self, texts: Iterable[str]) -> list[int]:
        """The moments of instants."""
        return list(map(self.known.__getitem__, texts))

    def met(self, text: str) -> int:
        """The moment of an instant whose day may be new."""
        moment = self.read(text)
        minutes, seconds = self.minutes.get(text[11:17]), self.seconds.get(text[17:])
        if minutes is not None and seconds is not None and len(self.days) < 1000:
            self.days[text[:11]] = moment - minutes - seconds
        return moment


def instant_or_day(text: str) -> int:
    """The moment of an instant, or of the midnight with which a day begins."""
    day = DAY.fullmatch(text)
    return midnight(*day.groups()) if day else read_instant(text)


def instant(milliseconds: int) -> str:
    """A moment as an instant in UTC."""
    days, rest = divmod(milliseconds, 86_400_000)
    hours, rest = divmod(rest, 3_600_000)
    minutes, rest = divmod(rest, 60_000)
    day = date.fromordinal(date(1970, 1, 1).toordinal() + days).isoformat()
    whole, part = divmod(rest, 1000)
    fraction = f".{part:03}" if part else ""
    return f"{day}T{hours:02}:{minutes:02}:{whole:02}{fraction}Z"


# Words of the command line


def duration(text: str) -> int:
    """A span as --gap takes it, in milliseconds."""
    parts = DURATION.fullmatch(text)
    if not parts or not Decimal(parts[1]):
        raise argparse.ArgumentTypeError(f"{text!r} is no time such as 90, 90s, 10m, 6h or 1d")
    return int(Decimal(parts[1]) * SECONDS[parts[2]] * 1000)


def speed(text: str) -> float | None:
    """A speed as --max-speed takes it, in metres a second; nothing for `off`."""
    if text == "off":
        return None
    parts = SPEED.fullmatch(text)
    if not parts or not Decimal(parts[1]):
        raise argparse.ArgumentTypeError(f"{text!r} is no speed such as 50kn, 90km/h, 56mph or 25m/s, nor off")
    return float(parts[1]) * SPEEDS[parts[2]]


def bound(text: str) -> int:
    """A moment as --from and --to take it."""
    try:
        return instant_or_day(text)
    except ValueError:
        raise argparse.ArgumentTypeError(f"{text!r} is no instant such as 2024-06-03T09:00:00Z, nor a day") from None


def number(text: str) -> float:
    """A plain decimal, near enough for a picture or a rectangle of a feed."""
    if not PLAIN_DECIMAL.fullmatch(text):
        raise ValueError("no plain decimal")
    return float(text)


def several(count: int, what: str) -> str:
    return f"{count} {what}" + "s" * (count != 1)
