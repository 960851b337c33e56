"""The years that a time is read and written in, by the calendar (paper 02, request 4), for the vectors; and a time code as table 12 has it."""
import datetime

# In the span: both ends, leap years (the century 2000 among them) and common ones. Outside it: the years next to it, the century 2100, and
# numbers that a narrower type would cut to a year in the span.
INSIDE = (1999, 2000, 2001, 2003, 2004, 2096, 2098, 2099)
OUTSIDE = (0, 1, 1998, 2100, 2104, (1 << 8) + 2000, (1 << 16) + 2000, (1 << 32) + 2004, (1 << 64) - 1)


def in_span(year):
    return 1999 <= year <= 2099


def last_day(year):
    """The number of 31 December in its year."""
    return datetime.date(year, 12, 31).timetuple().tm_yday


def read_time(year, code):
    """The spacecraft and the instant, in sixteenths of a millisecond, of seven bytes; None where they are no time of the year."""
    text = code.hex()
    if not text[1:13].isdigit():
        return None
    day, hour, minute, second, milli = (int(text[a:b]) for a, b in ((1, 4), (4, 6), (6, 8), (8, 10), (10, 13)))
    if not (1 <= day <= last_day(year) and hour < 24 and minute < 60 and second < 60):
        return None
    seconds = day * 86400 + hour * 3600 + minute * 60 + second
    return int(text[0], 16), (seconds * 1000 + milli) * 16 + int(text[13], 16)
