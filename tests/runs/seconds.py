"""Which seconds a log tells, and the list of its runs and gaps, worked out second by second. Written from document 02, W-206 and W-207, and not from the command.

A second is a pair: the number of its minute since the year 1, and the second in it, 60 in a leap second.
"""
import datetime
import random
import re

# The strings of some forms, and what their groups are: year, month, day, weekday, hour, minute, second.
STRINGS = {
    "racal": (rb"XGU(\d\d)(\d\d)(\d\d)(\d\d)(\d\d)(\d\d)()\r", "ymdHMSw"),
    "computime": (rb"T:(\d\d):(\d\d):(\d\d):0(\d):(\d\d):(\d\d):(\d\d)\r\n", "ymdwHMS"),
    "standard": (rb"\x02D:(\d\d)\.(\d\d)\.(\d\d);T:(\d);U:(\d\d)\.(\d\d)\.(\d\d);....\x03", "dmywHMS"),
}


def at(text):
    """The second of a text such as 2024-05-04 20:00:00."""
    date, time = text.split()
    hour, minute, second = map(int, time.split(":"))
    return datetime.date.fromisoformat(date).toordinal() * 1440 + hour * 60 + minute, second


def told(second):
    minute, second = second
    return "%s %02d:%02d:%02d" % (datetime.date.fromordinal(minute // 1440).isoformat(), minute // 60 % 24, minute % 60, second)


def number(second):
    """60 to each minute, so that second 60 has the number of the next one."""
    return second[0] * 60 + second[1]


def every(text, seconds, step=1, but=()):
    """The seconds from a time on, or every one of so many."""
    begin, but = number(at(text)), set(but)
    return [divmod(begin + second, 60) for second in range(0, seconds, step) if second not in but]


def racal(seconds):
    """The strings of seconds."""
    days = {}
    for minute, _ in seconds:
        day = minute // 1440
        days[day] = days.get(day) or datetime.date.fromordinal(day).strftime("XGU%y%m%d")
    return "".join("%s%02d%02d%02d\r" % (days[minute // 1440], minute // 60 % 24, minute % 60, second) for minute, second in seconds).encode()


def heard_in(form, data):
    """The seconds that a log tells. A string whose weekday is not that of its date is none."""
    pattern, letters = STRINGS[form]
    out, days = [], {}
    for found in re.finditer(pattern, data):
        part = {letter: int(text or 0) for letter, text in zip(letters, found.groups())}
        key = part["y"], part["m"], part["d"]
        days[key] = days.get(key) or datetime.date(part["y"] + (1900 if part["y"] >= 80 else 2000), part["m"], part["d"])
        if part["w"] in (0, days[key].isoweekday()):
            out.append((days[key].toordinal() * 1440 + part["H"] * 60 + part["M"], part["S"]))
    return out


def follows(second, last):
    """59 is followed by 60 or by the next minute, 60 by the next minute."""
    if second[0] == last[0]:
        return second[1] == last[1] + 1
    return second == (last[0] + 1, 0) and last[1] >= 59


def between(last, first):
    """The row between a run that ends with one second and a run that begins with the other."""
    if first == last:
        return "repeat", None, None, None
    if first > last:
        begin, end = last[0] * 60 + min(last[1] + 1, 60), number(first)
        return "missing", told(divmod(begin, 60)), told(divmod(end - 1, 60)), end - begin
    # behind a second 60 that was heard there is one more than the numbers have
    return "back", None, None, number(last) - number(first) + (first[1] == 60 and last[0] > first[0])


def listed(seconds):
    """The rows of the list of one rack: kind, first, last, seconds."""
    if not seconds:
        return []
    rows, run = [], []
    for second in seconds:
        if run and not follows(second, run[-1]):
            rows += [("heard", told(run[0]), told(run[-1]), len(run)), between(run[-1], second)]
            run = []
        run.append(second)
    return rows + [("heard", told(run[0]), told(run[-1]), len(run))]


def listed_of_racks(logs):
    """The rows of all racks, each with its rack; those of one do not depend on the other."""
    return [(rack, *row) for rack, seconds in enumerate(logs) for row in listed(seconds)]


def wandering(seed):
    """Seconds of a clock that goes on, leaves some out, repeats, is set back and has leap seconds."""
    draw = random.Random(seed)
    begin = draw.choice(["1999-12-31 23:50:00", "2024-02-28 23:50:00", "2016-12-31 23:59:00", "2079-12-31 23:00:00"])
    (minute, second), out = at(begin), []
    for _ in range(600):
        step = draw.choice([1] * 12 + [0, 2, 3, 61, -1, -30, "leap", "leap", "leap before"])
        if isinstance(step, str):
            minute, second = minute - (step == "leap before"), 60
        elif second == 60:
            minute, second = minute + 1, 0
        else:
            minute, second = divmod(minute * 60 + second + step, 60)
        if minute > at("2079-12-31 23:59:00")[0]:
            break
        out.append((minute, second))
    return out
