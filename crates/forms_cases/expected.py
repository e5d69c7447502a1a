#!/usr/bin/env python3
"""Writes `stdin`, the cases, and `stdout`, what document 01 says of each, computed with re, datetime and decimal and never by the program."""
import datetime
import decimal
import os
import random
import re

decimal.getcontext().prec = 60
chance = random.Random(1)


def value(raw):
    """The value of a raw field: inside quotes a doubled mark means one mark."""
    return raw[1:-1].replace('""', '"') if raw.startswith('"') else raw


def time(text):
    if text == "":
        return "untimed"
    found = re.fullmatch(r"([0-9]{1,2}):([0-5][0-9]):([0-5][0-9])", text)
    if not found:
        return "refused"
    hours, minutes, seconds = map(int, found.groups())
    return str(int(datetime.timedelta(hours=hours, minutes=minutes, seconds=seconds).total_seconds()))


def date(text):
    if not re.fullmatch(r"[0-9]{8}", text):
        return "refused"
    try:
        datetime.date(int(text[:4]), int(text[4:6]), int(text[6:]))
    except ValueError:
        return "refused"
    return str(int(text))


def degrees(limit):
    def read(text):
        if not re.fullmatch(r"-?[0-9]{1,3}(\.[0-9]{1,20})?", text):
            return "refused"
        exact = decimal.Decimal(text)
        if abs(exact) > limit:
            return "refused"
        return str(int(exact * 10000000))

    return read


def sequence(text):
    return str(int(text)) if re.fullmatch(r"[0-9]{1,9}", text) else "refused"


def choice(*offered):
    return lambda text: text if text in map(str, offered) else "refused"


forms = {
    "t": time,
    "d": date,
    "y": degrees(90),
    "x": degrees(180),
    "n": sequence,
    "1": choice(0, 1),
    "2": choice(0, 1, 2),
    "3": choice(0, 1, 2, 3),
    "r": choice(0, 1, 2, 3, 4, 5, 6, 7, 11, 12),
    "e": choice(1, 2),
}

cases = {form: [] for form in forms}

# document 01, "Values at the edges"
cases["t"] += ["8:10:00", "25:55:00", "99:59:59", "10:5:00", "9:60:00", "100:00:00"]
cases["d"] += ["20240229", "20230229", "19000229", "20000229"]
cases["y"] += ["-33.86749999", "90.00000001", ".5", "5.", "+5"]
cases["x"] += ["180", ".5", "5.", "+5"]

# times: each field on both sides of its bounds, one and two digits, what stands between
for hours in ["", "0", "00", "9", "09", "10", "23", "24", "47", "48", "99", "099", "100", "-1", "+1", " 1", "a"]:
    for minutes in ["00", "59"]:
        cases["t"].append(f"{hours}:{minutes}:{minutes}")
for two in ["00", "09", "10", "58", "59", "60", "61", "99", "0", "5", "000", "059", "-1", "+1", " 1", "1 ", "0a", "a0", "/0", ":0", "0/", "0:"]:
    cases["t"] += [f"8:{two}:30", f"8:30:{two}", f"08:{two}:30", f"08:30:{two}"]
cases["t"] += ["24:00:00", "00:00:00", "0:00:00", "0:00:01", "99:59:58", "23:59:59", "8:30", "8:30:00:00", "8.30.00", "8;30:00", "8:30;00", "083000", "83000", "08 30 00"]
cases["t"] += [" 8:30:00", "8:30:00 ", "08:30:0", "8:30:0", ":::::::", "::", ":", "::::::::", "00000000", "0000000", "8:30:00x", "x8:30:00"]

# dates: each month's last day and the next, leap years, years, months, lengths
for month in range(0, 15):
    for day in [0, 1, 28, 29, 30, 31, 32, 99]:
        cases["d"].append(f"2023{month:02}{day:02}")
for year in [0, 1, 4, 100, 399, 400, 401, 1600, 1700, 1800, 1900, 1996, 1999, 2000, 2001, 2004, 2023, 2024, 2025, 2096, 2100, 2400, 9996, 9999]:
    cases["d"] += [f"{year:04}0228", f"{year:04}0229", f"{year:04}0230", f"{year:04}0101", f"{year:04}1231"]
cases["d"] += ["", "2024010", "202401010", "2024-01-01", "2024/1/1", " 20240101", "20240101 ", "2024010a", "a0240101", "2024O101", "+2024010", "-2024010", "00000000", "99999999", "20241301", "20240001", "20240100", "2024:101", "2024/101"]

# coordinates: one to three digits, the limit itself and a twentieth digit beyond it, one to 21 decimals, signs
for whole in ["0", "00", "000", "1", "01", "001", "9", "89", "90", "090", "91", "99", "100", "179", "180", "181", "359", "999", "0000", "0090", "1000", ""]:
    for tail in ["", ".", ".0", ".5", ".9999999", ".99999999", "." + "0" * 20, "." + "0" * 21, "." + "0" * 19 + "1", "." + "0" * 20 + "1", "." + "9" * 20, "." + "9" * 21]:
        for sign in ["", "-"]:
            cases["y"].append(sign + whole + tail)
            cases["x"].append(sign + whole + tail)
for count in range(1, 22):
    tail = "1234567890" * 3
    cases["y"].append("-12." + tail[:count])
    cases["x"].append("123." + tail[:count])
for place in range(20):
    tail = ["0"] * 20
    tail[place] = "1"
    cases["y"] += ["90." + "".join(tail), "-90." + "".join(tail), "89." + "".join(tail)]
    cases["x"] += ["180." + "".join(tail), "-180." + "".join(tail), "179." + "".join(tail)]
for odd in ["", "-", "--5", "-+5", "+5", "5-", "-.5", "-5.", "-.", ".", "..", "5..5", "5.5.5", "5,5", " 5", "5 ", "5. 5", "5e1", "5E1", "0x5", "a", "5a", "5.a", "5.5a", "5.-5", "5.+5", "/5", ":5", "5/", "5:", "5./", "5.:", "-0", "-0.0", "-00", "-0.00000009", "0.00000009", "-0.0000001", "0.0000001", "-0.99999999", "1.", "12.3456789012345678901", "inf", "nan", "1_0"]:
    cases["y"].append(odd)
    cases["x"].append(odd)

# sequences: one to nine digits and ten, leading zeros, neighbours of the digits
for count in range(0, 12):
    cases["n"] += ["0" * count, "1" * count, "9" * count, "0" * (count - 1) + "7" if count else ""]
cases["n"] += ["0", "1", "9", "10", "007", "123456789", "987654321", "1234567890", "-1", "+1", " 1", "1 ", "1.", "1.0", "1e3", "1_0", "/", ":", "/1", ":1", "1/", "1:", "a", "1a", "a1", "١"]

# choices: each and its neighbours, and how it might be written otherwise
for form in ["1", "2", "3", "r", "e"]:
    cases[form] += [str(n) for n in range(0, 25)] + ["", "00", "01", "011", "012", "-0", "-1", "+1", " 1", "1 ", "1.", "1.0", "/", ":", "a", "\x7f", "é", "0" * 9, "100", "700", "1100", "111", "112", "21", "31"]

# any text, near a form and far from one
near = "0123456789:.-+ /a"
for form in forms:
    for base in list(cases[form])[:: max(1, len(cases[form]) // 20)]:
        bent = list(base)
        bent.insert(chance.randrange(len(bent) + 1), chance.choice(near))
        cases[form].append("".join(bent))
    for _ in range(10):
        cases[form].append("".join(chance.choice(near) for _ in range(chance.randrange(1, 12))))
for _ in range(60):
    cases["t"].append(f"{chance.randrange(110)}:{chance.randrange(70):02}:{chance.randrange(70):02}")
    cases["d"].append(f"{chance.randrange(10000):04}{chance.randrange(14):02}{chance.randrange(33):02}")
    cases["y"].append(f"{chance.choice(['', '-'])}{chance.randrange(95)}.{chance.randrange(10 ** 12)}")
    cases["x"].append(f"{chance.choice(['', '-'])}{chance.randrange(190)}.{chance.randrange(10 ** 12)}")
    cases["n"].append(str(chance.randrange(10 ** chance.randrange(1, 11))))

# each form quoted: the same answer; a mark in a value is in no form
lines = []
for form, texts in cases.items():
    texts = [text for text in dict.fromkeys(texts) if '"' not in text]
    quoted = [f'"{text}"' for text in texts[:3] + texts[3 :: max(1, len(texts) // 25)]]
    marked = ['""""', '"1"""', '"""1"', '"""1"""', '"8:00:00"""', '"20240101"""', '"1.5"""', '"0"""', '""', '"', '"1', '"0"0']
    for raw in texts + quoted + marked:
        lines.append((f"{form} {raw}", forms[form](value(raw))))

here = os.path.dirname(os.path.abspath(__file__))
with open(os.path.join(here, "stdin"), "w") as told:
    told.write("".join(f"{line}\n" for line, _ in lines))
with open(os.path.join(here, "stdout"), "w") as said:
    said.write("".join(f"{line} = {answer}\n" for line, answer in lines))
print(len(lines), "cases")
