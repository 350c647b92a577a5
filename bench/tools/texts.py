#!/usr/bin/env python3
"""texts.py [ROWS] [SEED]: random dates, times, timestamps and decimals as texts, both ways, against Python's datetime and decimal.

Makes rows of all columns that have texts, 100,000 if ROWS is not given. `pqds encode` makes a file from their numbers and
bytes; `pqds decode --text` must print what Python does; `pqds encode --text` must read these texts, and `pqds decode` then
print the numbers and bytes again. One value in twenty has no text. The last line counts the values; the status is 1 where a
line differs. PQDS names the program, otherwise it is that of program.sh."""
import datetime
import decimal
import json
import os
import random
import subprocess
import sys
import tempfile

import command_line

decimal.getcontext().prec = 60
EPOCH = datetime.datetime(1970, 1, 1)
DAYS = (-719162, 2932896)
SECOND = {"millis": 1000, "micros": 1000000}


def column(name, type, note, **more):
    return {"name": name, "rep": "required", "type": type, "note": note, **more}


def decimals(name, type, scale, **more):
    return column(name, type, "decimal", precision=38, scale=scale, **more)


SCHEMA = [
    column("day", "int32", "date"),
    column("time_ms", "int32", "time_millis"),
    column("time_us", "int64", "time_micros"),
    column("at_ms", "int64", "timestamp_millis"),
    column("at_us", "int64", "timestamp_micros"),
    column("price", "int32", "decimal", precision=9, scale=2),
    column("amount", "int64", "decimal", precision=18, scale=6),
    decimals("whole", "bytes", 0),
    decimals("cents", "bytes", 2),
    decimals("parts", "bytes", 38),
    column("small", "fixed", "decimal", precision=2, scale=1, length=1),
    column("five", "fixed", "decimal", precision=11, scale=3, length=5),
    decimals("wide", "fixed", 0, length=16),
    decimals("fine", "fixed", 38, length=16),
]


def fraction(count, unit):
    """What follows the seconds: a fraction without zeros at its end."""
    digits = f"{count:0{len(str(unit)) - 1}d}".rstrip("0")
    return "." + digits if digits else ""


def clock(number, unit):
    seconds, rest = divmod(number, unit)
    return f"{seconds // 3600:02d}:{seconds // 60 % 60:02d}:{seconds % 60:02d}" + fraction(rest, unit)


def text_of(column, value):
    """The text of a number, or of the number that bytes are; None if it has none."""
    note = column["note"]
    if note == "date":
        return (EPOCH + datetime.timedelta(days=value)).strftime("%Y-%m-%d").zfill(10) if DAYS[0] <= value <= DAYS[1] else None
    unit = SECOND.get(note.split("_")[-1])
    if note.startswith("time_"):
        return clock(value, unit) if 0 <= value < 86400 * unit else None
    if note.startswith("timestamp_"):
        day, rest = divmod(value, 86400 * unit)
        date = text_of({"note": "date"}, day)
        return date and f"{date}T{clock(rest, unit)}Z"
    if isinstance(value, bytes):
        if len(value) > 16 or value != (shortest(signed(value)) if "length" not in column else value):
            return None
        value = signed(value)
    return format(decimal.Decimal(value).scaleb(-column["scale"]), "f")


def signed(value):
    return int.from_bytes(value, "big", signed=True)


def shortest(number):
    return number.to_bytes((number + (number < 0)).bit_length() // 8 + 1, "big", signed=True)


def around(bits):
    """A number of at most so many bits with its sign, with as many digits as any other."""
    number = random.getrandbits(random.randint(0, bits - 1))
    return -1 - number if random.random() < 0.5 else number


def between(least, most, beyond):
    return random.choice((least - 1 - random.getrandbits(9), most + 1 + random.getrandbits(9))) if random.random() < beyond else random.randint(least, most)


def value_for(column):
    note, beyond = column["note"], 0.05
    if note == "date":
        return between(*DAYS, beyond)
    unit = SECOND.get(note.split("_")[-1])
    if note.startswith("time_"):
        return between(0, 86400 * unit - 1, beyond)
    if note.startswith("timestamp_"):
        return between(DAYS[0] * 86400 * unit, (DAYS[1] + 1) * 86400 * unit - 1, beyond)
    if column["type"] == "fixed":
        return around(8 * column["length"]).to_bytes(column["length"], "big", signed=True)
    if column["type"] == "bytes":
        found = shortest(around(128))
        return (b"\xff" if found[0] > 127 else b"\0") * random.randint(1, 3) + found if random.random() < beyond else found
    return around(32 if column["type"] == "int32" else 64)


def plain(value):
    return value.hex() if isinstance(value, bytes) else value


def shown(column, value):
    text = text_of(column, value)
    if text is not None:
        return text
    return {"hex": value.hex()} if isinstance(value, bytes) else value


def line(row):
    return json.dumps(dict(sorted(row.items())), separators=(",", ":")) + "\n"


def differ(what, wanted, path):
    """How many lines of a file are others than wanted; the first is printed."""
    with open(path, encoding="utf-8") as file:
        found = file.readlines()
    wrong = [i for i, (a, b) in enumerate(zip(wanted, found)) if a != b]
    if wrong:
        print(f"{what}, row {wrong[0]}:\n  wanted {wanted[wrong[0]]}  found  {found[wrong[0]]}", end="")
    return len(wrong) + abs(len(wanted) - len(found))


def main():
    rows, seed = command_line.numbers(__doc__, 100000, 1)
    random.seed(seed)
    program = command_line.program()
    values = [{it["name"]: value_for(it) for it in SCHEMA} for _ in range(rows)]
    numbers = [line({it["name"]: plain(row[it["name"]]) for it in SCHEMA}) for row in values]
    texts = [line({it["name"]: shown(it, row[it["name"]]) for it in SCHEMA}) for row in values]
    with tempfile.TemporaryDirectory() as folder:
        def at(name):
            return os.path.join(folder, name)

        def run(out, *parts):
            with open(out, "w", encoding="utf-8") as file:
                subprocess.run([program, *parts], stdout=file, check=True)

        for name, lines in (("schema", [json.dumps(SCHEMA)]), ("numbers", numbers), ("texts", texts)):
            with open(at(name), "w", encoding="utf-8") as file:
                file.writelines(lines)
        run(os.devnull, "encode", at("schema"), at("numbers"), at("numbers.parquet"))
        run(at("printed"), "decode", "--text", at("numbers.parquet"))
        wrong = differ("printed", texts, at("printed"))
        run(os.devnull, "encode", "--text", at("schema"), at("texts"), at("texts.parquet"))
        run(at("read"), "decode", at("texts.parquet"))
        wrong += differ("read", numbers, at("read"))
    print(f"{rows * len(SCHEMA)} values both ways, {wrong} rows that differ")
    return wrong > 0


if __name__ == "__main__":
    sys.exit(main())
