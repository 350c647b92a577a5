#!/usr/bin/env python3
"""Prints the lines of crates/value_cases/stdout that go by a rule, each with the outcome that this script computes by itself.

It knows the encodings, and nothing of the product. With `--stdin` it prints what `crates/value_cases/stdin` must be for the
`stdout` that stands: each line without its outcome.
"""
import os
import sys

import command_line
from compact import uleb, zigzag

TOP = os.path.join(os.path.dirname(os.path.abspath(__file__)), "..", "..", "crates", "value_cases")


def pack(width, numbers):
    bits = sum(number << (width * place) for place, number in enumerate(numbers))
    return bits.to_bytes((width * len(numbers) + 7) // 8, "little")


def shown(numbers):
    """A list of numbers: four or more equal ones, and four or more that rise by one, by a rule."""
    items, at = [], 0
    while at < len(numbers):
        same = rising = 1
        while at + same < len(numbers) and numbers[at + same] == numbers[at]:
            same += 1
        while at + rising < len(numbers) and numbers[at + rising] == numbers[at] + rising and numbers[at + rising] < 2**63 - 1:
            rising += 1
        if same >= 4:
            items.append(f"{same}*{numbers[at]}")
            at += same
        elif rising >= 4:
            items.append(f"{numbers[at]}..{numbers[at] + rising}")
            at += rising
        else:
            items.append(str(numbers[at]))
            at += 1
    return "".join(" " + item for item in items)


def hexed(text):
    """Bytes in hexadecimal; sixteen or more equal ones by a rule."""
    pieces, at, plain = [], 0, ""
    while at < len(text):
        same = 1
        while at + same < len(text) and text[at + same] == text[at]:
            same += 1
        if same >= 16:
            if plain:
                pieces.append(plain)
            pieces.append(f"{text[at]:02x}*{same}")
            plain = ""
            at += same
        else:
            plain += f"{text[at]:02x}"
            at += 1
    if plain:
        pieces.append(plain)
    return ".".join(pieces) or "-"


def wrapped(number, bits):
    number %= 2**bits
    return number - 2**bits if number >= 2 ** (bits - 1) else number


def deltas(values, bits=64):
    """DELTA_BINARY_PACKED with blocks of 128 values in four miniblocks, the least delta of each block, and in each miniblock
    the fewest bits that hold its values; a miniblock without values has no bits."""
    out = uleb(128) + uleb(4) + uleb(len(values)) + uleb(zigzag(values[0]) if values else 0)
    steps = [wrapped(b - a, bits) for a, b in zip(values, values[1:])]
    for start in range(0, len(steps), 128):
        block = steps[start : start + 128]
        least = min(block)
        over = [(step - least) % 2**bits for step in block]
        minis = [over[k : k + 32] for k in range(0, 128, 32)]
        widths = [max(mini, default=0).bit_length() for mini in minis]
        out += uleb(zigzag(least)) + bytes(widths)
        for mini, width in zip(minis, widths):
            if mini:
                out += pack(width, mini + [0] * (32 - len(mini)))
    return out


def noise(count):
    state, values = 1, []
    for _ in range(count):
        state = (state * 6364136223846793005 + 1442695040888963407) % 2**64
        values.append(wrapped(state, 64))
    return values


def of_widths():
    seeds = [0, 1, 0x5555555555555555, 0xFEDCBA9876543210, 2**64 - 1]
    for width in range(65):
        numbers = [seed >> (64 - width) if width else 0 for seed in seeds]
        packed = hexed(pack(width, numbers))
        given = " ".join(map(str, numbers))
        yield f"pack {width} {given} = {packed}"
        yield f"unpack {width} 5 {packed} ={shown(numbers)}"


def of_lengths():
    for width in range(65):
        total = sum(5 if width == 0 else 8 * length // width for length in range(131))
        yield f"unpack-lengths {width} 131 = {total} numbers"


def runs(width, numbers):
    """Eight or more equal numbers as a repeated run, all else packed in groups of eight."""
    out, at = b"", 0

    def equal(at):
        end = at
        while end < len(numbers) and numbers[end] == numbers[at]:
            end += 1
        return end - at

    while at < len(numbers):
        count = equal(at)
        if count >= 8:
            out += uleb(2 * count) + numbers[at].to_bytes((width + 7) // 8, "little")
            at += count
            continue
        end = at
        while end < len(numbers) and equal(end) < 8:
            end += 8
        part = numbers[at:end]
        groups = (len(part) + 7) // 8
        out += uleb(2 * groups + 1) + pack(width, part + [0] * (8 * groups - len(part)))
        at = end
    return out


def of_runs():
    """Numbers in runs of many lengths: each way of writing them that the standard knows, repeated where eight or more are
    equal; and what any way of writing them is read as."""
    for width in range(65):
        parts = [(3, 0), (9, 1), (5, 0x5555555555555555), (12, 0xFEDCBA9876543210), (17, 2**64 - 1)]
        parts = [(times, seed >> (64 - width) if width else 0) for times, seed in parts]
        numbers = [number for times, number in parts for _ in range(times)]
        size = (width + 7) // 8
        given = " ".join(f"{times}*{number}" for times, number in parts)
        yield f"write-runs {width} {given} = {hexed(runs(width, numbers))}"
        text = b""
        # Each part as a repeated run.
        for times, number in parts:
            text += uleb(2 * times) + number.to_bytes(size, "little")
        yield f"read-runs {width} {len(numbers)} {hexed(text)} = {len(text)} bytes:{shown(numbers)}"
        # All of them in one packed run, whose last group is filled up.
        groups = (len(numbers) + 7) // 8
        text = uleb(2 * groups + 1) + pack(width, numbers + [0] * (8 * groups - len(numbers)))
        yield f"read-runs {width} {len(numbers)} {hexed(text)} = {len(text)} bytes:{shown(numbers)}"


def of_noise():
    for count in [1, 2, 32, 33, 34, 128, 129, 130, 160, 161, 257, 1000]:
        size = len(deltas(noise(count)))
        assert size <= 298 + 9 * count
        yield f"delta-noise {count} = {size} bytes, the same"


def main():
    command_line.only(__doc__, "--stdin")
    if "--stdin" in sys.argv:
        for line in open(os.path.join(TOP, "stdout"), encoding="utf-8"):
            line = line.rstrip("\n")
            if line.endswith(" ="):
                line = line[:-2]
            elif line and not line.startswith("#"):
                line = line[: line.rindex(" = ")]
            print(line)
        return
    for title, lines in [
        ("Numbers of each width from 0 to 64, packed and unpacked.", of_widths()),
        ("Bytes of each length from 0 to 130: as many numbers of a width as they hold, and none more.", of_lengths()),
        ("Numbers of each width from 0 to 64 in repeated runs, and in one packed run.", of_runs()),
        ("Deltas of numbers without a pattern: blocks that are full, begun and cut.", of_noise()),
    ]:
        print(f"# {title}")
        for line in lines:
            print(line)
        print()


if __name__ == "__main__":
    main()
