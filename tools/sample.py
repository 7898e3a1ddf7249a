#!/usr/bin/env python3
"""Makes the sample job of month_end, and works out what the program must print.

Everything is computed by fixed rules, with no random numbers: each run writes the same files.
The expected text comes from the sample's own rows and amounts, by plain arithmetic, and not from the program.
"""
import os
import struct

HERE = os.path.dirname(os.path.abspath(__file__))

ROWS = 5000
OFFSET = 1500
CHUNK = 1024
FIRST_ENTRY = 40
WITHIN = 0
SPLIT = 3000
CORRECTIONS = 60
LOOKUPS = [0, 547, 2700, 4999, 5000]
SHOWN_FIRST, SHOWN_LAST = 10, 3


def amount(row):
    """A price in minor units. Every 97th row is a reversal, below 0."""
    price = 1000000 + (row * 7919) % 100003 + 37 * (row % 11)
    return -price if row % 97 == 13 else price


def chunk_start(chunk):
    """The index at which a chunk starts."""
    return OFFSET - OFFSET % CHUNK + CHUNK * chunk


def chunk_count():
    """How many chunks the rows touch."""
    last = OFFSET + ROWS - 1
    return last // CHUNK - OFFSET // CHUNK + 1


def corrected_rows():
    """The rows to correct: the first, the last, those at the borders of chunks, and others; none in chunk 3."""
    empty = range(chunk_start(3) - OFFSET, chunk_start(4) - OFFSET)
    rows = {0, ROWS - 1}
    for chunk in range(1, chunk_count()):
        border = chunk_start(chunk) - OFFSET
        rows.update(row for row in (border - 1, border) if row not in empty)
    step = 1
    while len(rows) < CORRECTIONS:
        row = (step * step * 37 + step * 911) % ROWS
        if row not in empty:
            rows.add(row)
        step += 1
    return sorted(rows)


def correction(place, before):
    """The corrected amount of the patch at a place."""
    return before + (place * 53) % 401 - 200 if place % 7 else -before


def cells(numbers):
    return b"".join(struct.pack("<q", number) for number in numbers)


JOB = """# The sample job: corrections of October to two years of prices.
# Paths are taken from the folder in which the program runs.

history prices-2019.bin
history prices-2020.bin

indices october-indices.bin
width 4
values october-values.bin
rows {rows}
offset {offset}
chunks october-chunks.bin
chunk-width 4
within {within}

{asked}{lookups}
output prices-corrected.bin
"""


def opening_lines(before, patches):
    """The lines on the history and on the corrections."""
    rows = sorted(patches)
    return [
        f"history prices-2019.bin: {SPLIT} cells",
        f"history prices-2020.bin: {ROWS - SPLIT} cells",
        f"history: {ROWS} cells in 2 files, total {sum(before)}",
        f"corrections: {ROWS} rows, offset {OFFSET}, {len(rows)} patches",
        f"corrections: first patched row {rows[0]}, last patched row {rows[-1]}",
        f"chunk data: october-chunks.bin, width 4, within {WITHIN}",
    ]


def lookup_line(row, before, patches):
    """The line for a look-up of a row of the history."""
    if row >= ROWS:
        return f"lookup row {row}: the history has no such row"
    if row in patches:
        return f"lookup row {row}: before {before[row]}, after {patches[row]}"
    return f"lookup row {row}: not corrected, amount {before[row]}"


def cell_lines(before, patches, rows):
    """The lines for the corrected cells: where they are many, the first and the last."""
    shown = [f"  row {row}: before {before[row]}, after {patches[row]}" for row in rows]
    hidden = len(shown) - SHOWN_FIRST - SHOWN_LAST
    if hidden <= 0:
        return shown
    more = f"  {hidden} more, not shown; run with --all to see every cell"
    return shown[:SHOWN_FIRST] + [more] + shown[-SHOWN_LAST:]


def closing_lines(before, patches, work):
    """The lines on the file that is written and the line to sign, for the rows of the work."""
    rows = [row for row in sorted(patches) if row in work]
    old = sum(before[row] for row in work)
    new = sum(patches.get(row, before[row]) for row in work)
    return [
        f"written: prices-corrected.bin, {len(work)} cells, {8 * len(work)} bytes",
        f"corrected {len(rows)} of {len(work)} cells; total before {old}, after {new}; signed: ____________",
    ]


def expected(before, patches):
    """The lines that month_end must print."""
    rows = sorted(patches)
    lines = opening_lines(before, patches)
    lines += [lookup_line(row, before, patches) for row in LOOKUPS]
    lines.append(f"corrected: {len(rows)} cells in {chunk_count()} chunks")
    lines += cell_lines(before, patches, rows)
    return lines + closing_lines(before, patches, range(ROWS))


def make(program, asked, expected_lines):
    """Writes the sample of a program into its crate: the files, the job with further lines that it asks, and the output."""
    crate = os.path.join(HERE, "..", "crates", program)
    data = os.path.join(crate, "data")
    os.makedirs(data, exist_ok=True)
    before = [amount(row) for row in range(ROWS)]
    rows = corrected_rows()
    patches = {row: correction(place, before[row]) for place, row in enumerate(rows)}
    indices = [OFFSET + row for row in rows]
    entries = [FIRST_ENTRY] + [
        FIRST_ENTRY + WITHIN + sum(index < chunk_start(chunk) for index in indices)
        for chunk in range(1, chunk_count())
    ]
    lookups = "".join(f"lookup {row}\n" for row in LOOKUPS)
    job = JOB.format(rows=ROWS, offset=OFFSET, within=WITHIN, asked=asked, lookups=lookups)
    files = {
        "prices-2019.bin": cells(before[:SPLIT]),
        "prices-2020.bin": cells(before[SPLIT:]),
        "october-indices.bin": b"".join(struct.pack("<I", index) for index in indices),
        "october-values.bin": cells(patches[row] for row in rows),
        "october-chunks.bin": b"".join(struct.pack("<I", entry) for entry in entries),
        "month.job": job.encode(),
    }
    for name, content in files.items():
        with open(os.path.join(data, name), "wb") as file:
            file.write(content)
    with open(os.path.join(crate, "args"), "w") as file:
        file.write("month.job\n")
    with open(os.path.join(crate, "stdout"), "w") as file:
        file.write("\n".join(expected_lines(before, patches)) + "\n")


if __name__ == "__main__":
    make("month_end", "", expected)
