#!/usr/bin/env python3
"""Makes the sample job of month_stream, and works out what the program must print.

The prices, the corrections and the lines that both programs print are those of sample.py. This job asks for some of the
rows, and for the size of their lane tables.
"""
import sample

FROM, TO = 100, 4900
LANES = 16


def lane_offsets():
    """How many offsets the work's lane tables have: one for each lane of each chunk of its rows, and one more."""
    last = TO - FROM - 1
    return (last // sample.CHUNK + 1) * LANES + 1


def work_chunks():
    """How many chunks of indices the work's rows touch."""
    return (sample.OFFSET + TO - 1) // sample.CHUNK - (sample.OFFSET + FROM) // sample.CHUNK + 1


def expected(before, patches):
    """The lines that month_stream must print."""
    work = range(FROM, TO)
    rows = [row for row in sorted(patches) if row in work]
    lines = sample.opening_lines(before, patches)
    lines += [
        f"work: rows {FROM} to {TO}, {len(rows)} patches",
        f"lanes: {LANES} lanes, {lane_offsets()} offsets, {len(rows)} entries",
    ]
    lines += [sample.lookup_line(row, before, patches) for row in sample.LOOKUPS]
    lines.append("corrected cells:")
    lines += sample.cell_lines(before, patches, rows)
    lines.append(
        f"closed run: {len(work)} rows in {work_chunks()} chunks, {len(rows)} cells replaced;"
        f" the work has {len(rows)} patches"
    )
    return lines + sample.closing_lines(before, patches, work)


if __name__ == "__main__":
    sample.make("month_stream", f"from {FROM}\nto {TO}\nlanes {LANES}\n\n", expected)
