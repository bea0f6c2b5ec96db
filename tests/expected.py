#!/usr/bin/env python3
"""What the examples print, computed without the library: every word is copied to where document 01 puts it.
Usage: expected.py NAME            prints what the example prints
       expected.py --check FOLDER  compares each NAME.expected of a folder with it, and prints how many there are
"""
import pathlib
import re
import sys

import sheets

EXAMPLES = pathlib.Path(__file__).resolve().parent.parent / "examples"


def tiles():
    rows, columns, high, wide = 5, 7, 2, 3
    words = [
        f"{10 * i + j:02}"
        for top in range(0, rows, high)
        for left in range(0, columns, wide)
        for i in range(top, min(top + high, rows))
        for j in range(left, min(left + wide, columns))
    ]
    lines = [" ".join(words[at : at + columns]) for at in range(0, len(words), columns)]
    return "\n".join([*lines, f"back: 00 to {10 * (rows - 1) + columns - 1}"]) + "\n"


def desk():
    source = (EXAMPLES / "desk.c").read_text()
    ticks, frames = (int(re.search(rf"{name} = (\d+)", source)[1]) for name in ("TICKS_PER_FRAME", "FRAMES"))
    runs = [[int(x) for x in run.split(",")] for run in re.findall(r"\{(-?\d[^{}]*)\}", source)]
    text, shifts = "", []
    for camera, paths in enumerate(zip(runs[::2], runs[1::2])):
        exchanges = [run[k : k + 4] for run in paths for k in range(0, len(run), 4)]
        delays = [(t4 - t1) - (t3 - t2) for t1, t2, t3, t4 in exchanges]
        best = min(k for k, delay in enumerate(delays) if delay == min(d for d in delays if d >= 0))
        t1, t2, t3, t4 = exchanges[best]
        offset = ((t2 - t1) + (t3 - t4)) // 2
        shifts.append((2 * offset + ticks) // (2 * ticks))
        text += f"camera {camera}: offset {offset}, delay {delays[best]}, {shifts[-1]} frames\n"
    return text + f"common: frames {max(shifts)} up to {min(shifts) + frames}\n"


def job():
    return sheets.answer((EXAMPLES / "cameras.sheet").read_bytes()).decode()


def turn():
    return "".join(f"camera {camera}: {100 * camera} to {100 * camera + 63}\n" for camera in range(16))


COMPUTED = {"tiles": tiles, "desk": desk, "job": job, "turn": turn}

if __name__ == "__main__":
    if sys.argv[1:] and sys.argv[1] in COMPUTED:
        sys.stdout.write(COMPUTED[sys.argv[1]]())
    elif len(sys.argv) == 3 and sys.argv[1] == "--check":
        for name, compute in COMPUTED.items():
            if (pathlib.Path(sys.argv[2]) / f"{name}.expected").read_text() != compute():
                sys.exit(f"{name}.expected is not what is computed")
        print(len(COMPUTED))
    else:
        sys.exit(__doc__)
