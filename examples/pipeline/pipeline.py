"""pipeline.py FILE [COUNT]: a file in memory, COUNT times (1,000): a keyword corrected, two pixels masked, both HDUs stamped, the result
verified. Prints how many results there are without an error, and the milliseconds that they took."""
import sys
import time

import fitsed


def corrected(file, number):
    """The result, or nothing where it has an error."""
    with fitsed.open(file) as it:
        it.set(2, "OBSERVER", f"N. Night {number}", "corrected")
        it.fill(2, (1, 1), (2, 1), 0)
        it.stamp(1)
        it.stamp(2)
        return it.tobytes() if not any(found.is_error for found in it.verify()) else b""


def main(path, count="1000"):
    with open(path, "rb") as it:
        file = it.read()
    began = time.perf_counter()
    results = [corrected(file, number) for number in range(int(count))]
    print(f"{(time.perf_counter() - began) * 1000:.1f} ms", file=sys.stderr)
    print(f"{sum(map(bool, results))} of {count}")


if __name__ == "__main__":
    main(*sys.argv[1:])
