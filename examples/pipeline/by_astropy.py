"""by_astropy.py FILE [COUNT]: what pipeline.py does, by astropy."""
import io
import sys
import time
import warnings

from astropy.io import fits


def corrected(file, number):
    """The result, whose sums astropy holds to be right."""
    out = io.BytesIO()
    with fits.open(io.BytesIO(file)) as hdus:
        hdus[1].header["OBSERVER"] = (f"N. Night {number}", "corrected")
        hdus[1].data[0, 0:2] = 0
        hdus.writeto(out, checksum=True)
    with fits.open(io.BytesIO(out.getvalue()), checksum=True) as hdus:
        hdus.verify("exception")
    return out.getvalue()


def main(path, count="1000"):
    with open(path, "rb") as it:
        file = it.read()
    warnings.simplefilter("error")
    began = time.perf_counter()
    results = [corrected(file, number) for number in range(int(count))]
    print(f"{(time.perf_counter() - began) * 1000:.1f} ms", file=sys.stderr)
    print(f"{sum(map(bool, results))} of {count}")


if __name__ == "__main__":
    main(*sys.argv[1:])
