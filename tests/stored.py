"""The files beside a program, its input and the output that it must write: stored, or with --check compared with what a script makes. And the sum
that the programs print of what is too long to print."""
import os
import sys

MODULUS = 4294967291


def checksum(numbers):
    h = 0
    for n in numbers:
        h = (h * 31 + n) % MODULUS
    return h


def keep(folder, files):
    for name, data in files.items():
        path = os.path.join(folder, name)
        if sys.argv[1:] == ["--check"]:
            with open(path, "rb") as f:
                if f.read() != data:
                    sys.exit(path + " is not what this script makes")
        else:
            with open(path, "wb") as f:
                f.write(data)


def keep_records(folder, rows):
    """Rows of a record's bytes and the line that it gives, None where it gives none."""
    lines = [line for _, line in rows if line is not None]
    keep(folder, {"stdin": b"".join(data for data, _ in rows), "stdout": "".join(line + "\n" for line in lines).encode()})
    print(len(lines), "vectors")
