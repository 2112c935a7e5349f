#!/usr/bin/env python3
"""A client of a served tsvd: sends each line of standard input, and prints its reply before the next is read.

    tsvd --listen 7411 --sessions 1 &
    printf "BEGIN\nINSERT INTO emp VALUES (1, 'Ann')\nCOMMIT\n" | python3 examples/client.py 7411

The package that it is of, with PEP 249 and a shell, is in clients/python.
"""

import pathlib
import sys

sys.path.insert(0, str(pathlib.Path(__file__).resolve().parent.parent / "clients" / "python"))
from tsvd.__main__ import main  # noqa: E402

if __name__ == "__main__":
    sys.exit(main(["send", *sys.argv[1:]]))
