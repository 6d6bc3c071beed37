#!/usr/bin/env python3
"""Rates calls: the server of the queue RATES, with the library examples/servers/sunzheg.py.

TARIFF takes "PREFIX CENTS", the price of a minute to numbers that begin so, and returns how many tariffs there are.
RATE takes "ACCOUNT NUMBER SECONDS", and returns a structure `rated` by the longest prefix that has a tariff.
The tariffs are kept as long as this process runs.
"""

import sys
from pathlib import Path

sys.path.insert(0, str(Path(__file__).resolve().parents[1] / "servers"))

from sunzheg import TPFAIL, TPSUCCESS, Typed, routine, serve, shape, tpreturn

# As in telephone.toml.
shape("rated", "account string 16", "number string 16", "seconds int", "cents long")

MISREAD, NO_TARIFF = 99, 1

tariffs = {"+": 50}


def words_of(request, count):
    """The words of a request's text; none where it hasn't so many."""
    words = request.data.decode(errors="replace").split() if isinstance(request.data, bytes) else []
    return words if len(words) == count else None


def is_number(word):
    return word.isascii() and word.isdigit() and len(word) < 9


@routine("TARIFF")
def tariff(request):
    words = words_of(request, 2)
    if not words or not is_number(words[1]):
        return tpreturn(TPFAIL, MISREAD)
    tariffs[words[0]] = int(words[1])
    return tpreturn(TPSUCCESS, len(tariffs))


@routine("RATE")
def rate(request):
    words = words_of(request, 3)
    if not words or not is_number(words[2]) or any(len(word.encode()) > 16 for word in words[:2]):
        return tpreturn(TPFAIL, MISREAD)
    account, number, seconds = words[0], words[1], int(words[2])
    best = max((prefix for prefix in tariffs if number.startswith(prefix)), key=len, default=None)
    if best is None:
        return tpreturn(TPFAIL, NO_TARIFF)
    minutes = -(-seconds // 60)
    return Typed("rated", account=account, number=number, seconds=seconds, cents=minutes * tariffs[best])


serve()
