#!/usr/bin/env python3
"""Takes the calls of customers: the server of the queue CALLS, with the library examples/servers/sunzheg.py.

CALL takes "ACCOUNT NUMBER SECONDS". It calls RATE for the price and CHARGE to charge it, each at a server of its own, and
returns the structure `rated` of RATE, with the code of CHARGE. Where either fails it returns TPFAIL, with the code of a TPFAIL.
"""

import sys
from pathlib import Path

sys.path.insert(0, str(Path(__file__).resolve().parents[1] / "servers"))

from sunzheg import TPError, TPFAIL, TPSUCCESS, routine, serve, shape, tpcall, tpreturn, tpurcode

# As in telephone.toml.
shape("rated", "account string 16", "number string 16", "seconds int", "cents long")


@routine("CALL")
def call(request):
    try:
        rated = tpcall("RATE", request.data)
        tpcall("CHARGE", f"{rated['account']} {rated['cents']}")
    except TPError as error:
        return tpreturn(TPFAIL, error.tpurcode)  # Of another error it is 0.
    return tpreturn(TPSUCCESS, tpurcode(), rated)


serve()
