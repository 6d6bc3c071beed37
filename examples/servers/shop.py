#!/usr/bin/env python3
"""A shop of examples/shops.toml. It takes its time, and returns as code what a piece costs there."""
import sys
import time

from sunzheg import TPSUCCESS, routine, serve, tpreturn

# The price of each shop, by its server's name, and after how many seconds it is told.
SHOPS = {"NEAR": (130, 0.0), "TOWN": (120, 0.5), "FAR": (95, 1.0)}
price, seconds = SHOPS.get(sys.argv[-1], (0, 0.0))


@routine("PRICE")
def ask(request):
    time.sleep(seconds)
    return tpreturn(TPSUCCESS, price)


serve()
