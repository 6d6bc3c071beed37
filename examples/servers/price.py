#!/usr/bin/env python3
from sunzheg import TPFAIL, TPSUCCESS, Typed, routine, serve, shape, tpreturn

shape("item", "name string 16", "count int", "cents long")

@routine("PRICE")
def price(request):
    item = request.data or Typed("item", count=0)  # A request may have no data.
    item["cents"] = 120 * item["count"]
    return tpreturn(TPSUCCESS if item["count"] > 0 else TPFAIL, 0, item)

serve()
