#!/usr/bin/env python3
"""A server with the routines ECHO, PASS, RELAY and ADV, with the library beside it.

ECHO returns the data of the request with TPSUCCESS and code 0. PASS forwards X_OCTET with a space among its first 256 octets to
the service before the first space, with what follows it, and returns other data as ECHO does. RELAY calls that service in its
place, and returns its code and data, or TPFAIL with code 1 and the error's name. ADV advertises a service on the queue of its
server for `+ SERVICE ROUTINE`, takes one off for `- SERVICE`, and returns `OK` or the error's name with TPSUCCESS and code 0; other
data is TPFAIL with code 2 and no data. Any other routine is TPFAIL with code 99 and no data. Octets that are no frame, and a frame
that may not come then, are told by their place, with status 10.
"""

from sunzheg import TPError, TPFAIL, TPSUCCESS, routine, serve, tpadvertise, tpcall, tpforward, tpreturn, tpunadvertise, tpurcode


@routine("ECHO")
def echo(request):
    return tpreturn(TPSUCCESS, 0, request.data)


def parted(request):
    """The service and what is sent to it; none where the request has no space."""
    service, space, rest = request.data.partition(b" ") if isinstance(request.data, bytes) else (b"", b"", b"")
    return (service, rest) if space and len(service) <= 255 else None


@routine("PASS")
def pass_on(request):
    found = parted(request)
    return tpforward(*found) if found else echo(request)


@routine("RELAY")
def relay(request):
    found = parted(request)
    if not found:
        return echo(request)
    try:
        data = tpcall(*found)
    except TPError as error:
        return tpreturn(TPFAIL, 1, error.name)
    return tpreturn(TPSUCCESS, tpurcode(), data)


@routine("ADV")
def change(request):
    sign, *words = request.data.split(b" ") if isinstance(request.data, bytes) else [b""]
    call = {(b"+", 2): tpadvertise, (b"-", 1): tpunadvertise}.get((sign, len(words)))
    if not call or not all(1 <= len(word) <= 255 for word in words):
        return tpreturn(TPFAIL, 2)
    try:
        call(*words)
    except TPError as error:
        return tpreturn(TPSUCCESS, 0, error.name)
    return tpreturn(TPSUCCESS, 0, "OK")


serve()
