"""Servers of both libraries, and a service that knows only the standard's names."""

import shutil
from pathlib import Path

from checks.cases import GOOD, TOP, run, tried, written

# A service that knows only the standard's names.
STANDARD = """#include "sunzheg.h"

void ECHO(TPSVCINFO *request)
{
    tpreturn(TPSUCCESS, 0, request->data, request->len, 0);
}
"""

# The same server in C and in Python: typed data by its shape, what may not be returned, and calls of other services.
IN_C = r"""#include <stdint.h>
#include <stdio.h>
#include <string.h>
#define TPSHAPES "all: a short, b int, c long, d char, e string 4"
#include "sunzheg.h"
struct all { short a; int b; int64_t c; unsigned char d; char e[4]; };
void ADD(TPSVCINFO *request)
{
    struct all *all = (struct all *)request->data;
    printf("printed by ADD\n");
    all->a++, all->b++, all->c++, all->d++;
    memcpy(all->e, "wxyz", 4);
    tpreturn(TPFAIL, -3, request->data, 0, 0);
}
void MAKE(TPSVCINFO *request)
{
    struct all *all = (struct all *)tpalloc(X_C_TYPE, "all", sizeof *all);
    (void)request;
    all->c = -2;
    tpreturn(TPSUCCESS, 7, (char *)all, 0, 0);
}
void ON(TPSVCINFO *request) { tpforward("ADD", request->data, 0, 0); }
void WRONG(TPSVCINFO *request) { char local[4] = ""; (void)request; tpreturn(TPSUCCESS, 0, local, 4, 0); }
void WIDE(TPSVCINFO *request) { (void)request; tpreturn(TPSUCCESS, 1L << 40, NULL, 0, 0); }
void NOTHING(TPSVCINFO *request) { (void)request; }
void EXIT(TPSVCINFO *request) { (void)request; tpreturn(TPEXIT, 5, NULL, 0, 0); }
void ASK(TPSVCINFO *request)
{
    struct all *all = (struct all *)tpalloc(X_C_TYPE, "all", sizeof *all);
    char *back = tpalloc(X_OCTET, NULL, 4);
    long count = 5;
    all->a = (short)(tpsprio(60, TPABSOLUTE) + tpcall("ECHO", request->data, 0, &back, &count, TPNOCHANGE) + tperrno);
    all->b = tpcall("LEN", request->data, 0, &back, &count, TPNOTIME) + (int)tpurcode + (int)count;
    all->c = tpcall("FAIL", request->data, 0, &back, &count, TPNOBLOCK) * tperrno * tpurcode;
    all->d = (unsigned char)((struct all *)back)->b;
    tpcall("NOBODY", NULL, 0, &back, &count, 0);
    memcpy(all->e, tpstrerror(tperrno) + 2, 4);
    tpreturn(TPSUCCESS, count == sizeof *all, (char *)all, 0, 0);
}
void CHANGE(TPSVCINFO *request)
{
    struct all *all = (struct all *)tpalloc(X_C_TYPE, "all", sizeof *all);
    (void)request;
    all->a = (short)(1 + tpadvertise("NEW", MAKE) + tpadvertise("NEW", MAKE));
    all->b = tpadvertise("NEW", ADD) * tperrno;
    all->c = tpadvertise(".", MAKE) * tperrno + 256 * tpadvertise("NEW", NULL) * tperrno;
    all->d = (unsigned char)(1 + tpunadvertise("NEW"));
    tpunadvertise("NEW");
    memcpy(all->e, tpstrerror(tperrno) + 2, 4);
    tpreturn(TPSUCCESS, 0, (char *)all, 0, 0);
}
"""
IN_PYTHON = """#!/usr/bin/env python3
import sys
sys.path.insert(0, %r)
from sunzheg import *
for call, *words in (tpcall, "ECHO"), (tpadvertise, "NEW", "ECHO"), (tpunadvertise, "ECHO"):
    try: call(*words)
    except TPError as error: print(error.name)
shape("all", "a short", "b int", "c long", "d char", "e string 4")
@routine("ADD")
def add(request):
    print("printed by ADD")
    for field in "abcd": request.data[field] += 1
    request.data["e"] = "wxyz"
    return tpreturn(TPFAIL, -3, request.data)
@routine("MAKE")
def make(request): return tpreturn(TPSUCCESS, 7, Typed("all", c=-2))
@routine("ON")
def on(request): return tpforward("ADD", request.data)
@routine("WRONG")
def wrong(request): return Typed("all", e="12345")
@routine("WIDE")
def wide(request): return tpreturn(TPSUCCESS, 1 << 40)
@routine("NOTHING")
def nothing(request): return 7
@routine("EXIT")
def leave(request): return tpreturn(TPEXIT, 5)
@routine("ASK")
def ask(request):
    tpsprio(60, TPABSOLUTE)
    found = Typed("all", a=17 if tpcall("ECHO", request.data, TPNOCHANGE) == request.data else 0)
    assert tpcall("LEN", request.data, TPNOTIME) is None
    found["b"] = tpurcode()
    try: tpcall("FAIL", request.data, TPNOBLOCK)
    except TPError as error: found["c"], found["d"] = -error.tperrno * error.tpurcode, error.data["b"]
    try: tpcall("NOBODY")
    except TPError as error: found["e"] = error.name[2:6]
    return tpreturn(TPSUCCESS, 1, found)
def told(call, *words):
    try: call(*words)
    except TPError as error: return error
@routine("CHANGE")
def change(request):
    found = Typed("all", a=[told(tpadvertise, "NEW", "MAKE") for _ in "12"] == [None, None])
    found["b"] = -told(tpadvertise, "NEW", "ADD").tperrno
    found["c"] = -sum(weight * told(tpadvertise, *words).tperrno for weight, *words in ((1, ".", "MAKE"), (256, "NEW", "")))
    found["d"] = told(tpunadvertise, "NEW") is None
    found["e"] = told(tpunadvertise, "NEW").name[2:6]
    return found
serve()
"""
# The services that it calls, of the monitor's own program.
CALLED = """[[queue]]
name = "OTHER"
[[server]]
name = "T"
queue = "OTHER"
program = "%s"
"""
# The item that the servers of docs/protocol.md price, and what becomes of it.
ITEM = """[[shape]]
name = "item"
fields = ["name string 16", "count int", "cents long"]
[[service]]
name = "PRICE"
queues = ["Q"]
accepts = ["c:item"]
"""
PRICED = """a 1 OK 0 c:item 70656e00000000000000000000000000000000030000000000000168
a 2 TPESVCFAIL 0 c:item 70656e00000000000000000000000000ffffffffffffffffffffff88
"""
SERVED = "ADD MAKE ON WRONG WIDE NOTHING NONE ASK CHANGE EXIT".split()
TOLD = """a 1 TPESVCFAIL -3 c:all fffe000000080000000000000004c87778797a
a 2 OK 7 c:all 000000000000fffffffffffffffe0000000000
a 3 TPESVCFAIL -3 c:all fffe000000080000000000000004c87778797a
a 4 TPESVCERR
a 5 TPESVCERR
a 6 TPESVCERR
a 7 TPESVCFAIL 99 none
a 8 OK 1 c:all 001100000013ffffffffffffffb307454e4f45
a 9 OK 0 c:all 0001ffffffe9fffffffffffffbfc01454e4f45
a 10 TPESVCFAIL 5 none
"""


def served(report, program, room):
    """Servers of both libraries, a service of the standard's names alone, and the servers of the examples."""
    folder, flags = TOP / "examples/servers", ["-std=c99", "-O2", "-pedantic", "-Wall", "-Wextra", "-Werror"]
    compilers = [each for each in ("gcc", "clang") if shutil.which(each)] or [each for each in ("cc",) if shutil.which(each)]
    written(f"{room}/standard.c", STANDARD)
    written(f"{room}/shapes.c", IN_C)
    servers = {"in Python": written(f"{room}/shapes.py", IN_PYTHON % str(folder), 0o755)}
    for compiler in compilers:
        for name, more in (("standard", ["-DTPSERVICES=ECHO"]), ("shapes", ["-DTPSERVICES=" + ",".join(each for each in SERVED if each != "NONE")])):
            done = run([compiler, *flags, *more, f"-I{folder}", "-o", f"{room}/{name}", f"{room}/{name}.c"])
            report.case(f"sunzheg.h: {compiler} says nothing of {name}.c", done, (0, "", ""))
        servers[f"in C by {compiler}"] = f"{room}/shapes"
        written(f"{room}/config", GOOD % f"{room}/standard")
        found = run([program, "run", f"{room}/config"], 'client a\ncall ECHO text "hello"\ncall ECHO none\ncall ECHO text ""\n')
        echoed = "a 1 OK 0 octet 68656c6c6f\na 2 OK 0 none\na 3 OK 0 octet -\n"
        report.case("sunzheg.h: a service of the standard's names serves", found, (0, echoed, ""))
        tried(report, f"{room}/standard")
        for how in ["in Python", f"in C by {compiler}"]:
            config = '[[shape]]\nname = "all"\nfields = ["a short", "b int", "c long", "d char", "e string 4"]\n' + GOOD % servers[how]
            config = config.replace('"ECHO"\nqueues = ["Q"]', '"ECHO"\nqueues = ["OTHER"]') + CALLED % program
            config += "".join(f'[[service]]\nname = "{name}"\nqueues = ["Q"]\n' for name in SERVED)
            config += "".join(f'[[service]]\nname = "{name}"\nqueues = ["OTHER"]\n' for name in ("LEN", "FAIL"))
            written(f"{room}/config", config)
            script = "client a\n" + "".join(f'call {name} c all a=-3 b=7 c=3 d=199 e="abc"\n' for name in SERVED)
            status, told, said = run([program, "run", f"{room}/config"], script)
            report.case(f"the libraries: a server {how}", (status, told, said.count("printed by ADD"), said.count("TPESVCERR")), (0, TOLD, 2, 3))
            if how == "in Python":
                report.case("sunzheg.py: calls outside a routine", said.count("TPEPROTO"), 3)
        done = run([compiler, *flags, "-DTPSERVICES=PRICE", "-o", f"{room}/price", folder / "price.c"])
        report.case(f"price.c: {compiler} says nothing", done, (0, "", ""))
    for server in ("examples/servers/smallest.py", "examples/servers/echo.py"):
        tried(report, server)
    for server in [folder / "price.py"] + [f"{room}/price"] * bool(compilers):
        written(f"{room}/config", GOOD % server + ITEM)
        script = 'client a\ncall PRICE c item name="pen" count=3\ncall PRICE c item name="pen" count=-1\n'
        report.case(f"the libraries: {Path(server).name}", run([program, "run", f"{room}/config"], script), (0, PRICED, ""))
        tried(report, "--config", f"{room}/config", server, "PRICE")
    if compilers:
        for source, target in ((folder / "server.c", f"{room}/server"), (TOP / "examples/telephone/billing.c", TOP / "examples/telephone/billing")):
            report.case(f"{source.name}: {compilers[0]} says nothing", run([compilers[0], *flags, "-o", target, source]), (0, "", ""))
        tried(report, f"{room}/server")
        tried(report, "--config", "examples/telephone/telephone.toml")
    else:
        print("no gcc, no clang and no cc: sunzheg.h is not tried")


ALL = (served,)
