#!/usr/bin/env python3
import os, struct, sys

def write(kind, tag, body=b""):
    sys.stdout.buffer.write(struct.pack(">2sBBII", b"XA", 1, kind, len(body), tag) + body)
    sys.stdout.buffer.flush()

def read(count):
    octets = sys.stdin.buffer.read(count)
    return octets if len(octets) == count else sys.exit()

def forward(tag, service, octets):  # In place of RETURN, with X_OCTET.
    write(0x05, tag, bytes([len(service)]) + service + struct.pack(">BI", 1, len(octets)) + octets)

name = os.fsencode(sys.argv[2])
write(0x01, 0, bytes([len(name)]) + name)  # READY
while True:
    write(0x02, 0)  # NEXT
    _, _, kind, length, tag = struct.unpack(">2sBBII", read(12))
    body = read(length)
    if kind == 0x13:  # SHUTDOWN
        break
    at = 1 + body[0]  # The routine stands after the service.
    routine, data = body[at + 1 : at + 1 + body[at]], body[at + 2 + body[at] :]
    if routine == b"PASS" and data[0] == 1 and b" " in data[5:261]:  # X_OCTET with a space
        forward(tag, *data[5:].split(b" ", 1))
    elif routine in (b"ECHO", b"PASS"):
        write(0x04, tag, struct.pack(">Bi", 0, 0) + data)  # RETURN: TPSUCCESS, code 0, the data
    else:
        write(0x04, tag, struct.pack(">Bi", 1, 99) + b"\0")  # RETURN: TPFAIL, code 99, no data
