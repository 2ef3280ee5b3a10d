#!/usr/bin/env python3
"""Mirrors the routes of this machine's kernel, and answers which route an address takes.

    python3 live.py PROGRAM [TRANSCRIPT]

PROGRAM is the built mirror_cli. Type an address on a line; the end of the input ends the run. Where a file is named,
the run is kept there as a transcript, and `PROGRAM run < TRANSCRIPT` tells it again. It needs no rights, changes
nothing, and runs on any Linux of low byte order. The transcript names this machine's routes: look before you pass it
on."""
import errno
import ipaddress
import select
import socket
import subprocess
import sys
import threading

# The groups of notifications of routes (linux/rtnetlink.h): RTMGRP_IPV4_ROUTE and RTMGRP_IPV6_ROUTE.
ROUTE_GROUPS = 0x40 | 0x400

def put(record):
    for file in files:
        file.write(record + "\n")
        file.flush()

# Takes all datagrams that wait, so that a look-up comes after them. Where none waits no dump runs, so that a new one
# may be asked for.
def take_datagrams():
    global is_lost
    try:
        while True:
            try:
                datagram, (port, groups) = netlink.recvfrom(65536)
                put(f"recv {port} {groups} {datagram.hex() or '-'}")
            except OSError as error:
                if error.errno != errno.ENOBUFS:
                    raise
                put("overrun")
                is_lost = True
    except BlockingIOError:
        if is_lost:
            is_lost = False
            put("resync")

def address_of(digits):
    return ipaddress.ip_address(bytes.fromhex(digits))

# A look-up's answer in words. A kind of 1 is a plain route (linux/rtnetlink.h, RTN_UNICAST).
def answer(word, family, address, network="", priority="", kind="1", link="-", gateway="-"):
    text = f"{address_of(address)}: {word}"
    if word == "route":
        base, length = network.split("/")
        text += f" {address_of(base)}/{length} priority {priority}"
        text += f" kind {kind}" if kind != "1" else ""
        text += f" over {address_of(gateway)}" if gateway != "-" else ""
        text += f" by {socket.if_indextoname(int(link))}" if link != "-" else ""
    return text

# Sends what the program sends, and shows its answers and its last line. A look-up that finds the mirror out of step
# while no dump runs has the routes asked for again.
def take_lines():
    global is_lost
    dumps = 0
    for line in program.stdout:
        word, *more = line.split()
        if word == "sent":
            dumps += 1
            netlink.sendto(bytes.fromhex(more[2]), (int(more[0]), int(more[1])))
        elif word == "closed":
            dumps -= 1
        elif word in ("route", "absent", "stale"):
            print(answer(word, *more), flush=True)
            is_lost = is_lost or (word == "stale" and dumps == 0)
        elif word == "ok":
            print(line, end="", flush=True)

netlink = socket.socket(socket.AF_NETLINK, socket.SOCK_RAW, socket.NETLINK_ROUTE)
netlink.bind((0, ROUTE_GROUPS))
netlink.setblocking(False)
user = open(0, "rb", buffering=0)
words = [sys.argv[1], "run", "limit=18446744073709551615"]
program = subprocess.Popen(words, stdin=subprocess.PIPE, stdout=subprocess.PIPE, text=True)
files = [program.stdin, *(open(name, "w") for name in sys.argv[2:])]
is_lost = True
shown = threading.Thread(target=take_lines)
shown.start()
take_datagrams()
while program.poll() is None:
    ready = select.select([netlink, user], [], [], 1)[0]
    take_datagrams()
    if user in ready:
        line = user.readline()
        if not line:
            break
        try:
            address = ipaddress.ip_address(line.decode().strip())
            put(f"lookup {address.version} {address.packed.hex()}")
        except ValueError as error:
            print(error, file=sys.stderr)
program.stdin.close()
shown.join()
sys.exit(program.wait())
