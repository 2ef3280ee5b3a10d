#!/usr/bin/env python3
"""Asks the kernel for links, addresses and routes, and writes what was sent and what came as a transcript.

    python3 record.py [links] [addresses] [routes] > NAME.txt

Without words it asks for all three, one after the other. It needs no rights, changes nothing, and runs on any Linux
of low byte order. The transcript names this machine's interfaces and addresses: look before you pass it on."""
import socket
import struct
import sys

# The type of each request, and the length of the header that it carries (linux/rtnetlink.h): RTM_GETLINK with an
# ifinfomsg, RTM_GETADDR with an ifaddrmsg, RTM_GETROUTE with an rtmsg.
REQUESTS = {"links": (18, 16), "addresses": (22, 8), "routes": (26, 12)}
NLM_F_REQUEST, NLM_F_DUMP = 0x1, 0x300
NLMSG_ERROR, NLMSG_DONE = 2, 3

# The types of a datagram's messages.
def types(datagram):
    at = 0
    while at + 16 <= len(datagram):
        length, kind = struct.unpack_from("<IH", datagram, at)
        yield kind
        at += max(length + 3 & ~3, 16)

netlink = socket.socket(socket.AF_NETLINK, socket.SOCK_RAW, socket.NETLINK_ROUTE)
netlink.bind((0, 0))
for number, name in enumerate(sys.argv[1:] or REQUESTS, 1):
    kind, length = REQUESTS[name]
    frame = struct.pack("<IHHII", 16 + length, kind, NLM_F_REQUEST | NLM_F_DUMP, number, 0) + bytes(length)
    print(f"batch 0 0 f:{frame.hex()}")
    netlink.sendto(frame, (0, 0))
    ended = False
    while not ended:
        datagram, (port, groups) = netlink.recvfrom(65536)
        print(f"recv {port} {groups} {datagram.hex() or '-'}")
        ended = any(kind in (NLMSG_ERROR, NLMSG_DONE) for kind in types(datagram))
