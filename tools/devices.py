"""Ethernet devices of Linux: what the system says of them, and sockets for their packets."""
import collections
import ctypes
import errno
import fcntl
import os
import socket
import struct

from frames import GROUPS, IP, OSPF

# <linux/sockios.h>, <linux/if_arp.h>, <linux/if.h>, <linux/if_packet.h>, <asm/socket.h>
GET_FLAGS, GET_MTU, GET_ADDRESS, GET_INDEX = 0x8913, 0x8921, 0x8927, 0x8933
ETHERNET, UP, RUNNING = 1, 0x1, 0x40
PACKET_LAYER, ADD_MEMBERSHIP, MULTICAST = 263, 1, 0
TO_OTHERS, OUTGOING = 3, 4
RECEIVE_BUFFER_BY_FORCE, ATTACH_FILTER = 33, 26
# A filter of the kernel for packets of protocol 89: load byte 9; if it is 89 accept all, else
# nothing.
FILTER = [(0x30, 0, 0, 9), (0x15, 0, 1, OSPF), (0x06, 0, 0, 0xFFFFFFFF), (0x06, 0, 0, 0)]
BUFFER = 4 << 20
# So many packets of one socket are taken before the others have their turn.
AT_ONCE = 64

Facts = collections.namedtuple("Facts", "index kind mac mtu is_up")


def facts_of(name, asking):
    """What the system says of a device; None where there is none."""

    def ask(request):
        return fcntl.ioctl(asking, request, struct.pack("16s24x", os.fsencode(name)))[16:]

    try:
        index, mtu, flags = (
            struct.unpack_from("i", ask(request))[0] for request in (GET_INDEX, GET_MTU, GET_FLAGS)
        )
        address = ask(GET_ADDRESS)
    except OSError as error:
        if error.errno in (errno.ENODEV, errno.ENXIO):
            return None
        raise
    return Facts(
        index,
        struct.unpack_from("H", address)[0],
        address[2:8],
        mtu,
        flags & (UP | RUNNING) == UP | RUNNING,
    )


def packet_socket(name, index, kind):
    """A socket for the packets of one kind of a device, without their Ethernet headers."""
    made = socket.socket(socket.AF_PACKET, socket.SOCK_DGRAM, 0)
    try:
        made.setblocking(False)
        if kind == IP:
            code = ctypes.create_string_buffer(
                b"".join(struct.pack("HBBI", *line) for line in FILTER)
            )
            made.setsockopt(
                socket.SOL_SOCKET,
                ATTACH_FILTER,
                struct.pack("HP", len(FILTER), ctypes.addressof(code)),
            )
            for mac in GROUPS.values():
                made.setsockopt(
                    PACKET_LAYER,
                    ADD_MEMBERSHIP,
                    struct.pack("iHH8s", index, MULTICAST, len(mac), mac),
                )
        enlarge(made)
        made.bind((name, kind))
    except OSError:
        made.close()
        raise
    return made


def enlarge(one):
    """Makes room for bursts: without CAP_NET_ADMIN as much as the system allows everybody."""
    for option in (RECEIVE_BUFFER_BY_FORCE, socket.SO_RCVBUF):
        try:
            return one.setsockopt(socket.SOL_SOCKET, option, BUFFER)
        except OSError:
            pass
    return None


def received(one, size):
    """What waits at a socket, as far as its turn goes."""
    for _ in range(AT_ONCE):
        try:
            yield one.recvfrom(size)
        except (BlockingIOError, InterruptedError):
            return
        except OSError:
            # A port that nobody hears, a device that went down: it is seen elsewhere, and the next
            # packet may come.
            continue
