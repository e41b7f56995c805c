#!/usr/bin/env python3
"""Writes a configuration set of one shape to standard output: shapes.py SHAPE COUNT.

interfaces: so many interface descriptors, 256 alternate settings for each number, which break no rule.
endpoints: one interface with so many endpoints, at the thirty addresses in turn, so that all but thirty break V7.
bytes: the same at the addresses 0 to 255 in turn, of which most break V6 too.
"""
import struct
import sys

ADDRESSES = [direction | number for direction in (0x00, 0x80) for number in range(1, 16)]


def interface(number, alternate, endpoints):
    return bytes([9, 4, number, alternate, endpoints, 3, 1, 2, 0])


def endpoint(address):
    return bytes([7, 5, address, 3, 8, 0, 10])


def body(shape, count):
    if shape == "interfaces":
        return b"".join(interface(place // 256, place % 256, 0) for place in range(count))
    addresses = ADDRESSES if shape == "endpoints" else range(256)
    return interface(0, 0, count % 256) + b"".join(endpoint(addresses[place % len(addresses)]) for place in range(count))


shape, count = sys.argv[1], int(sys.argv[2])
interfaces = (count + 255) // 256 if shape == "interfaces" else 1
rest = body(shape, count)
sys.stdout.buffer.write(struct.pack("<BBHBBBBB", 9, 2, 9 + len(rest), interfaces, 1, 0, 0x80, 50) + rest)
