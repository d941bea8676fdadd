"""Addresses, prefixes and MAC addresses: as text, and as the bytes that stand for them."""
import socket
from typing import NamedTuple


class Prefix(NamedTuple):
    """An address of 4 or 16 bytes, and a length in bits."""
    address: bytes
    length: int

    def __str__(self):
        return f"{write_address(self.address)}/{self.length}"


def read_address(text):
    return socket.inet_pton(socket.AF_INET6 if ":" in text else socket.AF_INET, text)


def write_address(address):
    return socket.inet_ntop(socket.AF_INET6 if len(address) == 16 else socket.AF_INET, address)


def read_prefix(text):
    """An address without a length stands for itself alone."""
    address, _, length = text.partition("/")
    found = read_address(address)
    return Prefix(found, int(length) if length else len(found) * 8)


def read_mac(text):
    found = bytes.fromhex(text.replace(":", ""))
    if len(found) != 6:
        raise ValueError(text)
    return found


def write_mac(mac):
    return mac.hex(":")


def number_of(address):
    return int.from_bytes(address, "big")


def is_link_local(address):
    """Whether an address lies in fe80::/10."""
    return len(address) == 16 and address[0] == 0xFE and address[1] & 0xC0 == 0x80
