"""DNS: the name servers and search domains of resolv.conf. Its other lines stay."""
import os
import re

from .errors import Fault, Refused
from .text import read_address, write_address


DOMAIN = re.compile(r"[!-+\--~]{1,253}")


def is_server(words):
    """A server with a zone, as fe80::1%eth0, can't be told."""
    return words[:1] == ["nameserver"] and len(words) == 2 and "%" not in words[1]


def is_search(words):
    return words[:1] == ["search"] and all(map(DOMAIN.fullmatch, words[1:]))


def read_dns(path, network, untold):
    network.servers, network.search, untold.dns = [], [], []
    try:
        lines = open(path, encoding="utf-8", errors="surrogateescape").readlines() if os.path.exists(path) else []
    except OSError as e:
        raise Fault(f"{path}: {e.strerror}") from None
    for line in lines:
        words = line.split()
        if is_server(words):
            network.servers.append(read_address(words[1]))
        elif is_search(words):
            network.search = words[1:]
        else:
            untold.dns.append(line if line.endswith("\n") else line + "\n")


def write_dns(path, servers, search, others):
    """Writes the file in place, since it may be mounted by itself."""
    lines = [*others, *(f"nameserver {write_address(it)}\n" for it in servers)]
    lines += [f"search {' '.join(search)}\n"] if search else []
    try:
        with open(path, "r+" if os.path.exists(path) else "w", encoding="utf-8", errors="surrogateescape") as file:
            file.writelines(lines)
            file.truncate()
    except OSError as e:
        raise Refused(23, f"{path}: {e.strerror}") from None
