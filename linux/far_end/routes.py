"""Routes and rules: what `ip -json` says of them, as those of the profile."""
from .profile import ACTIONS, Hop, RouteKey, Rule
from .text import Prefix, read_address, read_prefix

# The protocol and metric under which an IPv6 route is kept that was asked for with metric 0. Linux makes 1024 of that, and refuses
# a second route of the destination with it.
MARK, MARKED_METRIC = "200", "1023"
# Protocols by their numbers: of routes by hand, of Linux itself, and of redirects, router advertisements and DHCP.
STATIC, KERNEL, FOREIGN = "4", "2", ("1", "9", "16")
LOCAL_TABLE, MAIN_TABLE = 255, 254
UNICAST = "1"

# What a route may have that is told, and what one may have that can be put back.
TOLD = {"type", "dst", "gateway", "dev", "protocol", "scope", "metric", "flags", "table", "pref"}
REPEATABLE = TOLD | {"prefsrc", "expires"}
WORDS = {"gateway": "via", "dev": "dev", "table": "table", "metric": "metric", "protocol": "proto", "prefsrc": "src"}

# What a rule may have that is told, and the system's own rules by priority and table.
RULE_TOLD = {"priority", "src", "srclen", "dst", "dstlen", "iif", "iif_detached", "fwmark", "fwmask", "table", "action", "protocol"}
SYSTEM_RULES = {(0, "255"), (32766, "254"), (32767, "253")}
# Actions by name, and by the numbers that `-N` prints.
ACTION_WORDS = {**{word: at for at, word in enumerate(ACTIONS) if at}, "6": 1, "7": 2, "8": 3}
WHOLE_MASK = 0xFFFFFFFF


def key_of(raw, ipv6):
    default = "::/0" if ipv6 else "0.0.0.0/0"
    metric = 0 if ipv6 and raw["protocol"] == MARK else raw.get("metric", 0)
    return RouteKey(read_prefix(default if raw["dst"] == "default" else raw["dst"]), int(raw.get("table", MAIN_TABLE)), metric)


def hop_of(raw):
    return Hop(read_address(raw["gateway"]) if "gateway" in raw else None, raw["protocol"])


def is_plain(raw):
    """Whether a route has nothing that the profile lacks, and is no other manager's."""
    return not set(raw) - TOLD and not set(raw.get("flags", [])) - {"linkdown"} and raw["protocol"] not in FOREIGN


def is_looked_at(raw):
    return raw.get("type", UNICAST) == UNICAST and raw.get("protocol") != KERNEL and raw.get("table") != str(LOCAL_TABLE)


def line_of(raw, ipv6):
    """The line that puts a route back that isn't told."""
    words = [word for key, name in WORDS.items() if key in raw for word in (name, str(raw[key]))]
    scope = [] if ipv6 else ["scope", raw["scope"]]
    onlink = ["onlink"] if "onlink" in raw.get("flags", []) else []
    return ["route", "add", str(key_of(raw, ipv6).destination), *words, *scope, *onlink]


def read_routes(raws, ipv6, network, untold, say):
    """Fills in the routes of a family. Of what isn't told the lines that put it back are kept; a device with a route that no line
    could put back is noted, so that no call closes it."""
    seen = set()
    for raw in filter(is_looked_at, raws):
        devices = {hop.get("dev") for hop in raw.get("nexthops", [raw])} & set(network.links)
        if not devices:
            continue
        link, key = network.links.get(raw.get("dev")), key_of(raw, ipv6)
        if link and link.is_up and is_plain(raw) and key not in seen:
            hop = hop_of(raw)
            if hop.gateway is None or link.reaches(hop.gateway):
                seen.add(key)
                network.routes.setdefault(link.name, {})[key] = hop
                continue
        say(f"route {key.destination}" + (f" dev {link.name}" if link else ""), "it has what the profile lacks")
        if link and not set(raw) - REPEATABLE:
            untold.lines.setdefault(link.name, []).append(line_of(raw, ipv6))
        else:
            untold.fixed |= devices


def end_of(raw, key, bits):
    """A rule's source or destination."""
    if raw.get(key, "all") == "all":
        return None
    return Prefix(read_address(raw[key]), raw.get(key + "len", bits))


def target_of(raw):
    """A rule's action and table, or none."""
    action, table = raw.get("action"), raw.get("table")
    if action is None:
        return (0, int(table)) if str(table).isdigit() else None
    return (ACTION_WORDS[action], 0) if action in ACTION_WORDS else None


def is_system(raw):
    """The three rules that each namespace begins with, and the one that comes with the first VRF."""
    return "l3mdev" in raw or (raw["priority"], raw.get("table")) in SYSTEM_RULES and raw["src"] == "all" and len(raw) <= 4


def read_rules(raws, ipv6, network, untold, say):
    """Fills in the rules of a family. Of what isn't told the priority and target are kept: Linux may take such a rule for ours."""
    for raw in raws:
        if is_system(raw):
            continue
        target = target_of(raw)
        if set(raw) - RULE_TOLD or target is None:
            untold.rules.add((raw["priority"], ipv6, target))
            say(f"rule {raw['priority']}", "it has what the profile lacks")
            continue
        bits = 128 if ipv6 else 32
        mask = int(raw["fwmask"], 16) if "fwmask" in raw else WHOLE_MASK if "fwmark" in raw else 0
        rule = Rule(raw["priority"], ipv6, end_of(raw, "src", bits), end_of(raw, "dst", bits), raw.get("iif"),
                    int(raw.get("fwmark", "0"), 16), mask, *target)
        network.rules.setdefault((rule.priority, ipv6), set()).add(rule)
