"""Links: what `ip -json -details address show` says of them, as links of the profile."""
import re

from .errors import LeftOut
from .profile import (BASES, BOND_MODES, HASH_POLICIES, LACP_RATES, TAKES, BondOptions, BridgeOptions, Link, PortOptions, default_mac)
from .text import is_link_local, read_address, read_mac, read_prefix

VIRTUAL = ("bond", "bridge", "vlan", "vrf", "veth", "dummy")
# Names of the profile; one with % is a pattern for Linux.
NAME = re.compile(r"[!-$&-.0-9;-~]{1,15}")
LEAST_MTU, MOST_MTU = 68, 65535


def read_ethernet(raw, _data, link):
    """A link without a permanent MAC address, as that of a container, gets one that stays by its name: its own would change with
    each change of it, and be taken for other hardware."""
    link.permanent_mac = read_mac(raw["permaddr"]) if "permaddr" in raw else default_mac(link.name)


def read_bond(_raw, data, link):
    link.mode = BOND_MODES.index(data["mode"])
    link.bond = BondOptions(
        data.get("primary"), LACP_RATES.index(data.get("ad_lacp_rate", "slow")), HASH_POLICIES.index(data["xmit_hash_policy"]),
        data["miimon"], data["updelay"], data["downdelay"])
    if data.get("arp_interval") or link.bond.miimon == 0 and (link.bond.updelay or link.bond.downdelay):
        raise LeftOut("its monitor")


def read_bridge(_raw, data, link):
    """Linux counts a bridge's times in hundredths of a second."""
    times = [data[key] for key in ("forward_delay", "hello_time", "max_age", "ageing_time")]
    link.bridge = BridgeOptions(data["stp_state"], data["priority"], *(it // 100 for it in times))
    if data.get("vlan_filtering"):
        raise LeftOut("VLAN filtering")
    in_range = 2 <= link.bridge.forward_delay <= 30 and 1 <= link.bridge.hello_time <= 10 and 6 <= link.bridge.max_age <= 40
    if data["stp_state"] > 1 or any(it % 100 for it in times) or not in_range:
        raise LeftOut("its STP or times")


def read_vlan(raw, data, link):
    link.base, link.vlan_id = raw.get("link", ""), data["id"]
    link.protocol = ("802.1q", "802.1ad").index(data["protocol"].lower())
    has_maps = data.get("ingress_qos") or data.get("egress_qos")
    if not link.base or "link_netnsid" in raw or not 1 <= link.vlan_id <= 4094 or data.get("flags") != ["REORDER_HDR"] or has_maps:
        raise LeftOut("its base, id, flags or maps")


def read_vrf(_raw, data, link):
    link.table = data["table"]


def read_veth(raw, _data, link):
    link.peer = raw.get("link", "")


READERS = {"ethernet": read_ethernet, "bond": read_bond, "bridge": read_bridge, "vlan": read_vlan, "vrf": read_vrf, "veth": read_veth}


def kind_of(raw):
    kind = raw.get("linkinfo", {}).get("info_kind")
    if raw.get("link_type") != "ether" or len(raw.get("address", "")) != 17 or kind not in (None, *VIRTUAL):
        raise LeftOut(f"type {kind or raw.get('link_type')}")
    # A veth whose peer stands in another namespace is a device, as far as this one goes.
    return "ethernet" if kind is None or kind == "veth" and "link_netnsid" in raw else kind


def read_link(raw):
    """A link without its addresses. It is left out where the profile can't say it."""
    kind, name, info = kind_of(raw), raw["ifname"], raw.get("linkinfo", {})
    if not NAME.fullmatch(name) or raw["mtu"] < LEAST_MTU:
        raise LeftOut("its name or MTU")
    port, port_data = info.get("info_slave_kind"), info.get("info_slave_data", {})
    # A bond lends its MAC address to its ports.
    mac = read_mac(port_data["perm_hwaddr"] if port == "bond" else raw["address"])
    link = Link(name, kind, mac, min(raw["mtu"], MOST_MTU), "UP" in raw["flags"], raw.get("master"))
    if kind in READERS:
        READERS[kind](raw, info.get("info_data", {}), link)
    if port == "bridge":
        link.port = PortOptions(port_data["cost"], port_data["priority"], int(port_data["hairpin"]))
    return link


def why_alone(link, links):
    """Why a link can't stand in the network beside those that are told, or none."""
    controller = links.get(link.controller)
    if link.controller and (controller is None or link.kind not in TAKES.get(controller.kind, ())):
        return f"its controller {link.controller}"
    if link.kind == "vlan":
        base = links.get(link.base)
        if base is None or base.kind not in BASES or link.is_up and not base.is_up or link.mtu > base.mtu:
            return f"its base {link.base}"
    if link.kind == "veth":
        peer = links.get(link.peer)
        if peer is None or peer.kind != "veth" or peer.peer != link.name:
            return "its peer"
    if link.bond.primary:
        primary = links.get(link.bond.primary)
        if primary is None or primary.controller != link.name:
            return "its primary"
    return None


def read_links(raws, say):
    """The links that can be told, with no other among those that they stand on. Says which are left out, and why."""
    links, left = {}, {}
    for name, raw in raws.items():
        try:
            links[name] = read_link(raw)
        except LeftOut as e:
            left[name] = str(e)
    while left:
        for name, why in left.items():
            say(name, why)
            links.pop(name, None)
        left = {name: why for name, why in ((name, why_alone(link, links)) for name, link in links.items()) if why}
    return links


def is_told(raw):
    """Whether an address is the profile's: neither one that expires, which is another manager's, nor one with a peer."""
    return "local" in raw and "address" not in raw and not raw.get("dynamic")


def line_of(raw, name):
    """The line that puts an IPv6 address back that isn't told."""
    peer = ["peer", f"{raw['address']}/{raw['prefixlen']}"] if "address" in raw else []
    times = ["valid_lft", str(raw["valid_life_time"]), "preferred_lft", str(raw["preferred_life_time"])] if raw.get("dynamic") else []
    return ["address", "add", f"{raw['local']}/{raw['prefixlen']}", *peer, "dev", name, *times]


def read_addresses(link, raws, say):
    """Fills in the addresses of a link, and gives the lines of IPv6 ones that aren't told. Those in fe80::/10 are Linux's own."""
    lines = []
    for raw in raws:
        text = f"{raw.get('local', '?')}/{raw['prefixlen']}"
        if not is_told(raw):
            say(f"{link.name} {text}", "an address that expires" if raw.get("dynamic") else "an address with a peer")
            if raw["family"] == "inet6" and "local" in raw:
                lines.append(line_of(raw, link.name))
        elif not is_link_local(read_address(raw["local"])):
            link.addresses.add(read_prefix(text))
    return lines


def drop_addresses(link, links, say):
    """Takes out the addresses that a valid network can't have there, and gives them."""
    dropped = []
    is_port = link.controller and links[link.controller].kind in ("bond", "bridge")
    for it in sorted(link.addresses):
        twice = sum(other.address == it.address for other in link.addresses) > 1
        if is_port or twice or len(it.address) == 16 and not link.is_up:
            say(f"{link.name} {it}", "an address on a port" if is_port else "an address that stands twice" if twice else "IPv6 on a link that is down")
            link.addresses.discard(it)
            dropped.append(it)
    return dropped
