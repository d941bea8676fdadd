"""Calls on addresses, routes, rules and DNS."""
from .dns import write_dns
from .errors import Refused
from .profile import ACTIONS, Hop, Rule
from .routes import FOREIGN, MARK, MARKED_METRIC, STATIC, TOLD, hop_of, key_of
from .text import write_address

PROMOTE = "/proc/sys/net/ipv4/conf/{}/promote_secondaries"


def route_line(verb, key, hop, device):
    is_marked = len(key.destination.address) == 16 and not key.metric
    via = ["via", write_address(hop.gateway)] if hop.gateway else []
    return ["route", verb, str(key.destination), *via, "dev", device, "table", str(key.table),
            "metric", MARKED_METRIC if is_marked else str(key.metric), "proto", MARK if is_marked else hop.protocol]


def add_address(machine, name, prefix):
    machine.run([["address", "add", str(prefix), "dev", name]], 15)
    machine.network.links[name].addresses.add(prefix)


class Promoting:
    """With the first IPv4 address of a subnet Linux removes the others, unless they may be promoted. Where neither the device nor the
    machine has that set it is lent to the device for one deletion."""

    def __init__(self, device):
        self.path = PROMOTE.format(device)
        self.is_lent = all(open(it, encoding="ascii").read() == "0\n" for it in (PROMOTE.format("all"), self.path))

    def put(self, value):
        if self.is_lent:
            with open(self.path, "w", encoding="ascii") as file:
                file.write(value)

    def __enter__(self):
        self.put("1")

    def __exit__(self, *_):
        self.put("0")


def del_address(machine, name, prefix):
    line = ["address", "del", str(prefix), "dev", name]
    if len(prefix.address) == 4:
        with Promoting(name):
            machine.run([line], 16)
    else:
        machine.run([line], 16)
    machine.network.links[name].addresses.discard(prefix)
    after_del_address(machine, name, len(prefix.address) == 4)


def after_del_address(machine, name, ipv4):
    """Routes whose gateway isn't on-link any more go. With the last IPv4 address Linux takes all IPv4 routes of the device: the others
    are put back."""
    link, routes = machine.network.links[name], machine.network.routes.get(name, {})
    lost = [key for key, hop in routes.items() if hop.gateway and not link.reaches(hop.gateway)]
    lines = [route_line("del", key, routes.pop(key), name) for key in lost]
    is_last = ipv4 and not any(len(it.address) == 4 for it in link.addresses)
    if is_last:
        lines += [route_line("add", key, hop, name) for key, hop in routes.items() if len(key.destination.address) == 4]
    machine.mend(lines, machine.untold.lines.get(name, ()) if is_last else ())


def stands(machine, key, gateway, device):
    """Whether a route is there as it is asked for: Linux keeps some that the model lets go."""
    ipv6 = len(key.destination.address) == 16
    raws = machine.ip.show("-6" if ipv6 else "-4", "-N", "-details", "route", "show", "table", str(key.table), "exact", str(key.destination))
    return any(not set(it) - TOLD and it.get("dev") == device and hop_of(it).gateway == gateway and it["protocol"] not in ("2", *FOREIGN)
               and key_of(it, ipv6).metric == key.metric for it in raws)


def add_route(machine, key, gateway, device):
    hop = Hop(gateway, STATIC)
    for line, words in machine.ip.run([route_line("add", key, hop, device)]):
        if "File exists" not in words or not stands(machine, key, gateway, device):
            raise Refused(19, f"ip {' '.join(line)}: {words}")
    machine.network.routes.setdefault(device, {})[key] = hop


def del_route(machine, key, gateway, device):
    hop = machine.network.routes.get(device, {}).get(key)
    if hop is None or hop.gateway != gateway:
        raise Refused(20, "no such route")
    machine.run([route_line("del", key, hop, device)], 20)
    del machine.network.routes[device][key]


def rule_line(verb, rule):
    ends = [word for name, end in (("from", rule.source), ("to", rule.destination)) if end for word in (name, str(end))]
    iif = ["iif", rule.iif] if rule.iif else []
    mark = ["fwmark", f"{rule.mark}/{rule.mask}"] if rule.mark or rule.mask else []
    target = [ACTIONS[rule.action]] if rule.action else ["table", str(rule.table)]
    return ["rule", verb, "pref", str(rule.priority), *ends, *iif, *mark, *target]


def selectors(rule):
    return rule.source, rule.destination, rule.iif, rule.mark, rule.mask


def is_narrower(other, rule):
    """Whether Linux may take another rule for this one: it looks for what is stated alone, so what a rule lacks matches anything."""
    same = (other.action, other.table) == (rule.action, rule.table)
    return other != rule and same and all(not mine or mine == its for mine, its in zip(selectors(rule), selectors(other)))


def change_rule(machine, verb, rule):
    """Adds or deletes a rule. Narrower ones of its priority give way meanwhile."""
    rules = machine.network.rules.setdefault((rule.priority, rule.is_ipv6), set())
    target = rule.action, rule.table
    if verb == "del" and any((rule.priority, rule.is_ipv6, it) in machine.untold.rules for it in (target, None)):
        raise Refused(22, f"a rule that isn't told has priority {rule.priority} too")
    narrower = sorted((it for it in rules if is_narrower(it, rule)), key=lambda it: -sum(map(bool, selectors(it))))
    lines = [rule_line("del", it) for it in narrower] + [rule_line(verb, rule)] + [rule_line("add", it) for it in reversed(narrower)]
    machine.run(lines, 21 if verb == "add" else 22, rule.is_ipv6)
    (rules.add if verb == "add" else rules.discard)(rule)


def add_rule(machine, rule: Rule):
    change_rule(machine, "add", rule)


def del_rule(machine, rule: Rule):
    change_rule(machine, "del", rule)


def set_dns(machine, servers, search):
    write_dns(machine.resolv, servers, search, machine.untold.dns)
    machine.network.servers, machine.network.search = servers, search
