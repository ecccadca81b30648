#!/usr/bin/env python3
"""Writes a vehicle at its limits, and its plans: make_vehicle.py FOLDER

16 buses, each with 128 units, 256 groups of at most 64 signals and 512 flows, 64 gateways with a unit on each bus, 512 forwards and
4096 needs. The forwards are one chain that goes round the buses 32 times: three hand on directly, then one periodically; every
fifth regroups its signals, the others copy. Each flow of the chain has eight needs of its first sender. The vehicle has no findings.
"""
import sys

BUSES, UNITS, GROUPS, SIGNALS, FLOWS = 16, 128, 256, 64, 512
GATEWAYS, FORWARDS, NEEDS = 64, 512, 4096
# The groups of the chain, one for each round, and another one where it ends
CHAIN = FORWARDS // BUSES + 1
PERIODIC, REGROUPED = 4, 5


def is_periodic(hop):
    return hop % PERIODIC == PERIODIC - 1


def is_long(group):
    return group >= CHAIN and group % 2 == 1


def sender(hop):
    """The unit that sends the chain's flow behind so many forwards."""
    return f"G{(hop - 1) % GATEWAYS}" if hop else "U0"


def groups():
    for group in range(GROUPS):
        priority, size = 3 if group < CHAIN else 6, SIGNALS if is_long(group) else 8
        yield f'[[group]]\nlabel = "M{group}"\npgn = {126976 + group}\npriority = {priority}\nlength = {size}'
        for signal in range(SIGNALS if is_long(group) else SIGNALS // 2):
            place = f"byte = {signal + 1}\nbits = 8" if is_long(group) else f"byte = {signal // 4 + 1}\nbit = {signal % 4 * 2 + 1}\nbits = 2"
            yield f'[[group.signal]]\nlabel = "S{signal}"\n{place}\nkind = "{"measured" if is_long(group) else "discrete"}"'


def plan(bus):
    yield "version = 4\n[timing]\nbitrate = 500000\nunplanned = 3\nerrors = { count = 1, every = 1000 }"
    for unit in range(UNITS):
        label = f"G{unit}" if unit < GATEWAYS else f"U{unit - GATEWAYS}"
        yield f'[[unit]]\nlabel = "{label}"\naddress = {unit}\nname = {{ function = {unit} }}'
    yield from groups()
    hops = range(bus, FORWARDS + 1, BUSES)
    for hop in hops:
        yield f'[[flow]]\ngroup = "M{hop // BUSES}"\nfrom = "{sender(hop)}"\nto = "all"\nperiod = 100'
        is_own = hop == 0 or is_periodic(hop - 1)
        yield "pause = 100" if is_own else f"jitter = {20 * (hop % PERIODIC)}"
    for flow in range(FLOWS - len(hops)):
        group = CHAIN + flow % (GROUPS - CHAIN)
        to = f"U{(flow + 1) % GATEWAYS}" if is_long(group) else "all"
        yield f'[[flow]]\ngroup = "M{group}"\nfrom = "U{flow % GATEWAYS}"\nto = "{to}"'
        yield f"period = {50000 + flow}"


def vehicle():
    yield "version = 1"
    for bus in range(BUSES):
        yield f'[[bus]]\nlabel = "B{bus}"\nplan = "b{bus}.toml"'
    for gateway in range(GATEWAYS):
        units = ", ".join(f'"B{bus}.G{gateway}"' for bus in range(BUSES))
        yield f'[[gateway]]\nlabel = "GW{gateway}"\nunit = [{units}]'
    for hop in range(FORWARDS):
        heard, sent = (f"B{at % BUSES}.M{at // BUSES}" for at in (hop, hop + 1))
        yield f'[[forward]]\ngateway = "GW{hop % GATEWAYS}"\ngroup = "{heard}"\nas = "{sent}"\nwithin = 1'
        if is_periodic(hop):
            yield 'mode = "periodic"'
        if hop % REGROUPED == 0:
            yield "signal = [" + ", ".join(f'{{ label = "S{it}" }}' for it in range(SIGNALS // 2)) + "]"
    for need in range(NEEDS):
        hop = need * FORWARDS // NEEDS + 1
        yield f'[[need]]\nunit = "B{hop % BUSES}.U1"\ngroup = "M{hop // BUSES}"\nsignal = "S{need % (SIGNALS // 2)}"'
        yield 'from = "B0.U0"\nwithin = 60000'


def main(folder):
    files = {f"b{bus}": plan(bus) for bus in range(BUSES)}
    for name, lines in {"vehicle": vehicle(), **files}.items():
        with open(f"{folder}/{name}.toml", "w") as file:
            file.writelines(f"{line}\n" for line in lines)


if __name__ == "__main__":
    main(*sys.argv[1:])
