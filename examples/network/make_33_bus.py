#!/usr/bin/env python3
"""Writes 33-bus.csv and 33-bus.xml: the feeder of 33 nodes with five ties of Baran and Wu (1989), as edges and as a model in CIM.

    python3 examples/network/make_33_bus.py [FOLDER]

Each branch has a switch at the end that is nearer to node 1, the first one a breaker; a tie is an open switch. Node 1 is the source,
and each other node has one customer, whose number is the node's.
"""

import sys
from collections.abc import Iterator
from pathlib import Path

BRANCHES = [
    *((node, node + 1) for node in range(1, 18)),
    (2, 19), (19, 20), (20, 21), (21, 22),
    (3, 23), (23, 24), (24, 25),
    (6, 26), *((node, node + 1) for node in range(26, 33)),
]  # fmt: skip
TIES = [(21, 8), (9, 15), (12, 22), (18, 33), (25, 29)]
CIM = "http://iec.ch/TC57/CIM100#"

Edge = tuple[str, str, str, str, bool]  # its name, its class in CIM, its nodes, and whether it is closed


def edges() -> Iterator[Edge]:
    for number, (near, far) in enumerate(BRANCHES, 1):
        between = f"{near}-{far}"
        yield f"SW-{number}", "Breaker" if number == 1 else "LoadBreakSwitch", str(near), between, True
        yield f"LINE-{number}", "ACLineSegment", between, str(far), True
    for number, (one, other) in enumerate(TIES, len(BRANCHES) + 1):
        yield f"TIE-{number}", "LoadBreakSwitch", str(one), str(other), False


def csv_lines() -> Iterator[str]:
    kinds = {"Breaker": "breaker", "LoadBreakSwitch": "switch", "ACLineSegment": "line"}
    yield "name,kind,from,to,normal,circuit"
    for name, kind, one, other, is_closed in edges():
        position = "" if kind == "ACLineSegment" else "closed" if is_closed else "open"
        yield f"{name},{kinds[kind]},{one},{other},{position},1"


def thing(kind: str, key: str, **values: str) -> str:
    """An object in one line; values that begin with # are references."""
    told = "".join(
        f'<cim:{name} rdf:resource="{value}"/>' if value.startswith("#") else f"<cim:{name}>{value}</cim:{name}>"
        for name, value in ((name.replace("_", ".", 1), value) for name, value in values.items())
    )
    return f'<cim:{kind} rdf:ID="{key}">{told}</cim:{kind}>'


def terminals(equipment: str, *nodes: str) -> Iterator[str]:
    for number, node in enumerate(nodes, 1):
        yield thing(
            "Terminal",
            f"T-{equipment}-{number}",
            ACDCTerminal_sequenceNumber=str(number),
            Terminal_ConductingEquipment=f"#{equipment}",
            Terminal_ConnectivityNode=f"#N-{node}",
        )


def cim_lines() -> Iterator[str]:
    yield '<?xml version="1.0" encoding="UTF-8"?>'
    yield f'<rdf:RDF xmlns:rdf="http://www.w3.org/1999/02/22-rdf-syntax-ns#" xmlns:cim="{CIM}">'
    yield thing("Feeder", "FEEDER", IdentifiedObject_name="1")
    for node in dict.fromkeys(node for _, _, one, other, _ in edges() for node in (one, other)):
        yield thing("ConnectivityNode", f"N-{node}", IdentifiedObject_name=node)
    yield thing("EnergySource", "SOURCE", IdentifiedObject_name="SOURCE")
    yield from terminals("SOURCE", "1")
    for name, kind, one, other, is_closed in edges():
        position = {} if kind == "ACLineSegment" else {"Switch_normalOpen": "false" if is_closed else "true"}
        yield thing(kind, name, IdentifiedObject_name=name, Equipment_EquipmentContainer="#FEEDER", **position)
        yield from terminals(name, one, other)
    for node in map(str, range(2, 34)):
        yield thing("EnergyConsumer", f"LOAD-{node}", IdentifiedObject_name=f"LOAD-{node}")
        yield from terminals(f"LOAD-{node}", node)
        yield thing("UsagePoint", f"POINT-{node}", IdentifiedObject_name=node, UsagePoint_Equipments=f"#LOAD-{node}")
    yield "</rdf:RDF>"


def main() -> None:
    folder = Path(sys.argv[1]) if len(sys.argv) > 1 else Path(__file__).resolve().parent
    for name, lines in (("33-bus.csv", csv_lines()), ("33-bus.xml", cim_lines())):
        (folder / name).write_text("".join(f"{line}\n" for line in lines), encoding="utf-8")


if __name__ == "__main__":
    main()
