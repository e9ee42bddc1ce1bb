"""Networks in OpenDSS and CIM: two published feeders, cut as by hand, and what is wrong with a model."""

import os
import random
import runpy
import shutil
import unittest
from pathlib import Path

from tests import support
from tests.network_runs import Cut, run, rows_of, written

NETWORK = support.ROOT / "examples/network"
SINCE = ("--since", "2020-01-01")
COLUMNS = ("LABEL=name", "CLASS=kind", "NODE1=from", "NODE2=to", "STATE=normal")
WORDS = ("line=OH,UG", "transformer=XFMR", "busbar=BUS", "breaker=CB", "switch=SW", "fuse=FU", "closed=NC", "open=NO")

SCRIPT = """clear
New Circuit.Town bus1=HV
New Transformer.Sub wdg=1 bus=HV wdg=2 bus=MV.1.2.3
New Line.Head bus1=MV bus2=A.1.2.3 switch=yes
New Line.Trunk bus1=A bus2=B
New Transformer.T1 buses=(B.1, C.1.0, C.0.2)
New Load.Shop bus1=C.1 numcust=3
"""


def script(text: str, *words: str, name: str = "town.dss", **files: str) -> Cut:
    """A run over a script, beside which there are others."""
    folder = support.folder() / "opendss"
    folder.mkdir(exist_ok=True)
    for other, content in files.items():
        (folder / other.replace("_", ".")).write_text(content)
    (folder / name).write_text(text)
    return run("--opendss", folder / name, *(words or SINCE))


def told(found: Cut) -> list[str]:
    return [line.removeprefix("opendss/").removeprefix("network-") for line in found.said]


class Ieee13(unittest.TestCase):
    """The IEEE 13 node test feeder: three sections behind a bus, as it is read off its one-line diagram."""

    def test_by_hand(self) -> None:
        found = run("--opendss", NETWORK / "ieee13.dss", *SINCE)
        self.assertEqual(found.status, 0, found.err)
        bus, main, low, far = "B-TRANSFORMER-SUB", "S-BANK-REG", "S-TRANSFORMER-XFM1", "S-LINE-671692"
        self.assertEqual(found.nodes, {bus: "1", main: "1", low: "1", far: "1"} | {bus: ""})
        self.assertEqual(
            found.devices,
            {
                "TRANSFORMER-SUB": ("GRID", bus, "closed"),
                "BANK-REG": (bus, main, "closed"),
                "TRANSFORMER-XFM1": (main, low, "closed"),
                "LINE-671692": (main, far, "closed"),
            },
        )
        loads = {row[0].removeprefix("load."): row[3] for row in found.files["names.csv"] if row[1] == "load"}
        where = {load: found.customers[number] for load, number in loads.items()}
        self.assertEqual(
            where,
            {
                **dict.fromkeys(("634a", "634b", "634c"), low),
                **dict.fromkeys(("675a", "675b", "675c", "692"), far),
                **dict.fromkeys(
                    ("632a", "632b", "632c", "645", "646", "652", "611", "671", "671a", "671b", "671c"), main
                ),
            },
        )
        self.assertEqual([row[1] for row in found.files["feeders.csv"]], ["ieee13"])

    def test_its_nodes(self) -> None:
        """The thirteen nodes are there, with those of the substation and of the regulator."""
        text = (NETWORK / "ieee13.dss").read_text()
        for node in ("650", "632", "633", "634", "645", "646", "671", "680", "684", "611", "652", "692", "675"):
            self.assertRegex(text, rf"bus[12]?={node}\b|\({node}\.")


class OpenDss(unittest.TestCase):
    def test_a_town(self) -> None:
        """A centre-tapped transformer, several customers of a load, labels in any letters."""
        found = script(SCRIPT)
        self.assertEqual(found.status, 0, found.err)
        self.assertEqual(found.nodes, {"B-TRANSFORMER-SUB": "", "S-LINE-HEAD": "1", "S-TRANSFORMER-T1": "1"})
        self.assertEqual(found.customers, dict.fromkeys("123", "S-TRANSFORMER-T1"))
        self.assertEqual(found.files["names.csv"][-1], ["load.shop", "load", "customers", "1-3"])
        self.assertEqual(found.files["customers.csv"][0], ["1", "S-TRANSFORMER-T1", "2020-01-01", ""])

    def test_switches(self) -> None:
        """Positions by a control, by a statement; a fuse and a recloser are edges of their own."""
        more = """New Line.Lat bus1=B bus2=D
New Line.Tie bus1=D bus2=E switch=y
New SwtControl.Tie SwitchedObj=Line.Tie Normal=Open
New Line.Side bus1=A bus2=E
New Line.Way bus1=B bus2=E switch=true
open Line.Way 1
New Fuse.F1 MonitoredObj=Line.Lat
New Recloser.R1 MonitoredObj=Line.Trunk SwitchedTerm=2
"""
        found = script(SCRIPT + more)
        self.assertEqual(found.status, 0, found.err)
        self.assertEqual(found.devices["FUSE-F1"], ("S-RECLOSER-R1", "S-FUSE-F1", "closed"))
        self.assertEqual(found.devices["RECLOSER-R1"], ("S-LINE-HEAD", "S-RECLOSER-R1", "closed"))
        self.assertEqual(found.devices["LINE-TIE"], ("S-FUSE-F1", "S-LINE-HEAD", "open"))
        self.assertEqual(found.devices["LINE-WAY"], ("S-RECLOSER-R1", "S-LINE-HEAD", "open"))

    def test_meters_are_heads_of_circuits(self) -> None:
        more = """New Line.Head2 bus1=MV bus2=Z switch=yes
New EnergyMeter.East element=Line.Head terminal=1
New EnergyMeter.West element=Line.Head2 terminal=1
"""
        found = script(SCRIPT + more)
        self.assertEqual(found.files["feeders.csv"], [["1", "east"], ["2", "west"]])
        self.assertEqual(found.nodes["S-TRANSFORMER-T1"], "1")
        self.assertEqual(found.nodes["S-LINE-HEAD2"], "2")

    def test_several_files(self) -> None:
        """Scripts that are called, edits, continued lines, what isn't enabled, comments, coordinates."""
        text = """Redirect Net.dss ! the network
/* New Line.Not bus1=A
   bus2=Q */
New Line.Old bus1=A bus2=C
Line.Old.Enabled=no
Edit Load.Shop
~ numcust=2
Disable Line.Older
Buscoords points.csv
Set voltagebases=[4.16]
"""
        called = SCRIPT.replace("clear\n", "") + "New Line.Older like=Trunk bus2=C\n"
        found = script(text, net_dss=called, points_csv="a 1 2\nb, 3, 4\n")
        self.assertEqual(found.status, 0, found.err)
        self.assertEqual(found.customers, dict.fromkeys("12", "S-TRANSFORMER-T1"))
        self.assertEqual(
            told(found)[:2],
            [
                "town.dss: left out: elements that are not enabled: 1 (row 4)",
                "net.dss: left out: elements that are not enabled: 1 (row 7)",
            ],
        )

    def test_what_is_refused(self) -> None:
        lines = {
            "New Line.X bus1=A": "line.x has no bus2",
            "New Transformer.X wdg=1 bus=A": "transformer.x has no two buses",
            "New Line.Trunk bus1=A bus2=B": "line.trunk was told in row 5 already",
            "New Line.X bus1=A bus2=B 601": "the value '601' has no name of a property",
            "Edit Line.Nowhere bus1=A": "there is no element line.nowhere",
            "New": "new names nothing",
            ", ,": "it is no statement",
            "New SwtControl.X SwitchedObj=Line.Nowhere": "there is no element line.nowhere",
            "New SwtControl.X": "swtcontrol.x has no monitoredobj",
            "open Line.Trunk 1": "line.trunk is opened, and is no switch",
            "New Load.X bus1=A numcust=many": "numcust 'many' is no number",
            "New Transformer.X wdg=two bus=A": "wdg 'two' is no number",
            "New Transformer.X bank=K buses=(A B)\nNew Transformer.Y bank=K buses=(A C)": (
                "transformer.y of the bank k has other buses than transformer.x"
            ),
        }
        for line, text in lines.items():
            found = script(f"{SCRIPT}{line}\n")
            row = 5 if line.startswith("open") else 9 if "\n" in line else 8
            self.assertEqual(told(found)[0], f"town.dss: row {row}: {text}", line)

    def test_dates_and_files_that_are_missing(self) -> None:
        text = "the model has customers, and no dates of their service: give --since DATE, or --customers FILE"
        self.assertEqual(script(SCRIPT, "--label", "name").err, f"error: {text}\n")
        found = script("Redirect nowhere.dss\n")
        self.assertIn("nowhere.dss can't be read", found.err)
        self.assertEqual(found.status, 1)
        self.assertEqual(
            script("~ bus1=A\n").said, ["opendss/town.dss: row 1: it goes on with an element, and there is none"]
        )
        self.assertEqual(script("Redirect town.dss\n").status, 1)

    def test_a_register_beside_it(self) -> None:
        """Its customers are on transformers, on buses, or on loads."""
        customers = "customer,transformer,node,since,until\n71,transformer.T1,,2020-01-01,\n72,,a,2021-01-01,\n73,,load.shop,2022-01-01,\n"
        found = script(SCRIPT, "--customers", str(written("register", customers)))
        self.assertEqual(
            found.customers, {"71": "S-TRANSFORMER-T1", "72": "S-LINE-HEAD", "73": "S-TRANSFORMER-T1"}, found.err
        )

    def test_numbers_stay(self) -> None:
        """Those of an earlier run, for loads that it had; further customers get new ones."""
        earlier = support.folder() / "opendss-earlier"
        shutil.rmtree(earlier, ignore_errors=True)
        script(SCRIPT)
        shutil.copytree(support.folder() / "cut", earlier)
        later = SCRIPT.replace("New Load.Shop", "New Load.Mill bus1=C\nNew Load.Shop").replace("numcust=3", "numcust=5")
        found = script(later, *SINCE, "--as", str(earlier))
        loads = {row[0]: row[3] for row in found.files["names.csv"] if row[1] == "load"}
        self.assertEqual(loads, {"load.mill": "4", "load.shop": "1-3 5-6"})
        again = rows_of(support.folder() / "cut" / "customers.csv")
        self.assertEqual(sorted(row[0] for row in again), list("123456"))


class BaranWu(unittest.TestCase):
    """The feeder of 33 nodes with five ties, of Baran and Wu: each branch's far node is a section behind the branch's switch."""

    BRANCHES = {
        **{number: (number, number + 1) for number in range(1, 18)},
        **{18: (2, 19), 19: (19, 20), 20: (20, 21), 21: (21, 22), 22: (3, 23), 23: (23, 24), 24: (24, 25)},
        **{
            25: (6, 26),
            26: (26, 27),
            27: (27, 28),
            28: (28, 29),
            29: (29, 30),
            30: (30, 31),
            31: (31, 32),
            32: (32, 33),
        },
    }
    TIES = {33: (8, 21), 34: (9, 15), 35: (12, 22), 36: (18, 33), 37: (25, 29)}

    def by_hand(self) -> dict[str, tuple[frozenset[str], str]]:
        section = {far: f"S-SW-{number}" for number, (_, far) in self.BRANCHES.items()} | {1: "GRID"}
        return {
            **{f"SW-{n}": (frozenset(section[end] for end in ends), "closed") for n, ends in self.BRANCHES.items()},
            **{f"TIE-{n}": (frozenset(section[end] for end in ends), "open") for n, ends in self.TIES.items()},
        }

    def test_in_cim(self) -> None:
        found = run("--cim", NETWORK / "33-bus.xml", *SINCE)
        self.assertEqual(found.status, 0, found.err)
        self.assertEqual(found.nodes, {f"S-SW-{number}": "1" for number in range(1, 33)})
        self.assertEqual(
            {name: (frozenset((a, b)), normal) for name, (a, b, normal) in found.devices.items()}, self.by_hand()
        )
        far = {str(ends[1]): f"S-SW-{number}" for number, ends in self.BRANCHES.items()}
        self.assertEqual(found.customers, far)
        self.assertEqual(found.err, "")

    def test_as_edges(self) -> None:
        """The same cut of the same feeder as CSV."""
        customers = "customer,node,since,until\n" + "".join(f"{node},{node},2020-01-01,\n" for node in range(2, 34))
        words = ["--edges", NETWORK / "33-bus.csv", "--source", "1", "--customers", written("33", customers)]
        found, other = run(*words), run("--cim", NETWORK / "33-bus.xml", *SINCE)
        self.assertEqual(found.files["gis.csv"], other.files["gis.csv"])
        self.assertEqual(found.customers, other.customers)

    def test_the_samples_are_those_of_the_script(self) -> None:
        folder = support.folder() / "33-bus"
        folder.mkdir(exist_ok=True)
        module = runpy.run_path(str(NETWORK / "make_33_bus.py"))
        for name, lines in (("33-bus.csv", module["csv_lines"]()), ("33-bus.xml", module["cim_lines"]())):
            self.assertEqual("".join(f"{line}\n" for line in lines), (NETWORK / name).read_text(), name)


class Cim(unittest.TestCase):
    """Models with something else, made of the sample's lines."""

    def model(self, *changes: tuple[str, str], name: str = "model.xml") -> Path:
        text = (NETWORK / "33-bus.xml").read_text()
        for old, new in changes:
            self.assertEqual(text.count(old), 1, old)
            text = text.replace(old, new)
        return support.written(name, text)

    def refused(self, text: str, *changes: tuple[str, str]) -> None:
        found = run("--cim", self.model(*changes), *SINCE)
        self.assertEqual((found.status, found.said), (1, [f"model.xml: {text}"]))

    POSITION = '<cim:IdentifiedObject.name>TIE-33</cim:IdentifiedObject.name><cim:Equipment.EquipmentContainer rdf:resource="#FEEDER"/>'

    def test_what_is_refused(self) -> None:
        tie = (NETWORK / "33-bus.xml").read_text().splitlines()
        (row,) = (number for number, line in enumerate(tie, 1) if 'rdf:ID="TIE-33"' in line)
        line = tie[row - 1]
        without = line.replace("<cim:Switch.normalOpen>true</cim:Switch.normalOpen>", "")
        self.refused(
            f"row {row}: LoadBreakSwitch TIE-33 without a normal position (Switch.normalOpen)", (line, without)
        )
        named = line.replace(">TIE-33<", ">TIE-34<")
        self.refused(
            f"row {row + 3}: TIE-34 is the name of row {row} too (--label mrid takes identifiers)", (line, named)
        )
        self.assertEqual(run("--cim", self.model((line, named)), *SINCE, "--label", "mrid").status, 0)
        self.refused(f"row {row}: LoadBreakSwitch TIE-33 has 1 terminals, and an edge has two", (tie[row], ""))
        terminal = tie[row].replace('<cim:Terminal.ConnectivityNode rdf:resource="#N-21"/>', "")
        self.refused(
            f"row {row}: LoadBreakSwitch TIE-33 has no terminal with a connectivity node", (tie[row], terminal)
        )
        (point,) = (number for number, line in enumerate(tie, 1) if 'rdf:ID="POINT-7"' in line)
        alone = tie[point - 1].replace('<cim:UsagePoint.Equipments rdf:resource="#LOAD-7"/>', "")
        self.refused(f"row {point}: UsagePoint 7 has no equipment that supplies it", (tie[point - 1], alone))

    def test_no_xml_and_no_rdf(self) -> None:
        path = support.written("no.xml", "<a><b></a>")
        self.assertEqual(run("--cim", path, *SINCE).err, f"error: {path}: row 1: it is no XML: mismatched tag\n")
        found = run("--cim", support.written("other.xml", "<a><b/></a>"), *SINCE)
        self.assertEqual(found.status, 1)
        self.assertTrue(found.err.startswith("error: "), found.err)

    def test_transformers_and_several_files(self) -> None:
        """Usage points on a transformer; the network in one file and the customers in another; equipment out of service."""
        head, *rest, tail = (NETWORK / "33-bus.xml").read_text().splitlines()
        rdf = rest.pop(0)
        things = [
            line for line in rest if "UsagePoint" not in line and 'rdf:ID="LINE-32"' not in line and "LOAD-" not in line
        ]
        line = next(line for line in rest if 'rdf:ID="LINE-32"' in line)
        points = [each.replace("#LOAD-33", "#LINE-32") for each in rest if 'rdf:ID="POINT-33"' in each]
        idle = line.replace("LINE-32", "IDLE").replace(
            "</cim:ACL", "<cim:Equipment.normallyInService>false</cim:Equipment.normallyInService></cim:ACL"
        )
        texts = {"net": [*things, line.replace("ACLineSegment", "PowerTransformer"), idle], "points": points}
        words: list[object] = ["--cim"]
        for name, lines in texts.items():
            words.append(support.written(f"cim-{name}.xml", "\n".join([head, rdf, *lines, tail])))
        found = run(*words, *SINCE)
        self.assertEqual(found.status, 0, found.err)
        self.assertEqual(found.customers, {"33": "S-LINE-32"})
        self.assertEqual(found.devices["LINE-32"], ("S-SW-32", "S-LINE-32", "closed"))
        self.assertIn("equipment that isn't in service: 1", found.err)

    def test_classes_that_are_not_read(self) -> None:
        """What could join something is told."""
        text = (NETWORK / "33-bus.xml").read_text().replace("cim:LoadBreakSwitch", "cim:Clamp")
        found = run("--cim", support.written("clamps.xml", text), *SINCE)
        self.assertEqual(found.status, 1)
        report = support.folder() / "clamps.txt"
        run("--cim", support.folder() / "clamps.xml", *SINCE, "--report", report)
        self.assertIn("left out: equipment of the class Clamp, which isn't read: 36 (rows ", report.read_text())

    def test_consumers_with_counts(self) -> None:
        """Where there are no usage points."""
        text = (NETWORK / "33-bus.xml").read_text()
        lines = [line for line in text.splitlines() if "<cim:UsagePoint " not in line]
        count = "<cim:EnergyConsumer.customerCount>4</cim:EnergyConsumer.customerCount></cim:EnergyConsumer>"
        lines = [line.replace("</cim:EnergyConsumer>", count) if 'rdf:ID="LOAD-9"' in line else line for line in lines]
        found = run("--cim", support.written("counts.xml", "\n".join(lines)), *SINCE)
        self.assertEqual(found.status, 0, found.err)
        self.assertEqual(len(found.customers), 31 + 4)
        self.assertEqual(sum(section == "S-SW-8" for section in found.customers.values()), 4)
        self.assertIn("noticed: consumers without customerCount, of one customer each: 31", found.err)


class Spoilt(unittest.TestCase):
    """Files spoilt at random are refused, or taken; nothing else happens."""

    def spoilt(self, text: str, draw: random.Random) -> str:
        for _ in range(draw.randint(1, 4)):
            at, lines = draw.randrange(len(text)), text.split("\n")
            row, other = draw.randrange(len(lines)), draw.choice(lines)
            text = draw.choice(
                (
                    text[:at] + text[at + 1 :],
                    text[:at] + draw.choice(',"\n;=.()[]!~\0NX/# <&') + text[at + draw.randint(0, 1) :],
                    "\n".join([*lines[:row], other, *lines[row:]]),
                    "\n".join([*lines[:row], *lines[row + 1 :]]),
                )
            )
        return text

    def test_they_are_refused_or_taken(self) -> None:
        sample, others = NETWORK / "edges.csv", [NETWORK / f"{name}.csv" for name in ("customers", "oms")]
        texts = {
            path.name: path.read_text() for path in (sample, *others, NETWORK / "ieee13.dss", NETWORK / "33-bus.xml")
        }
        words = [word for each in COLUMNS for word in ("--column", each)] + [
            word for each in WORDS for word in ("--word", each)
        ]
        taken = 0
        for seed in range(int(os.environ.get("SPOILT_NETWORKS", "80"))):
            draw = random.Random(seed)
            name = draw.choice([*texts])
            files = {each: support.written(f"spoilt-{each}", text) for each, text in texts.items()}
            files[name].write_text(self.spoilt(texts[name], draw))
            if name.endswith(".csv"):
                found = run(
                    "--edges",
                    files["edges.csv"],
                    "--customers",
                    files["customers.csv"],
                    "--oms",
                    files["oms.csv"],
                    "--source",
                    "N100",
                    *words,
                )
            else:
                found = run("--opendss" if name.endswith("dss") else "--cim", files[name], *SINCE)
            taken += found.status == 0
            self.assertIn(found.status, (0, 1), seed)
            self.assertEqual(found.err.startswith("error: "), found.status == 1, f"{seed}: {found.err}")
        self.assertGreater(taken, 0)


if __name__ == "__main__":
    unittest.main()
