"""The cut of raw connectivity: what it gives, and each mistake that is planted in a small network by itself."""

import unittest

from tests import support
from tests.network_runs import CUSTOMERS, EDGES, Cut, changed, cut, run, written

REFUSED = "error: nothing was written:"


class Given(unittest.TestCase):
    """What a network without mistakes becomes."""

    def test_the_whole(self) -> None:
        found = cut()
        self.assertEqual(
            (found.status, found.said),
            (0, ["network-edges.csv: changed: labels that became other names of devices: 1 (row 7)"]),
        )
        self.assertEqual(
            found.nodes,
            {"B-T1": "", "S-CB-7": "7", "S-CB-8": "8", "S-FU-34": "7", "S-XF2": "7", "S-XF3": "8", "S-XF1": "7"},
        )
        self.assertEqual(
            found.devices,
            {
                "T1": ("GRID", "B-T1", "closed"),
                "CB-7": ("B-T1", "S-CB-7", "closed"),
                "FU-34": ("S-CB-7", "S-FU-34", "closed"),
                "XF1": ("S-FU-34", "S-XF1", "closed"),
                "XF2": ("S-CB-7", "S-XF2", "closed"),
                "SW-9": ("S-CB-7", "S-CB-8", "open"),
                "CB-8": ("B-T1", "S-CB-8", "closed"),
                "XF3": ("S-CB-8", "S-XF3", "closed"),
            },
        )
        self.assertEqual(found.customers, {"1": "S-XF1", "2": "S-XF1", "3": "S-XF2", "4": "S-XF3"})
        self.assertEqual(found.files["customers.csv"][2], ["3", "S-XF2", "2020-01-01", "2026-01-01"])
        self.assertEqual(found.files["feeders.csv"], [["7", "7"], ["8", "8"]])
        self.assertEqual(found.became["HV1"], ("source", "GRID"))
        self.assertEqual(found.became["BB"], ("bus", "B-T1"))
        self.assertEqual(found.became["LN/3"], ("section", "S-FU-34"))
        self.assertEqual(found.became["FU 34"], ("device", "FU-34"))
        self.assertEqual(
            found.out.splitlines()[:4],
            [
                "edges 15: line 6, transformer 4, breaker 2, busbar 1, fuse 1, switch 1",
                "buses 1, sections 6, feeders 2",
                "devices 8, of these normally open 1",
                "customers 4, on sections 3",
            ],
        )

    def test_kinds_of_devices(self) -> None:
        """Transformers that are no devices are joined; what is normally open is a device all the same."""
        found = cut("--device", "breaker,fuse")
        self.assertEqual([*found.devices], ["CB-7", "FU-34", "SW-9", "CB-8"])
        self.assertEqual(found.customers, {"1": "S-FU-34", "2": "S-FU-34", "3": "S-CB-7", "4": "S-CB-8"})
        self.assertEqual(found.nodes, {"S-CB-7": "7", "S-CB-8": "8", "S-FU-34": "7"})
        self.assertIn(
            "network-edges.csv: noticed: edges that are devices since they are normally open: 1 (row 12)", found.said
        )

    def test_power_transformers_joined(self) -> None:
        found = cut("--join", "t1")
        self.assertNotIn("T1", found.devices)
        self.assertEqual(found.devices["CB-7"], ("GRID", "S-CB-7", "closed"))
        self.assertEqual(found.became["T1"], ("source", "GRID"))
        self.assertEqual(cut("--join", "T9").err, "error: --join: no edge is called T9\n")

    def test_columns_and_words(self) -> None:
        """A GIS's own columns, kinds and positions."""
        text = changed(("name,kind,from,to,normal,circuit", "ID,Class,Node A,Node B,State,Feeder"))
        text = (
            text.replace(",breaker,", ",CB,")
            .replace(",line,", ",OH,")
            .replace(",closed,", ",1,")
            .replace(",open,", ",NO,")
        )
        text = text.replace("LN/2,OH", "LN/2,UG") + "CAP1,capacitor,N11,N11,,7\n"
        words = []
        for name in ("ID=name", "Class=kind", "Node A=from", "Node B=to", "State=normal", "Feeder=circuit"):
            words += ["--column", name]
        for word in ("breaker=CB", "line=OH, UG", "closed=on,1", "open=no", "left-out=capacitor"):
            words += ["--word", word]
        found = cut(*words, edges=text)
        self.assertEqual(found.files["gis.csv"], cut().files["gis.csv"])
        self.assertIn("network-edges.csv: left out: kinds that join nothing (--word left-out): 1 (row 16)", found.said)

    def test_several_sources(self) -> None:
        """All become GRID: a second transformer's own source, and a file of both."""
        edges = EDGES + "T2,transformer,M0,N30,,\nCB-9,breaker,N30,N31,closed,9\nXF9,transformer,N31,N32,,9\n"
        found = cut("--source", "N0", "--source", "M0", edges=edges)
        self.assertEqual(found.devices["T2"], ("GRID", "B-T2", "closed"))
        sources = written("sources", "node\nN0\nM0\n")
        words = ["--edges", written("edges", edges), "--customers", written("customers", CUSTOMERS)]
        self.assertEqual(run(*words, "--sources", sources).files, found.files)

    def test_a_coarse_network(self) -> None:
        """Devices are those of tickets, open ones, and those at which circuits begin."""
        rows = "ticket,device,out,restored,cause\n1,FU 34,2025-01-01 01:00,2025-01-01 02:00,WIND\n"
        words = ["--edges", written("edges", EDGES), "--source", "N0", "--customers", written("customers", CUSTOMERS)]
        found = run(*words, "--only-opened", written("oms", rows))
        self.assertEqual(found.devices["FU-34"], ("S-CB-7", "S-FU-34", "closed"))
        self.assertEqual([*found.devices], ["CB-7", "FU-34", "SW-9", "CB-8"])
        self.assertEqual(found.customers, {"1": "S-FU-34", "2": "S-FU-34", "3": "S-CB-7", "4": "S-CB-8"})
        self.assertEqual([row[1] for row in found.files["oms.csv"]], ["FU-34"])

    def test_customers_on_nodes(self) -> None:
        customers = (
            "customer,node,transformer,since,until\n1,N17,,2020-01-01,\n2,N11,,2020-01-01,\n3,,XF3,2020-01-01,\n"
        )
        self.assertEqual(cut(customers=customers).customers, {"1": "S-XF1", "2": "S-CB-7", "3": "S-XF3"})


class Names(unittest.TestCase):
    def test_they_are_short_and_each_once(self) -> None:
        """Long labels, labels that differ by a sign, and a device that is called as a section would be."""
        long = "FUSE OF A LONGER NAME/0034"
        edges = changed(("FU 34,", f"{long},"), ("XF1,", "XF-1,"), ("XF2,", "XF/1,"), ("XF3,", "S-CB-7,"))
        customers = changed(("3,XF2", "3,XF/1"), ("4,XF3", "4,S-CB-7"), text=CUSTOMERS.replace("XF1", "XF-1"))
        found = cut(edges=edges, customers=customers)
        names = [*found.nodes, *found.devices]
        self.assertEqual(len(names), len(set(names)))
        for name in names:
            self.assertRegex(name, "^[A-Z0-9_-]{1,24}$")
        self.assertEqual(found.became["XF-1"], ("device", "XF-1"))
        self.assertRegex(found.became["XF/1"][1], "^XF-1-[0-9A-F]{6}$")
        self.assertRegex(found.became[long][1], "^FUSE-OF-A-LONGER--[0-9A-F]{6}$")
        self.assertRegex(found.customers["4"], "^S-S-CB-7$")

    def test_they_stay_from_export_to_export(self) -> None:
        """Rows in another order, and a new fuse in a lateral: what it doesn't feed has the name that it had."""
        first = cut()
        head, *rows = EDGES.splitlines(keepends=True)
        turned = cut(edges=head + "".join(reversed(rows)))
        self.assertEqual((turned.nodes, turned.devices), (first.nodes, first.devices))
        later = cut(edges=changed(("LN/3,line,N13,N14,,7", "LN/3,line,N13,N99,,7\nFU 900,fuse,N99,N14,closed,7")))
        self.assertEqual({name: later.nodes[name] for name in first.nodes}, first.nodes)
        self.assertEqual({*later.nodes} - {*first.nodes}, {"S-FU-900"})
        self.assertEqual(later.devices["XF1"], ("S-FU-900", "S-XF1", "closed"))
        self.assertEqual(later.customers, first.customers)

    def test_those_of_an_earlier_run(self) -> None:
        """A label that would get another name since a second one is alike, and a circuit before the others."""
        edges = EDGES.replace(",7\n", ",Oak\n").replace(",8\n", ",Elm\n")
        first = run("--edges", written("edges", edges), "--source", "N0", to="earlier")
        self.assertEqual(first.files["feeders.csv"], [["1", "Elm"], ["2", "Oak"]])
        more = edges + "FU-34,fuse,N20,N40,closed,Elm\nCB-9,breaker,N3,N50,closed,Ash\n"
        without = cut(edges=more)
        self.assertRegex(without.became["FU 34"][1], "^FU-34-[0-9A-F]{6}$")
        self.assertEqual(without.files["feeders.csv"], [["1", "Ash"], ["2", "Elm"], ["3", "Oak"]])
        found = cut("--as", support.folder() / "earlier", edges=more)
        self.assertEqual(found.became["FU 34"], ("device", "FU-34"))
        self.assertRegex(found.became["FU-34"][1], "^FU-34-[0-9A-F]{6}$")
        self.assertEqual(found.files["feeders.csv"], [["1", "Elm"], ["2", "Oak"], ["3", "Ash"]])

    def test_numbers_of_circuits_stay_their_own(self) -> None:
        run("--edges", written("edges", EDGES), "--source", "N0", to="earlier-numbers")
        more = EDGES + "CB-9,breaker,N3,N50,closed,9\n"
        found = cut("--as", support.folder() / "earlier-numbers", edges=more)
        self.assertEqual(found.files["feeders.csv"], [["7", "7"], ["8", "8"], ["9", "9"]])


class Feeders(unittest.TestCase):
    def test_a_wrong_circuit(self) -> None:
        """The walk from the source counts, and the row is told."""
        found = cut(edges=changed(("XF1,transformer,N14,N15,,7", "XF1,transformer,N14,N15,,8")))
        self.assertEqual(found.nodes["S-XF1"], "7")
        self.assertIn(
            "network-edges.csv: noticed: circuit 8, while the walk from the source says 7: 1 (row 9)", found.said
        )

    def test_two_circuits_without_a_device_between(self) -> None:
        """Nothing tells which of both the section would be of."""
        edges = changed(
            ("CB-8,breaker,N3,N20,closed,8", "CB-8,line,N3,N20,,8"),
            ("CB-7,breaker,N2,N10,closed,7", "CB-7,line,N2,N10,,7"),
        )
        found = cut(edges=edges)
        text = "network-edges.csv: row 4: circuit 7 begins at CB-7, and 8 at CB-8 (row 13), with no device between them"
        self.assertEqual(found.said, [text])

    def test_a_circuit_without_a_device_at_its_head(self) -> None:
        found = cut(edges=changed(("CB-8,breaker,N3,N20,closed,8", "CB-8,line,N3,N20,,8")))
        self.assertEqual(found.nodes["S-T1"], "8")
        self.assertEqual(found.devices["CB-7"], ("S-T1", "S-CB-7", "closed"))
        text = "circuit 8 begins without a device, so the bus before it becomes a section of it: 1 (row 13)"
        self.assertIn(f"network-edges.csv: noticed: {text}", found.said)

    def test_no_circuit_at_all(self) -> None:
        found = cut(edges=EDGES.replace(",7\n", ",\n").replace(",8\n", ",\n"))
        self.assertEqual(found.status, 1)
        self.assertTrue(found.err.endswith("edges.csv: no edge has a circuit, so no section would have a feeder\n"))


class Customers(unittest.TestCase):
    def refused(self, row: str, text: str) -> None:
        found = cut(customers=f"{CUSTOMERS}{row}\n")
        self.assertEqual((found.status, found.files), (1, {}))
        self.assertEqual(found.said, [f"network-customers.csv: row 5: {text}"])

    def test_each_that_is_on_no_transformer(self) -> None:
        self.refused("5,,2020-01-01,", "customer 5 has no transformer")
        self.refused("5,XF9,2020-01-01,", "no edge is called 'XF9'")
        self.refused("5,LN/1,2020-01-01,", "LN/1 (row 5) is a line, and no transformer")
        self.refused("5,T1,2020-01-01,", "customer 5 on T1 is on a bus, before any circuit")

    def test_on_a_node(self) -> None:
        customers = (
            "customer,transformer,node,since,until\n1,XF1,N17,2020-01-01,\n2,,N77,2020-01-01,\n3,,N1,2020-01-01,\n"
        )
        name = "network-customers.csv"
        self.assertEqual(
            cut(customers=customers).said,
            [f"{name}: row 1: it has a transformer and a node: one of them supplies the customer"],
        )
        self.assertEqual(
            cut(customers=changed(("1,XF1,N17", "1,XF1,"), text=customers)).said,
            [
                f"{name}: row 2: no edge has the node 'N77'",
                f"{name}: row 3: customer 3 on N1 is at the source, with no device between",
            ],
        )

    def test_a_transformer_with_a_way_around_it(self) -> None:
        """Both of its ends are one section, on which its customers are."""
        found = cut(edges=EDGES + "LN/9,line,N14,N17,,7\n")
        self.assertEqual(found.customers["1"], "S-FU-34")
        self.assertNotIn("XF1", found.devices)
        text = "left out: devices with both ends in one section: there is a way around them: 1 (row 9)"
        self.assertIn(f"network-edges.csv: {text}", found.said)


class Refused(unittest.TestCase):
    """Mistakes of an export, each with what is told of it."""

    def refused(self, edges: str, *texts: str, words: tuple[str, ...] = ()) -> Cut:
        found = cut(*words, edges=edges)
        self.assertEqual((found.status, found.files), (1, {}))
        self.assertEqual(found.err.splitlines()[0], REFUSED)
        self.assertEqual(found.said, [f"network-edges.csv: {text}" for text in texts])
        return found

    def test_a_switch_or_fuse_without_a_position(self) -> None:
        edges = changed(
            ("FU 34,fuse,N13,N11,closed", "FU 34,fuse,N13,N11,"),
            ("CB-8,breaker,N3,N20,closed", "CB-8,breaker,N3,N20,?"),
        )
        self.refused(
            edges,
            "row 7: a fuse without a normal position",
            "row 13: normal '?' is neither open nor closed (--word closed=.. or --word open=..)",
        )

    def test_an_island_by_a_mis_snapped_end(self) -> None:
        """With the customers on it; where coordinates are given, with the end that it nearly meets."""
        edges = changed(("LN/2,line,N12,N11", "LN/2,line,N12,N11b"), ("SW-9,switch,N12,N22,open,7\n", ""))
        island = "row 6: no source feeds LN/2 (row 6), XF2 (row 11); 1 customer on it: 3"
        self.refused(edges, island)
        points = {"N11": "10,20", "N11b": "10.3,20.4", "N12": "80,20", "N16": "80,21", "N10": "0,0"}
        head, *rows = edges.splitlines()
        lines = [f"{head},from_x,from_y,to_x,to_y"]
        for row in rows:
            ends = [points.get(end, ",") for end in row.split(",")[2:4]]
            lines.append(",".join((row, *ends)))
        near = f"{island}; N11b of LN/2 (row 6) and N11 of LN/1 (row 5) are 0.5 apart"
        self.refused("".join(f"{line}\n" for line in lines), near)

    def test_an_island_behind_an_open_fuse(self) -> None:
        self.refused(
            changed(("FU 34,fuse,N13,N11,closed", "FU 34,fuse,N13,N11,open")),
            "row 8: no source feeds LN/3 (row 8), XF1 (row 9), LV1 (row 10); 2 customers on it: 1, 2; open devices lead to it:"
            " FU 34 (row 7)",
        )

    def test_an_island_with_transformers_alone(self) -> None:
        island = "LN/8,line,N80,N81,,7\nXF8,transformer,N81,N82,,7\n"
        why = "row 16: no source feeds LN/8 (row 16), XF8 (row 17); it has transformers, and no open device leads to it"
        self.refused(EDGES + island, why)

    def test_a_loop(self) -> None:
        ring = "a loop of closed devices: CB-7 (row 4), SW-9 (row 12), CB-8 (row 13); between two circuits: SW-9"
        edges = changed(("SW-9,switch,N12,N22,open", "SW-9,switch,N12,N22,closed"))
        self.refused(edges, f"row 4: {ring}")
        meshed = cut("--meshed", edges=edges)
        self.assertEqual(meshed.status, 0)
        self.assertIn(f"network-edges.csv: noticed: {ring}: 1 (row 4)", meshed.said)

    def test_a_loop_in_which_two_circuits_meet(self) -> None:
        """The walk comes from both sides into one section."""
        edges = changed(
            (
                "SW-9,switch,N12,N22,open,7",
                "SW-71,switch,N12,N50,closed,7\nLN/5,line,N50,N51,,7\nSW-9,switch,N51,N22,closed,7",
            )
        )
        ring = "a loop of closed devices: CB-7 (row 4), SW-71 (row 12), SW-9 (row 14), CB-8 (row 15)"
        self.refused(edges, f"row 4: {ring}; between two circuits: SW-9")
        self.assertEqual(cut("--meshed", edges=edges).status, 0)
        on_it = edges + "SW-12,switch,N15,N16,closed,7\n"
        self.assertEqual(
            cut("--meshed", edges=on_it).said,
            [
                f"network-customers.csv: row {row}: {name} lies on a loop, so no side of it is away from the source"
                for row, name in ((1, "XF1 (row 9)"), (2, "XF1 (row 9)"), (3, "XF2 (row 11)"))
            ],
        )

    def test_two_transformers_in_parallel(self) -> None:
        edges = EDGES + "T2,transformer,N1,N2,,\n"
        self.refused(edges, "row 2: a loop of closed devices: T1 (row 2), T2 (row 16)")
        self.assertEqual(cut("--join", "T1", "--join", "T2", edges=edges).status, 0)

    def test_two_rows_of_one_name(self) -> None:
        self.refused(
            EDGES + "FU 34,fuse,N13,N11,open,7\nLN/1,busbar,N10,N99,,8\n",
            "row 16: FU 34 was told in row 7, otherwise: normally closed there, open here",
            "row 17: LN/1 was told in row 5, otherwise: a line there, a busbar here, from N10 to N11 there, from N10 to N99 here,"
            " circuit 7 there, 8 here",
        )

    def test_a_source_on_no_edge(self) -> None:
        found = cut("--source", "N0", "--source", "M0")
        self.assertEqual((found.status, found.said), (1, ["--source: row 2: the source 'M0' is on no edge"]))
        sources = written("sources", "node\nN0\nM0\n\n")
        found = run("--edges", written("edges", EDGES), "--sources", sources)
        self.assertEqual(found.said, ["network-sources.csv: row 2: the source 'M0' is on no edge"])
        self.assertEqual(
            run("--edges", written("edges", EDGES)).err, "error: no source is given: --source NODE, or --sources FILE\n"
        )

    def test_rows_that_cannot_be_read(self) -> None:
        self.refused(
            EDGES + "P1,pole,N1,N2,,7\n,line,N1,N2,,7\nLN/9,line,,N2,,7\nLN/9,line,N1,N2\n",
            "row 16: kind 'pole' is none of line, busbar, transformer, breaker, recloser, switch, disconnector, fuse, jumper"
            " (--word KIND=pole says which, --word left-out=.. that it joins nothing)",
            "row 17: name is empty",
            "row 18: from is empty",
            "row 19: it has 4 fields, and there are 6 columns",
        )

    def test_words_that_cannot_be_read(self) -> None:
        for words in (
            ("--word", "shut=1"),
            ("--word", "closed=1", "--word", "open=1"),
            ("--word", "line=a", "--word", "fuse=a"),
            ("--device", "pole"),
            ("--oms", "a", "--only-opened", "b"),
        ):
            self.assertEqual(cut(*words).status, 64, words)
        found = cut("--column", "Type=kind")
        self.assertEqual(found.err, "error: no file has a column 'type' that --column names as kind\n")
        self.assertEqual(
            run("--edges", "nowhere.csv", "--source", "N0").err,
            "error: nowhere.csv can't be read: No such file or directory\n",
        )

    def test_what_was_there_stays(self) -> None:
        """A run that is refused leaves the files of the one before, and its report tells why."""
        before = run("--edges", written("edges", EDGES), "--source", "N0", to="kept")
        report = support.folder() / "cut-report.txt"
        words = ["--edges", written("edges", EDGES + "P1,pole,N1,N2,,7\n"), "--source", "N0", "--report", report]
        folder = support.folder() / "kept"
        done = support.run_tool("sections", *words, "-o", folder)
        self.assertEqual(done.returncode, 1)
        self.assertEqual(len([*folder.iterdir()]), len(before.files))
        self.assertIn("refused: 1\n", report.read_text())
        self.assertIn("edges.csv: row 16: kind 'pole' is none of", report.read_text())


class LeftOut(unittest.TestCase):
    """What isn't wrong, and is told."""

    def told(self, edges: str, *texts: str, oms: list[str] | None = None) -> Cut:
        found = cut(edges=edges, oms=oms)
        self.assertEqual(found.status, 0, found.err)
        self.assertEqual(found.said[: len(texts)], [f"network-edges.csv: {text}" for text in texts])
        return found

    def test_rows_that_say_nothing_more(self) -> None:
        """An equal row, also with its ends exchanged; an edge from a node to itself."""
        edges = EDGES + "LN/1,line,N11,N10,,7\nLN/9,line,N11,N11,,7\n"
        found = self.told(
            edges,
            "left out: edges told twice in the same words: 1 (row 16)",
            "left out: edges from a node to itself: 1 (row 17)",
        )
        self.assertEqual(found.files["gis.csv"], cut().files["gis.csv"])
        self.assertEqual(found.became["LN/9"], ("left out", ""))

    def test_an_island_of_nobody(self) -> None:
        found = self.told(
            EDGES + "LN/8,line,N80,N81,,7\nFU 8,fuse,N81,N82,closed,7\n",
            "left out: edges that no source feeds and nobody is on: 2 (rows 16-17)",
        )
        self.assertEqual(found.files["gis.csv"], cut().files["gis.csv"])

    def test_a_device_with_a_way_around_it(self) -> None:
        found = self.told(
            EDGES + "SW-1,switch,N10,N11,closed,7\nSW-2,switch,N22,N20,open,8\n",
            "left out: devices with both ends in one section: there is a way around them: 2 (rows 16-17)",
        )
        self.assertEqual(found.files["gis.csv"], cut().files["gis.csv"])

    SPARE = "SP1,switch,N1,N30,open,\nT2,transformer,N30,N31,,\nSP2,switch,N31,N3,open,\n"

    def test_a_spare_transformer(self) -> None:
        """It is open on both sides; the exports fit into a book, and nothing is wrong with them."""
        found = self.told(EDGES + self.SPARE, "left out: spare parts behind open devices: 3 (rows 16-18)")
        self.assertEqual(found.files["gis.csv"], cut().files["gis.csv"])
        folder = support.folder() / "cut"
        words = ["--gis", folder / "gis.csv", "--customers", folder / "customers.csv"]
        done = support.run_tool("check", *words, "--first", "2025-01-01", "--days", "31", "--zone", "UTC0")
        self.assertEqual((done.returncode, done.stdout.splitlines()[-1]), (0, "it fits, and nothing is wrong"))

    def test_a_spare_transformer_of_a_ticket(self) -> None:
        """It stays, since the ticket's rows would be refused without it."""
        row = "1,SP1,2025-01-01 02:00,2025-01-01 01:00,WIND"
        reason = "spare parts behind open devices, which are kept since a ticket, or the book, has a device of them: 1 (row 17)"
        found = self.told(EDGES + self.SPARE, f"noticed: {reason}", oms=[row])
        self.assertEqual(found.devices["SP1"], ("GRID", "B-SP1", "open"))
        self.assertEqual(found.devices["T2"], ("B-SP1", "B-SP2", "closed"))
        self.assertEqual(found.devices["SP2"], ("B-T1", "B-SP2", "open"))

    def test_without_a_register(self) -> None:
        """Whether nobody is on a spare transformer isn't known."""
        found = cut(edges=EDGES + self.SPARE, customers=None)
        self.assertEqual(
            found.said,
            [
                "network-edges.csv: row 17: no source feeds T2 (row 17); it has transformers, and no register of customers is given;"
                " open devices lead to it: SP1 (row 16), SP2 (row 18)"
            ],
        )


class Tickets(unittest.TestCase):
    """The names in an outage management system's export."""

    CUSTOMERS = (
        "customer,transformer,meter,since,until\n1,XF1,M/1,2020-01-01,\n2,XF1,M/2,2020-01-01,\n3,XF2,,2020-01-01,\n"
    )
    TIMES = "2025-01-01 01:00,2025-01-01 02:00,WIND"

    def test_devices_meters_and_others(self) -> None:
        names = ("FU 34", "m/2", "LN/3", "XX", "SW-1", "")
        rows = [f"{number},{name},{self.TIMES}" for number, name in enumerate(names, 1)]
        edges = EDGES + "SW-1,switch,N10,N11,closed,7\n"
        found = cut(edges=edges, customers=self.CUSTOMERS, oms=rows)
        self.assertEqual([row[1] for row in found.files["oms.csv"]], ["FU-34", "M-2", "LN/3", "XX", "SW-1", ""])
        self.assertEqual(found.devices["M-2"], ("S-XF1", "S-M-2", "closed"))
        self.assertEqual(found.nodes["S-M-2"], "7")
        self.assertEqual(found.customers, {"1": "S-XF1", "2": "S-M-2", "3": "S-XF2"})
        self.assertEqual(found.became["M/2"], ("device", "M-2"))
        self.assertEqual(
            [line for line in found.said if line.startswith("network-oms.csv")],
            [
                "network-oms.csv: noticed: outages of a single service, which get a section and a device of their own: 1 (row 2)",
                "network-oms.csv: noticed: rows that name a line which is no device of the book: 1 (row 3)",
                "network-oms.csv: noticed: rows that name a switch which is no device of the book: 1 (row 5)",
                "network-oms.csv: noticed: rows that name neither an edge nor a meter: 2 (rows 4, 6)",
            ],
        )

    def test_a_meter_on_two_sections(self) -> None:
        customers = self.CUSTOMERS + "4,XF3,M/1,2020-01-01,\n"
        found = cut(customers=customers, oms=[f"1,M/1,{self.TIMES}"])
        self.assertEqual(found.said, ["network-customers.csv: row 1: the meter M/1 is on several sections: rows 1, 4"])

    def test_an_edge_and_a_meter_of_one_name(self) -> None:
        customers = changed(("M/1", "SW-9"), text=self.CUSTOMERS)
        found = cut(customers=customers, oms=[f"1,SW-9,{self.TIMES}"])
        self.assertEqual(
            found.said, ["network-oms.csv: row 1: SW-9 is an edge and a meter: give one of them another name"]
        )


if __name__ == "__main__":
    unittest.main()
