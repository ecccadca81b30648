"""Where the answers on a vehicle belong."""

import json
import os
import subprocess
import unittest

from j39plan import program
from tests.support import TOOLS, needs, run
from tests.vehicles import ANSWER, B, FLOW, P, SIGNAL, UNIT, V, OfVehicles, swapped

TIMING = "[timing]\nbitrate = 250000\nunplanned = 0\n"
SECOND = '[[forward]]\ngateway = "CGW"\ngroup = "P.EEC1"\nas = "B.EEC1"\nwithin = 5\n'
INTO_RPM = SIGNAL.format("SPN190", "RPM")

# How a finding of the one forward and of the one need begins, and what is said where nothing comes in.
FORWARD, NEED = "(P.EEC1 to B.EEC1: ", "(EEC1 SPN190 by B.C from P.E: key "
UNFED = f"{NEED}from: the way of flow 1 of bus B, EEC1 from G to all, ends at forward 1 at line 11, which has no input)"
TOO_OLD = f"G13 NeedTooOld 1  {NEED}within: "
SENT = "flow 1 of bus B, EEC1 from G to all,"
HEARD = "flow 1 of bus P, EEC1 from E to all,"


def more(text: str) -> str:
    """The vehicle with further lines of its forward."""
    return swapped(V, ("within = 5\n", f"within = 5\n{text}"))


def to_one(plan: str, to: str = "X") -> str:
    """A plan whose group goes to one unit, X or another one."""
    return swapped(plan, ("pgn = 61444", "pgn = 0"), ('to = "all"', f'to = "{to}"')) + UNIT.format("X", 5, 5)


class Passed(OfVehicles):
    def test_a_vehicle_without_findings(self) -> None:
        self.assertEqual(self.where(self.vehicle()), (0, ANSWER.splitlines()))

    def test_from_other_folders(self) -> None:
        """The plans are beside the vehicle, by whatever name that is given."""
        self.vehicle()
        os.makedirs(self.path("a/b"))
        name = self.write("a/v.toml", swapped(V, ('"p.toml"', '"../p.toml"'), ('"b.toml"', f'"{self.path("b.toml")}"')))
        self.assertEqual(run("where.py", name)[:2], (0, ANSWER))
        self.write("b.toml", swapped(B, ("byte = 4", "byte = 8")))
        self.assertIn(self.path("b.toml") + ":20: F7 SignalOutside EEC1 SPN190 72", run("where.py", name)[1])

    def test_from_a_pipe(self) -> None:
        """A vehicle that can be read only once names its plans from the root."""
        self.vehicle()
        text = swapped(V, ('"p.toml"', f'"{self.path("p.toml")}"'), ('"b.toml"', f'"{self.path("b.toml")}"'))
        self.assertEqual(run("where.py", "/dev/stdin", text=text)[:2], (0, ANSWER))
        self.assertEqual(run("where.py", "/dev/stdin", text=swapped(text, ("within = 5\n", "within = 0\n")))[:2],
                         (2, "/dev/stdin:15: refused Range forward 1 key within  (within = 0: integer 1..65535)\n"))

    def test_a_plan_that_is_not_there(self) -> None:
        """It is told by its line, whichever tool looks for it."""
        self.vehicle()
        name = self.write("v.toml", swapped(V, ('"b.toml"', '"missing.toml"')))
        for words in (("where.py", name), ("answer.py", "vehicle", name), ("report.py", name)):
            status, answer, said = run(*words)
            self.assertEqual((status, answer), (4, ""))
            self.assertIn(f'{name}:7: plan = "missing.toml": No such file or directory\n', said)

    def test_a_plan_in_a_vehicles_place(self) -> None:
        self.vehicle()
        answer = json.loads(run("answer.py", "vehicle", self.path("p.toml"))[1])
        self.assertEqual((answer["refused"]["line"], answer["refused"]["hint"]), (2, "this is the plan of a bus: j39plan check takes it"))

    def test_a_plan_stays_as_it_is(self) -> None:
        """A plan with a table too many is one, and refused as such."""
        name = self.write("p.toml", P + "[[bus]]\n")
        self.assertEqual(self.where(name), (2, ["p.toml:30: refused UnknownKey top  (key bus isn't listed)"]))


class Plans(OfVehicles):
    def test_findings_of_a_bus_are_in_its_plan(self) -> None:
        name = self.vehicle(b=swapped(B, ("address = 39", "address = 23")))
        status, lines = self.where(name)
        self.assertEqual((status, lines[3:]), (1, [
            "bus B", "b.toml:11: F2 SameFixedAddress C G 23  (key address: the same as of C at line 7)", "  up G", "  up C", "  give C G", "  give G C",
            "findings 1", "findings 1"]))

    def test_a_refused_plan(self) -> None:
        name = self.vehicle(b=swapped(B, ("address = 23", "adress = 23")))
        self.assertEqual(self.where(name), (2, ["bus B", "b.toml:7: refused UnknownKey unit 1  (key adress; did you mean address?)"]))

    @needs("jsonschema", "python3-jsonschema")
    def test_further_faults_of_a_refused_plan(self) -> None:
        name = self.vehicle(b=swapped(B, ("address = 23", "adress = 23"), ("bits = 16", 'bits = "16"')))
        self.assertEqual(self.where(name), (2, ["bus B", "b.toml:7: refused UnknownKey unit 1  (key adress; did you mean address?)",
                                                "b.toml:21: also bits = \"16\": integer 1..64; without quotation marks: 16"]))

    def test_a_plan_that_is_missing(self) -> None:
        name = self.vehicle(swapped(V, ("p.toml", "q.toml")))
        status, answer, _ = run("where.py", name)
        self.assertEqual((status, answer), (4, ""))


class Forwards(OfVehicles):
    def says(self, line: int, said: str, v: str = V, p: str = P, b: str = B) -> None:
        """That a line of the vehicle's file says something."""
        self.assertIn(f"v.toml:{line}: {said}", self.told(self.vehicle(v, p, b)))

    def test_no_input(self) -> None:
        for line, said, v, p in (
            (13, "group: on bus P no flow sends it", V, P[:P.index("[[flow]]")]),
            (11, "at: on bus P only G itself sends it", V, swapped(P, ('from = "E"', 'from = "G"'))),
            (13, "group: on bus P only X sends it, a unit of CGW itself", swapped(V, ('"P.G",', '"P.G", "P.X",')),
             swapped(P, ('from = "E"', 'from = "X"')) + UNIT.format("X", 5, 5)),
            (16, "from: on bus P E sends it, and X doesn't", more('from = "X"\n'), P + UNIT.format("X", 5, 5)),
            (11, "at: on bus P it goes to X alone, which G doesn't hear", V, to_one(P)),
        ):
            self.says(line, f"G1 NoInput 1  {FORWARD}key {said})", v, p)

    def test_many_inputs(self) -> None:
        self.says(11, f"G2 ManyInputs 1  {FORWARD}key from: it hears flows 1 and 2 of bus P: name one of E and X)",
                  p=P + UNIT.format("X", 5, 5) + FLOW.format("EEC1", "X", "all", 20))

    def test_no_output(self) -> None:
        for line, said, v, b in (
            (14, "as: no flow of bus B is of EEC1: its plan wants one from G", V, B[:B.index("[[flow]]")]),
            (11, "by: on bus B C sends it, and G doesn't", V, swapped(B, ('from = "G"', 'from = "C"'))),
            (16, "to: on bus B G sends it to all alone", more('to = "C"\n'), B),
        ):
            self.says(line, f"G3 NoOutput 1  {FORWARD}key {said})", v, b=b)

    def test_many_outputs(self) -> None:
        self.says(11, f"G4 ManyOutputs 1  {FORWARD}key to: it feeds flows 1 and 2 of bus B: name one of C and X)",
                  b=to_one(B, "C") + FLOW.format("EEC1", "G", "X", 10))

    def test_layouts(self) -> None:
        repeated = swapped(B, ("length = 8", "length = 8\nevery = 4"), ("per = 8", "per = 8\nrepeated = true"))
        for said, v, b in (
            ("B.EEC1 has at least 9 bytes, and P.EEC1 8", V, swapped(B, ("length = 8", "length = 9"))),
            ("B.EEC1 has at most 7 bytes, and P.EEC1 8", V, swapped(B, ("length = 8", "length = 7"))),
            ("B.EEC1 has a key when, and P.EEC1 none", V, swapped(B, ("length = 8", "length = 8\nwhen = { byte = 1, bits = 4, value = 1 }"))),
            ("B.EEC1 has records 4 bytes apart, and P.EEC1 no records", V[:V.index("[[need]]")], repeated),
        ):
            self.says(14, f"G5 LayoutDiffers 1  {FORWARD}{said})", v, b=b)

    def test_signals_of_copies(self) -> None:
        other = "[[group.signal]]\nlabel = 'X'\nbyte = 1\nbits = 2\nkind = 'discrete'\n"
        unit = ("per = 8\n", 'per = 8\nunit = "rpm"\n')
        for label, said, b in (
            ("SPN190", "it is at byte 5, bit 1, with 16 bits, and in what is heard at byte 4, bit 1, with 16 bits", swapped(B, ("byte = 4", "byte = 5"))),
            ("SPN190", "it is measured, per 4, and in what is heard measured, per 8", swapped(B, ("per = 8", "per = 4"))),
            ("SPN190", 'its unit is "rpm", and that of SPN190 "km/h"', swapped(B, unit)),
            ("X", "no signal of EEC1 is at byte 1, bit 1, with 2 bits, discrete", swapped(B, ("per = 8\n", "per = 8\n" + other))),
        ):
            p = swapped(P, ("per = 8\n", 'per = 8\nunit = "km/h"\n')) if "km/h" in said else P
            self.says(14, f"G6 SignalDiffers 1 {label}  ({label} of B.EEC1: {said})", p=p, b=b)

    def test_signals_that_go_into_others(self) -> None:
        rpm = swapped(B, ("SPN190", "RPM"))
        nearest = ": exact = false lets the nearest value stand there"
        p = swapped(P, ("per = 8\n", 'per = 8\nunit = "km/h"\nspn = 190\n'))
        for said, b in (
            (f"SPN190 goes from 0 by 0.125, and RPM from 0 by 1{nearest}", swapped(rpm, ("per = 8\n", ""))),
            (f"each number of RPM, which is raw, is a value, and SPN190 may have none{nearest}", swapped(rpm, ('"measured"', '"raw"'))),
            (f"SPN190 goes from 0 to 8031.875, and RPM from 0.625 to 8032.5{nearest}", swapped(rpm, ("per = 8\n", "per = 8\noffset = 5\n"))),
            ('its unit is "rpm", and that of SPN190 "km/h"', swapped(rpm, ("per = 8\n", 'per = 8\nunit = "rpm"\n'))),
            ("its spn is 3, and that of SPN190 190", swapped(rpm, ("per = 8\n", "per = 8\nspn = 3\n"))),
            ("RPM is a dtc, and SPN190 none", swapped(rpm, ("bits = 16", "bits = 32"), ("per = 8\n", ""), ('"measured"', '"dtc"'))),
            ("RPM has a bit of the key when of B.EEC1", swapped(rpm, ("length = 8", "length = 8\nwhen = { byte = 4, bits = 8, value = 1 }"))),
            (f"RPM has 12 bits: a measured signal has 8, 16 or 32; kind = \"raw\" has all widths{nearest}", swapped(rpm, ("bits = 16", "bits = 12"))),
        ):
            v = swapped(more(INTO_RPM), ('signal = "SPN190"', 'signal = "RPM"'))
            self.says(18, f"G6 SignalDiffers 1 RPM  (SPN190 into RPM of B.EEC1: {said})", v, p, b)

    def test_two_forwards(self) -> None:
        fed = f"{FORWARD}it feeds EEC1 from G to all too, as forward 1 at line 11 does, and"
        periodic = swapped(V + SECOND, ("within = 5\n", 'within = 5\nmode = "periodic"\n'))
        both = swapped(periodic, ('"periodic"\n', '"periodic"\n' + SIGNAL.format("SPN190", "SPN190")))
        for line, why, v in ((22, "one of them is direct", V + SECOND), (23, "one of them copies all bytes", periodic), (26, "both write SPN190", both)):
            self.says(line, f"G7 TwoForwards 1 2  {fed} {why})", v)

    def test_loops(self) -> None:
        back = ('[[gateway]]\nlabel = "D"\nunit = ["B.H", "P.H"]\n[[forward]]\ngateway = "D"\ngroup = "B.EEC1"\nas = "P.EEC1"\n')
        told = self.told(self.vehicle(V + back, P + UNIT.format("H", 6, 6) + FLOW.format("EEC1", "H", "all", 10), B + UNIT.format("H", 6, 6)))
        self.assertIn(f"v.toml:14: G8 ForwardLoop 1  {FORWARD}what it sends comes back to it over forwards 1 and 2)", told)
        self.assertIn("v.toml:28: G8 ForwardLoop 2  (B.EEC1 to P.EEC1: what it sends comes back to it over forwards 2 and 1)", told)

    def test_too_rare_since_no_bound_is_known(self) -> None:
        """Of a pause that is long enough it is said why it isn't shown to be kept."""
        b = swapped(B, ("jitter = 7", "jitter = 7\npause = 40"))
        why = f"{FORWARD}{SENT} isn't shown to keep its pause of 40 ms: the plan of bus P has no timing)"
        self.says(14, f"G12 TooRare 1  {why}", p=swapped(P, (TIMING, "")), b=b)

    def test_too_often(self) -> None:
        asked = swapped(B, ("period = 10", "period = 10\non_request = true")) + '[[request]]\ngroup = "EEC1"\nfrom = "C"\nto = "G"\n'
        for said, b in (
            (f"{SENT} has a period of 20 ms, and what it sends on, {HEARD} has a period of 10 ms: give the first no greater one, or mode = \"periodic\"",
             swapped(B, ("period = 10", "period = 20"))),
            (f"{SENT} answers requests alone, and what it sends on comes unasked: mode = \"periodic\" keeps the newest for an answer", asked),
        ):
            self.says(11, f"G10 TooOften 1  {FORWARD}{said})", b=b)

    def test_too_late(self) -> None:
        jitter = f"mode: {SENT} has a jitter of"
        for line, said, v, p, b in (
            (11, f"{jitter} 6 ms, and wants one of at least 7", V, P, swapped(B, ("jitter = 7", "jitter = 6"))),
            (11, f"{jitter} 7 ms, and wants one of at least 52, which its period of 10 ms doesn't allow: mode = \"periodic\" has no such bound",
             swapped(V, ("within = 5\n", "within = 50\n")), P, B),
            (11, f"within: it isn't there: how long CGW takes isn't known, and so not by how much {SENT[:-1]}, is late", swapped(V, ("within = 5\n", "")), P, B),
            (13, f"group: when {HEARD} ends isn't known: load of its plan shows no bound, or the plan has no timing", V, swapped(P, (TIMING, "")), B),
        ):
            self.says(line, f"G11 TooLate 1  {FORWARD}key {said})", v, p, b)

    def test_too_rare(self) -> None:
        b = swapped(B, ("jitter = 7", "jitter = 7\npause = 15"))
        for pause, p in (("a pause of 20 ms", P), ("no pause", swapped(P, ("pause = 20\n", "")))):
            self.says(14, f"G12 TooRare 1  {FORWARD}{SENT} has a pause of 15 ms, and what it sends on, {HEARD} has {pause}: give the first no smaller one, or none)",
                      p=p, b=b)

    def test_shared_queues(self) -> None:
        self.says(10, "G14 SharedQueue CGW B  (key unit: B.G and B.H are units of one device, and H has queue = \"any\": load takes each for a controller "
                  "with a queue of its own)", swapped(V, ('"B.G"]', '"B.G", "B.H"]')), b=B + UNIT.format("H", 6, 6) + 'queue = "any"\n')

    def test_unmet_needs(self) -> None:
        """The need's line says where the way ends: at another origin, or at the forward of which something is missing."""
        at = f"from: the way of {SENT} ends at forward 1 at line 11, which"
        self.says(20, f"G9 NeedUnmet 1  {UNFED}", p=P[:P.index("[[flow]]")])
        self.says(20, f"G9 NeedUnmet 1  {NEED}{at} copies nothing that agrees with SPN190)", b=swapped(B, ("byte = 4", "byte = 5")))
        self.says(20, f"G9 NeedUnmet 1  (EEC1 SPN190 by B.C from P.G: key from: {SENT} comes from P.E over forward 1)", swapped(V, ('from = "P.E"', 'from = "P.G"')))
        self.says(21, f"G9 NeedUnmet 1  {NEED}from: {SENT} comes from B.G)", more('to = "C"\n'))
        self.says(18, f"G9 NeedUnmet 1  {NEED}group: on bus B no flow sends it)", b=B[:B.index("[[flow]]")])
        self.says(17, f"G9 NeedUnmet 1  {NEED}unit: on bus B only C itself sends it)", b=swapped(B, ('from = "G"', 'from = "C"')))

    def test_old_needs(self) -> None:
        periodic = more('mode = "periodic"\n')
        unknown = "how old it is isn't known:"
        young = "smaller pauses, jitters and within on the way make it younger"
        for line, said, v, p, b in (
            (22, f"up to 47.56 ms over forward 1: {young}; forward 1 is periodic, and adds the pause of what is sent there", periodic, P,
             swapped(B, ("jitter = 7", "pause = 20"))),
            (21, f"up to 27.56 ms over forward 1: {young}", swapped(V, ("within = 30", "within = 27")), P, B),
            (22, f"{unknown} flow 1 of bus B, EEC1 from G to all, has no pause", periodic, P, swapped(B, ("jitter = 7\n", ""))),
            (20, f"{unknown} forward 1 at line 11 has no within", swapped(V, ("within = 5\n", "")), P, B),
            (21, f"{unknown} the plan of bus P has no timing", V, swapped(P, (TIMING, "")), B),
            (21, f"{unknown} messages of EEC1 on bus B have more than 8 bytes, and those have no age", V, P, swapped(B, ("length = 8", "length = 9"))),
        ):
            self.says(line, f"{TOO_OLD}{said})", v, p, b)


class Refusals(OfVehicles):
    def test_texts_keys_and_values(self) -> None:
        units = ", ".join(f'"P.U{number}"' for number in range(129))
        for line, said, v, b in (
            (3, 'Text  (label = P: a text needs quotes: "P")', swapped(V, ('label = "P"', "label = P")), B),
            (16, "Text  (exact = True: write true)", more("exact = True\n"), B),
            (1, "Range top key version  (version = 2: integer 1)", swapped(V, ("version = 1", "version = 2")), B),
            (1, "Missing top key version  (key version isn't there: integer 1)", swapped(V, ("version = 1\n", "")), B),
            (15, "UnknownKey forward 1  (key withn; did you mean within?)", swapped(V, ("within = 5", "withn = 5")), B),
            (15, "UnknownKey forward 1  (key latency isn't listed: within)", swapped(V, ("within = 5", "latency = 5")), B),
            (15, "UnknownKey forward 1  (key plan belongs to bus)", swapped(V, ("within = 5", 'plan = "x"')), B),
            (11, "Missing forward 1 key as  (key as isn't there: a text, BUS.GROUP: the group that is sent, and on which bus)",
             swapped(V, ('as = "B.EEC1"\n', "")), B),
            (2, "WrongType top key bus  (key bus: an array of tables: [[bus]])", "version = 1\n[bus]\n", B),
            (10, "Range gateway 1 key unit  (key unit: \"PG\" is no text BUS.UNIT)", swapped(V, ('"P.G"', '"PG"')), B),
            (10, "WrongType gateway 1 key unit  (key unit: 1 is no text BUS.UNIT)", swapped(V, ('"P.G"', "1")), B),
            (10, "TooMany gateway 1 key unit  (key unit: at most 128)", swapped(V, ('"P.G"', units)), B),
            (10, "Repeated gateway 1 key unit  (key unit: P.G is at line 10 too)", swapped(V, ('"B.G"', '"B.G", "P.G"')), B),
            (25, "Repeated gateway 2 key unit  (key unit: B.G is at line 10 too)", V + '[[gateway]]\nlabel = "Z"\nunit = ["P.X",\n "B.G"]\n', B),
            (6, "Repeated bus 2 key label  (key label: P is at line 3 too)", swapped(V, ('label = "B"', 'label = "P"')), B),
            (23, "Repeated gateway 2 key label  (key label: CGW is at line 9 too)", V + '[[gateway]]\nlabel = "CGW"\nunit = []\n', B),
            (21, "Repeated forward 1 signal 2 key as  (key as: another signal goes into X at line 16)",
             more(SIGNAL.format("A", "X") + SIGNAL.format("B", "X")), B),
            (16, 'Range forward 1 key mode  (mode = "peridic": "direct" or "periodic"; did you mean periodic?)', more('mode = "peridic"\n'), B),
        ):
            self.assertEqual(self.where(self.vehicle(v, b=b)), (2, [f"v.toml:{line}: refused {said}"]))

    def test_labels(self) -> None:
        text = "[[group.text]]\nlabel = 'T'\nbyte = 1\nbytes = 2\n"
        for line, said, v, b in (
            (12, "UnknownLabel forward 1 key gateway  (key gateway: no gateway is called X)", swapped(V, ('gateway = "CGW"', 'gateway = "X"')), B),
            (13, "UnknownLabel forward 1 key group  (key group: no bus is called Q)", swapped(V, ('"P.EEC1"', '"Q.EEC1"')), B),
            (13, "UnknownLabel forward 1 key group  (key group: CGW has no unit on bus P)", swapped(V, ('"P.G", ', "")), B),
            (13, "UnknownLabel forward 1 key group  (key group: no group of bus P is called EEC2; did you mean EEC1?)", swapped(V, ("P.EEC1", "P.EEC2")), B),
            (16, "UnknownLabel forward 1 key from  (key from: no unit of bus P is called X)", more('from = "X"\n'), B),
            (16, "UnknownLabel forward 1 key at  (key at: CGW has no unit E on bus P)", more('at = "E"\n'), B),
            (16, "UnknownLabel forward 1 key by  (key by: CGW has no unit E on bus B)", more('by = "E"\n'), B),
            (10, "UnknownLabel forward 1 key by  (key unit: no unit of bus B is called GW)", swapped(more('by = "G"\n'), ('"B.G"', '"B.GW"')), B),
            (13, "Range forward 1 key group  (group = \"EEC1\": a text, BUS.GROUP: the group that is heard, and on which bus; did you mean P.EEC1 or B.EEC1?)",
             swapped(V, ('group = "P.EEC1"', 'group = "EEC1"')), B),
            (18, "UnknownLabel need 1 key group  (key group: B.EEC1 is EEC1 here: the unit names the bus)", swapped(V, ('group = "EEC1"', 'group = "B.EEC1"')), B),
            (16, "UnknownLabel forward 1 key to  (key to: no unit of bus B is called al; did you mean all?)", more('to = "al"\n'), B),
            (10, "UnknownLabel gateway 1 key unit  (key unit: no unit of bus B is called H)", swapped(V, ('"B.G"', '"B.H"')), B),
            (10, "UnknownLabel gateway 1 key unit  (key unit: no bus is called Q)", swapped(V, ('"B.G"', '"Q.H"')), B),
            (17, "UnknownLabel need 1 key unit  (key unit: no unit of bus B is called X)", swapped(V, ('"B.C"', '"B.X"')), B),
            (17, "UnknownLabel need 1 key unit  (key unit: no bus is called Q)", swapped(V, ('"B.C"', '"Q.C"')), B),
            (18, "UnknownLabel need 1 key group  (key group: no group of bus B is called EEC; did you mean EEC1?)", swapped(V, ('"EEC1"', '"EEC"')), B),
            (19, "UnknownLabel need 1 key signal  (key signal: no signal of B.EEC1 is called SPN191; did you mean SPN190?)", swapped(V, ("SPN190", "SPN191")), B),
            (20, "UnknownLabel need 1 key from  (key from: no unit of bus P is called X)", swapped(V, ('"P.E"', '"P.X"')), B),
            (17, "UnknownLabel forward 1 signal 1 key label  (key label: no signal of P.EEC1 is called A)", more(SIGNAL.format("A", "SPN190")), B),
            (18, "UnknownLabel forward 1 signal 1 key as  (key as: no signal of B.EEC1 is called A)", more(SIGNAL.format("SPN190", "A")), B),
            (18, "UnknownLabel forward 1 signal 1 key as  (key as: T is a text of B.EEC1)", more(SIGNAL.format("SPN190", "T")),
             swapped(B, ("per = 8\n", f"per = 8\n{text}"))),
            (18, "UnknownLabel forward 1 signal 1 key as  (key as: SPN190 of B.EEC1 is repeated)", more(SIGNAL.format("SPN190", "SPN190")),
             swapped(B, ("length = 8", "length = 8\nevery = 2"), ("per = 8\n", "per = 8\nrepeated = true\n"))),
        ):
            self.assertEqual(self.where(self.vehicle(v, b=b)), (2, [f"v.toml:{line}: refused {said}"]))

    @needs("jsonschema", "python3-jsonschema")
    def test_further_faults(self) -> None:
        """What else the schema finds, and each statement that is no TOML."""
        name = self.vehicle(swapped(V, ("within = 5", "latency = 5\nperiod = 5"), ("within = 30", 'within = "30"')))
        self.assertEqual(self.where(name)[1][1:], ["v.toml:16: also key period isn't listed: the flow of the plan has it",
                                                   'v.toml:22: also within = "30": integer 1..65535'])
        name = self.vehicle(swapped(V, ('label = "P"', "label = P"), ("within = 30", "within = 0")))
        self.assertEqual(self.where(name)[1][1:], ["v.toml:21: also within = 0: integer 1..65535"])


class Forms(OfVehicles):
    def test_json(self) -> None:
        name = self.vehicle(b=swapped(B, ("jitter = 7", "jitter = 6")))
        status, answer, said = run("where.py", "--json", name)
        found = json.loads(answer)
        self.assertEqual((status, said, found["vehicle"], found["status"]), (1, "", name, 1))
        self.assertEqual(found["buses"][0], {"bus": "P", "plan": self.path("p.toml"), "status": 0, "load": 16000, "bitrate": 250000, "findings": [],
                                             "counts": {"units": 2, "groups": 1, "flows": 1}})
        self.assertEqual(found["forwards"], [{"forward": 1, "gateway": "CGW", "group": "P.EEC1", "as": "B.EEC1", "within": 6280, "limit": 6000}])
        self.assertEqual(found["needs"], [{"need": 1, "unit": "B.C", "group": "EEC1", "signal": "SPN190", "from": "P.E", "sent_group": "EEC1",
                                           "sent_signal": "SPN190", "by": [1], "age": 27560, "limit": 30000, "met": True}])
        self.assertEqual([(one["finding"], one["name"], one["forward"], one["line"]) for one in found["findings"]], [("G11", "TooLate", 1, 11)])
        self.assertNotIn("counts", found)
        clean = json.loads(run("where.py", "--json", self.vehicle())[1])
        self.assertEqual((clean["findings"], clean["counts"]), ([], {"buses": 2, "gateways": 1, "forwards": 1, "needs": 1}))

    def test_json_of_what_is_refused(self) -> None:
        found = json.loads(run("where.py", "--json", self.vehicle(swapped(V, ("within = 5", "within = 0"))))[1])
        self.assertEqual(found["refused"], {"cause": "Range", "place": "forward 1", "key": "within", "text": "refused Range forward 1 key within", "line": 15,
                                            "hint": "within = 0: integer 1..65535"})
        self.assertEqual((found["status"], found["buses"]), (2, []))
        found = json.loads(run("where.py", "--json", self.vehicle(b="version = 9\n"))[1])
        self.assertEqual((found["buses"][0]["bus"], found["buses"][0]["status"], found["buses"][0]["refused"]["line"]), ("B", 2, 1))

    def test_annotations(self) -> None:
        """Of each finding in its file."""
        name = self.vehicle(b=swapped(B, ("address = 39", "address = 23")))
        self.assertEqual(self.where(name, "--github")[1][4],
                         "::error file=b.toml,line=11::F2 SameFixedAddress C G 23  (key address: the same as of C at line 7)%0A  up G%0A  up C%0A  give C G%0A  give G C")

    def test_code_quality(self) -> None:
        """One report has what was found in each file, and is written anew for these alone."""
        name, report = self.vehicle(swapped(V, ("within = 30", "within = 20")), b=swapped(B, ("jitter = 7", "jitter = 7\ndeadline = 1"))), self.path("report.json")
        for _ in range(2):
            run("where.py", "--gitlab", report, name)
            with open(report, encoding="utf-8") as file:
                entries = json.load(file)
            places = [(os.path.basename(one["location"]["path"]), one["location"]["lines"]["begin"], one["check_name"]) for one in entries]
            self.assertEqual(sorted(places), [("b.toml", 30, "LateFlow"), ("v.toml", 21, "NeedTooOld")])

    def test_hints(self) -> None:
        """Those of each plan, but for units that the vehicle names."""
        _, lines = self.where(self.vehicle(b=B + UNIT.format("X", 5, 5)), "--lint", "-measure", "-address", "+drift", "+live")
        hints = [line for line in lines if ": hint " in line]
        drifts = [f"{file}:2: hint drift 0: no two clocks agree for ever  (drift)" for file in ("p.toml", "b.toml")]
        self.assertEqual([line for line in hints if "live" not in line], [*drifts, "b.toml:31: hint unit X: no flow is from it or to it alone  (idle)"])
        self.assertEqual([line.split(":")[0] for line in hints if "live" in line], ["p.toml", "b.toml"])


class Checks(OfVehicles):
    def test_vehicles_among_the_checked_plans(self) -> None:
        """By the command that takes both."""
        name, other = self.vehicle(), self.path("p.toml")
        ended = subprocess.run([os.path.join(TOOLS, "check-plans"), name, other], capture_output=True, text=True, check=False,
                               env={**os.environ, "J39PLAN": program.path(), "CHECK": os.path.join(TOOLS, "where.py")})
        self.assertEqual((ended.returncode, ended.stdout), (0, f"{name}\n{ANSWER}{other}\nok 2 units 1 groups 1 flows\n"))


class Answers(OfVehicles):
    def test_answer_writes_what_where_does(self) -> None:
        for v in (V, swapped(V, ("within = 5\n", "within = 0\n")), swapped(V, ("within = 30", "within = 20"))):
            name = self.vehicle(v)
            self.assertEqual(run("answer.py", "vehicle", name), run("where.py", "--json", name))


class Calls(unittest.TestCase):
    def test_the_program_has_the_command(self) -> None:
        self.assertRegex(program.call(["--help"])[1], "\n  vehicle ")


if __name__ == "__main__":
    unittest.main()
