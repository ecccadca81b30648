"""The language server, as an editor drives it."""

import contextlib
import io
import json
import os
import subprocess
import sys
import time
import unittest

from j39plan import program
from j39plan.editor.documents import Document, path_of, uri_of
from j39plan.editor.protocol import Lines, NoMessage, Object, messages
from j39plan.editor.server import DELAY
from tests.editor import Editor, WithEditor
from tests.support import TOOLS, InFolder, example, text_of

PLAN = """version = 4
[[unit]]
label = "EMS" # engine
address = 0
name = { function = 0, manufacturer = 310 }

[[unit]]
label = "ICL"
address = 23
name = { function = 19 }

[[group]]
label = "EEC1"
pgn = 61444
priority = 3
length = 8

[[group.signal]]
label = "SPEED"
spn = 190
byte = 4
bits = 16
kind = "measured"
per = 8
unit = "rpm"

[[group.signal]]
label = "MODE"
byte = 1
bits = 4
kind = "states"
values = { 0 = "low_idle", 1 = "pedal" }

[[flow]]
group = "EEC1"
from = "EMS"
to = "all"
period = 20
pause = 20

[[need]]
unit = "ICL"
group = "EEC1"
signal = "SPEED"
within = 100

[timing]
bitrate = 250000
unplanned = 1
"""

TWO = """version = 4
[[unit]]
label = "A"
address = 0
name = {}
[[unit]]
label = "B"
address = 0
name = { function = 12 }
"""


class Shown(WithEditor):
    """What is shown of a file."""

    def test_a_finding_stands_at_its_key_with_the_other_place(self) -> None:
        uri = self.editor.open("/p/two.toml", TWO)
        (finding,) = [one for one in self.editor.shown(uri) if one["severity"] == 1]
        self.assertEqual((finding["code"], finding["source"], finding["range"]["start"]["line"]), ("F2", "j39plan", 7))
        self.assertEqual(self.editor.part(uri, finding["range"]), "address = 0")
        self.assertIn("key address: the same as of A at line 4", finding["message"])
        first = finding["relatedInformation"][0]["location"]
        self.assertEqual((first["uri"], first["range"]["start"]["line"], self.editor.part(uri, first["range"])), (uri, 3, "address = 0"))

    def test_the_steps_of_a_run_stand_below_a_finding(self) -> None:
        uri = self.editor.open("/p/f.toml", text_of(example("findings/f02_same_fixed_address.toml")))
        finding = next(one for one in self.editor.shown(uri) if one["code"] == "F2")
        self.assertEqual([one["message"] for one in finding["relatedInformation"][1:]],
                         ["up RETARDER", "up ENGINE", "give ENGINE RETARDER", "give RETARDER ENGINE"])

    def test_a_refusal_stands_at_its_key_and_the_others_at_theirs(self) -> None:
        uri = self.editor.open("/p/plan.toml", PLAN.replace("priority = 3", "priority = 9").replace("spn = 190", "spn = -1"))
        shown = self.editor.shown(uri)
        self.assertEqual({one["severity"] for one in shown}, {1})
        self.assertEqual(self.editor.part(uri, shown[0]["range"]), "priority = 9")
        if len(shown) > 1:  # by the library jsonschema, where that is there
            self.assertEqual(self.editor.part(uri, shown[1]["range"]), "spn = -1")

    def test_refusals_of_a_line_stand_at_its_tables(self) -> None:
        """Alternatives that aren't there or stand twice, and tables that lack a key."""
        text = text_of(example("line.toml"))
        for old, new, part in (('but = ["ZF"]', 'but = ["FZ"]', 'but = ["FZ"]'), ('of = ["CUMMINS", "DETROIT"]', 'of = ["CUMMINS", "CUMMINS"]', 'of = ["CUMMINS", "CUMMINS"]'),
                               ('with = ["DETROIT"]', 'with = ["DETROYT"]', 'with = ["DETROYT"]'), ('of = ["RETARDER"]\n', "", "[[never]]"), ('of = ["NO_RETARDER", "RETARDER"]', "of = []", "of = []")):
            uri = self.editor.open("/p/line.toml", text.replace(old, new, 1))
            shown = [one for one in self.editor.shown(uri) if one["severity"] == 1]
            self.assertIn(part, [self.editor.part(uri, one["range"]).partition(" #")[0] for one in shown], (new, shown))

    def test_a_hint_is_information(self) -> None:
        uri = self.editor.open("/p/plan.toml", PLAN + '\n[[unit]]\nlabel = "X"\naddress = 9\nname = {}\n')
        hints = {self.editor.part(uri, one["range"]): (one["severity"], one["code"]) for one in self.editor.shown(uri)}
        self.assertEqual(hints['label = "X"'], (3, "hint"))

    def test_other_files_in_toml_are_left_alone(self) -> None:
        for text in ('[project]\nname = "x"\nversion = "0.1"\n', 'x = [\n', "", "# notes\n"):
            uri = self.editor.open("/p/other.toml", text)
            self.assertEqual(self.editor.shown(uri), [], text)

    def test_a_closed_file_shows_nothing(self) -> None:
        uri = self.editor.open("/p/two.toml", TWO)
        self.assertTrue(self.editor.shown(uri))
        self.editor.tell("textDocument/didClose", {"textDocument": {"uri": uri}})
        self.assertEqual(self.editor.shown(uri), [])
        self.assertIn("isn't open", self.editor.answer("textDocument/documentSymbol", {"textDocument": {"uri": uri}})["error"]["message"])

    def test_characters_of_two_units(self) -> None:
        uri = self.editor.open("/p/two.toml", TWO.replace('name = { function = 12 }', 'name = { function = 300 } # \U0001F69A'))
        (fault,) = self.editor.shown(uri)
        self.assertEqual(self.editor.part(uri, fault["range"]), "function = 300")
        uri = self.editor.open("/p/three.toml", TWO.replace('label = "B"\n', '"\U0001F69A" = 1; label = "B"\n'))
        self.assertTrue(self.editor.shown(uri))
        lines = Lines("a\U0001F69Ab\r\nc")
        self.assertEqual([lines.position(at)["character"] for at in (1, 2, 3)], [1, 3, 4])
        self.assertEqual((lines.at({"line": 0, "character": 3}), lines.at({"line": 0, "character": 99}), lines.at({"line": 9, "character": 0})), (2, 3, 6))


class Vehicles(InFolder):
    """Files of vehicles, with the plans of their buses as they are open."""

    def setUp(self) -> None:
        super().setUp()
        self.editor = Editor()
        self.plan = PLAN.replace("[timing]\nbitrate = 250000\nunplanned = 1\n", "")
        self.one, self.other = self.write("p.toml", self.plan), self.write("i.toml", self.plan)
        self.vehicle = ('version = 1\n[[bus]]\nlabel = "P"\nplan = "p.toml"\n[[bus]]\nlabel = "I"\nplan = "i.toml"\n[[gateway]]\nlabel = "GW"\n'
                        'unit = ["P.ICL", "I.EMS"]\n[[forward]]\ngateway = "GW"\ngroup = "P.EEC1"\nas = "I.EEC1"\n')

    def test_the_text_that_is_not_saved_counts(self) -> None:
        uri = self.editor.open(self.path("v.toml"), self.vehicle)
        self.assertEqual(self.editor.shown(uri), [])
        plan = self.editor.open(self.one, self.plan.replace('label = "EEC1"', 'label = "EEC9"').replace('group = "EEC1"', 'group = "EEC9"'))
        shown = [one for one in self.editor.shown(uri) if one["severity"] == 1]
        self.assertEqual([self.editor.part(uri, one["range"]) for one in shown], ['group = "P.EEC1"'])
        self.editor.change(plan, 0, len(self.editor.texts[plan]), self.plan)
        self.assertEqual(self.editor.shown(uri), [])

    def test_what_is_found_in_a_plan_that_is_not_open(self) -> None:
        self.write("p.toml", self.plan.replace("address = 23", "address = 0"))
        uri = self.editor.open(self.path("v.toml"), self.vehicle)
        self.editor.server.settle()
        found = [one["code"] for one in self.editor.shown(uri_of(self.one))]
        self.assertEqual(found, ["F2"])
        self.editor.tell("textDocument/didClose", {"textDocument": {"uri": uri}})
        self.assertEqual(self.editor.shown(uri_of(self.one)), [])

    def test_a_plan_that_is_not_there_is_said_at_its_line(self) -> None:
        uri = self.editor.open(self.path("v.toml"), self.vehicle.replace('"i.toml"', '"none.toml"'))
        (fault,) = self.editor.shown(uri)
        self.assertEqual(self.editor.part(uri, fault["range"]), 'plan = "none.toml"')
        self.assertIn('plan = "none.toml": No such file or directory', fault["message"])

    def test_labels_of_plans(self) -> None:
        uri = self.editor.open(self.path("v.toml"), self.vehicle)
        (found,) = self.editor.ask("textDocument/definition", self.editor.at(uri, '"P.EE'))
        self.assertEqual((found["uri"], found["range"]["start"]), (uri_of(self.one), {"line": 12, "character": 9}))
        (found,) = self.editor.ask("textDocument/definition", self.editor.at(uri, '"P'))
        self.assertEqual((found["uri"], found["range"]["start"]["line"]), (uri, 2))
        self.assertIn("**unit ICL**: address 23", self.editor.hover(uri, '"P.IC'))
        self.editor.change(uri, len(self.vehicle), len(self.vehicle), '[[forward]]\ngateway = "GW"\ngroup = ""\n')
        self.assertEqual(self.editor.proposed(uri, 'group = "', 1), ["P.EEC1", "I.EEC1"])
        self.assertEqual(self.editor.proposed(uri, 'gateway = "', 1), ["GW"])

    def test_a_label_of_a_plan_gets_another_in_the_vehicle_too(self) -> None:
        uri, plan = self.editor.open(self.path("v.toml"), self.vehicle), self.editor.open(self.one, self.plan)
        texts = self.editor.edited(self.editor.ask("textDocument/rename", {**self.editor.at(plan, 'label = "IC'), "newName": "DASH"}))
        self.assertEqual(texts, {uri: self.vehicle.replace("P.ICL", "P.DASH"), plan: self.plan.replace('"ICL"', '"DASH"')})


class Proposed(WithEditor):
    """Completion."""

    reference = example("restated_groups.toml")

    def at_end(self, more: str) -> list[str]:
        """What is proposed at the end of the plan with more."""
        uri = self.editor.open("/p/plan.toml", PLAN + more)
        params = {"textDocument": {"uri": uri}, "position": Lines(PLAN + more).position(len(PLAN + more))}
        return [item["label"] for item in self.editor.ask("textDocument/completion", params)["items"]]

    def test_labels(self) -> None:
        self.assertEqual(self.at_end('[[flow]]\nfrom = "'), ["EMS", "ICL"])
        self.assertEqual(self.at_end('[[flow]]\nto = "I'), ["EMS", "ICL", "all"])
        self.assertEqual(self.at_end("[[request]]\ngroup = "), ["EEC1"])
        self.assertEqual(self.at_end('[[need]]\ngroup = "EEC1"\nsignal = "'), ["SPEED", "MODE"])

    def test_alternatives(self) -> None:
        self.assertEqual(self.at_end('[[choice]]\nof = ["RED", "BLUE"]\n[[unit]]\nwith = ["RED", "'), ["RED", "BLUE"])

    def test_keys_that_a_table_has_not_yet(self) -> None:
        self.assertEqual([label for label in self.at_end('[[need]]\nunit = "ICL"\n') if "[" not in label], ["group", "signal", "from", "within", "with"])
        self.assertEqual(self.at_end("[[unit]]\nname = { iden")[0], "identity")

    def test_words_and_headers(self) -> None:
        self.assertEqual(self.at_end("[[group]]\n[[group.signal]]\nkind = "), ["measured", "discrete", "raw", "states", "signed", "dtc"])
        self.assertEqual(self.at_end("[[unit]]\nclaims = "), ["true", "false"])
        self.assertIn("[[group.signal]]", self.at_end("[["))
        self.assertEqual(self.at_end('[[flow]] # from = "'), [])

    def test_numbers_of_the_reference(self) -> None:
        self.assertIn("65262 ET1", self.at_end("[[group]]\npgn = "))
        text = self.at_end("[[group]]\npgn = 65262\n[[group.signal]]\nspn = ")
        self.assertEqual(text[:2], ["110 SPN110", "174 SPN174"])

    def test_a_signal_of_the_reference(self) -> None:
        more = "[[group]]\npgn = 61444\n[[group.signal]]\n"
        uri = self.editor.open("/p/plan.toml", PLAN + more)
        params = {"textDocument": {"uri": uri}, "position": Lines(PLAN + more).position(len(PLAN + more))}
        item = next(one for one in self.editor.ask("textDocument/completion", params)["items"] if one["label"].startswith("SPN 190 "))
        self.assertEqual(item["textEdit"]["newText"].splitlines()[1:], ["spn = 190", "byte = 4", "bits = 16", 'kind = "measured"', "per = 8", 'unit = "rpm"'])

    def test_an_spn_of_the_reference_where_the_mouse_rests(self) -> None:
        uri = self.editor.open("/p/plan.toml", PLAN)
        self.assertIn("4.1, 16 bits, 1/8 * raw rpm", self.editor.hover(uri, "spn = 1"))
        self.assertIn("PGN 61444** (F004 hex), PDU2: to all", self.editor.hover(uri, "pgn = 61"))


class Asked(WithEditor):
    """Hover, definitions, references, renaming, symbols."""

    def setUp(self) -> None:
        super().setUp()
        self.uri = self.editor.open("/p/plan.toml", PLAN)

    def test_a_group_with_its_bytes_and_times(self) -> None:
        said = self.editor.hover(self.uri, '"EEC1', 1)
        for line in ("**group EEC1**: PGN 61444 (F004 hex), priority 3, 8 bytes", "1      . . . . B B B B", "2-3    . . . . . . . .", "4-5    A A A A A A A A",
                     "A  SPEED   4.1, 16 bits  measured raw / 8 rpm SPN 190"):
            self.assertIn(line, said.splitlines())
        # One frame that came before, and the frame itself, each of 160 bits at most at 250 kbit/s: 1.28 ms; 20 ms of pause before.
        self.assertIn("- from EMS to all, each 20 ms: on the bus after 1.28 ms at most, of 20 ms", said)
        self.assertIn("- needed by ICL (SPEED): as old as 21.28 ms at most, of 100 ms", said)

    def test_a_unit_with_its_name(self) -> None:
        said = self.editor.hover(self.uri, 'label = "EM')
        self.assertIn("**unit EMS**: address 0 (00 hex), where it stays in every run", said)
        self.assertIn("NAME 0000000026......\n", said)  # 310 from bit 21 on is 26C00000 hex, of which six digits have bits of the identity
        self.assertIn("- manufacturer 310\n- ecu 0", said)

    def test_a_signal_and_a_key(self) -> None:
        self.assertIn("- 1 pedal", self.editor.hover(self.uri, '"MOD'))
        self.assertIn("by default 255", self.editor.hover(self.editor.open("/p/w.toml", PLAN.replace("address = 23", "address = 23\nwindow = 9")), "wind"))

    def test_a_group_of_a_plan_that_is_half_written_since(self) -> None:
        self.editor.hover(self.uri, '"EEC1', 1)
        self.editor.change(self.uri, len(PLAN), len(PLAN), "[[unit]]\nlabel = ")
        self.assertIn("each 20 ms", self.editor.hover(self.uri, '"EEC1', 1))

    def test_definition_and_references(self) -> None:
        (found,) = self.editor.ask("textDocument/definition", self.editor.at(self.uri, 'signal = "SP'))
        self.assertEqual(found["range"], {"start": {"line": 18, "character": 9}, "end": {"line": 18, "character": 14}})
        params = self.editor.at(self.uri, 'label = "EEC')
        lines = [one["range"]["start"]["line"] for one in self.editor.ask("textDocument/references", {**params, "context": {"includeDeclaration": False}})]
        self.assertEqual(lines, [34, 42])
        self.assertEqual(len(self.editor.ask("textDocument/documentHighlight", params)), 3)
        self.assertEqual(self.editor.ask("textDocument/definition", self.editor.at(self.uri, "bitrate")), [])

    def test_rename(self) -> None:
        params = self.editor.at(self.uri, 'from = "EM')
        self.assertEqual(self.editor.ask("textDocument/prepareRename", params)["placeholder"], "EMS")
        (text,) = self.editor.edited(self.editor.ask("textDocument/rename", {**params, "newName": "ENGINE"})).values()
        self.assertEqual(text, PLAN.replace('"EMS"', '"ENGINE"'))
        for label, why in (("ICL", "another unit is called ICL"), ("a b", "'a b' is no label"), ("all", "not all")):
            self.assertIn(why, self.editor.answer("textDocument/rename", {**params, "newName": label})["error"]["message"])

    def test_symbols(self) -> None:
        found = self.editor.ask("textDocument/documentSymbol", {"textDocument": {"uri": self.uri}})
        self.assertEqual([(one["name"], one["detail"]) for one in found], [
            ("EMS", "unit"), ("ICL", "unit"), ("EEC1", "group"), ("EEC1 from EMS to all", "flow"), ("EEC1 SPEED for ICL", "need"), ("timing", "timing")])
        self.assertEqual([one["name"] for one in found[2]["children"]], ["SPEED", "MODE"])


class Mends(WithEditor):
    """Code actions."""

    def test_a_mend_takes_the_finding_away(self) -> None:
        text = text_of(example("findings/f02_same_fixed_address.toml"))
        uri = self.editor.open("/p/f.toml", text)
        (finding,) = [one for one in self.editor.shown(uri) if one["severity"] == 1]
        params = {"textDocument": {"uri": uri}, "range": finding["range"], "context": {"diagnostics": [finding]}}
        found = self.editor.ask("textDocument/codeAction", params)
        self.assertTrue(found[0]["isPreferred"])
        self.assertTrue(found[0]["title"].startswith("unit RETARDER: address = 15"), found[0]["title"])
        (mended,) = self.editor.edited(found[0]["edit"]).values()
        with program.file_of(mended) as plan:
            self.assertEqual(program.call(["check", "--", plan])[0], 0)
        self.assertEqual(self.editor.ask("textDocument/codeAction", {**params, "context": {"diagnostics": [finding], "only": ["source.fixAll"]}}), [])

    def test_mends_of_a_line(self) -> None:
        """Of a finding of all its vehicles, and of one of some: as `mend` has them."""
        line = TWO.replace("address = 0", "address = 1", 1) + '[[choice]]\nof = ["X", "Y"]\n' \
            + '[[unit]]\nlabel = "C"\naddress = 0\nname = { function = 13 }\nwith = ["X"]\n'
        for text in (line, line.replace('\nwith = ["X"]', "")):
            uri = self.editor.open("/p/line.toml", text)
            finding = next(one for one in self.editor.shown(uri) if one["code"] == "F2")
            found = self.editor.ask("textDocument/codeAction", {"textDocument": {"uri": uri}, "range": finding["range"], "context": {"diagnostics": [finding]}})
            self.assertTrue(found and found[0]["isPreferred"], finding)
            (mended,) = self.editor.edited(found[0]["edit"]).values()
            with program.file_of(mended) as plan:
                self.assertEqual(program.call(["check", "--", plan])[0], 0)

    def test_a_search_for_which_nobody_waits_ends(self) -> None:
        uri = self.editor.open("/p/two.toml", TWO)
        finding = next(one for one in self.editor.shown(uri) if one["code"] == "F2")
        self.editor.tell("$/cancelRequest", {"id": "late"})
        self.editor.server.take({"id": "late", "method": "textDocument/codeAction", "params": {
            "textDocument": {"uri": uri}, "range": finding["range"], "context": {"diagnostics": [finding]}}})
        deadline = time.monotonic() + 20
        while not (answers := [one for one in self.editor.messages if one.get("id") == "late"]) and time.monotonic() < deadline:
            time.sleep(0.01)
        self.assertEqual(answers[0]["error"]["code"], -32800)


class HalfWritten(unittest.TestCase):
    """A plan at each key stroke."""

    def ask_all(self, editor: Editor, uri: str, is_whole: bool) -> None:
        """Asks what is proposed at the end of a text, and now and then the other questions."""
        place = {"textDocument": {"uri": uri}, "position": Lines(editor.texts[uri]).position(len(editor.texts[uri]))}
        for method in ("completion", *(("hover", "documentSymbol", "definition", "references") if is_whole else ())):
            editor.ask(f"textDocument/{method}", place)

    def test_a_plan_is_typed_and_taken_away(self) -> None:
        editor, said, longest = Editor(delay=0.02), io.StringIO(), 0.0
        uri = editor.open("/p/new.toml", "")
        with contextlib.redirect_stderr(said):
            for number in range(2 * len(PLAN)):
                begun, is_typed = time.process_time(), number < len(PLAN)
                at = number if is_typed else 2 * len(PLAN) - number - 1
                editor.change(uri, at, at + (not is_typed), PLAN[at] if is_typed else "")
                self.ask_all(editor, uri, number % 10 == 0)
                longest = max(longest, time.process_time() - begun)
                if number == len(PLAN) - 1:
                    self.assertEqual([one for one in editor.shown(uri) if one["severity"] == 1], [])
            self.assertEqual((editor.texts[uri], editor.shown(uri)), ("", []))
        self.assertEqual(said.getvalue(), "")
        self.assertLess(longest, 0.3)

    def test_forty_units_are_checked_at_once(self) -> None:
        units = "".join(f'[[unit]]\nlabel = "U{n}"\naddress = {n}\nname = {{ function = {n} }}\n[[group]]\nlabel = "G{n}"\npgn = {65280 - 256 + n}\n'
                        f'priority = 6\nlength = 8\n[[flow]]\ngroup = "G{n}"\nfrom = "U{n}"\nto = "all"\nperiod = 1000\n' for n in range(40))
        text = f"version = 4\n[timing]\nbitrate = 250000\nunplanned = 40\n{units}"
        editor = Editor()
        uri = editor.open("/p/forty.toml", text)
        editor.shown(uri)
        times = []
        for _ in range(3):
            begun, before = sum(os.times()[:4]), len(editor.messages)
            editor.change(uri, len(text), len(text), "\n")
            editor.shown(uri)
            self.assertGreater(len(editor.messages), before)
            times.append(sum(os.times()[:4]) - begun)
        self.assertLess(DELAY + min(times), 0.3)  # of the processor, which others may use beside the tests


class Spoken(unittest.TestCase):
    """The protocol, as it goes over a stream."""

    def test_requests_that_can_not_be_met(self) -> None:
        editor = Editor()
        unmet: tuple[tuple[str, Object, int], ...] = (("textDocument/none", {}, -32601), ("textDocument/hover", {"textDocument": {"uri": "x"}, "position": {}}, -32803))
        for method, params, code in unmet:
            self.assertEqual(editor.answer(method, params)["error"]["code"], code)
        with contextlib.redirect_stderr(io.StringIO()):
            self.assertEqual(editor.answer("textDocument/hover", {"textDocument": 3})["error"]["code"], -32603)
        editor.server.take(None)
        self.assertEqual(editor.messages[-1]["error"]["code"], -32700)
        editor.tell("$/unknown", {})
        self.assertIsNone(editor.ask("shutdown", {}))
        self.assertEqual(editor.answer("textDocument/hover", {})["error"]["code"], -32600)

    def test_a_reference_that_can_not_be_read_is_said(self) -> None:
        editor = Editor("/nowhere/j1939.dbc")
        (said,) = [one["params"]["message"] for one in editor.messages if one.get("method") == "window/showMessage"]
        self.assertEqual(said, "j39plan: /nowhere/j1939.dbc: No such file or directory")

    def test_headers(self) -> None:
        self.assertEqual(list(messages(io.BytesIO(b'content-length: 2\r\nContent-Type: x\r\n\r\n{}Content-Length: 1\r\n\r\n{Content-Length: 9\r\n\r\n{'))), [{}, None])
        for data in (b"hello\n", b"Content-Type: x\r\n\r\n{}", b"x" * 5000):
            with self.assertRaises(NoMessage):
                list(messages(io.BytesIO(data)))

    def test_names_of_files(self) -> None:
        for path in ("/a b/c%d.toml", "/p/\u00e4.toml"):
            self.assertEqual(path_of(uri_of(path)), path)
        self.assertEqual(Document("untitled:Untitled-1", "").path, "untitled:Untitled-1")

    def run_server(self, data: bytes) -> tuple[int, list[object], str]:
        """Status, messages and standard error of a server in a process of its own."""
        ended = subprocess.run([sys.executable, os.path.join(TOOLS, "lsp.py"), "--stdio"], input=data, capture_output=True, check=False,
                               env={**os.environ, "J39PLAN": program.path()})
        return ended.returncode, list(messages(io.BytesIO(ended.stdout))), ended.stderr.decode()

    def test_a_whole_session(self) -> None:
        said = [{"id": 1, "method": "initialize", "params": {}}, {"method": "initialized", "params": {}},
                {"method": "textDocument/didOpen", "params": {"textDocument": {"uri": "file:///p/t.toml", "text": TWO}}},
                {"id": 2, "method": "textDocument/documentSymbol", "params": {"textDocument": {"uri": "file:///p/t.toml"}}},
                {"id": 3, "method": "shutdown"}, {"method": "exit"}]
        stream = b"".join(b"Content-Length: %d\r\n\r\n%s" % (len(body), body) for body in (json.dumps(one).encode() for one in said))
        status, found, error = self.run_server(stream)
        self.assertEqual((status, error), (0, ""))
        answers = [one for one in found if isinstance(one, dict)]
        self.assertEqual([one["id"] for one in answers if "id" in one], [1, 2, 3])
        self.assertEqual([one["name"] for one in answers[1]["result"]], ["A", "B"])

    def test_what_is_no_editor(self) -> None:
        status, found, error = self.run_server(b"hello\n")
        self.assertEqual((status, found, error.count("\n")), (2, [], 1))
        self.assertIn("an editor starts this command", error)
        self.assertEqual(self.run_server(b"")[0], 1)


if __name__ == "__main__":
    unittest.main()
