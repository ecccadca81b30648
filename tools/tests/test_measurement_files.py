"""The signals of a log as files of Parquet and MF4."""

import datetime
import importlib.util
import json
import os
import subprocess
import sys
import unittest

from j39plan import program
from tests.support import TOOLS, InFolder, example, needs, run

PLAN, LOG = example("tractor_and_implement.toml"), example("tractor_and_implement.start.log")

# Stands for the library that writes MF4: it writes what it is given as JSON.
ASAMMDF = '''
import json, types
def Signal(samples, timestamps, name, unit, comment):
    return dict(name=name, unit=unit, comment=comment, samples=[float(one) for one in samples], timestamps=[float(one) for one in timestamps])
class MDF:
    def __init__(self, version):
        self.version, self.header, self.signals = version, types.SimpleNamespace(start_time=None), []
    def append(self, signals):
        self.signals += signals
    def save(self, name, overwrite):
        with open(name, "w") as file:
            json.dump({"version": self.version, "start": self.header.start_time and self.header.start_time.isoformat(), "signals": self.signals}, file)
    def close(self):
        pass
'''


def lacks(*modules: str) -> bool:
    """Whether none of some modules is there."""
    return all(importlib.util.find_spec(module) is None for module in modules)


@needs("pandas", "python3-pandas")
class Files(InFolder):
    def test_mf4_as_it_is_handed_to_the_library(self) -> None:
        """Values alone, a channel a signal, each with its unit, its sender and its times from the first one on; of two senders a channel each."""
        self.write("asammdf.py", ASAMMDF)
        log = self.write("drive.log", "(1764230400.5) can0 0CF00400#F07D8C0019FFFFFF\n(1764230400.75) can0 0CF00400#F07D8CFFFFFFFFFF\n"
                                      "(1764230401.0) can0 0CF00403#F07D8C4019FFFFFF\n(1764230401.5) can0 0CF00400#F07D8C8019FFFFFF\n")
        name = self.path("drive.mf4")
        ended = subprocess.run([sys.executable, os.path.join(TOOLS, "signals.py"), PLAN, log, "SPN190", "-o", name], capture_output=True, text=True, check=False,
                               env={**os.environ, "J39PLAN": program.path(), "PYTHONPATH": self.folder})
        self.assertEqual((ended.returncode, ended.stdout, ended.stderr), (0, "", ""))
        with open(name, encoding="utf-8") as file:
            found = json.load(file)
        start = datetime.datetime.fromtimestamp(1764230400.5, datetime.UTC).isoformat()
        self.assertEqual((found["version"], found["start"]), ("4.10", start))
        self.assertEqual(found["signals"], [
            {"name": "EEC1.SPN190 from ENGINE?", "unit": "rpm", "comment": "from ENGINE?", "samples": [800.0, 816.0], "timestamps": [0.0, 1.0]},
            {"name": "EEC1.SPN190 from TRANSMISSION?", "unit": "rpm", "comment": "from TRANSMISSION?", "samples": [808.0], "timestamps": [0.5]}])

    @unittest.skipUnless(lacks("asammdf"), "asammdf is there")
    def test_without_asammdf(self) -> None:
        self.assertEqual(run("signals.py", PLAN, LOG, "-o", self.path("a.mf4")), (69, "", "signals: asammdf isn't there: pip install asammdf\n"))

    @unittest.skipUnless(lacks("pyarrow", "fastparquet"), "pyarrow is there")
    def test_without_pyarrow(self) -> None:
        self.assertEqual(run("signals.py", PLAN, LOG, "-o", self.path("a.parquet")), (69, "", "signals: pyarrow isn't there: pip install pyarrow\n"))

    @needs("asammdf", "asammdf, by pip")
    def test_mf4(self) -> None:
        from asammdf import MDF

        name = self.path("a.mf4")
        self.assertEqual(run("signals.py", PLAN, LOG, "-o", name), (0, "", ""))
        with MDF(name) as file:
            signal = file.get("EEC1.SPN190")
            self.assertEqual(([float(one) for one in signal.samples], signal.unit), ([800.0], "rpm"))

    @needs("pyarrow", "pyarrow, by pip")
    def test_parquet(self) -> None:
        import pandas

        import j39plan

        name = self.path("a.parquet")
        self.assertEqual(run("signals.py", PLAN, LOG, "-o", name), (0, "", ""))
        pandas.testing.assert_frame_equal(pandas.read_parquet(name), j39plan.frame(j39plan.read_plan(PLAN), LOG))

    def test_other_names(self) -> None:
        said = "signals: -o a.csv: its name is to end in .parquet or .mf4\n"
        self.assertEqual(run("signals.py", PLAN, LOG, "-o", "a.csv"), (2, "", said))


if __name__ == "__main__":
    unittest.main()
