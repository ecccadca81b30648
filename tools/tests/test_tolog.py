"""Logs of other formats: what comes of ASC, BLF, TRC and CSV, by channels, and what is refused."""

import gzip
import os
import subprocess
import sys
import unittest
from collections.abc import Sequence
from typing import Any

from j39plan import program
from tests.support import TOOLS, InFolder, example, needs, run, text_of

LOG = example("truck.drive.log")

# The frames of the log.
FRAMES = [line.split()[-1] for line in text_of(LOG).splitlines()]

# What is said of each CSV.
NO_CHANNELS = "tolog: drive.csv has no channels, as each CSV of python-can: all its frames are of can0\n"


@needs("can", "python3-can")
class Converted(InFolder):
    def recorded(self, name: str, messages: Sequence[Any]) -> str:
        """A file that python-can writes."""
        import can

        with can.Logger(self.path(name)) as logger:
            for message in messages:
                logger(message)
        return self.path(name)

    def messages(self, **more: Any) -> list[Any]:
        """The messages of the log."""
        import can

        read = list(can.LogReader(LOG))
        for message in read:
            for key, value in more.items():
                setattr(message, key, value)
        return read

    def test_each_format(self) -> None:
        """Each frame comes through, with its time, and `follow` says the same of it."""
        _, whole = program.call(["follow", example("truck.toml"), LOG])
        for ending in ("asc", "blf", "trc", "csv", "db"):
            status, answer, said = run("tolog.py", self.recorded(f"drive.{ending}", self.messages()))
            self.assertEqual((status, said), (0, NO_CHANNELS if ending == "csv" else ""), ending)
            self.assertEqual([line.split()[2] for line in answer.splitlines()], FRAMES, ending)
            log = self.write("drive.log", answer)
            told = program.call(["follow", example("truck.toml"), log])[1]
            self.assertEqual([line.split(maxsplit=2)[2:] for line in told.splitlines()], [line.split(maxsplit=2)[2:] for line in whole.splitlines()])
            times = [float(line.split()[0].strip("()")) for line in answer.splitlines()]
            expected = [float(line.split()[0].strip("()")) for line in text_of(LOG).splitlines()]
            for time, there in zip(times, expected, strict=True):
                self.assertAlmostEqual(time - times[0], there - expected[0], delta=0.0011)

    def test_channels(self) -> None:
        """Each is an interface; how many frames each has is said, and one is taken by its name or number."""
        first, second = self.messages(channel=0), self.messages(channel=1)
        file = self.recorded("drive.blf", [message for both in zip(first, second[:3] + first[3:]) for message in both])
        status, answer, said = run("tolog.py", file)
        self.assertEqual(status, 0)
        self.assertEqual(said, "tolog: drive.blf has several channels, and 'follow' reads the first of a log: 13 of can0, 3 of can1 frames; see --channel\n")
        self.assertEqual({line.split()[1] for line in answer.splitlines()}, {"can0", "can1"})
        for channel in ("can1", "1"):
            status, answer, said = run("tolog.py", "--channel", channel, file)
            self.assertEqual((status, said, [line.split()[1:] for line in answer.splitlines()]), (0, "", [["can1", frame] for frame in FRAMES[:3]]))
        self.assertEqual(run("tolog.py", "--channel", "can7", file), (2, "", f"tolog: {file} has no frame of can7; it has can0, can1\n"))

    def test_what_has_no_place_in_a_log(self) -> None:
        """Error frames, remote frames and those of CAN FD are counted; an 11-bit identifier has three digits."""
        import can

        messages = [can.Message(arbitration_id=0x123, is_extended_id=False, data=b"\x01"), can.Message(is_error_frame=True),
                    can.Message(arbitration_id=0x18FEEE00, is_remote_frame=True)]
        status, answer, said = run("tolog.py", self.recorded("drive.csv", messages))
        self.assertEqual((status, [line.split()[-1] for line in answer.splitlines()]), (0, ["123#01"]))
        self.assertEqual(said, f"{NO_CHANNELS}tolog: 1 error frames are left out\ntolog: 1 remote frames are left out\n")

    def test_frames_of_can_fd_are_known_by_their_length(self) -> None:
        """A CSV doesn't say that they are."""
        import can

        messages = [can.Message(arbitration_id=0x18FF0055, data=bytes(length), is_fd=length > 8) for length in (8, 12, 64)]
        status, answer, said = run("tolog.py", self.recorded("drive.csv", messages))
        self.assertEqual((status, [line.split()[-1] for line in answer.splitlines()]), (0, ["18FF0055#0000000000000000"]))
        self.assertEqual(said, f"{NO_CHANNELS}tolog: 2 frames of CAN FD are left out\n")

    def test_the_first_channel_is_can0(self) -> None:
        """In each format: ASC and TRC count them from 1."""
        for ending in ("asc", "blf", "trc"):
            file = self.recorded(f"drive.{ending}", self.messages(channel=0))
            self.assertEqual({line.split()[1] for line in run("tolog.py", file)[1].splitlines()}, {"can0"}, ending)
        file = self.write("two.trc", ";$FILEVERSION=2.1\n;$STARTTIME=45256.5\n;$COLUMNS=N,O,T,B,I,d,R,L,D\n" + "".join(
            f"{at:>7} {at:13.3f} DT {bus:>2} 0CF00400 Rx - 1 {at:02X}\n" for at, bus in ((1, 1), (2, 2))))
        self.assertEqual([line.split()[1:] for line in run("tolog.py", file)[1].splitlines()], [["can0", "0CF00400#01"], ["can1", "0CF00400#02"]])

    def test_times_from_line_to_line(self) -> None:
        """Of an ASC with relative times each line counts from the one before, whatever it has: 0.1 s and 0.25 s behind a statistic."""
        asc = ("date Mon Nov 30 09:00:00.000 2026\nbase hex  timestamps relative\nno internal events logged\n"
               "   0.100000 1  CF00400x        Rx   d 2 FF 01\n   0.250000 1  Statistic: D 1 R 0 XD 0 XR 0 E 0 O 0 B 0.01%\n"
               "   0.100000 1  CF00400x        Rx   d 2 FF 02\n   0.000001 2  CF00400x        Tx   d 2 FF 03\n")
        lines = ["(0000000000.100000) can0 0CF00400#FF01", "(0000000000.450000) can0 0CF00400#FF02", "(0000000000.450001) can1 0CF00400#FF03"]
        self.assertEqual(run("tolog.py", self.write("drive.asc", asc))[:2], (0, "".join(f"{line}\n" for line in lines)))
        absolute = run("tolog.py", self.write("drive.asc", asc.replace("relative", "absolute")))[1].splitlines()
        self.assertEqual([line.split()[0] for line in absolute], ["(0000000000.100000)", "(0000000000.100000)", "(0000000000.000001)"])

    def test_messages_beside_their_packets(self) -> None:
        """They are counted: the packets are in the log."""
        asc = ("date Mon Nov 30 09:00:00.000 2026\nbase hex  timestamps absolute\nno internal events logged\n"
               "  20.204671 2  18EBFF00x       Rx   d 8 01 A0 0F A6 60 3B D1 40\n"
               "  20.248887 2  J1939TP FEE3p   6 0 0 - Rx   d 23 A0 0F A6 60 3B D1 40 1F DE 80 25 DF C0 2B E1 00 4B FF FF 3C 0F 00 4B\n")
        status, answer, said = run("tolog.py", self.write("drive.asc", asc))
        self.assertEqual((status, answer), (0, "(0000000020.204671) can1 18EBFF00#01A00FA6603BD140\n"))
        self.assertEqual(said, "tolog: 1 lines J1939TP, messages beside their packets, are left out\n")

    def test_versions_of_trc(self) -> None:
        """1.3 and 2.0, as PEAK's description of the format has them: buses from 1, remote and status lines left out, columns in the order that is said."""
        old = (";$FILEVERSION=1.3\n;$STARTTIME=40365.6427836807\n;   Message Number\n"
               "     1)      1059.900 1  Rx        0300 -  7    00 00 00 00 04 00 00\n     2)      1283.231 2  Tx    0CF00400 -  2    FF 1A\n"
               "     3)      1298.945 1  RTR   18EA00F9 -  3    RTR\n     4)      1323.201 1  Rx    18FEEE00 -  0\n")
        lines = ["(0000000001.059900) can0 300#00000000040000", "(0000000001.283231) can1 0CF00400#FF1A", "(0000000001.323201) can0 18FEEE00#"]
        self.assertEqual(run("tolog.py", "--channel", "0", "--channel", "1", self.write("old.trc", old)), (0, "".join(f"{line}\n" for line in lines), ""))
        new = (";$FILEVERSION=2.0\n;$STARTTIME=43008.920986006946\n;$COLUMNS=N,O,T,I,d,l,D\n"
               "      1      1059.900 DT     0300 Rx 7  00 00 00 00 04 00 00\n      2      1283.231 DT 0CF00400 Tx 2  FF 1A \n"
               "      3      1334.416 ST          Rx 00 00 00 04\n      4      1323.201 DT 18FEEE00 Rx 0\n")
        lines[1] = lines[1].replace("can1", "can0")
        self.assertEqual(run("tolog.py", self.write("new.trc", new)), (0, "".join(f"{line}\n" for line in lines), ""))
        other = new.replace("      3      1334.416 ST          Rx 00 00 00 04\n", "").replace("N,O,T,I,d,l,D", "N,O,I,T,d,l,D").replace("DT     0300", "0300 DT").replace("DT 0CF00400", "0CF00400 DT").replace("DT 18FEEE00", "18FEEE00 DT")
        self.assertEqual(run("tolog.py", self.write("other.trc", other))[1], "".join(f"{line}\n" for line in lines))

    def test_a_csv_of_savvycan(self) -> None:
        """Times in us, identifiers of 11 and 29 bits, buses, also without a direction; rows that are no frames are refused by their line."""
        text = ("Time Stamp,ID,Extended,Dir,Bus,LEN,D1,D2,D3,D4,D5,D6,D7,D8\n166064000,0000021A,false,Rx,0,8,FE,36,12,FE,69,05,07,AD,\n"
                "166064250,0CF00400,true,Tx,1,2,FF,1A,,,,,,,\n")
        lines = "(0000000166.064000) can0 21A#FE3612FE690507AD\n(0000000166.064250) can1 0CF00400#FF1A\n"
        status, answer, said = run("tolog.py", self.write("drive.csv", text))
        self.assertEqual((status, answer, "has several channels" in said, "has no channels" in said), (0, lines, True, False))
        older = text.replace("Dir,", "").replace("Rx,", "").replace("Tx,", "")
        self.assertEqual(run("tolog.py", self.write("drive.csv", older))[1], lines)
        file = self.write("drive.csv", text + "166064300,0CF00400,true,Tx,1,9,FF\n")
        self.assertEqual(run("tolog.py", file), (2, lines, f"tolog: {file}: can't be read after 2 frames: line 4 is no frame\n"))
        for cut in (len(text) - 3, len(text) - 1):
            self.assertEqual(run("tolog.py", self.write("drive.csv", text[:cut])),
                             (2, lines.splitlines(True)[0], f"tolog: {file}: can't be read after 1 frames: its last line is cut\n"))

    def test_a_log_is_one_already(self) -> None:
        """Its error frames would become frames of TSC1."""
        error = "(1.000000) can0 20000004#0004000000000000\n"
        self.assertEqual(run("tolog.py", self.write("drive.log", error)), (2, "", f"tolog: {self.path('drive.log')} is a log already\n"))
        packed = self.path("drive.log.gz")
        with gzip.open(packed, "wt") as file:
            file.write(error)
        self.assertEqual(run("tolog.py", packed), (2, "", f"tolog: {packed} is a log already: zcat {packed}\n"))

    def test_what_is_refused(self) -> None:
        """One line, and status 2: a file without frames, of another format than its ending says, cut in its midst, of no known ending."""
        blf = self.recorded("drive.blf", self.messages())
        with open(blf, "rb") as file:
            data = file.read()
        for name, content in {"empty.asc": b"", "empty.blf": b"", "other.blf": b"no such file" * 100, "cut.blf": data[:len(data) // 2],
                              "empty.trc": b"", "random.trc": os.urandom(3000), "random.csv": os.urandom(3000), "drive.xyz": data, "drive.mf4": data}.items():
            with open(self.path(name), "wb") as file:
                file.write(content)
            status, answer, said = run("tolog.py", self.path(name))
            self.assertEqual((status, answer, said.count("\n")), (2, "", 1), (name, said))
            self.assertTrue(said.startswith(f"tolog: {self.path(name)}"), said)
        missing = self.path("none.asc")
        self.assertEqual(run("tolog.py", missing), (4, "", f"tolog: {missing}: No such file or directory\n"))

    def test_a_text_that_is_cut_in_a_line(self) -> None:
        """Wherever it is: the frames before are written, and of the cut one none, though the reader of ASC makes a shorter frame of it."""
        for ending in ("asc", "trc", "csv", "asc.gz"):
            with open(self.recorded(f"whole.{ending.removesuffix('.gz')}", self.messages()), encoding="utf-8") as file:
                lines = [line for line in file.read().splitlines(keepends=True) if not line.startswith("End")]
            for left in (1, len(lines[-1]) // 2, len(lines[-1]) - 1):
                cut = self.path(f"cut.{ending}")
                with gzip.open(cut, "wt") if ending.endswith(".gz") else open(cut, "w", encoding="utf-8") as text:
                    text.write("".join(lines[:-1]) + lines[-1].lstrip()[:left].rstrip("\n"))
                status, answer, said = run("tolog.py", cut)
                self.assertEqual((status, said), (2, f"tolog: {cut}: can't be read after {len(FRAMES) - 1} frames: its last line is cut\n"), ending)
                self.assertEqual([line.split()[2] for line in answer.splitlines()], FRAMES[:-1], ending)

    def test_a_pipe_that_ends(self) -> None:
        file = self.recorded("drive.asc", self.messages())
        ended = subprocess.run(["sh", "-c", f"{sys.executable} {TOOLS}/tolog.py {file} | head -1"], capture_output=True, text=True, check=False)
        self.assertEqual((ended.stdout.split()[-1], ended.stderr), (FRAMES[0], ""))


class Missing(InFolder):
    def test_without_python_can(self) -> None:
        ended = subprocess.run([sys.executable, "-S", os.path.join(TOOLS, "tolog.py"), self.write("drive.asc", "")], capture_output=True, text=True,
                               check=False, env={**os.environ, "J39PLAN": program.path(), "PYTHONPATH": ""})
        self.assertEqual((ended.returncode, ended.stderr), (69, "tolog: python-can isn't there: apt-get install python3-can\n"))


if __name__ == "__main__":
    unittest.main()
