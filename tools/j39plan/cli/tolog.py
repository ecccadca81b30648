"""Makes a log of candump -L of an ASC, BLF, TRC, MF4 or CSV file, by the readers of python-can; of one channel, or of all.

Each channel is an interface of the log, the first one can0. What has no place in it, as error frames, remote frames and those of CAN FD, is
counted on standard error.
"""

import argparse
import importlib.util
import io
import os
import stat
import sys
from collections import Counter
from collections.abc import Callable, Iterable, Iterator
from typing import TYPE_CHECKING, Any

from j39plan import program
from j39plan.j1939 import FRAME_BYTES
from j39plan.log.files import whole
from j39plan.log.other_formats import SAVVY, Asc, Savvy, Trc, WholeLines

if TYPE_CHECKING:
    from can.message import Message

# Endings of files that python-can reads in newer versions alone, by another package.
MEASUREMENTS = (".mf4", ".mdf")

# Endings of logs of candump -L, which needn't be converted.
LOGS = (".log", ".log.gz")

# Endings of files whose channels count from 1, and which python-can hands out as they stand; and of those that have none.
FROM_ONE, WITHOUT_CHANNELS = (".trc", ".trc.gz"), (".csv", ".csv.gz")

# Endings of files of lines.
ASC_TEXTS = (".asc", ".asc.gz")
TEXTS = (*ASC_TEXTS, *FROM_ONE, *WITHOUT_CHANNELS)


def interface_of(channel: object) -> str:
    """The interface that a channel is: numbers count from 0, and a file without channels has one."""
    text = "can0" if channel is None else f"can{channel}" if isinstance(channel, int) else str(channel)
    return "".join(sign if sign.isprintable() and not sign.isspace() and sign != "#" else "_" for sign in text) or "can0"


def left_out(message: "Message") -> str | None:
    """What of a file has no place in a log, None of what has."""
    if message.is_error_frame:
        return "error frames"
    if message.is_remote_frame:
        return "remote frames"
    return "frames of CAN FD" if message.is_fd or len(message.data) > FRAME_BYTES else None


def spelled(message: "Message", interface: str) -> str:
    """A frame as a line of a log."""
    identifier = f"{message.arbitration_id:08X}" if message.is_extended_id else f"{message.arbitration_id:03X}"
    return f"({max(message.timestamp, 0.0):017.6f}) {interface} {identifier}#{bytes(message.data).hex().upper()}\n"


def is_savvy(name: str) -> bool:
    """Whether a file is a CSV of SavvyCAN."""
    if not name.lower().endswith(WITHOUT_CHANNELS) or not os.path.isfile(name):
        return False
    with whole(name) as file:
        return file.read(len(SAVVY)) == SAVVY.encode()


def reader_of(name: str, dropped: Counter[str]) -> tuple[Any, WholeLines | None]:
    """What reads a file, and its lines, if it has any; what these have beside frames is counted."""
    from can.io.player import LogReader

    if is_savvy(name):
        lines = WholeLines(io.TextIOWrapper(whole(name), "ascii", newline=""))
        return Savvy(lines), lines
    reader: Any = LogReader(name)
    lower = name.lower()
    if not lower.endswith(TEXTS):
        return reader, None
    translate: Callable[[str], str] = str
    if lower.endswith(ASC_TEXTS):
        translate = Asc(dropped)
    elif lower.endswith(FROM_ONE):
        translate = Trc()
    lines = reader.file = WholeLines(reader.file, translate)
    return reader, lines


def messages_of(name: str, dropped: Counter[str]) -> Iterator["Message"]:
    """What python-can reads of a file. It says in many ways that it can't."""
    if importlib.util.find_spec("can") is None:
        raise program.Refused(program.MISSING, "python-can isn't there: apt-get install python3-can")
    with open(name, "rb") as file:  # what isn't there is told as such
        about = os.fstat(file.fileno())
    if stat.S_ISREG(about.st_mode) and about.st_size == 0:
        raise program.Refused(program.UNREADABLE, f"{name} is empty")
    try:
        reader, lines = reader_of(name, dropped)
    except Exception as fault:  # as below
        raise program.Refused(program.UNREADABLE, f"{name}: {why(name, fault)}") from None
    count = 0
    try:
        for message in reader:
            if name.lower().endswith(FROM_ONE) and isinstance(message.channel, int):
                message.channel -= 1
            yield message
            count += 1
        if lines is not None and lines.is_cut:
            raise ValueError("its last line is cut")
    except (GeneratorExit, KeyboardInterrupt, BrokenPipeError):
        raise
    except Exception as fault:  # whatever a reader makes of bytes that aren't of its format
        raise program.Refused(program.UNREADABLE, f"{name}: can't be read after {count} frames: {why(name, fault)}") from None
    finally:
        reader.stop()


def why(name: str, fault: Exception) -> str:
    """Why python-can can't read a file."""
    if isinstance(fault, ValueError) and name.lower().endswith(MEASUREMENTS):
        return "python-can reads MF4 from version 4.3 on, with asammdf: pip install 'python-can[mf4]'"
    return " ".join(str(fault).split()) or type(fault).__name__


def lines_of(messages: Iterable["Message"], channels: list[str], written: Counter[str], dropped: Counter[str]) -> Iterator[str]:
    """The lines of a log, of all channels or of these; how many frames of each channel there were, and what was left out."""
    for message in messages:
        interface, what = interface_of(message.channel), left_out(message)
        if what is not None:
            dropped[what] += 1
        else:
            written[interface] += 1
            if not channels or interface in channels:
                yield spelled(message, interface)


def refuse_log(name: str) -> None:
    """Refuses what is a log already: python-can hands out its error frames without what tells them from others."""
    if name.lower().endswith(LOGS):
        unpacked = f": zcat {name}" if name.lower().endswith(".gz") else ""
        raise program.Refused(program.UNREADABLE, f"{name} is a log already{unpacked}")


def refuse_unless_there(name: str, channels: list[str], written: Counter[str]) -> None:
    """Refuses a file without frames, and channels that it doesn't have."""
    if not written:
        raise program.Refused(program.UNREADABLE, f"{name} has no frame")
    missing = [channel for channel in channels if channel not in written]
    if missing:
        raise program.Refused(program.UNREADABLE, f"{name} has no frame of {', '.join(missing)}; it has {', '.join(sorted(written))}")


@program.command
def main(words: list[str] | None = None) -> int:
    """Writes the log."""
    parser = program.parser(__doc__)
    parser.epilog = "example: %(prog)s drive.blf --channel can1 > drive.log"
    parser.add_argument("file", metavar="FILE", type=program.input_name, help="the name of a file, whose ending says its format")
    parser.add_argument("--channel", metavar="CHANNEL", dest="channels", action="append", default=[], type=channel_of,
                        help="only this channel, by its interface in the log, as can1, or by its number; may stand several times")
    given = parser.parse_args(words)
    refuse_log(given.file)
    written: Counter[str] = Counter()
    dropped: Counter[str] = Counter()
    for line in lines_of(messages_of(given.file, dropped), given.channels, written, dropped):
        sys.stdout.write(line)
    refuse_unless_there(given.file, given.channels, written)
    if len(written) > 1 and not given.channels:
        found = ", ".join(f"{count} of {interface}" for interface, count in sorted(written.items()))
        program.say(f"{os.path.basename(given.file)} has several channels, and 'follow' reads the first of a log: {found} frames; see --channel")
    if given.file.lower().endswith(WITHOUT_CHANNELS) and not is_savvy(given.file):
        program.say(f"{os.path.basename(given.file)} has no channels, as each CSV of python-can: all its frames are of can0")
    for what, count in sorted(dropped.items()):
        program.say(f"{count} {what} are left out")
    return 0


def channel_of(text: str) -> str:
    """The interface that is meant by a channel's name or number."""
    if not text:
        raise argparse.ArgumentTypeError("a channel has a name or a number")
    return interface_of(int(text) if text.isdecimal() else text)


if __name__ == "__main__":
    sys.exit(main())
