"""The texts that a command can write, by the first words of their lines: for gate/devices.py, on files that are damaged."""

from __future__ import annotations

# Words behind `refused` where a line or a plan can't be read.
UNREADABLE = set("Empty NoHash ShortIdent BadIdent TooLong BadData Text UnknownKey Missing WrongType Range TooMany Repeated UnknownLabel".split())
# Words behind `refused line N` where the line can't be read, and where its step is refused.
UNREADABLE_LINE = set("LongLine UnknownWord WordCount UnknownLabel BadNumber BadHex".split())
REFUSED_STEP = set("NoSuchFlow NotStarted AlreadyStarted NothingUndelivered TransferOpen NotSettled NoAddress Busy WrongLength WrongSelector "
                   "NothingToSend NoSession CannotRest TooManyFrames".split())
# The first words of the lines of each command; that of a line that is set in is the empty one.
CHECK = {"ok", "findings", "refused", "", *(f"F{number}" for number in range(1, 32))}
SHOW = set("top timing choice unit group flow need request refused".split())
FIRST = {
    "frame": set("frame priority claim cannot identity request refused".split()),
    "check": CHECK,
    "show": SHOW,
    "variant": SHOW,
    "addresses": CHECK | {"unit", "stay"},
    "load": CHECK | {"flow", "need", "load"},
    "run": set("unit settled not report refused".split()),
    "read": {"group", "", "frames", "refused"},
    "follow": {"", *"flow group unit need request frames refused".split()},
    "audit": CHECK | set("short stranger nobody address cannot deaf layout no_flow priority urgent announcement grant packet acknowledged near near_or_late silent silent_or_late flow request unit frames deviations".split()),
    "vehicle": CHECK | {"bus", "load", "forward", "need", *(f"G{number}" for number in range(1, 15))},
}


def refusal(words: list[str]) -> int | None:
    """Returns the status that a line tells behind `refused`, None where no command writes it."""
    if words[1:2] and words[1] in ("plan", "variant"):
        return 1
    if words[1:2] == ["line"] and len(words) > 3:
        return 2 if words[3] in UNREADABLE_LINE else 1 if words[3] in REFUSED_STEP else None
    return 2 if words[1:2] and words[1] in UNREADABLE else None


def is_finding(words: list[str]) -> bool:
    """Whether a line tells of findings: of check, vehicle or audit, or of load: a late flow, a need that is too old, or more bits than the bus
    carries."""
    first = words[0]
    if first == "load":
        return int(words[1]) > int(words[3])
    return first == "findings" or words[:1] == ["deviations"] and words[1] != "0" or first == "flow" and "late" in words or first == "need" and "old" in words


def status_of(lines: list[list[str]]) -> int | None:
    """Returns the status that a text tells."""
    refused = next((it for it in lines if it[0] == "refused"), None)
    return refusal(refused) if refused else int(any(map(is_finding, lines)))


def fault(command: str, status: int, output: bytes) -> str:
    """Returns why a text isn't one of the command that tells this status, '' where it is."""
    try:
        text = output.decode()
    except UnicodeDecodeError:
        return "no text"
    if not text.endswith("\n"):
        return "not whole"
    lines = [it.split(" ") for it in text.removesuffix("\n").split("\n")]
    known = FIRST[command]
    for words in lines:
        if words[0] not in known and not (command == "run" and "#" in words[0]) and not (command == "follow" and words[0].isdecimal()):
            return f"no line of {command}: {' '.join(words):.100}"
    told = status_of(lines)
    return "" if told == status else f"status {status}, its text tells {told}"
