"""Pairs of `j39_audit`: which flows are judged."""

from __future__ import annotations

import sys

sys.dont_write_bytecode = True
from turned import Pair, Turn

CRATE, LAWS = "j39_audit", "j39_audit_laws"
SILENCE = "plan_laws::silence_is_told_of_flows_that_show_it"
TIMES = "plan_laws::timed_flows_are_judged_by_load"
SHOWN = "not s.part && (not flow.on_request && (nat_le group.most frame_bytes && (is_claiming"
CODE = "    !basis.part\n        && !flow.on_request\n        && group.most <= FRAME_BYTES\n"


def of_silence(name: str, shown: str, code: str) -> Pair:
    return Pair(name, CRATE, ("streams::shows_silence",), LAWS, SILENCE, (
        Turn("specs/MessageStreams.antt", SHOWN, shown),
        Turn("src/streams.rt", CODE, code),
    ))


PAIRS = (
    of_silence("silence is told of answers", SHOWN.replace("not flow.on_request", "true"), CODE.replace("!flow.on_request", "true")),
    of_silence("silence is told of long messages", SHOWN.replace("nat_le group.most frame_bytes", "true"),
               CODE.replace("group.most <= FRAME_BYTES", "true")),
    of_silence("silence is told where frames are missing", SHOWN.replace("not s.part", "true"), CODE.replace("!basis.part", "true")),
    Pair("silence is told though the receiver never claims", CRATE, ("streams::is_claiming_there",), LAWS, SILENCE, (
        Turn("specs/MessageStreams.antt", "is_claiming_there s (ToOne v) = is_claiming s v", "is_claiming_there s (ToOne v) = true"),
        Turn("src/streams.rt", "        To::One(receiver) => is_claiming(basis, receiver),", "        To::One(_) => true,"),
    )),
    Pair("a flow that is late by load isn't judged", CRATE, ("by_load::bits_reported",), LAWS, TIMES, (
        Turn("specs/Responses.antt", "bits_reported (Some (Beyond bits)) = Some bits", "bits_reported (Some (Beyond bits)) = None"),
        Turn("src/by_load.rt", "        Some(Delay::Beyond(bits)) => Some(bits),", "        Some(Delay::Beyond(_)) => None,"),
    )),
)
