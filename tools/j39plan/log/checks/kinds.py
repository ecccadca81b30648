"""What each kind of a deviation is, in the words of docs/reference/OPTIONS.md."""

from j39plan.j1939 import WAIT

MEANINGS = {
    "stranger": "an address or a NAME that no unit has, which planned groups it sends, and what it asks for",
    "absent": "a unit that neither claimed an address nor sent anything, where by the plan it does one of them; none of those planned at 249 and 250, "
              "which J1939 gives to service tools",
    "identity": "a box with another serial number than planned; several such units are one line",
    "exchanged": "a second box of one unit",
    "address": "a single-address unit that claims another address than planned; a unit that could not claim any",
    "displaced": "an unplanned NAME takes a unit's address, and what the unit does then",
    "commanded": f"a unit is commanded to another address (PGN 65240), by whom, and whether it claims that within {WAIT:,} ms",
    "claim-to-one": "a claim that goes to one address, where it has to go to all",
    "unclaimed": "a unit sends and never claims, or only later, in a log in which most units, and two at least before it, begin with their claims",
    "claims-unanswered": f"a unit that is on doesn't answer a request for claims within {WAIT:,} ms",
    "restart": f"a unit claims the address that it holds without a request for claims in the {WAIT:,} ms before, and how long it wasn't heard; its flows, "
               "and those to it, are silent from there on",
    "early-message": "of a live plan: how soon a unit announces a long message after a restart, where it was heard less than 1,650 ms before; so long "
                     "others may hold a session with a unit that went off",
    "two-boxes": "an address that a unit left 250 ms ago or longer goes on to send",
    "sends-on": "the same of an address that a unit gave up by Cannot Claim, and that nobody claimed since",
    "not-defended": "a unit that is on (heard within a second, or two of its shortest periods) and has the smaller NAME doesn't defend its address "
                    "within 250 ms",
    "too-early": "a unit sends less than 250 ms after it claimed one of 128..247, unless it was asked for its claim, sent from there already, defends it, "
                 "or took it from one that may still send, by 50 ms after that one moved; frames of a contest accuse nobody",
    "hands": "an address that changed its owner three times or more, counted anew after a gap or an ignition",
    "no-group": "a message of a group that isn't planned",
    "length": "a claim or a request of another length than 8 or 3 bytes",
    "layout": "a message of another length than its group's, or with the bits of no `when`, or announced by the extended transport protocol",
    "priority": "a message of another priority than its group's",
    "no-flow": "a message that no flow brings from this unit to this receiver, and that wasn't asked for",
    "remote": "a remote frame, which J1939 hasn't",
    "fd": "a CAN FD frame, which J1939 hasn't",
    "extended-page": "a frame with the extended data page, which J1939 hasn't",
    "not-whole": f"a long message that was announced and not completed, and why; none whose last frame is within {WAIT:,} ms of the log's end, or before a gap",
    "given-up": "a long message that was aborted, by whom and why; a refusal for lack of a session is none where the message is carried whole within 5 s",
    "announcement": "an announcement that isn't right: its length, size, count or destination",
    "grant": "a clear to send that isn't right by its announcement: for more packets than that allows, or from one on that there isn't",
    "packet": "packets that weren't cleared to send, numbered from 0, or of a message that wasn't announced",
    "acknowledged": "an acknowledgement of another size than was announced, or before each packet came",
    "abort": "an Abort by a unit of a message that doesn't go between the two",
    "not-acknowledged": f"a complete long message that its receiver didn't acknowledge within {WAIT:,} ms",
    "near": "messages nearer than their flow's period",
    "clock": "a unit all of whose flows come too often, or too seldom, by the same share in the mean: one line instead of one a flow",
    "silent": "the longest silence of a flow; of several of a unit at once one line",
    "stopped": "a flow that ended; of several of a unit at once one line",
    "never-sent": "a flow that was never sent, between units that are there",
    "unmet": "a need that nothing met: none of its flows was sent, or the plan has none",
    "unanswered": f"a request without an answer within {WAIT:,} ms (in a log without times: at all), of one to all also of a unit whose flow serves it and "
                  "that is on; several of one who asks what the plan doesn't have are one line",
    "refused": "a request that is refused; several of one who asks what the plan doesn't have are one line",
    "refused-to-all": "a unit refuses a request that goes to all, which SAE J1939-21 forbids",
    "late": "a request that is answered later than 200 ms after it, an unplanned one by a unit that is on and asked alone",
    "asked-early": "a planned request that is repeated before its period has passed",
    "gap": "nothing came for more than a second and five of the shortest period, though two flows were alive, or for so long that three flows of two units "
           "would be silent; distances begin anew",
    "ignition": "a gap behind which two units or more begin with their claims; such units that claim anew within 5 s while others stay on, or that stop so "
                "before the log's end; none of these is a restart or a silence",
    "twice": "a frame that stands twice, nearer than the first one's bits take, so that it was on the bus once: the second is passed over",
    "bus-off": "an error frame: the recording interface went off the bus; distances begin anew",
    "restarted": "an error frame: the recording interface was restarted; distances begin anew",
    "lost-frames": "an error frame: the recording interface lost frames; distances begin anew",
    "error-passive": "an error frame: the recording interface is error-passive",
    "urgent": "a frame of no planned flow with a smaller priority number than `unplanned_priority`, claims, requests and services too; none of a planned long message",
    "unplanned": "more frames of no planned flow in a time as long as a flow's bound than `unplanned` says, and from whom most are; whether a frame waited isn't known",
    "transport-priority": "a frame of a long message with a smaller priority number than `transport_priority`",
    "packets-near": "packets of a long message to all nearer than `broadcast_gap`, but for how long the bus was busy before the first one",
    "packets-far": "packets of a long message to all further apart than `broadcast_gap_most`, but for how long the bus was busy before the second one",
    "late-answer": "in a transfer, later than 200 ms: a clear to send, a packet after it, the acknowledgement",
    "damaged": "error frames of a protocol violation, no acknowledgement or a bus error: each without `errors`, else the most in a time of `every`",
    "overload": "an overload frame",
    "short-identifier": "a frame with an identifier of 11 bits",
}
