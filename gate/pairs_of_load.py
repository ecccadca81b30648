"""Pairs of `j39_load`: what flows ask of the bus."""

from __future__ import annotations

import sys

sys.dont_write_bytecode = True
from turned import Pair, Turn

CRATE = "j39_load"
KEPT = "laws::frames_that_keep_a_plan"
RECEIVED = "laws::kept_plans_lose_no_receiver"
LOSSLESS = "laws::long_messages_take_the_frames_reported"
LONG_RUN = "laws::loads_hold_in_the_long_run"


def in_load(name: str, function: str, law: str, turns: tuple[Turn, ...]) -> Pair:
    return Pair(name, CRATE, (function,), CRATE, law, turns)


PAIRS = (
    in_load("jitter of single frames is left out", "frames::streams::single_stream", KEPT, (
        Turn("specs/Loads.antt", "bits = longest_frame (most_bytes group);\n  jitter = bits_at_most timing pace.jitter;",
             "bits = longest_frame (most_bytes group);\n  jitter = 0;"),
        Turn("src/frames/streams.rt", "bits: frame_bits(most_bytes(group)),\n        jitter: bits_at_most(timing, pace.jitter),",
             "bits: frame_bits(most_bytes(group)),\n        jitter: 0,"),
    )),
    in_load("a period is a bit longer", "frames::streams::single_stream", KEPT, (
        Turn("specs/Loads.antt", "period = bits_at_least timing pace.period;\n  bits = longest_frame (most_bytes group);",
             "period = bits_at_least timing pace.period + 1;\n  bits = longest_frame (most_bytes group);"),
        Turn("src/frames/streams.rt", "period: bits_at_least(timing, pace.period),\n        bits: frame_bits(most_bytes(group)),",
             "period: bits_at_least(timing, pace.period) + 1,\n        bits: frame_bits(most_bytes(group)),"),
    )),
    in_load("a single frame's last identifier is its least", "loads::flow_loads::single_frames", KEPT, (
        Turn("specs/Loads.antt", "last_ident = group_ident (of_unit units (greatest_address stays)) group flow;",
             "last_ident = group_ident (of_unit units (least_address stays)) group flow;"),
        Turn("src/loads/flow_loads.rt", "last_ident: greatest_ident,", "last_ident: group_ident(bus, Extreme::Least, group, flow),"),
    )),
    in_load("125 kbit are counted as 250", "frames::streams::bits_of_ms", KEPT, (
        Turn("specs/Loads.antt", "bits_per_ms Kbit125 = 125", "bits_per_ms Kbit125 = 250"),
        Turn("src/frames/streams.rt", "Bitrate::Kbit125 => 125,", "Bitrate::Kbit125 => 250,"),
    )),
    in_load("one damaged attempt comes in a window", "frames::damage::damage_stream", KEPT, (
        Turn("specs/Damage.antt", "record { frames = rate.count; period", "record { frames = 1; period"),
        Turn("src/frames/damage.rt", "frames: rate.count,", "frames: 1,"),
    )),
    in_load("unplanned frames of the very priority go before none", "waits::delays::blocking", KEPT, (
        Turn("specs/Delays.antt", "unplanned_idents timing = timing.unplanned_priority * 2 ^ 26",
             "unplanned_idents timing = (timing.unplanned_priority + 1) * 2 ^ 26"),
        Turn("src/waits/delays.rt", "ident >= first_of_priority(timing.unplanned_priority)", "ident >= first_of_priority(timing.unplanned_priority + 1)"),
    )),
    in_load("units that keep no order are taken for others", "frames::identifiers::any_unit", KEPT, (
        Turn("specs/Loads.antt", "is_any Any = true", "is_any Any = false"),
        Turn("proofs/Sending.antt", "let same : u ≡ v = eqb-true u v is in", "let same : u ≡ v = absurd (false≢true is) in"),
        Turn("src/frames/identifiers.rt", "Queue::Any => Some(unit),", "Queue::Any => None,"),
    )),
    in_load("a long message to one unit has no receiver", "loads::flow_loads::packet_frames", KEPT, (
        Turn("specs/Loads.antt", "any_receiver = any_unit units v;", "any_receiver = None;"),
        Turn("proofs/Sending.antt", "placed w (two_ends units flow.sender v w is);", "placed w (one_end units flow.sender w is);"),
        Turn("proofs/Sending.antt", "(λ flow v pace packets askers. two_none flow.sender v)", "(λ flow v pace packets askers. one_none flow.sender)"),
        Turn("src/loads/flow_loads.rt", "any_receiver: any_unit(bus, unit),", "any_receiver: None,"),
    )),
    in_load("the last identifier of a long message leaves out its answers", "frames::identifiers::session_ident", KEPT, (
        Turn("specs/Loads.antt", "(transport_ident timing connection_management (held flow.sender) (held v))",
             "(transport_ident timing connection_management (held v) (held flow.sender))"),
        Turn("src/frames/identifiers.rt", "let answered = Ident::number_of(bus.timing.transport_priority, pgn, from, to);",
             "let answered = Ident::number_of(bus.timing.transport_priority, pgn, to, from);"),
    )),
    in_load("a long message to one unit is late by its jitter alone", "frames::streams::packet_stream", KEPT, (
        Turn("specs/Loads.antt", "jitter = bits_at_most timing pace.period + bits_at_most timing pace.jitter;", "jitter = bits_at_most timing pace.jitter;"),
        Turn("src/frames/streams.rt", "jitter: bits_at_most(bus.timing, pace.period) + bits_at_most(bus.timing, pace.jitter),",
             "jitter: bits_at_most(bus.timing, pace.jitter),"),
    )),
    in_load("a long message to one unit has a frame less", "frames::streams::frames_to_one", KEPT, (
        Turn("specs/Loads.antt", "frames_to_one units packets v = 2 + packets", "frames_to_one units packets v = 1 + packets"),
        Turn("src/frames/streams.rt", "2 + packets + packets.div_ceil", "1 + packets + packets.div_ceil"),
    )),
    in_load("a long message to all has a frame less", "frames::streams::frames_to_all", LOSSLESS, (
        Turn("specs/Loads.antt", "frames_to_all packets = 1 + packets", "frames_to_all packets = packets"),
        Turn("src/frames/streams.rt", "1 + u16::from(packets)", "u16::from(packets)"),
    )),
    in_load("the load leaves requests out", "loads::Loads::total", LONG_RUN, (
        Turn("specs/Asked.antt", "    + (sum_by (λ load. option_map_or (λ (l : UnitLoad). l.bits_per_second) load 0) asked.units\n"
             "    + sum_by (λ load. option_map_or (λ (l : RequestLoad). l.bits_per_second) load 0) asked.requests))",
             "    + sum_by (λ load. option_map_or (λ (l : UnitLoad). l.bits_per_second) load 0) asked.units)"),
        Turn("src/loads.rt", "(self.total_of_units() + self.total_of_requests())", "self.total_of_units()"),
    )),
    in_load("the load leaves error frames out", "frames::damage::load_of_damage", LONG_RUN, (
        Turn("specs/Damage.antt", "1000 * (rate.count * (longest_frame frame_bytes + error_frame))", "1000 * (rate.count * longest_frame frame_bytes)"),
        Turn("src/frames/damage.rt", "u32::from(frame_bits(8) + ERROR_FRAME)", "u32::from(frame_bits(8))"),
    )),
    in_load("a request has no bytes", "frames::streams::request_stream", KEPT, (
        Turn("specs/RequestLoads.antt", "request_bytes = 3", "request_bytes = 0"),
        Turn("src/frames/streams.rt", "bits: frame_bits(3),", "bits: frame_bits(0),"),
    )),
    in_load("the packets of the longest message lie between two announcements", "loads::flow_loads::broadcast", KEPT, (
        Turn("specs/Loads.antt", "least_packets = max 2 (packets_of group.length);", "least_packets = max 2 (packets_of group.most);"),
        Turn("src/loads/flow_loads.rt", "ensures { result ≡ max 2 (packets_of group.now.length) }", "ensures { result ≡ max 2 (packets_of group.now.most) }"),
        Turn("src/loads/flow_loads.rt", "match Size::new(group.length) {", "match Size::new(group.most) {"),
    )),
    in_load("a long message to all may be late by no jitter", "loads::flow_loads::broadcast", KEPT, (
        Turn("specs/Loads.antt", "apart = bits_at_least timing pace.period;\n  jitter = bits_at_most timing pace.jitter;",
             "apart = bits_at_least timing pace.period;\n  jitter = 0;"),
        Turn("src/loads/flow_loads.rt", "apart: bits_at_least(timing, pace.period),\n        jitter: bits_at_most(timing, pace.jitter),",
             "apart: bits_at_least(timing, pace.period),\n        jitter: 0,"),
    )),
    in_load("a receiver gives up after 7.5 seconds", "waits::turns::known_turn_time", RECEIVED, (
        Turn("specs/Delays.antt", "longest_pause timing = bits_at_least timing 750", "longest_pause timing = bits_at_least timing 7500"),
        Turn("src/waits/turns.rt", "u64::from(bits_at_least(timing, 750))", "u64::from(bits_at_least(timing, 7500))"),
    )),
    in_load("the demand leaves out the message that is under way", "waits::demands::under_way_of", KEPT, (
        Turn("specs/Demands.antt", "under_way_of Packets broadcasts = most_packets broadcasts", "under_way_of Packets broadcasts = 0"),
        Turn("src/waits/demands.rt", "BroadcastPart::Packets => u16::from(most_packets(broadcasts)),", "BroadcastPart::Packets => 0,"),
    )),
    in_load("two packets of a message are wanted", "waits::demands::want_of", KEPT, (
        Turn("specs/Demands.antt", "frames_of_part Packets broadcast = broadcast.packets", "frames_of_part Packets broadcast = 2"),
        Turn("src/waits/demands.rt", "BroadcastPart::Packets => u16::from(broadcast.packets),", "BroadcastPart::Packets => 2,"),
    )),
    in_load("what is wanted has no jitter", "waits::demands::want_of", KEPT, (
        Turn("specs/Demands.antt", "  jitter = broadcast.late;", "  jitter = 0;"),
        Turn("src/waits/demands.rt", "        jitter: broadcast.late,", "        jitter: 0,"),
    )),
    in_load("announcements want nothing", "waits::demands::want_of", KEPT, (
        Turn("specs/Demands.antt", "frames_of_part Announcements broadcast = 1", "frames_of_part Announcements broadcast = 0"),
        Turn("src/waits/demands.rt", "BroadcastPart::Announcements => 1,", "BroadcastPart::Announcements => 0,"),
    )),
)
