"""What it means that a step fails, and what to ask the supplier of the box."""

from typing import NamedTuple


class Meaning(NamedTuple):
    """What a failure means, and what to ask."""

    means: str
    ask: str


MEANINGS = {
    "claim": Meaning("another NAME or address, or a frame before its claim", "the fields of its NAME, its address, when it claims as it starts"),
    "silent": Meaning("it claims an address, which the plan says it never does", "whether it has a NAME, and which"),
    "asked": Meaning("no claim within 200 ms of a request, or one that wasn't asked for", "how it answers requests for PGN 60928, also those from 254"),
    "flows": Meaning("a message with another period, layout or priority, packets too near or too far, or none", "its period, jitter and pause, and the layout it has"),
    "answers": Meaning("no message within 200 ms of a request, or one that isn't planned", "which groups it sends on request, to one and to all"),
    "refuses": Meaning("no NACK to who alone asks for what it hasn't, or one where all are asked", "how it acknowledges requests that it can't answer"),
    "receives": Meaning("a CTS beyond its window or the message, another EOMA, or an answer later than 200 ms", "how many packets a CTS of it permits, and how long its task takes to answer"),
    "misses": Meaning("it acknowledges what didn't come, or takes no message later", "what it does where a packet is missing: asks again, or gives up"),
    "gives_up": Meaning("it takes no message behind one that stopped", "its timers T1 and T2, and what it does for an Abort"),
    "again": Meaning("it mixes two messages, or takes none later", "what it does for an RTS amid a session"),
    "sends": Meaning("packets beyond a CTS, in another order, later than 200 ms, or behind EOMA", "how it follows CTS"),
    "resends": Meaning("it doesn't send a packet again that a CTS asks for, or sends more", "whether it keeps a message until EOMA"),
    "holds": Meaning("it doesn't wait behind a CTS of 0, or doesn't go on", "its timer T4, and what a CTS of 0 does"),
    "unheard": Meaning("packets without a CTS, more than two new RTS, or no message later", "its timer T3, and how often it tries again"),
    "aborted": Meaning("packets later than 50 ms behind an Abort", "what an Abort does amid packets"),
    "defends": Meaning("it doesn't claim against a larger NAME, or stops its flows", "what it does where its address is contested"),
    "crowd": Meaning("on a bus as full as planned it doesn't send as planned", "its transmit queue, and the priority of its tasks"),
    "rough": Meaning("behind frames that break the rules it isn't as before", "which lengths and control bytes it checks, and what its watchdog does"),
    "yields": Meaning("it keeps an address that a smaller NAME claims, sends from it later than 50 ms, or takes one that it mustn't", "whether its address can be configured by itself, and by which rule"),
    "chooses": Meaning("it finds no free address among held ones, or takes a held one", "in which order it tries addresses, and when it gives up"),
    "power": Meaning("behind power or shorted wires it comes back otherwise", "what it keeps over power, and how it leaves bus-off"),
    "commanded": Meaning("it moves to another address than it is commanded to", "whether it takes a commanded address"),
    "needs": Meaning("never a failure: what changes is a note", "what it does where a message is missing"),
}
