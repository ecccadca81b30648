"""Names that a DBC has for what a plan says: attributes of nodes, messages and signals."""

from j39plan.j1939 import NAME_FIELDS

# The most that each field of a NAME may be.
_MOST = {key: (1 << width) - 1 for key, _, width in NAME_FIELDS}

# The keys of a NAME that units can share, each with the attribute of a DBC node that has it and the most that it may be.
NAME_ATTRIBUTES = {key: (attribute, _MOST[key]) for key, attribute in (
    ("manufacturer", "NmJ1939ManufacturerCode"), ("ecu", "NmJ1939ECUInstance"), ("function_instance", "NmJ1939FunctionInstance"),
    ("function", "NmJ1939Function"), ("system", "NmJ1939System"), ("system_instance", "NmJ1939SystemInstance"),
    ("industry", "NmJ1939IndustryGroup"),
)}
IDENTITY_ATTRIBUTE = ("NmJ1939IdentityNumber", _MOST["identity"])
ADDRESS_ATTRIBUTE = "NmStationAddress"
ARBITRARY_ATTRIBUTE = "NmJ1939AAC"

# The labels of units, groups and signals whose names in the DBC are others, and the kind of a signal: this one where it is none of a plan, and
# stands for the bits by which groups are told.
UNIT_ATTRIBUTE, GROUP_ATTRIBUTE, SIGNAL_ATTRIBUTE, KIND_ATTRIBUTE = "PlanUnit", "PlanGroup", "PlanSignal", "PlanKind"
SELECTOR_KIND = "selector"

# How far apart a message's frames are, in ms: as a rule, while what it tells is active, and at least, where it isn't sent by a cycle
# alone; and by what it is sent.
CYCLE_ATTRIBUTE, FAST_ATTRIBUTE, DELAY_ATTRIBUTE = "GenMsgCycleTime", "GenMsgCycleTimeFast", "GenMsgDelayTime"
SEND_ATTRIBUTE = "GenMsgSendType"

# The suspect parameter number of a signal, and what its content is: of these one is a text and one a trouble code.
SPN_ATTRIBUTE, CONTENT_ATTRIBUTE = "SPN", "SigType"
CONTENTS = ("Default", "Range", "RangeSigned", "ASCII", "Discrete", "Control", "ReferencePGN", "DTC", "StringDelimiter", "StringLength",
            "StringLengthControl")
TEXT_CONTENT, CODE_CONTENT = "ASCII", "DTC"

# How far apart a signal's frames are, in ms; the name of a message or signal whose name in the DBC is a shorter one.
SIGNAL_CYCLE_ATTRIBUTE = "GenSigCycleTime"
LONG_MESSAGE, LONG_SIGNAL = "SystemMessageLongSymbol", "SystemSignalLongSymbol"

# How fast the bus is, in bits a second.
BITRATE_ATTRIBUTE = "Baudrate"

# What a group of several lengths has that a message can't say: the greatest length, how far apart records are, and of a signal whether
# it comes again in each further record; of a text how many bytes it has, 0 for one that goes to the end.
MOST_ATTRIBUTE, EVERY_ATTRIBUTE, REPEATED_ATTRIBUTE, BYTES_ATTRIBUTE = "PlanMost", "PlanEvery", "PlanRepeated", "PlanBytes"

# What the groups are called that a multiplexed message becomes, where it isn't as the message with the value: `1 PRESSURE, 2 HEAT`.
GROUPS_ATTRIBUTE = "PlanGroups"

# What no file has: of a signal of a multiplexed message that it is in each one, whatever the multiplexor is.
ALWAYS_ATTRIBUTE = "in each message"

# Of what format the frames of a message are, and what those of J1939 are called there.
FORMAT_ATTRIBUTE, J1939_FORMAT = "VFrameFormat", "J1939PG"

NOBODY = "Vector__XXX"
