"""Times of SAE J1939-21 and -81 by which a box is judged and the tester goes, in seconds."""

from j39plan.j1939 import CONTESTED, RESPONSE, WAIT

# Within which time an answer comes (Tr), how long a receiver waits for a packet (T1) and behind a CTS (T2), a sender for a CTS or EOMA (T3) and behind a CTS of
# none (T4), and how far apart who holds a session says so (Th).
TR, T1, T2, T3, T4, TH = RESPONSE / 1000, 0.75, WAIT / 1000, WAIT / 1000, 1.05, 0.5

# How long a claim may be contested; and how long a box that can't claim may wait before it says so, by the standard 153 ms, where only that is judged.
CONTEST, CANNOT = CONTESTED / 1000, 0.25

# How long a controller may still have frames of before; how far apart the tester holds a session, less than Th; and within which time it answers.
QUEUED, HOLD, PROMPT = 0.05, 0.4, 0.1

# After which time whatever is open has ended, behind the last word of it; and how often who receives may ask for packets again.
ENDS, AGAIN = T2 + TR, 2

# How long a box has until its first claim, and until it has found its address among held ones.
STARTS, SETTLES = 10.0, 5.0
