"""Units whose flows all come too often, or too seldom, by the same share: that is told of the unit's clock, once."""

from collections.abc import Collection, Mapping, Sequence

from j39plan.log.checks.deviations import Found, Place
from j39plan.log.checks.tracks import Track
from j39plan.log.clock import MILLISECOND

# So many flows of a unit tell of its clock, one of them by so many distances, and by how many millionths they may differ.
FLOWS, DISTANCES, APART = 2, 8, 2000
MILLION = 10**6

# Who comes later by so many millionths in the mean, or more, isn't sent at a period, or had a break: that tells nothing of a clock.
BROKEN = -50_000


def share_of(track: Track) -> float | None:
    """By how many millionths of its period messages of a flow come sooner in the mean, below 0 where later, since its distances began; None where there is
    none."""
    if track.flow.period is None or track.at is None or track.count == track.begun:
        return None
    return MILLION * (1 - (track.at - track.first) / (track.count - track.begun) / (track.flow.period * MILLISECOND))


def slack_of(track: Track) -> float:
    """By how many millionths that is unsure: by what the first and the last message may be late."""
    wait = track.limits.wait if track.limits else 0
    return APART + MILLION * (track.flow.jitter * MILLISECOND + wait) / ((track.flow.period or 1) * MILLISECOND * max(track.count - track.begun, 1))


def tell_clock(unit: str, tracks: Sequence[Track], events: Collection[int], told: Mapping[int, Collection[str]], found: Found) -> None:
    """Tells of a unit's clock, in place of what is told of its flows one by one, where all of these are off by one share."""
    if sum(track.number in told for track in tracks) < FLOWS:
        return
    shares = {track.number: share for track in tracks if track.number not in events and not track.flow.on_request and (share := share_of(track)) is not None}
    measured = [track for track in tracks if track.number in told or shares.get(track.number, BROKEN) > BROKEN]
    most = max(measured, key=lambda track: track.count - track.begun)
    if any(track.number not in shares for track in measured) or most.count - most.begun < DISTANCES:
        return
    share, off = shares[most.number], [track for track in measured if track.number in told]
    if any(abs(shares[track.number] - share) > slack_of(track) for track in measured):
        return
    texts = [text for track in off for text in told[track.number]]
    places = [one.place for text in texts if (one := found.met(text))]
    first = min(places, key=lambda place: place.line or 0, default=Place(None))
    for text in texts:
        found.withdraw(text)
    how, clock = ("often", "fast") if share > 0 else ("seldom", "slow")
    numbers = tuple(track.number for track in measured)
    found.tell("clock", f"{unit}: its flows come {{}} ppm too {how}: is its clock {clock}?", first.line, first.at, round(abs(share)), unit=unit,
               detail=f" (flow {', '.join(map(str, numbers))})", flows=numbers)
