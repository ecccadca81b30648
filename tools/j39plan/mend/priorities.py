"""An assignment of priorities to groups by which no flow is late: Audsley's, with the program as the judge.

From the least urgent priority on each group gets it that is in time with it while all that have none yet are more urgent. Where some assignment
makes all flows be in time, as far as who goes before whom is all that counts, this one does. Then as many groups as can get back their own priority,
and the others one as near to it as can be.
"""

from __future__ import annotations

from functools import cached_property, lru_cache

from j39plan.j1939 import FRAME_BYTES
from j39plan.mend.edits import Change
from j39plan.mend.judge import Draft
from j39plan.plan.answer_grammar import line_of

# The priorities of SAE J1939-21, the least urgent first.
LEVELS = range(7, -1, -1)

# The priorities of groups, by their labels.
Priorities = dict[str, int]


class Assignment:
    """Priorities of the groups of a plan in which some flows are late."""

    def __init__(self, draft: Draft) -> None:
        self._draft = draft
        sent = {flow.group for flow in draft.tables.flows if flow.period}
        self._groups = {group.label: group for group in draft.tables.groups if group.label in sent and group.most <= FRAME_BYTES}
        self._late = self._late_in(draft.findings)

    def change(self, priorities: Priorities) -> Change:
        """The change that gives groups these priorities, as far as they have others."""
        return Change(tuple(((*group.place, "priority"), priorities[label]) for label, group in self._groups.items()
                            if label in priorities and priorities[label] != group.priority))

    @property
    def has_several(self) -> bool:
        """Whether there are several groups whose priorities can be exchanged."""
        return len(self._groups) > 1

    def found(self, *wanted: str) -> Priorities | None:
        """Priorities by which these findings are gone and no other one came, with as few others than planned as this search finds."""
        priorities = self._all
        if priorities is None or not self._mends(priorities, wanted):
            return None
        return self._nearest(self._shortened(priorities, wanted), wanted)

    @cached_property
    def _all(self) -> Priorities | None:
        """Audsley's assignment, which is the same for each late flow."""
        return self._assigned(self._hopeless())

    def _late_in(self, findings: list[str] | None) -> set[int]:
        """The flows that are late by what is found."""
        lines = map(line_of, findings or [])
        return {line.number("flow") for line in lines if line.word("finding") == "F18"}

    def _mends(self, priorities: Priorities, wanted: tuple[str, ...]) -> bool:
        return self._draft.mends(self.change(priorities), *wanted)

    def _of(self, label: str) -> set[int]:
        """The flows of a group."""
        return {flow.number for flow in self._draft.tables.flows if flow.group == label}

    def _tried(self, priorities: Priorities, others: int) -> set[int] | None:
        """The flows that are late with these priorities, where all other groups have another one."""
        whole = {label: priorities.get(label, others) for label in self._groups}
        found = self._draft.found(self.change(whole))
        return None if found is None else self._late_in(found)

    def _hopeless(self) -> set[int]:
        """The flows that are late although their group goes before all others."""
        flows: set[int] = set()
        for label in self._groups:
            if self._of(label) & self._late:
                late = self._tried({label: LEVELS[-1]}, LEVELS[0])
                flows |= self._of(label) & (late if late is not None else set())
        return flows

    def _assigned(self, hopeless: set[int]) -> Priorities | None:
        """Audsley's assignment; None where some group is in time with no priority that is left. Where no group is in time behind all others, be it right
        behind the most urgent priority, only that one is left for all."""
        priorities: Priorities = {}
        is_lost = not any(self._is_in_time({}, label, LEVELS[-2], hopeless) for label in self._left(priorities))
        for level in LEVELS[-1:] if is_lost else LEVELS:
            for label in self._left(priorities):
                if self._is_in_time(priorities, label, level, hopeless):
                    priorities[label] = level
        return priorities if len(priorities) == len(self._groups) else None

    def _left(self, priorities: Priorities) -> list[str]:
        """The groups that have no priority yet, the least urgent one first."""
        return sorted((label for label in self._groups if label not in priorities), key=lambda label: (-self._groups[label].priority, -self._groups[label].pgn))

    def _is_in_time(self, priorities: Priorities, label: str, level: int, hopeless: set[int]) -> bool:
        """Whether a group is in time with a priority, and those that have the same, where all that have none yet are the most urgent."""
        late = self._tried({**priorities, label: level}, LEVELS[-1])
        return late is not None and not late & (self._of(label) | self._flows(priorities, level)) - hopeless

    def _flows(self, priorities: Priorities, level: int) -> set[int]:
        """The flows of the groups that have a priority."""
        return {number for label, other in priorities.items() if other == level for number in self._of(label)}

    def _shortened(self, priorities: Priorities, wanted: tuple[str, ...]) -> Priorities:
        """The same with fewer groups that have another priority than planned: none of those that are left can have its own again."""
        changed = True
        while changed:
            changed = False
            for label, group in self._groups.items():
                back = {**priorities, label: group.priority}
                if priorities[label] != group.priority and self._mends(back, wanted):
                    priorities, changed = back, True
        return priorities

    def _nearest(self, priorities: Priorities, wanted: tuple[str, ...]) -> Priorities:
        """The same with each changed priority as near to the planned one as can be."""
        for label, group in self._groups.items():
            order = sorted(LEVELS, key=lambda level: abs(level - group.priority))
            between = (level for level in order if abs(level - group.priority) < abs(priorities[label] - group.priority))
            level = next((level for level in between if level != group.priority and self._mends({**priorities, label: level}, wanted)), None)
            if level is not None:
                priorities = {**priorities, label: level}
        return priorities


@lru_cache(maxsize=1)
def assignment_of(draft: Draft) -> Assignment:
    """The assignment of a plan, which is looked for once as long as the plan stays as it is."""
    return Assignment(draft)
