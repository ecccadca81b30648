"""How the page of a vehicle looks, beside what that of a plan has: buses side by side, and ways as arrows between them."""

from j39plan.plan.page_style import STYLE

VEHICLE_STYLE = STYLE + """.buses { display: flex; flex-wrap: wrap; gap: 1rem; align-items: flex-start; }
.buses article { flex: 1 1 12rem; border: 1px solid var(--line); padding: 0 0.75rem; }
.buses h3 { margin-top: 0.5rem; }
figure { margin: 1.5rem 0; break-inside: avoid; }
svg { display: block; max-width: none; font: 12px sans-serif; }
svg text { fill: var(--ink); stroke: var(--paper); stroke-width: 4px; paint-order: stroke; }
svg line { stroke: var(--line); stroke-width: 3px; }
svg .hop { stroke: var(--ink); stroke-width: 1.5px; }
svg circle, svg path { fill: var(--ink); }
svg rect { fill: var(--paper); stroke: var(--line); }
svg .gateway { fill: var(--head); stroke: var(--ink); }
details { margin: 1rem 0; }
summary { font-size: 1.25rem; cursor: pointer; }
"""
