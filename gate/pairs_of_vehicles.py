"""Pairs of `j39_vehicle_findings` and `j39_vehicle_times`: what is wrong with what gateways send on, and how old it is."""

from __future__ import annotations

import sys

sys.dont_write_bytecode = True
from turned import Pair, Turn

EXACT = "laws::vehicle_findings_are_exact"
EXACT_TIMES = "laws::time_findings_are_exact"
AGES = "times::ages_are_bounds"
ROOM = "times::direct_forwards_have_room"


def in_findings(name: str, function: str, turns: tuple[Turn, ...]) -> Pair:
    """The law of all findings, an equation too, is proved of them as well."""
    return Pair(name, "j39_vehicle_findings", (function, EXACT), "j39_vehicle_laws", "forwards_are_as_named", turns)


def in_times(name: str, functions: tuple[str, ...], law: str, turns: tuple[Turn, ...]) -> Pair:
    return Pair(name, "j39_vehicle_times", functions, "j39_vehicle_laws", law, turns)


PAIRS = (
    in_findings("any sender's flow is an input", "forwards::is_heard", (
        Turn("specs/ForwardEnds.antt", "  from = forward.from;", "  from = None;"),
        Turn("src/forwards.rt", "        from: forward.from,", "        from: None,"),
    )),
    in_findings("what the gateway itself sends is an input", "forwards::is_input", (
        Turn("specs/ForwardEnds.antt",
             "  pub other : ¬ IsAmong (units_of_gateway v forward.gateway) (record { bus = forward.input.bus; unit = flow.sender })\n", ""),
        Turn("specs/ForwardTests.antt",
             "(need_of_hearer forward) flow\n    && not (is_unit_among (units_of_gateway v forward.gateway) forward.input.bus flow.sender)",
             "(need_of_hearer forward) flow"),
        Turn("src/forwards.rt", """    is_heard(requests, forward, flow)
        && !is_among(
            units_of_gateway(vehicle, forward.gateway),
            forward.input.bus,
            flow.sender,
        )
""", "    is_heard(requests, forward, flow)\n"),
        Turn("proofs/Deciding.antt", """    Decides-like _ (λ h. record { meets = h.0; other = h.1 }) (λ m. (m.meets, m.other))
    (Decides-and _ _ (Decides-meets (requests_on v.buses.items n.input.bus) (need_of_hearer n) f)
    (Decides-not _ (among_decides (units_of_gateway v n.gateway) n.input.bus f.sender)))
""", """    Decides-like _ (λ h. record { meets = h }) (λ m. m.meets)
    (Decides-meets (requests_on v.buses.items n.input.bus) (need_of_hearer n) f)
"""),
    )),
    in_findings("a copy may have records elsewhere", "checking::layouts::have_other_layouts", (
        Turn("specs/VehicleFindings.antt", """    ⊎ (((w : Selector) × (h.when ≡ Some w) × (¬ IsSelector w g.when))
    ⊎ (SomeMeets (λ t. t.repeated ≡ true) h.signals.items × (¬ (h.every ≡ g.every)))))""",
             "    ⊎ ((w : Selector) × (h.when ≡ Some w) × (¬ IsSelector w g.when)))"),
        Turn("specs/FoundPaths.antt", "(has_other_selector g h || has_other_records g h))", "has_other_selector g h)"),
        Turn("src/checking/layouts.rt", "        || has_other_selector(heard, sent)\n        || has_other_records(heard, sent)",
             "        || has_other_selector(heard, sent)"),
        Turn("proofs/Deciding.antt", """    (Decides-or _ _ (other_selector_decides h.when g.when)
    (Decides-and _ _ (some_decides (λ t. t.repeated ≡ true) (λ t. it_is t.repeated) h.signals.items) (Decides-not _ (same_byte_decides h.every g.every)))))""",
             "    (other_selector_decides h.when g.when))"),
    )),
    in_findings("numbers of signals tell nothing", "matching::are_same_numbers", (
        Turn("specs/Matching.antt", "AreSameNumbers a b = (a ≡ None) ⊎ ((b ≡ None) ⊎ (a ≡ b))", "AreSameNumbers a b = (a ≡ a) × (b ≡ b)"),
        Turn("specs/MatchTests.antt", "are_same_numbers (Some a) (Some b) = a == b", "are_same_numbers (Some a) (Some b) = true"),
        Turn("src/matching.rt", "        (Some(one), Some(other)) => one == other,\n        (None, _)", "        (Some(_), Some(_)) => true,\n        (None, _)"),
        Turn("proofs/Deciding.antt", """numbers_decide None b = (λ e. inl refl, λ h. refl)
numbers_decide (Some a) None = (λ e. inr (inl refl), λ h. refl)
numbers_decide (Some a) (Some b) = (
  λ e. inr (inr (ap Some ((Decides-eqb a b).0 e))),
  λ h. elim h [
    | inl none ↦ absurd (none-some _ (sym none))
    | inr more ↦ elim more [ inl none ↦ absurd (none-some _ (sym none)) | inr same ↦ (Decides-eqb a b).1 (same_Some _ _ same) ]
  ],
)
""", """numbers_decide None b = (λ e. (refl, refl), λ h. refl)
numbers_decide (Some a) None = (λ e. (refl, refl), λ h. refl)
numbers_decide (Some a) (Some b) = (λ e. (refl, refl), λ h. refl)
"""),
    )),
    in_findings("units of measurement tell nothing", "matching::are_same_units", (
        Turn("specs/Matching.antt", "AreSameUnits a b = (a ≡ []) ⊎ ((b ≡ []) ⊎ (a ≡ b))", "AreSameUnits a b = (a ≡ a) × (b ≡ b)"),
        Turn("specs/MatchTests.antt", "are_same_units a b = length a == 0 || (length b == 0 || bytes_eq a b)", "are_same_units a b = true"),
        Turn("src/matching.rt", "    one.as_str().is_empty() || other.as_str().is_empty() || one.as_str() == other.as_str()",
             "    one.as_str().is_empty() || !one.as_str().is_empty() || other.as_str().is_empty()"),
        Turn("proofs/Deciding.antt", "units_decide a b = Decides-or _ _ (empty_decides a) (Decides-or _ _ (empty_decides b) (bytes_eq-Decides a b))",
             "units_decide a b = (λ e. (refl, refl), λ h. refl)"),
    )),
    in_findings("two copies into one flow are not at odds", "checking::odds::are_at_odds", (
        Turn("specs/VehicleFindings.antt", "AreAtOdds n m = (IsDirect n ⊎ IsDirect m) ⊎ ((Copies n ⊎ Copies m) ⊎ WriteOneSignal n m)",
             "AreAtOdds n m = (IsDirect n ⊎ IsDirect m) ⊎ WriteOneSignal n m"),
        Turn("specs/FoundPaths.antt", "are_at_odds n m = (is_direct n || is_direct m) || ((copies n || copies m) || write_one_signal n m)",
             "are_at_odds n m = (is_direct n || is_direct m) || write_one_signal n m"),
        Turn("src/checking/odds.rt", "        || copies(first)\n        || copies(second)\n", ""),
        Turn("proofs/Deciding.antt", "    (Decides-or _ _ (Decides-or _ _ (Decides-copies n) (Decides-copies m)) (Decides-write_one_signal n m)))",
             "    (Decides-write_one_signal n m))"),
    )),
    in_findings("queues are shared by units that keep order", "checking::queues::is_any", (
        Turn("specs/VehicleFindings.antt", "ValueAt (λ (w : UnitPlan). w.queue ≡ Any) bus.plan.units.items u.unit) gateway",
             "ValueAt (λ (w : UnitPlan). w.queue ≡ Priority) bus.plan.units.items u.unit) gateway"),
        Turn("specs/VehicleFindings.antt", "use Rattle.j39_network.specs.declared.plan.queue.Queue.TheVariants.{Any}",
             "use Rattle.j39_network.specs.declared.plan.queue.Queue.TheVariants.{Priority}"),
        Turn("specs/FoundPaths.antt", "is_any_queue Any = true\nis_any_queue Priority = false", "is_any_queue Any = false\nis_any_queue Priority = true"),
        Turn("src/checking/queues.rt", "        Queue::Any => true,\n        Queue::Priority => false,", "        Queue::Any => false,\n        Queue::Priority => true,"),
        Turn("proofs/Deciding.antt",
             "Decides (is_any_queue q) (q ≡ Any)\nqueue_decides Any = (λ e. refl, λ e. refl)\nqueue_decides Priority = (λ e. absurd (false≢true e), λ e. cc)",
             "Decides (is_any_queue q) (q ≡ Priority)\nqueue_decides Priority = (λ e. refl, λ e. refl)\nqueue_decides Any = (λ e. absurd (false≢true e), λ e. cc)"),
        Turn("proofs/Deciding.antt", "(λ (u : UnitAt). (u.bus ≡ b) × ValueAt (λ (w : UnitPlan). w.queue ≡ Any)",
             "(λ (u : UnitAt). (u.bus ≡ b) × ValueAt (λ (w : UnitPlan). w.queue ≡ Priority)"),
        Turn("proofs/Deciding.antt", "(value_decides (λ (w : UnitPlan). w.queue ≡ Any)", "(value_decides (λ (w : UnitPlan). w.queue ≡ Priority)"),
    )),
    in_times("answers may come of what nobody asks for", ("ends::is_more_often", EXACT_TIMES), ROOM, (
        Turn("specs/TimeFindings.antt", "(IsNearer (shortest_on buses a) i (shortest_on buses b) f ⊎ ((f.on_request ≡ true) × (i.on_request ≡ false)))",
             "(IsNearer (shortest_on buses a) i (shortest_on buses b) f)"),
        Turn("specs/FoundTimes.antt", "is_more_often here i there f = is_nearer here i there f || (f.on_request && not i.on_request)",
             "is_more_often here i there f = is_nearer here i there f"),
        Turn("src/ends.rt", "    is_nearer(here, input, there, output) || output.on_request && !input.on_request", "    is_nearer(here, input, there, output)"),
        Turn("proofs/DecidingTimes.antt", """    (λ ends. Decides-or _ _ (Decides-or _ _
    (nearer_decides (shortest_on v.buses.items ends.at.bus) ends.input (shortest_on v.buses.items n.output.bus) ends.output)
    (Decides-and _ _ (it_is ends.output.on_request) (not_is ends.input.on_request)))
""", """    (λ ends. Decides-or _ _
    (nearer_decides (shortest_on v.buses.items ends.at.bus) ends.input (shortest_on v.buses.items n.output.bus) ends.output)
"""),
    )),
    in_times("periods are compared by one bus's clocks", ("ends::comes_too_often", EXACT_TIMES), "sound_vehicles_keep_ages", (
        Turn("specs/TimeFindings.antt", "(IsNearer (shortest_on buses a) i", "(IsNearer (shortest_on buses b) i"),
        Turn("specs/FoundTimes.antt", "    is_more_often (shortest_on buses a) i", "    is_more_often (shortest_on buses b) i"),
        Turn("src/ends.rt", "    let here = shortest_on(buses, ends.at.bus);", "    let here = shortest_on(buses, there);"),
        Turn("proofs/DecidingTimes.antt", "(nearer_decides (shortest_on v.buses.items ends.at.bus) ends.input",
             "(nearer_decides (shortest_on v.buses.items n.output.bus) ends.input"),
    )),
    in_times("no long message to all is late", ("ends::is_unlimited", EXACT_TIMES), ROOM, (
        Turn("specs/TimeFindings.antt", "  pub limit : written_deadline f ≡ None\n", ""),
        Turn("specs/FoundTimes.antt", "goes_to_all f.to && (not (has_deadline f) && is_long (groups_on v.buses.items n.output.bus) f.group)",
             "goes_to_all f.to && is_long (groups_on v.buses.items n.output.bus) f.group"),
        Turn("src/ends.rt", "    if !is_to_all(output.to) || has_deadline(output) {", "    if !is_to_all(output.to) {"),
        Turn("proofs/DecidingTimes.antt", """    Decides-like _ (λ h. record { to = h.0; limit = h.1.0; long = h.1.1 }) (λ m. (m.to, (m.limit, m.long)))
    (Decides-and _ _ (to_all_decides f.to)
    (Decides-and _ _ (none_decides (written_deadline f)) (long_decides (groups_on v.buses.items n.output.bus) f.group)))
""", """    Decides-like _ (λ h. record { to = h.0; long = h.1 }) (λ m. (m.to, m.long))
    (Decides-and _ _ (to_all_decides f.to) (long_decides (groups_on v.buses.items n.output.bus) f.group))
"""),
    )),
    in_times("a pause counts half", ("flows::pause_ns",), AGES, (
        Turn("specs/Times.antt", "(λ (ms : ℕ). ms * longest_million timing) flow.pause", "(λ (ms : ℕ). ms / 2 * longest_million timing) flow.pause"),
        Turn("specs/Times.antt", "◌-◌, ◌*◌, List", "◌-◌, ◌*◌, ◌/◌, List"),
        Turn("src/flows.rt", "Some(u64::from(ms) * u64::from(longest_million(timing)))", "Some(u64::from(ms / 2) * u64::from(longest_million(timing)))"),
    )),
    in_times("the time of a gateway counts half", ("flows::within_of",), AGES, (
        Turn("specs/Times.antt", "within_of n = option_map us_of_ms n.within", "within_of n = option_map (λ (ms : ℕ). us_of_ms (ms / 2)) n.within"),
        Turn("specs/Times.antt", "◌-◌, ◌*◌, List", "◌-◌, ◌*◌, ◌/◌, List"),
        Turn("src/flows.rt", "    match forward.within {\n        Some(ms) => Some(us_of_ms(ms)),",
             "    match forward.within {\n        Some(ms) => Some(us_of_ms(ms / 2)),"),
    )),
    in_times("the time of a gateway is a millisecond", ("flows::within_of",), AGES, (
        Turn("specs/Times.antt", "within_of n = option_map us_of_ms n.within", "within_of n = option_map (λ (ms : ℕ). us_of_ms 1) n.within"),
        Turn("src/flows.rt", "    match forward.within {\n        Some(ms) => Some(us_of_ms(ms)),",
             "    match forward.within {\n        Some(_) => Some(us_of_ms(1)),"),
    )),
    in_times("answers have an age", ("chains::unasked_at",), ROOM, (
        Turn("specs/Times.antt", "option_and_then (λ (flow : FlowPlan). if flow.on_request then None else Some flow)\n    (flow_at v.buses.items at)",
             "option_and_then (λ (flow : FlowPlan). Some flow)\n    (flow_at v.buses.items at)"),
        Turn("src/chains.rt", "        Some(flow) if !flow.on_request => Some(*flow),\n        _ => None,", "        Some(flow) => Some(*flow),\n        None => None,"),
    )),
    in_times("what was queued takes half its time", ("flows::own_of",), AGES, (
        Turn("specs/Times.antt", "own_of timing flow delay = us_of_bits timing (delay - bits_at_most timing (jitter_ms flow))",
             "own_of timing flow delay = us_of_bits timing (delay - bits_at_most timing (jitter_ms flow)) / 2"),
        Turn("specs/Times.antt", "◌-◌, ◌*◌, List", "◌-◌, ◌*◌, ◌/◌, List"),
        Turn("src/flows.rt", "    us_of_bits(timing, u64::from(delay).saturating_sub(jitter)) as u64\n",
             "    us_of_bits(timing, u64::from(delay).saturating_sub(jitter)) as u64 / 2\n"),
    )),
)
