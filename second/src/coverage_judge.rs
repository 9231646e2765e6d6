//! What a call to judge reaches of the rules about verdict and margin (RULES 7 and 8), where one of the two can be right and the other wrong:
//! a first short instant and a margin at different instants, the first and the last step instant, ties, and the capacity that is measured.

use crate::calls::Call;
use crate::demand::demand;
use crate::judge::{judge, least_margin, Judgement, Verdict};
use crate::numbers::{Capacity, Component};
use crate::supply::supply;

/// What has to be reached by some call.
pub const REACHED: [&str; 21] = [
    "judge: short, and the margin at that instant",
    "judge: short, and the margin at a later instant",
    "judge: short, and then a step instant that isn't",
    "judge: short, behind a step instant that isn't",
    "judge: short, the least margin at that instant and again later",
    "judge: short, the least margin at two instants behind that one",
    "judge: short, first at the last of several step instants, before L",
    "judge: short, first at the last of several step instants, L",
    "judge: accepted, the margin at the first of several step instants",
    "judge: accepted, the margin at the last of several step instants, before L",
    "judge: accepted, the margin at the last of several step instants, L",
    "judge: accepted, the least margin at two instants",
    "judge: asked, found below Δ, with Δ another margin",
    "judge: asked, found below Δ, with Δ a margin at another instant",
    "judge: asked, found Δ",
    "judge: asked with tasks, none",
    "judge: asked without tasks",
    "judge: stated without tasks",
    "judge: stated 0 with tasks",
    "judge: stated Δ = Π with tasks",
    "tie: two step instants with the least margin",
];

fn reached(all: &[(bool, &str)]) -> Vec<String> {
    all.iter().filter(|(reached, _)| *reached).map(|(_, what)| what.to_string()).collect()
}

/// What a call reaches. Long common periods aren't looked at.
pub fn of_call(call: &Call) -> Vec<String> {
    match call {
        Call::Judge(component) => match (component.common_period(), judge(component)) {
            (Ok(common), Ok(judgement)) if common <= 10_000 => of_judged(component, common, judgement),
            _ => vec![],
        },
        _ => vec![],
    }
}

/// The step instants up to L, each with supply minus demand at the capacity that is judged.
fn steps(component: &Component, common: u64, capacity: u32) -> Vec<(u64, i64)> {
    let (interface, table) = (component.interface(capacity), &component.table);
    let rising = (1..=common).filter(|&t| demand(table, t) > demand(table, t - 1));
    rising.map(|t| (t, supply(&interface, t) as i64 - demand(table, t) as i64)).collect()
}

fn of_judged(component: &Component, common: u64, Judgement { verdict, capacity, margin }: Judgement) -> Vec<String> {
    let asked = component.capacity == Capacity::Asked;
    let tasks = component.table.count > 0;
    let mut all = reached(&[
        (asked && tasks && verdict == Verdict::None, "judge: asked with tasks, none"),
        (asked && !tasks, "judge: asked without tasks"),
        (!asked && !tasks, "judge: stated without tasks"),
        (!asked && tasks && capacity == 0, "judge: stated 0 with tasks"),
        (!asked && tasks && capacity == component.deadline && capacity == component.period, "judge: stated Δ = Π with tasks"),
    ]);
    let Some((least, instant)) = margin else {
        return all;
    };
    let steps = steps(component, common, capacity);
    let several = steps.len() > 1;
    let (first, last) = (steps[0].0, steps[steps.len() - 1].0);
    let tie = steps.iter().filter(|(_, margin)| *margin == least).count() > 1;
    if let Verdict::Short(short) = verdict {
        all.extend(reached(&[
            (instant == short, "judge: short, and the margin at that instant"),
            (instant > short, "judge: short, and the margin at a later instant"),
            (steps.iter().any(|(t, margin)| *t > short && *margin >= 0), "judge: short, and then a step instant that isn't"),
            (short > first, "judge: short, behind a step instant that isn't"),
            (tie && instant == short, "judge: short, the least margin at that instant and again later"),
            (tie && instant > short, "judge: short, the least margin at two instants behind that one"),
            (several && short == last && last < common, "judge: short, first at the last of several step instants, before L"),
            (several && short == last && last == common, "judge: short, first at the last of several step instants, L"),
        ]));
    } else {
        let largest = least_margin(&component.interface(component.deadline), &component.table, common);
        let below = asked && capacity < component.deadline;
        all.extend(reached(&[
            (several && instant == first, "judge: accepted, the margin at the first of several step instants"),
            (several && instant == last && last < common, "judge: accepted, the margin at the last of several step instants, before L"),
            (several && instant == last && last == common, "judge: accepted, the margin at the last of several step instants, L"),
            (tie, "judge: accepted, the least margin at two instants"),
            (below && largest.map(|largest| largest.0) != Some(least), "judge: asked, found below Δ, with Δ another margin"),
            (below && largest.map(|largest| largest.1) != Some(instant), "judge: asked, found below Δ, with Δ a margin at another instant"),
            (asked && capacity == component.deadline, "judge: asked, found Δ"),
        ]));
    }
    all.extend(reached(&[(!asked && tie, "tie: two step instants with the least margin")]));
    all
}
