//! States, events and algorithms of a chart.

use super::{Code, Judge};
use crate::names::Symbol;
use crate::tree::{Chart, Side, State, Transition};
use std::collections::HashSet;

impl Judge<'_> {
    pub(super) fn chart(&mut self, chart: &Chart) {
        let algorithms: HashSet<Symbol> = chart.algorithms.iter().map(|algorithm| algorithm.name.symbol).collect();
        for state in &chart.states {
            self.actions(state, &algorithms);
        }
        let states: HashSet<Symbol> = chart.states.iter().map(|state| state.name.symbol).collect();
        for transition in &chart.transitions {
            self.transition(transition, &states);
        }
    }

    fn actions(&mut self, state: &State, algorithms: &HashSet<Symbol>) {
        for action in &state.actions {
            if let Some(name) = action.algorithm {
                if !algorithms.contains(&name.symbol) {
                    self.report(Code::AlgorithmUnknown, name.span);
                }
            }
            if let Some(event) = &action.event {
                if !self.is_event(event, Side::Output) {
                    self.report(Code::EventUnknown, event.span);
                }
            }
        }
    }

    fn transition(&mut self, transition: &Transition, states: &HashSet<Symbol>) {
        for name in [transition.source, transition.destination] {
            if !states.contains(&name.symbol) {
                self.report(Code::StateUnknown, name.span);
            }
        }
        if let Some(event) = &transition.event {
            if !self.is_event(event, Side::Input) {
                self.report(Code::EventUnknown, event.span);
            }
        }
        if let Some(guard) = &transition.guard {
            self.condition(guard);
        }
    }
}
