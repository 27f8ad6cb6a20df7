//! The library's case of one that was read from a text.

use litmus::{Case, EVENTS};
use ordinary::{Dependency, Event, Order};

/// The case in the library's struct, with 0 wherever nothing is said.
pub fn built(case: &ordinary::Case) -> Case {
    let mut built = Case {
        edition: case.edition.into(),
        threads: case.threads(),
        addresses: case.addresses(),
        events: case.events.len(),
        name_length: case.name.len(),
        ..Case::empty()
    };
    built.initial[..case.addresses()].copy_from_slice(&case.initial);
    built.name[..case.name.len()].copy_from_slice(&case.name);
    add_events(&mut built, &case.events);
    add_dependencies(&mut built, case.dependencies());
    for (x, listed) in case.write_orders.iter().enumerate() {
        for (i, &e) in listed.iter().enumerate() {
            built.writes[x * EVENTS + i] = e as u8;
        }
    }
    for (p, order) in case.orders.iter().enumerate() {
        add_order(&mut built, p, order);
    }
    built
}

fn add_events(built: &mut Case, events: &[Event]) {
    for (e, event) in events.iter().enumerate() {
        built.kind[e] = event.kind as u8;
        built.thread[e] = event.thread as u8;
        built.address[e] = event.address as u8;
        built.value[e] = event.value;
    }
}

fn add_dependencies(built: &mut Case, dependencies: &[Dependency]) {
    built.dependencies = dependencies.len();
    for (d, dependency) in dependencies.iter().enumerate() {
        built.dependency_class[d] = dependency.class as u8;
        built.dependency_from[d] = dependency.from as u8;
        built.dependency_to[d] = dependency.to as u8;
    }
}

fn add_order(built: &mut Case, p: usize, order: &Order) {
    for (a, b) in order.pairs(built.events) {
        built.rows[p * EVENTS + a] |= 1 << b;
    }
}
