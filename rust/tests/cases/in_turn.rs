//! A case with one field after another changed, by what a call must answer.

use crate::change::dependencies;
use crate::handed;
use litmus::{Case, ADDRESSES, DEPENDENCIES, EDITION_2, EVENTS, NAME_BYTES, THREADS};

const FAR: [usize; 2] = [1 << 32, usize::MAX];

/// The case with each count outside its range.
pub fn counts_out_of_range(case: &Case) -> Vec<Case> {
    let mut all = Vec::new();
    for far in FAR {
        for edition in [0, EDITION_2 as usize + 1, far].map(|odd| odd as u64) {
            all.push(Case { edition, ..*case });
        }
        for threads in [0, THREADS + 1, far] {
            all.push(Case { threads, ..*case });
        }
        for addresses in [0, ADDRESSES + 1, far] {
            all.push(Case { addresses, ..*case });
        }
        for events in [EVENTS + 1, far] {
            all.push(Case { events, ..*case });
        }
        for name_length in [NAME_BYTES + 1, far] {
            let case = Case {
                name_length,
                ..*case
            };
            all.push(case);
        }
    }
    all
}

/// The case with other numbers of dependencies than there may be.
pub fn many_dependencies(case: &Case) -> Vec<Case> {
    let with = |dependencies| Case {
        dependencies,
        ..*case
    };
    [DEPENDENCIES + 1, FAR[0], FAR[1]].map(with).to_vec()
}

/// The case with each number of each event outside its range.
pub fn events_out_of_range(case: &Case) -> Vec<Case> {
    let kinds = if case.edition == u64::from(EDITION_2) {
        Case::LWSYNC + 1
    } else {
        Case::LWSYNC
    };
    let mut all = Vec::new();
    for e in 0..case.events {
        for far in [0, 1, 99] {
            let mut changed = [*case; 3];
            changed[0].kind[e] = kinds + far;
            changed[1].thread[e] = case.threads as u8 + far;
            changed[2].address[e] = case.addresses as u8 + far;
            let access = case.kind[e] < Case::SYNC;
            all.extend(&changed[..if access { 3 } else { 2 }]);
        }
    }
    all
}

/// The case with each number of each dependency outside its range.
pub fn dependencies_out_of_range(case: &Case) -> Vec<Case> {
    let mut all = Vec::new();
    for d in 0..case.dependencies {
        for far in [0, 1, 99] {
            let mut changed = [*case; 3];
            changed[0].dependency_class[d] = Case::BY_CONTROL + 1 + far;
            changed[1].dependency_from[d] = case.events as u8 + far;
            changed[2].dependency_to[d] = case.events as u8 + far;
            all.extend(changed);
        }
    }
    all
}

/// The case with each dependency out of turn: exchanged for the one before, and equal to it.
pub fn dependencies_out_of_turn(case: &Case) -> Vec<Case> {
    let mut all = Vec::new();
    for d in 1..case.dependencies {
        let mut changed = [*case; 2];
        for array in dependencies(&mut changed[0]) {
            array.swap(d - 1, d);
        }
        for array in dependencies(&mut changed[1]) {
            array[d] = array[d - 1];
        }
        all.extend(changed);
    }
    all
}

/// The places of all entries of write orders, and whether each is the first of its address.
fn entries(case: &Case) -> Vec<(usize, bool)> {
    let of = |x: usize| {
        let listed = 0..handed::writes(case, x).count();
        listed.map(move |i| (x * EVENTS + i, i == 0))
    };
    (0..case.addresses).flat_map(of).collect()
}

/// The case with each entry of a write order no event's.
pub fn entries_out_of_range(case: &Case) -> Vec<Case> {
    let mut all = Vec::new();
    for (place, _) in entries(case) {
        for far in [0, 1, 99] {
            let mut case = *case;
            case.writes[place] = case.events as u8 + far;
            all.push(case);
        }
    }
    all
}

/// The case with each entry listed twice, of another kind and of another address.
pub fn entries_out_of_place(case: &Case) -> Vec<Case> {
    let mut all = Vec::new();
    for (place, first) in entries(case) {
        if !first {
            let mut case = *case;
            case.writes[place] = case.writes[place - 1];
            all.push(case);
        }
        let x = place / EVENTS;
        for e in 0..case.events {
            let stores = case.kind[e] == Case::STORE && usize::from(case.address[e]) == x;
            if !stores {
                let mut case = *case;
                case.writes[place] = e as u8;
                all.push(case);
            }
        }
    }
    all
}

/// The case with each byte of its name unprintable.
pub fn unprintable_names(case: &Case) -> Vec<Case> {
    let mut all = Vec::new();
    for i in 0..case.name_length {
        for byte in [0, 31, 127, 255] {
            let mut case = *case;
            case.name[i] = byte;
            all.push(case);
        }
    }
    all
}
