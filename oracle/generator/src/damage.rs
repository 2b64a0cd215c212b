//! Damaged sheets, cut ones and random bytes, for the refusals.

use crate::faults;
use crate::random::Random;
use crate::shapes;
use crate::sheet::Sheet;

/// Numbers that stand near a limit of some field.
const EDGES: [u8; 12] = [0, 1, 2, 3, 4, 5, 6, 7, 8, 127, 128, 255];

pub fn sheet(random: &mut Random) -> Vec<u8> {
    match random.below(12) {
        0 => random_bytes(random),
        1 => random_records(random),
        2..=6 => with_faulty_record(random).bytes(),
        7..=9 => {
            let mut sheet = shapes::any(random);
            for _ in 0..random.between(1, 3) {
                damage_body(random, &mut sheet);
            }
            sheet.bytes()
        }
        _ => {
            let mut bytes = shapes::any(random).bytes();
            for _ in 0..random.between(1, 3) {
                damage_bytes(random, &mut bytes);
            }
            bytes
        }
    }
}

/// A sound sheet with a faulty record put in, after which operands may differ.
fn with_faulty_record(random: &mut Random) -> Sheet {
    let mut sheet = shapes::any(random);
    let index = random.between(0, sheet.len());
    let body = faults::body(random, index);
    sheet.bodies_mut().insert(index, body);
    sheet
}

fn random_bytes(random: &mut Random) -> Vec<u8> {
    let count = random.below(60);
    let mut bytes: Vec<u8> = (0..count).map(|_| random.next() as u8).collect();
    if count > 0 && !random.once_in(4) {
        bytes[0] = 1;
    }
    bytes
}

/// Records with a length near a right one and bytes near a limit.
fn random_records(random: &mut Random) -> Vec<u8> {
    let mut sheet = Sheet::default();
    for _ in 0..random.below(12) {
        let first = random.between(0, 8) as u8;
        let length = random.pick(&[0, 1, 2, 3, 4, 5, 6, 7, 8, 9, 10, 11, 12, 13]);
        let mut body = vec![first];
        body.extend((0..length).map(|_| random.pick(&EDGES[..6])));
        sheet.record(body);
    }
    sheet.bytes()
}

/// Changes a body and keeps the record's length field right.
fn damage_body(random: &mut Random, sheet: &mut Sheet) {
    let bodies = sheet.bodies_mut();
    if bodies.is_empty() {
        return;
    }
    let number = random.below(bodies.len());
    if bodies[number].is_empty() {
        return;
    }
    let place = random.below(bodies[number].len());
    match random.below(8) {
        0 => bodies[number].truncate(place),
        1 => bodies[number].insert(place, random.pick(&EDGES)),
        2 => bodies[number].extend([0, 0]),
        3 => bodies[number].push(0),
        4 => {
            bodies.remove(number);
        }
        5 => {
            let other = random.below(bodies.len());
            bodies.swap(number, other);
        }
        6 => bodies[number][place] ^= 1 << random.below(8),
        _ => bodies[number][place] = random.pick(&EDGES),
    }
}

/// Changes bytes without heed of records.
fn damage_bytes(random: &mut Random, bytes: &mut Vec<u8>) {
    if bytes.is_empty() {
        return;
    }
    let place = random.below(bytes.len());
    match random.below(6) {
        0 => bytes.truncate(place),
        1 => bytes.insert(place, random.next() as u8),
        2 => {
            bytes.remove(place);
        }
        3 => bytes[place] = random.pick(&EDGES),
        4 => bytes[place] ^= 1 << random.below(8),
        _ => bytes.extend((0..random.between(1, 12)).map(|_| random.pick(&EDGES))),
    }
}
