//! Makes a sheet smaller as long as a condition holds.

/// Removes records one at a time, while `differs` still holds of the sheet.
pub fn shrink(sheet: &[u8], differs: impl Fn(&[u8]) -> bool) -> Vec<u8> {
    let Some(mut bodies) = bodies(sheet) else { return sheet.to_vec() };
    let mut index = bodies.len();
    while index > 0 {
        index -= 1;
        let smaller = without(&bodies, index).into_iter().find(|smaller| differs(&bytes(smaller)));
        if let Some(smaller) = smaller {
            bodies = smaller;
            index = bodies.len();
        }
    }
    bytes(&bodies)
}

/// The bodies of a sheet that is laid out rightly.
fn bodies(sheet: &[u8]) -> Option<Vec<Vec<u8>>> {
    let mut rest = sheet.strip_prefix(&[1])?;
    let mut bodies = Vec::new();
    while !rest.is_empty() {
        let (length, after) = rest.split_first_chunk::<2>()?;
        let (body, after) = after.split_at_checked(usize::from(u16::from_be_bytes(*length)))?;
        bodies.push(body.to_vec());
        rest = after;
    }
    Some(bodies)
}

fn bytes(bodies: &[Vec<u8>]) -> Vec<u8> {
    let mut bytes = vec![1];
    for body in bodies {
        bytes.extend((body.len() as u16).to_be_bytes());
        bytes.extend(body);
    }
    bytes
}

/// The sheets without a record, whose uses go to one of its own operands, or
/// to the record before it.
fn without(bodies: &[Vec<u8>], index: usize) -> Vec<Vec<Vec<u8>>> {
    let mut replacements: Vec<u16> =
        operand_places(&bodies[index]).map(|place| operand(&bodies[index], place)).collect();
    replacements.push(index.saturating_sub(1) as u16);
    replacements.iter().map(|replacement| redirected(bodies, index, *replacement)).collect()
}

fn redirected(bodies: &[Vec<u8>], removed: usize, replacement: u16) -> Vec<Vec<u8>> {
    let mut bodies = bodies.to_vec();
    bodies.remove(removed);
    for body in &mut bodies[removed..] {
        let places: Vec<usize> = operand_places(body).collect();
        for place in places {
            let old = operand(body, place);
            let new = match usize::from(old) {
                index if index == removed => replacement,
                index if index > removed => old - 1,
                _ => old,
            };
            body[place..place + 2].copy_from_slice(&new.to_be_bytes());
        }
    }
    bodies
}

/// Where the operands of a body stand.
fn operand_places(body: &[u8]) -> impl Iterator<Item = usize> + use<> {
    let (start, end) = match body.first() {
        Some(3) => (3, body.len()),
        Some(4) => (5, body.len()),
        Some(5) => (2, body.len()),
        Some(6 | 7) => (1, 3),
        _ => (0, 0),
    };
    let end = end.min(body.len());
    (start..end.saturating_sub(1)).step_by(2)
}

fn operand(body: &[u8], place: usize) -> u16 {
    u16::from_be_bytes([body[place], body[place + 1]])
}
