//! Sheets: a plan as bytes, and the form by which bytes are one.

use super::plan::Plan;
use super::refusal::{check_count, refuse, Refusal};

/// Stands for no up in tables.
pub const NO_UP: usize = 65_535;

fn push_field(bytes: &mut Vec<u8>, value: usize) {
    let field = u16::try_from(value).expect("fields have 16 bits");
    bytes.extend(field.to_le_bytes());
}

/// The sheet of a plan.
pub fn encode(plan: &Plan) -> Vec<u8> {
    let mut bytes = Vec::new();
    push_field(&mut bytes, plan.n());
    for s in 0..plan.n() {
        let number = Some(plan.numbers[s]).filter(|&number| number != 0);
        let home = Some(plan.homes[s]).filter(|&home| home != s);
        let present = [number, home, plan.ups[s]];
        let map = (0..3).filter(|&bit| present[bit].is_some()).map(|bit| 1 << bit).sum();
        bytes.push(map);
        for field in present.into_iter().flatten() {
            push_field(&mut bytes, field);
        }
    }
    for &s in &plan.order {
        push_field(&mut bytes, s);
    }
    bytes
}

/// The bytes of a sheet, read from the first on.
struct Reader<'a> {
    bytes: &'a [u8],
    at: usize,
}

impl Reader<'_> {
    /// A field of so many bytes. One at fault is refused at its offset, and one that is not complete at the length of the bytes.
    fn field(&mut self, width: usize, fault: impl Fn(usize) -> bool) -> Result<usize, Refusal> {
        let Some(field) = self.bytes.get(self.at..self.at + width) else {
            return refuse(10, self.bytes.len());
        };
        let value = field.iter().rev().fold(0, |high, &low| high * 256 + usize::from(low));
        if fault(value) {
            return refuse(10, self.at);
        }
        self.at += width;
        Ok(value)
    }
}

/// The plan whose sheet the bytes are.
pub fn decode(bytes: &[u8]) -> Result<Plan, Refusal> {
    let mut reader = Reader { bytes, at: 0 };
    let n = reader.field(2, |n| check_count(n).is_err())?;
    let mut plan = Plan { numbers: vec![], homes: vec![], ups: vec![], order: vec![] };
    for s in 0..n {
        let map = reader.field(1, |map| map & 0b1111_1000 != 0 || map & 0b110 == 0b110)?;
        let present = |bit: u32| map & (1 << bit) != 0;
        plan.numbers.push(if present(0) { reader.field(2, |number| number == 0 || number >= n)? } else { 0 });
        plan.homes.push(if present(1) { reader.field(2, |home| home == s || home >= n)? } else { s });
        plan.ups.push(if present(2) { Some(reader.field(2, |up| up >= n)?) } else { None });
    }
    for _ in 0..n {
        let named = reader.field(2, |t| t >= n || plan.order.contains(&t))?;
        plan.order.push(named);
    }
    if reader.at < bytes.len() {
        return refuse(10, reader.at);
    }
    Ok(plan)
}

/// Four tables from any hand: numbers, homes, ups and order.
pub type Tables = [Vec<usize>; 4];

pub fn tables(plan: &Plan) -> Tables {
    let ups = plan.ups.iter().map(|up| up.unwrap_or(NO_UP)).collect();
    [plan.numbers.clone(), plan.homes.clone(), ups, plan.order.clone()]
}

/// Read: unpacks a sheet into tables, which have room enough here.
pub fn read(bytes: &[u8]) -> Result<Tables, Refusal> {
    decode(bytes).map(|plan| tables(&plan))
}

/// Put: makes a sheet of tables.
pub fn put(put: &Tables) -> Result<Vec<u8>, Refusal> {
    let [numbers, homes, ups, order] = put;
    let n = numbers.len();
    if put.iter().any(|table| table.len() != n) {
        return refuse(1, 0);
    }
    check_count(n)?;
    let at_fault = |i: usize| {
        numbers[i] >= n
            || homes[i] >= n
            || (ups[i] >= n && ups[i] != NO_UP)
            || (homes[i] != i && ups[i] != NO_UP)
            || order[i] >= n
            || order[..i].contains(&order[i])
    };
    if let Some(lowest) = (0..n).find(|&i| at_fault(i)) {
        return refuse(10, lowest);
    }
    let ups = ups.iter().map(|&up| Some(up).filter(|&up| up != NO_UP)).collect();
    Ok(encode(&Plan { numbers: numbers.clone(), homes: homes.clone(), ups, order: order.clone() }))
}

/// The route cards of a plan: a home for who has another, or else the up, or else the panel.
pub fn route_cards(plan: &Plan) -> Vec<u8> {
    let mut cards = Vec::new();
    for s in 0..plan.n() {
        let card = if plan.homes[s] != s { plan.homes[s] } else { plan.ups[s].unwrap_or(NO_UP) };
        push_field(&mut cards, card);
    }
    cards
}
