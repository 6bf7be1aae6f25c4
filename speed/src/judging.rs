//! Inspect, written by hand.

use crate::forest::homes_and_ups;
use crate::view::View;

/// The number and the place of a refusal.
type Verdict = Result<(), (u32, usize)>;

struct Plan {
    numbers: [u16; 512],
    homes: [u16; 512],
    ups: [u16; 512],
    order: [u16; 512],
}

/// The two bytes at a place, and the place behind them; or the length of bytes that are cut.
fn word(sheet: &[u8], at: usize) -> Result<(u16, usize), usize> {
    match sheet.get(at..at + 2) {
        Some(pair) => Ok((u16::from_le_bytes([pair[0], pair[1]]), at + 2)),
        None => Err(sheet.len()),
    }
}

/// Reads a sheet, or tells the place of the first fault.
fn read(sheet: &[u8], plan: &mut Plan) -> Result<usize, usize> {
    let (count, mut at) = word(sheet, 0)?;
    if !(1..=512).contains(&count) {
        return Err(0);
    }
    let n = usize::from(count);
    for s in 0..n {
        let map = *sheet.get(at).ok_or(sheet.len())?;
        if map > 5 {
            return Err(at);
        }
        at += 1;
        (plan.numbers[s], plan.homes[s], plan.ups[s]) = (0, s as u16, u16::MAX);
        for (bit, value) in [&mut plan.numbers[s], &mut plan.homes[s], &mut plan.ups[s]].into_iter().enumerate() {
            if map & 1 << bit != 0 {
                let (field, behind) = word(sheet, at)?;
                if field >= count || field == *value {
                    return Err(at);
                }
                *value = field;
                at = behind;
            }
        }
    }
    let mut named = [false; 512];
    for place in &mut plan.order[..n] {
        let (s, behind) = word(sheet, at)?;
        if s >= count || std::mem::replace(&mut named[usize::from(s)], true) {
            return Err(at);
        }
        *place = s;
        at = behind;
    }
    if at < sheet.len() { Err(at) } else { Ok(n) }
}

/// The lowest station at fault, if there is one.
fn find_fault<V: View>(view: &V, plan: &Plan, n: usize) -> Option<usize> {
    let mut places = [0u16; 512];
    for (place, s) in plan.order[..n].iter().enumerate() {
        places[usize::from(*s)] = place as u16;
    }
    (0..n).find(|s| {
        let number = plan.numbers[*s];
        let (mut supporting, mut later) = (0, 0);
        view.each(*s, |t| {
            supporting += u16::from(plan.numbers[t] >= number);
            later += u16::from(places[t] > places[*s]);
        });
        let next = usize::from(places[*s]) + 1;
        supporting < number || later > number || next < n && plan.numbers[usize::from(plan.order[next])] < number
    })
}

pub fn inspect<V: View>(view: &V, sheet: &[u8]) -> Verdict {
    let n = view.stations();
    if !(1..=512).contains(&n) {
        return Err((1, 0));
    }
    let mut plan = Plan { numbers: [0; 512], homes: [0; 512], ups: [0; 512], order: [0; 512] };
    let count = read(sheet, &mut plan).map_err(|place| (10, place))?;
    if count != n {
        return Err((13, 0));
    }
    if let Some(s) = find_fault(view, &plan, n) {
        return Err((11, s));
    }
    let (mut homes, mut ups) = ([0; 512], [0; 512]);
    homes_and_ups(view, &plan.numbers[..n], &mut homes, &mut ups);
    match (0..n).find(|s| homes[*s] != plan.homes[*s] || ups[*s] != plan.ups[*s]) {
        Some(s) => Err((12, s)),
        None => Ok(()),
    }
}
