//! The inspector: whether bytes are the sheet of a site.

use super::plan::{homes, ups, Plan};
use super::refusal::{check_count, refuse, Refusal};
use super::sheet::decode;
use super::site::{Site, Stations};

/// The plan on a sheet that passes over the site.
pub fn inspect(site: &Site, bytes: &[u8]) -> Result<Plan, Refusal> {
    check_count(site.n())?;
    let sheet = decode(bytes)?;
    if sheet.n() != site.n() {
        return refuse(13, 0);
    }
    if let Some(s) = site.stations().find(|&s| at_fault(site, &sheet, s)) {
        return refuse(11, s);
    }
    let homes = homes(site, &sheet.numbers);
    let ups = ups(site, &sheet.numbers, &homes);
    if let Some(s) = site.stations().find(|&s| sheet.homes[s] != homes[s] || sheet.ups[s] != ups[s]) {
        return refuse(12, s);
    }
    Ok(sheet)
}

fn at_fault(site: &Site, sheet: &Plan, s: usize) -> bool {
    let k = sheet.numbers[s];
    let as_high = site.neighbours(s).iter().filter(|&&t| sheet.numbers[t] >= k).count();
    let place = sheet.order.iter().position(|&t| t == s).expect("an order names each station");
    let after = Stations::of(sheet.order[place + 1..].iter().copied());
    let next_is_below = sheet.order.get(place + 1).is_some_and(|&next| sheet.numbers[next] < k);
    as_high < k || site.hears(s, &after) > k || next_is_below
}
