//! Draws of capabilities that agree in all that same compares (§6.17.2) or in
//! all but one number, which those drawn apart from each other hardly do.

use super::comparisons::{
    balanced, differing, disregarded, gap, in_highest_byte, Gap, BALANCED, DISREGARDED, WIDTHS,
};
use super::draw::Draw;
use crate::random::Random;
use crate::register::{
    exceeds, has, Bounds, Capability, Origin, Register, COMPARED, CREATE, ROLES,
};
use crate::request::{Creation, Request};

/// The numbers of a capability which create sets and same compares: life,
/// limits and masks, in the order of create's last arguments.
pub type Terms = [u64; 8];

/// The place of their first in [`COMPARED`], after domain and authority.
const FIRST: usize = 2;
/// Where kinds of pairs begin that differ in nothing which counts, where those
/// that add up to the same, and how many kinds there are.
const PASSED_OVER: usize = COMPARED.len();
const ADDED_UP: usize = PASSED_OVER + DISREGARDED.len();
const KINDS: usize = ADDED_UP + BALANCED.len();
/// The place of the authority in [`COMPARED`].
const AUTHORITY: usize = 1;

/// The width in bits of the term at this place.
fn width(place: usize) -> u64 {
    WIDTHS[FIRST + place].into()
}

/// The terms of a capability.
fn terms(capability: &Capability) -> Terms {
    [
        capability.first.into(),
        capability.last.into(),
        capability.use_limit.into(),
        capability.creation_limit.into(),
        capability.hop_limit.into(),
        capability.hours.into(),
        capability.places.into(),
        capability.devices.into(),
    ]
}

/// Whether the ticks are in order and all is within the bounds.
fn fit(terms: &Terms, bounds: &Bounds) -> bool {
    let [first, last, uses, creations, hops, hours, places, devices] = *terms;
    u64::from(bounds.first) <= first
        && first <= last
        && last <= bounds.last.into()
        && uses <= bounds.use_limit.into()
        && creations <= bounds.creation_limit.into()
        && hops <= bounds.hop_limit.into()
        && !exceeds(hours, bounds.hours)
        && !exceeds(places, bounds.places)
        && !exceeds(devices, bounds.devices)
}

/// A capability whose terms fit the bounds of the origin, in half of the cases
/// one that goes back to another role, if there is such a one.
fn model(random: &mut Random, register: &Register, origin: Origin) -> Option<u8> {
    let bounds = register.bounds(origin);
    let fits = |number: &u8| fit(&terms(register.capability(*number)), &bounds);
    let fitting: Vec<u8> = register.numbers().filter(fits).collect();
    let role = end(register, origin);
    let elsewhere = |number: &u8| end(register, Origin::Capability(*number)) != role;
    let others: Vec<u8> = fitting.iter().copied().filter(elsewhere).collect();
    match random.chance(1, 2) && !others.is_empty() {
        true => Some(random.pick(&others)),
        false => (!fitting.is_empty()).then(|| random.pick(&fitting)),
    }
}

/// The role itself, or the one at the end of the lineage.
fn end(register: &Register, origin: Origin) -> u8 {
    match origin {
        Origin::Role(role) => role,
        Origin::Capability(number) => register.lineage(number).role,
    }
}

/// A model for a capability on the origin, and terms that differ from those of
/// the model in one number at most, and in none if the domains differ; or seldom
/// terms that add up to the same.
pub fn resembling(random: &mut Random, register: &Register, origin: Origin) -> Option<(u8, Terms)> {
    let model = model(random, register, origin)?;
    let terms = terms(register.capability(model));
    let ends = [origin, Origin::Capability(model)].map(|origin| end(register, origin));
    let [domain, other] = ends.map(|role| register.role(role).domain);
    if domain != other || random.chance(1, 4) {
        return Some((model, terms));
    }
    let place = random.below(terms.len() as u64) as usize;
    let bounds = register.bounds(origin);
    let shifted = random.chance(1, 5);
    let varied = |_| {
        let mut varied = terms;
        match shifted {
            true => shift(random, &mut varied),
            false => varied[place] = changed(random, terms[place], width(place)),
        }
        varied
    };
    let varied = (0..8).map(varied).find(|varied| fit(varied, &bounds));
    Some((model, varied.unwrap_or(terms)))
}

/// Moves the whole life, a part of a limit to another one, or a bit of a mask.
fn shift(random: &mut Random, terms: &mut Terms) {
    let by = random.between(1, 9);
    let [first, last, ..] = *terms;
    match random.below(10) {
        0..=2 => (terms[0], terms[1]) = (first + by, last + by),
        3..=5 => (terms[0], terms[1]) = (first.wrapping_sub(by), last.wrapping_sub(by)),
        6 | 7 => {
            let from = random.between(2, 4) as usize;
            let to = 2 + (from - 1) % 3;
            let part = by.min(terms[from]);
            (terms[from], terms[to]) = (terms[from] - part, terms[to] + part);
        }
        _ => {
            let mask = random.between(5, 7) as usize;
            let free = ((1 << width(mask)) - 1) & !terms[mask];
            if let (Some(from), Some(to)) = (random.bit(terms[mask]), random.bit(free)) {
                terms[mask] ^= 1 << from | 1 << to;
            }
        }
    }
}

/// Another number of this width: one less or more, with another bit, or with
/// another bit in its highest byte.
fn changed(random: &mut Random, number: u64, width: u64) -> u64 {
    let other = match random.below(6) {
        0 => number.wrapping_sub(1),
        1 => number.wrapping_add(1),
        2 => number ^ 1 << random.below(width),
        3 => number ^ 1 << random.below(8),
        4 => number ^ 1 << (width - 1),
        _ => number ^ 1 << (width - 1 - random.below(8)),
    };
    other & ((1 << width) - 1)
}

impl Draw<'_> {
    /// Gives the creation the terms of a capability that is there, all but one
    /// of them, or terms that add up to the same, if there is one whose terms fit
    /// the origin.
    pub fn resemble(&mut self, creation: &mut Creation, origin: Origin) {
        if let Some((_, terms)) = resembling(self.random, self.register, origin) {
            let arguments = creation.arguments_mut().into_iter().rev();
            arguments.zip(terms.into_iter().rev()).for_each(|(argument, term)| *argument = term);
        }
    }

    /// A role on which somebody can create, if there is one.
    pub fn staffed_role(&mut self) -> Option<Origin> {
        let staffed = |number: &u8| {
            let role = self.register.role(*number);
            role.appointed != 0 && has(role.permissions, CREATE)
        };
        let staffed: Vec<u8> = (0..ROLES as u8).filter(staffed).collect();
        (!staffed.is_empty()).then(|| Origin::Role(self.random.pick(&staffed)))
    }

    /// What same compares of each capability.
    fn compared(&self) -> Vec<[u64; COMPARED.len()]> {
        self.register.numbers().map(|number| self.register.compared(number)).collect()
    }

    /// A capability, and what its own permissions lack so that its authority is
    /// that of another one, from which it differs in one number more at most; in
    /// a third of the cases without the highest bit.
    pub fn catching_up(&mut self) -> Option<(u64, u64)> {
        let all = self.compared();
        let mut found = Vec::new();
        for (number, lower) in (0..).zip(&all) {
            let bounds = self.bounds_above(number);
            let revoked = self.register.capabilities[number as usize].revoked;
            for upper in all.iter().filter(|upper| !revoked && nearly_same(lower, upper)) {
                let lacking = upper[AUTHORITY] & !lower[AUTHORITY];
                let within = !exceeds(lower[AUTHORITY], upper[AUTHORITY]);
                if within && lacking != 0 && !exceeds(lacking, bounds.authority) {
                    found.push((number, lacking));
                }
            }
        }
        let (number, lacking) = (!found.is_empty()).then(|| self.random.pick(&found))?;
        let left_out = match self.random.chance(1, 3) {
            true => 1 << lacking.ilog2(),
            false => 0,
        };
        Some((number, lacking & !left_out))
    }

    /// A capability whose authority would be that of another one, from which it
    /// differs in one number more at most, with the roles that it may be lent.
    pub fn catching_up_by_roles(&mut self) -> Option<u64> {
        let all = self.compared();
        let fits = |number: &u64| {
            let capability = &self.register.capabilities[*number as usize];
            let roles = self.bounds_above(*number).roles;
            let lower = &all[*number as usize];
            let lent = Capability { lent: roles, ..*capability };
            let authority = u64::from(self.register.joined(&lent));
            let equal = |upper: &[u64; COMPARED.len()]| upper[AUTHORITY] == authority;
            !capability.revoked
                && exceeds(roles, capability.lent)
                && all.iter().any(|upper| equal(upper) && nearly_same(lower, upper))
        };
        let found: Vec<u64> = (0..all.len() as u64).filter(fits).collect();
        (!found.is_empty()).then(|| self.random.pick(&found))
    }

    /// Of two capabilities, mostly ones that differ in one number alone of those
    /// which are compared, only in something else, or in numbers that add up to
    /// the same: each of these kinds is as likely, if there is a pair for it.
    pub fn same(&mut self) -> Request {
        let any = Request::Same { first: self.capability(), second: self.capability() };
        let mut kinds = self.pairs().to_vec();
        kinds.retain(|pairs| !pairs.is_empty());
        if kinds.is_empty() || self.random.chance(1, 6) {
            return any;
        }
        let kind = self.random.below(kinds.len() as u64) as usize;
        let [first, second] = self.picked(&kinds[kind]);
        match self.random.chance(1, 2) {
            true => Request::Same { first, second },
            false => Request::Same { first: second, second: first },
        }
    }

    /// One of the pairs, in half of the cases one that differs in the highest byte
    /// of a number alone, if there is one: few do.
    fn picked(&mut self, pairs: &[[u64; 2]]) -> [u64; 2] {
        let all = self.compared();
        let high = |pair: &&[u64; 2]| {
            let [lower, upper] = pair.map(|number| &all[number as usize]);
            let differs = |place| in_highest_byte(place, lower[place] ^ upper[place]);
            matches!(gap(lower, upper), Gap::At(place) if differs(place))
        };
        let highest: Vec<[u64; 2]> = pairs.iter().filter(high).copied().collect();
        match highest.is_empty() || self.random.chance(1, 2) {
            true => self.random.pick(pairs),
            false => self.random.pick(&highest),
        }
    }

    /// The pairs that differ in one number of [`COMPARED`] alone, by its place,
    /// after them those that differ in something of [`DISREGARDED`] only, and
    /// last those that agree in something of [`BALANCED`].
    fn pairs(&self) -> [Vec<[u64; 2]>; KINDS] {
        let all = self.compared();
        let mut pairs = [const { Vec::new() }; KINDS];
        for second in self.register.numbers() {
            for first in 0..second {
                let pair = [u64::from(first), u64::from(second)];
                let (lower, upper) = (&all[usize::from(first)], &all[usize::from(second)]);
                if let Some(place) = balanced(lower, upper) {
                    pairs[ADDED_UP + place].push(pair);
                }
                match gap(lower, upper) {
                    Gap::None => {
                        let [one, other] = [first, second].map(|n| disregarded(self.register, n));
                        differing(&one, &other)
                            .for_each(|place| pairs[PASSED_OVER + place].push(pair));
                    }
                    Gap::At(place) => pairs[place].push(pair),
                    Gap::Wider => (),
                }
            }
        }
        pairs
    }
}

/// Whether they differ in one number at most besides the authority.
fn nearly_same(first: &[u64; COMPARED.len()], second: &[u64; COMPARED.len()]) -> bool {
    differing(first, second).filter(|&place| place != AUTHORITY).count() <= 1
}
