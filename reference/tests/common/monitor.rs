//! A list of calls with the guarantee over lists (§7.2), asserted at every
//! step. The derivation is the test's own (§7.1.3): taken from the start and
//! from the accepted creates, and never read off the register after that.

use crate::common::contexts::{all_checks, opening, sampled, within};
use reference::generate::Borders;
use reference::image::SHORTEST;
use reference::random::Random;
use reference::register::has;
use reference::{apply, encode, load_into, well_formed, Answer, Capability};
use reference::{Context, Creation, Named, Origin, Register, Request, Role, Session};

/// What was seen on the way, so that no claim holds for want of cases.
#[derive(Clone, Debug, Default)]
pub struct Tally {
    /// Accepted calls, in the order of the words.
    pub accepted: [u64; 17],
    /// Refusals, by their number.
    pub refused: [u64; 17],
    /// Revokes that marked more than one capability.
    pub wide_revokes: u64,
    /// Revokes with a capability below that was marked before.
    pub partial_revokes: u64,
    /// Checks changed by revokes.
    pub changed_checks: u64,
    /// Checks with the value 1 on a capability derived from another one.
    pub deep_yes: u64,
    /// Checks with the value 1 in another context than that of the opening.
    pub yes_elsewhere: u64,
    /// Checks with the value 0 for their context alone.
    pub not_admitted: u64,
    /// The longest lineage.
    pub depth: usize,
    /// Requests at the borders of lives.
    pub borders: Borders,
}

/// The register and the derivation of its capabilities.
pub struct Monitor {
    pub register: Register,
    origins: Vec<Origin>,
    steps: u64,
    /// For the contexts in which checks are asked.
    random: Random,
    pub tally: Tally,
}

impl Monitor {
    pub fn new(start: Register, tally: Tally) -> Monitor {
        let random = Random::new(0);
        let mut monitor = Monitor { register: start, origins: Vec::new(), steps: 0, random, tally };
        monitor.restart();
        monitor
    }

    /// A load (§7.1.2): refused, it leaves the register; accepted, it starts anew
    /// from the image, or from a fresh register's where that has no bytes.
    pub fn load(&mut self, image: &[u8]) -> Answer {
        let before = self.register.clone();
        let answer = load_into(&mut self.register, image);
        match answer {
            Ok(value) => {
                assert_eq!(value, 0);
                let shown = if image.is_empty() { &[0; SHORTEST] } else { image };
                assert_eq!(encode(&self.register), shown);
                self.restart();
            }
            Err(_) => assert_eq!(self.register, before, "changed by a refused load"),
        }
        answer
    }

    /// Takes the derivation from what the register shows (§7.1.3).
    fn restart(&mut self) {
        let count = usize::from(self.register.count);
        let passes = &self.register.capabilities[..count];
        self.origins = passes.iter().map(|capability| capability.origin).collect();
        self.assert_claims();
        self.assert_checks();
    }

    /// Performs the call and asserts all claims.
    pub fn step(&mut self, request: &Request) -> Answer {
        let before = self.register.clone();
        self.tally.borders.add(&before, request);
        let answer = apply(&mut self.register, request);
        match answer {
            Err(refusal) => {
                assert_eq!(self.register, before, "changed by a refusal: {request:?}");
                self.tally.refused[usize::from(refusal)] += 1;
            }
            Ok(value) => {
                self.tally.accepted[request.index()] += 1;
                self.accepted(request, value, &before);
            }
        }
        self.assert_claims();
        self.steps += 1;
        if self.steps.is_multiple_of(4) {
            self.assert_checks();
        }
        answer
    }

    fn accepted(&mut self, request: &Request, value: u64, before: &Register) {
        match request {
            Request::Create(Creation { origin, .. }) => {
                assert_eq!(value, self.origins.len() as u64);
                self.origins.push(origin_of(*origin));
            }
            Request::Revoke { capability, .. } => {
                return self.revoked(*capability as usize, value, before);
            }
            _ => (),
        }
        let marks = |register: &Register| register.capabilities.map(|kept| kept.revoked);
        assert_eq!(marks(before), marks(&self.register), "{request:?}");
    }

    /// The capabilities above this one by the derivation, and the role at the
    /// end.
    fn above(&self, number: usize) -> (Vec<usize>, usize) {
        match self.origins[number] {
            Origin::Role(role) => (Vec::new(), usize::from(role)),
            Origin::Capability(upper) => {
                let (mut uppers, role) = self.above(usize::from(upper));
                uppers.insert(0, usize::from(upper));
                (uppers, role)
            }
        }
    }

    /// The authority, worked out again (§3.2.1, §3.2.2).
    fn authority(&self, number: usize) -> u32 {
        let capability = &self.register.capabilities[number];
        let lent = (0..32).filter(|role| capability.lent >> role & 1 == 1);
        lent.fold(capability.permissions, |joined, role| {
            joined | self.register.roles[role as usize].permissions
        })
    }

    /// The rules are kept (§7.2.1); what is derived lies within what it is
    /// derived from, directly and through others (§7.2.2); lineages end in time.
    fn assert_claims(&mut self) {
        assert!(well_formed(&self.register));
        assert_eq!(self.origins.len(), usize::from(self.register.count));
        let authorities: Vec<u32> = (0..self.origins.len()).map(|n| self.authority(n)).collect();
        for number in 0..self.origins.len() {
            let lower = &self.register.capabilities[number];
            let (uppers, role) = self.above(number);
            for &upper in &uppers {
                assert_eq!(authorities[number] & !authorities[upper], 0);
                assert_within(lower, &self.register.capabilities[upper]);
            }
            self.assert_within_role(number, role, authorities[number]);
            self.assert_lineage(number, &uppers, role);
            self.tally.depth = self.tally.depth.max(uppers.len() + 1);
        }
    }

    fn assert_within_role(&self, number: usize, role: usize, authority: u32) {
        let lower = &self.register.capabilities[number];
        let role = &self.register.roles[role];
        assert!(role.founded);
        assert_eq!(authority & !role.permissions, 0);
        assert_eq!(lower.hours & !role.hours, 0);
        assert_eq!(lower.places & !role.places, 0);
        assert_eq!(lower.devices & !role.devices, 0);
    }

    /// The lineage is the derivation, and no longer than §7.2.3 says.
    fn assert_lineage(&self, number: usize, uppers: &[usize], role: usize) {
        let lineage = self.register.lineage(number as u8);
        let reached: Vec<usize> = lineage.capabilities.iter().map(|&n| n.into()).collect();
        assert_eq!(reached[0], number);
        assert_eq!(&reached[1..], uppers);
        assert_eq!(usize::from(lineage.role), role);
        assert!(reached.len() <= number + 1);
    }

    /// Checks of all sessions and permissions, in a sample of contexts, against
    /// §7.2.4: yes exactly if the user holds the capability and all on its
    /// lineage, with the role at the end, grant the permission in this context.
    fn assert_checks(&mut self) {
        let contexts = sampled(&mut self.random, &self.register);
        let checks = all_checks(&self.register, &contexts);
        for (number, session) in self.register.sessions.iter().enumerate() {
            for (&context, answers) in contexts[number].iter().zip(&checks[number]) {
                if !session.active {
                    assert_eq!(*answers, [Err(3); 32]);
                    continue;
                }
                let expected = self.expected(session, context);
                let value = |permission: usize| Ok(u64::from(expected >> permission & 1));
                assert_eq!(*answers, std::array::from_fn(value), "{session:?} in {context:?}");
                let opened = self.expected(session, opening(session));
                let yes = u64::from(expected.count_ones());
                self.tally.deep_yes += yes * u64::from(self.is_deep(session.on));
                self.tally.yes_elsewhere += yes * u64::from(context != opening(session));
                self.tally.not_admitted += u64::from((opened & !expected).count_ones());
            }
        }
    }

    /// The permissions for which a check on the session is to be a yes.
    fn expected(&self, session: &Session, context: Context) -> u32 {
        match session.on {
            Origin::Role(role) => self.appointed(role.into(), session.user, context),
            Origin::Capability(number) => self.carried(number.into(), session.user, context),
        }
    }

    /// Whether this is a capability derived from another one.
    fn is_deep(&self, on: Origin) -> bool {
        let Origin::Capability(number) = on else {
            return false;
        };
        matches!(self.origins[usize::from(number)], Origin::Capability(_))
    }

    /// The permissions of the role in a context that it admits, if the user is
    /// still appointed.
    fn appointed(&self, role: usize, user: u8, context: Context) -> u32 {
        let role = &self.register.roles[role];
        match has(role.appointed, user) {
            true => in_context(role, context),
            false => 0,
        }
    }

    /// The permissions that §7.2.4 gives to the user of a session on this
    /// capability in the context.
    fn carried(&self, number: usize, user: u8, context: Context) -> u32 {
        let (uppers, role) = self.above(number);
        let mut carried = in_context(&self.register.roles[role], context);
        for at in uppers.into_iter().chain([number]) {
            let capability = &self.register.capabilities[at];
            let to_come = self.register.clock < capability.first;
            let over = capability.last <= self.register.clock;
            let masks = [capability.hours, capability.places.into(), capability.devices.into()];
            carried &= self.authority(at);
            if capability.revoked || to_come || over || !within(masks, context) {
                return 0;
            }
        }
        match has(self.register.capabilities[number].holders, user) {
            true => carried,
            false => 0,
        }
    }

    /// An accepted revoke against §7.2.5: the marks, their number, all that must
    /// stay, and the checks that it turns to no.
    fn revoked(&mut self, named: usize, value: u64, before: &Register) {
        let downward = |n: &usize| *n == named || self.above(*n).0.contains(&named);
        let all: Vec<usize> = (0..self.origins.len()).filter(downward).collect();
        let unmarked = |n: &&usize| !before.capabilities[**n].revoked;
        let marked: Vec<usize> = all.iter().filter(unmarked).copied().collect();
        let mut expected = before.clone();
        marked.iter().for_each(|&n| expected.capabilities[n].revoked = true);
        assert_eq!(self.register, expected);
        assert_eq!(value, marked.len() as u64);
        self.tally.wide_revokes += u64::from(marked.len() > 1);
        self.tally.partial_revokes += u64::from(marked.len() < all.len());
        self.assert_changed_checks(&marked, before);
        self.assert_checks();
    }

    /// The same session, permission and context, just before and just after.
    fn assert_changed_checks(&mut self, marked: &[usize], before: &Register) {
        let contexts = sampled(&mut self.random, before);
        let earlier = all_checks(before, &contexts);
        let later = all_checks(&self.register, &contexts);
        for (number, session) in before.sessions.iter().enumerate() {
            let on_marked = session.active
                && matches!(session.on, Origin::Capability(n) if marked.contains(&n.into()));
            for (old, new) in earlier[number].iter().flatten().zip(later[number].iter().flatten()) {
                let yes_lost = on_marked && *old == Ok(1);
                assert_eq!(old != new, yes_lost);
                self.tally.changed_checks += u64::from(yes_lost);
            }
        }
    }
}

/// The permissions of the role, if it admits the context.
fn in_context(role: &Role, context: Context) -> u32 {
    match within([role.hours, role.places.into(), role.devices.into()], context) {
        true => role.permissions,
        false => 0,
    }
}

/// The origin which an accepted create named.
fn origin_of(named: Named) -> Origin {
    match named {
        Named::Role(number) => Origin::Role(number as u8),
        Named::Capability(number) => Origin::Capability(number as u8),
    }
}

/// Masks, life, limits, lent roles and the revoked mark.
fn assert_within(lower: &Capability, upper: &Capability) {
    assert_eq!(lower.lent & !upper.lent, 0);
    assert_eq!(lower.hours & !upper.hours, 0);
    assert_eq!(lower.places & !upper.places, 0);
    assert_eq!(lower.devices & !upper.devices, 0);
    assert!(upper.first <= lower.first && lower.last <= upper.last);
    assert!(lower.use_limit <= upper.use_limit);
    assert!(lower.creation_limit <= upper.creation_limit);
    assert!(lower.hop_limit <= upper.hop_limit);
    assert!(lower.revoked || !upper.revoked);
}
