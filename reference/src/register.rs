//! What the register holds (§2), and what is read off it (§3): authority,
//! bounds, membership, life, context, lineage and what same compares.

/// How many of each there can be (§1.2.1): numbers run from 0.
pub const USERS: usize = 64;
pub const ROLES: usize = 32;
pub const CAPABILITIES: usize = 256;
pub const SESSIONS: usize = 64;
pub const DOMAINS: usize = 8;
pub const PERMISSIONS: usize = 32;
/// These are the widths of their masks too (§1.2.2).
pub const HOURS: usize = 24;
pub const PLACES: usize = 16;
pub const DEVICES: usize = 16;
/// The permission to derive capabilities (§1.2.4).
pub const CREATE: u8 = 0;
/// The limits of a role (§3.3.5).
pub const ROLE_LIMIT: u16 = 65_535;

/// The origin of a capability (§2.1.3), or the target of a session (§2.1.4).
#[derive(Clone, Copy, Debug, PartialEq, Eq)]
pub enum Origin {
    Role(u8),
    Capability(u8),
}

/// The origin or target of what is not there (§4.1.3).
impl Default for Origin {
    fn default() -> Origin {
        Origin::Role(0)
    }
}

/// A role (§2.1.2); all is 0 until it is founded.
#[derive(Clone, Copy, Debug, Default, PartialEq, Eq)]
pub struct Role {
    pub founded: bool,
    pub domain: u8,
    pub permissions: u32,
    pub hours: u32,
    pub places: u16,
    pub devices: u16,
    pub appointed: u64,
}

/// A capability (§2.1.3).
#[derive(Clone, Copy, Debug, Default, PartialEq, Eq)]
pub struct Capability {
    pub origin: Origin,
    pub creator: u8,
    pub permissions: u32,
    pub lent: u32,
    pub holders: u64,
    pub first: u32,
    pub last: u32,
    pub use_limit: u16,
    pub uses: u16,
    pub creation_limit: u16,
    pub creations: u16,
    pub hop_limit: u16,
    pub hops: u16,
    pub hours: u32,
    pub places: u16,
    pub devices: u16,
    pub revoked: bool,
}

/// A session (§2.1.4); all is 0 unless it is open.
#[derive(Clone, Copy, Debug, Default, PartialEq, Eq)]
pub struct Session {
    pub active: bool,
    pub user: u8,
    pub on: Origin,
    pub hour: u8,
    pub place: u8,
    pub device: u8,
}

/// Hour, place and device (§3.3.4).
#[derive(Clone, Copy, Debug, Default, PartialEq, Eq)]
pub struct Context {
    pub hour: u8,
    pub place: u8,
    pub device: u8,
}

/// The whole register (§2.1.1).
#[derive(Clone, Debug, PartialEq, Eq)]
pub struct Register {
    /// The present tick.
    pub clock: u32,
    /// Mask of the users that are enrolled.
    pub enrolled: u64,
    /// The domain of each user who is enrolled, and 0 for the others.
    pub domains: [u8; USERS],
    pub roles: [Role; ROLES],
    /// The number of capabilities; they have the numbers below it.
    pub count: u16,
    pub capabilities: [Capability; CAPABILITIES],
    pub sessions: [Session; SESSIONS],
}

/// All that a role or capability sets as bounds to those derived from it
/// (§3.4.2).
#[derive(Clone, Copy, Debug, PartialEq, Eq)]
pub struct Bounds {
    /// The permissions which it may give: those of its authority (§3.2.3).
    pub authority: u32,
    /// The roles which it may give (§3.2.4).
    pub roles: u32,
    pub hours: u32,
    pub places: u16,
    pub devices: u16,
    pub first: u32,
    pub last: u32,
    pub use_limit: u16,
    pub creation_limit: u16,
    pub hop_limit: u16,
    pub revoked: bool,
}

/// The names of the numbers in [`Register::compared`].
pub const COMPARED: [&str; 10] = [
    "domain",
    "authority",
    "first tick",
    "last tick",
    "use limit",
    "creation limit",
    "hop limit",
    "hours",
    "places",
    "devices",
];

/// The lineage of a capability (§3.1.1).
#[derive(Clone, Debug, PartialEq, Eq)]
pub struct Lineage {
    /// The capabilities on it, in falling number.
    pub capabilities: Vec<u8>,
    /// The role at its end.
    pub role: u8,
}

/// Whether the item is in the mask (§1.2.2). One beyond the mask is not.
pub fn has(mask: impl Into<u64>, item: u8) -> bool {
    let shifted = mask.into().checked_shr(u32::from(item));
    shifted.is_some_and(|rest| rest & 1 == 1)
}

/// Whether the mask is not within the other (§1.2.3).
pub fn exceeds(mask: impl Into<u64>, other: impl Into<u64>) -> bool {
    mask.into() & !other.into() != 0
}

impl Register {
    /// The fresh register (§2.2.1).
    pub fn fresh() -> Register {
        Register {
            clock: 0,
            enrolled: 0,
            domains: [0; USERS],
            roles: [Role::default(); ROLES],
            count: 0,
            capabilities: [Capability::default(); CAPABILITIES],
            sessions: [Session::default(); SESSIONS],
        }
    }

    /// Whether the user is there (§2.1.5).
    pub fn has_user(&self, user: u8) -> bool {
        has(self.enrolled, user)
    }

    /// Whether the role is there.
    pub fn has_role(&self, role: u8) -> bool {
        let found = self.roles.get(usize::from(role));
        found.is_some_and(|role| role.founded)
    }

    /// Whether the capability is there.
    pub fn has_capability(&self, number: u8) -> bool {
        u16::from(number) < self.count
    }

    /// Whether the role or capability is there.
    pub fn has_origin(&self, origin: Origin) -> bool {
        match origin {
            Origin::Role(role) => self.has_role(role),
            Origin::Capability(number) => self.has_capability(number),
        }
    }

    /// The role with this number, which is in its range.
    pub fn role(&self, role: u8) -> &Role {
        &self.roles[usize::from(role)]
    }

    /// The capability with this number.
    pub fn capability(&self, number: u8) -> &Capability {
        &self.capabilities[usize::from(number)]
    }

    /// The authority of a role (§3.2.1) or of a capability (§3.2.2).
    pub fn authority(&self, origin: Origin) -> u32 {
        match origin {
            Origin::Role(role) => self.role(role).permissions,
            Origin::Capability(number) => self.joined(self.capability(number)),
        }
    }

    /// The own permissions of a capability joined with those of its lent roles.
    pub fn joined(&self, capability: &Capability) -> u32 {
        let mut authority = capability.permissions;
        for (number, role) in self.roles.iter().enumerate() {
            if has(capability.lent, number as u8) {
                authority |= role.permissions;
            }
        }
        authority
    }

    /// What the role or capability sets as bounds to those derived from it.
    pub fn bounds(&self, origin: Origin) -> Bounds {
        match origin {
            Origin::Role(role) => self.role_bounds(role),
            Origin::Capability(number) => self.capability_bounds(number),
        }
    }

    /// A role lends itself alone (§3.2.4), leaves lives free (§3.3.3), has the
    /// largest limits and is never revoked (§3.3.5).
    fn role_bounds(&self, number: u8) -> Bounds {
        let role = self.role(number);
        Bounds {
            authority: role.permissions,
            roles: 1 << number,
            hours: role.hours,
            places: role.places,
            devices: role.devices,
            first: 0,
            last: u32::MAX,
            use_limit: ROLE_LIMIT,
            creation_limit: ROLE_LIMIT,
            hop_limit: ROLE_LIMIT,
            revoked: false,
        }
    }

    /// A capability lends the roles lent to it (§3.2.4).
    fn capability_bounds(&self, number: u8) -> Bounds {
        let capability = self.capability(number);
        Bounds {
            authority: self.authority(Origin::Capability(number)),
            roles: capability.lent,
            hours: capability.hours,
            places: capability.places,
            devices: capability.devices,
            first: capability.first,
            last: capability.last,
            use_limit: capability.use_limit,
            creation_limit: capability.creation_limit,
            hop_limit: capability.hop_limit,
            revoked: capability.revoked,
        }
    }

    /// The users appointed to the role, or the holders (§3.3.1).
    pub fn members(&self, origin: Origin) -> u64 {
        match origin {
            Origin::Role(role) => self.role(role).appointed,
            Origin::Capability(number) => self.capability(number).holders,
        }
    }

    /// Whether it is in life now: a role always (§3.3.3), a capability once its
    /// first tick has come and until its last one comes (§3.3.2). If the two are
    /// equal, that is never (§4.3.4). Whatever asks for life asks here.
    pub fn in_life(&self, origin: Origin) -> bool {
        match origin {
            Origin::Role(_) => true,
            Origin::Capability(number) => {
                let capability = self.capability(number);
                capability.first <= self.clock && self.clock < capability.last
            }
        }
    }

    /// Whether all three masks have the context (§3.3.4).
    pub fn admits(&self, origin: Origin, context: Context) -> bool {
        let bounds = self.bounds(origin);
        has(bounds.hours, context.hour)
            && has(bounds.places, context.place)
            && has(bounds.devices, context.device)
    }

    /// The lineage of this capability (§3.1.1). The register must keep the
    /// rules: origins have smaller numbers (§4.3.2), so the lineage ends.
    pub fn lineage(&self, number: u8) -> Lineage {
        let mut capabilities = vec![number];
        let mut origin = self.capability(number).origin;
        loop {
            let upper = match origin {
                Origin::Role(role) => return Lineage { capabilities, role },
                Origin::Capability(upper) => upper,
            };
            assert!(Some(&upper) < capabilities.last(), "the register is not well formed");
            capabilities.push(upper);
            origin = self.capability(upper).origin;
        }
    }

    /// All that same compares of a capability (§6.17.2), in the order of
    /// [`COMPARED`]: the domain of the role at the end of its lineage, its
    /// authority, life, limits and masks. Whatever is not here may differ.
    pub fn compared(&self, number: u8) -> [u64; COMPARED.len()] {
        let capability = self.capability(number);
        [
            self.role(self.lineage(number).role).domain.into(),
            self.authority(Origin::Capability(number)).into(),
            capability.first.into(),
            capability.last.into(),
            capability.use_limit.into(),
            capability.creation_limit.into(),
            capability.hop_limit.into(),
            capability.hours.into(),
            capability.places.into(),
            capability.devices.into(),
        ]
    }

    /// Whether the capability `lower` is below `upper`: another one, with
    /// `upper` on its lineage (§3.1.2).
    pub fn is_below(&self, lower: u8, upper: u8) -> bool {
        lower != upper && self.lineage(lower).capabilities.contains(&upper)
    }

    /// The numbers of all capabilities, rising.
    pub fn numbers(&self) -> impl Iterator<Item = u8> {
        (0..self.count).map(|number| number as u8)
    }
}
