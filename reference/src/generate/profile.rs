//! From how many things requests are drawn, and how often each call is.

/// The settings of [`super::request`].
#[derive(Clone, Debug, PartialEq, Eq)]
pub struct Profile {
    /// Users are drawn below this number.
    pub users: u64,
    /// Roles are drawn below this number.
    pub roles: u64,
    /// Domains are drawn below this number.
    pub domains: u64,
    /// Sessions are drawn below this number.
    pub sessions: u64,
    /// Permissions are drawn below this number, and in a quarter of the cases
    /// from as many of the highest.
    pub permissions: u64,
    /// In this many of 1000 requests one argument is replaced by any number.
    pub wild: u64,
    /// Of 16 limits, lives and masks of new capabilities so many are narrower
    /// than the origin's: the more, the sooner a lineage can go no deeper.
    pub narrow: u64,
    /// Of 16 new capabilities so many are made nearly like one that is there.
    pub twins: u64,
    /// The weight of each call, in the order of [`crate::request::WORDS`].
    pub weights: [u64; 17],
}

impl Profile {
    /// Few users and roles, so that calls are accepted often and trees grow
    /// deep.
    pub fn small() -> Profile {
        Profile {
            users: 6,
            roles: 3,
            domains: 2,
            sessions: 8,
            permissions: 6,
            wild: 30,
            narrow: 6,
            twins: 4,
            weights: [1, 1, 3, 2, 3, 2, 4, 14, 16, 7, 14, 14, 12, 8, 3, 6, 12],
        }
    }

    /// As small, with revokes and clocks seldom and creates often: lists of a
    /// thousand requests fill the register.
    pub fn crowded() -> Profile {
        Profile {
            weights: [1, 1, 2, 1, 1, 1, 1, 40, 24, 10, 24, 12, 8, 6, 1, 6, 10],
            ..Profile::small()
        }
    }

    /// As small, with seldom a narrower limit, and most new capabilities
    /// allowed and handed on before the next one is made: long chains.
    pub fn deep() -> Profile {
        Profile {
            narrow: 1,
            twins: 2,
            weights: [1, 1, 2, 1, 1, 1, 1, 14, 30, 8, 30, 12, 8, 6, 1, 6, 10],
            ..Profile::small()
        }
    }

    /// All users, roles, domains, sessions and permissions.
    pub fn wide() -> Profile {
        Profile {
            users: 64,
            roles: 32,
            domains: 8,
            sessions: 64,
            permissions: 32,
            wild: 30,
            narrow: 6,
            twins: 4,
            weights: [4, 4, 12, 3, 8, 3, 2, 20, 18, 8, 20, 24, 12, 8, 3, 6, 12],
        }
    }

    /// As small, with an argument replaced in every fourth request.
    pub fn wild() -> Profile {
        Profile { wild: 250, ..Profile::small() }
    }
}
