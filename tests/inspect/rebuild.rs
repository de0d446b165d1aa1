//! Makes the image again from the text that inspect prints, so nothing is missing from that text: `rebuild < TEXT > IMAGE`.
//! A program over reference/, built by tests/inspect.sh. It stops at a line that it does not know.
use reference::{Capability, Origin, Register, Role, Session};
use std::io::{Read, Write};

/// The register so far; the role or capability whose lines are read; the ones on the way to it, by level.
struct Reading {
    register: Register,
    path: Vec<Origin>,
    counts: Vec<usize>,
}

/// '0 2-4' or 'none' as a mask.
fn mask(items: &str) -> u64 {
    let mut mask = 0;
    for word in items.split(' ').filter(|&word| word != "none") {
        let (first, last) = word.split_once('-').unwrap_or((word, word));
        for item in number(first)..=number(last) {
            mask |= 1 << item;
        }
    }
    mask
}

fn number(word: &str) -> u64 {
    word.parse().unwrap_or_else(|_| panic!("{word}: not a number"))
}

/// What stands after the first of these names and before the next one: 'uses 1 of 2, hops 3 of 4' by ["uses ", ", hops "].
fn parts<'a>(line: &'a str, names: &[&str]) -> Option<Vec<&'a str>> {
    let mut rest = line.strip_prefix(names[0])?;
    let mut found = Vec::new();
    for name in &names[1..] {
        let (part, after) = rest.split_once(name)?;
        found.push(part);
        rest = after;
    }
    found.push(rest);
    Some(found)
}

fn origin(name: &str) -> Origin {
    match name.split_once(' ') {
        Some(("role", word)) => Origin::Role(number(word) as u8),
        Some(("capability", word)) => Origin::Capability(number(word) as u8),
        _ => panic!("{name}: neither role nor capability"),
    }
}

impl Reading {
    /// A line that starts something: the clock, a domain, a role, a capability, a session.
    fn start(&mut self, level: usize, line: &str) -> bool {
        let register = &mut self.register;
        if let Some(p) = parts(line, &["clock "]) {
            register.clock = number(p[0]) as u32;
        } else if let Some(p) = parts(line, &["domain ", ": users "]) {
            register.enrolled |= mask(p[1]);
            let of_it = |user: &usize| mask(p[1]) >> user & 1 == 1;
            (0..64).filter(of_it).for_each(|user| register.domains[user] = number(p[0]) as u8);
        } else if let Some(p) = parts(line, &["role ", ": domain "]) {
            let role = Role { founded: true, domain: number(p[1]) as u8, ..Role::default() };
            register.roles[number(p[0]) as usize] = role;
            self.path = vec![Origin::Role(number(p[0]) as u8)];
        } else if let Some(p) = parts(line, &["capability ", ": created by user "]) {
            let creator = p[1].trim_end_matches(", revoked");
            self.path.truncate(level - 1);
            register.capabilities[number(p[0]) as usize] = Capability {
                origin: *self.path.last().expect("a role above"),
                creator: number(creator) as u8,
                revoked: creator != p[1],
                ..Capability::default()
            };
            register.count += 1;
            self.path.push(Origin::Capability(number(p[0]) as u8));
        } else if let Some(p) =
            parts(line, &["session ", ": user ", " on ", ", hour ", ", place ", ", device "])
        {
            let [user, hour, place, device] =
                [p[1], p[3], p[4], p[5]].map(|word| number(word) as u8);
            let on = origin(p[2]);
            register.sessions[number(p[0]) as usize] =
                Session { active: true, user, on, hour, place, device };
        } else {
            return false;
        }
        true
    }

    /// A line about the role or capability above it.
    fn detail(&mut self, line: &str) -> bool {
        match self.path.last() {
            Some(&Origin::Role(number)) => {
                role_line(&mut self.register.roles[usize::from(number)], line)
            }
            Some(&Origin::Capability(number)) => {
                capability_line(&mut self.register.capabilities[usize::from(number)], line)
            }
            None => false,
        }
    }

    /// A heading with its numbers: they stand in the order users, roles, capabilities, sessions.
    fn heading(&mut self, line: &str) -> bool {
        let names = ["users (", "roles (", "sessions ("];
        let known = names.iter().any(|name| line.starts_with(name));
        let found = line.split(['(', ')']).skip(1).step_by(2).map(|word| number(word) as usize);
        self.counts.extend(found);
        known
    }

    fn counted(&self) -> Vec<usize> {
        let roles = self.register.roles.iter().filter(|role| role.founded).count();
        let sessions = self.register.sessions.iter().filter(|session| session.active).count();
        vec![
            self.register.enrolled.count_ones() as usize,
            roles,
            self.register.count.into(),
            sessions,
        ]
    }
}

fn role_line(role: &mut Role, line: &str) -> bool {
    if let Some(p) = parts(line, &["permissions "]) {
        role.permissions = mask(p[0]) as u32;
    } else if let Some(p) = parts(line, &["appointed users "]) {
        role.appointed = mask(p[0]);
    } else if let Some(p) = parts(line, &["hours ", ", places ", ", devices "]) {
        (role.hours, role.places, role.devices) =
            (mask(p[0]) as u32, mask(p[1]) as u16, mask(p[2]) as u16);
    } else {
        return false;
    }
    true
}

fn capability_line(c: &mut Capability, line: &str) -> bool {
    if let Some(p) = parts(line, &["own permissions "]) {
        c.permissions = mask(p[0]) as u32;
    } else if let Some(p) = parts(line, &["lent roles "]) {
        c.lent = mask(p[0]) as u32;
    } else if let Some(p) = parts(line, &["holders "]) {
        c.holders = mask(p[0]);
    } else if let Some(p) = parts(line, &["life ", " to "]) {
        (c.first, c.last) = (number(p[0]) as u32, number(p[1]) as u32);
    } else if let Some(p) =
        parts(line, &["uses ", " of ", ", creations ", " of ", ", hops ", " of "])
    {
        let n: Vec<u16> = p.iter().map(|word| number(word) as u16).collect();
        (c.uses, c.use_limit, c.creations) = (n[0], n[1], n[2]);
        (c.creation_limit, c.hops, c.hop_limit) = (n[3], n[4], n[5]);
    } else if let Some(p) = parts(line, &["hours ", ", places ", ", devices "]) {
        (c.hours, c.places, c.devices) = (mask(p[0]) as u32, mask(p[1]) as u16, mask(p[2]) as u16);
    } else {
        return false;
    }
    true
}

fn main() {
    let mut text = String::new();
    std::io::stdin().read_to_string(&mut text).expect("text");
    let mut reading = Reading { register: Register::fresh(), path: Vec::new(), counts: Vec::new() };
    for line in text.lines().filter(|line| !line.is_empty()) {
        let words = line.trim_start_matches(' ');
        let level = (line.len() - words.len()) / 2;
        let known = reading.start(level, words) || reading.detail(words) || reading.heading(words);
        assert!(known, "unknown line: {line}");
    }
    assert_eq!(reading.counts, reading.counted(), "the numbers in the headings");
    std::io::stdout().write_all(&reference::encode(&reading.register)).expect("output");
}
