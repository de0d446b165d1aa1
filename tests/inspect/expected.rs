//! What inspect has to print, from the independent implementation's own register: `expected text|dot IMAGE..` prints it of
//! each image in turn. A program over reference/, built by tests/inspect.sh.
use reference::register::{has, DOMAINS, ROLES, SESSIONS, USERS};
use reference::{load, Origin, Register};

/// A block of lines, each with its level below the block's first line.
type Block = Vec<(usize, String)>;

/// The numbers of a mask's items, in words: runs of items as ranges.
fn items(mask: impl Into<u64>) -> String {
    let mask = mask.into();
    let mut runs: Vec<(u8, u8)> = Vec::new();
    for item in (0..64).filter(|&item| has(mask, item)) {
        match runs.last_mut() {
            Some(run) if run.1 + 1 == item => run.1 = item,
            _ => runs.push((item, item)),
        }
    }
    let word = |&(first, last): &(u8, u8)| match first == last {
        true => first.to_string(),
        false => format!("{first}-{last}"),
    };
    match runs.is_empty() {
        true => "none".to_string(),
        false => runs.iter().map(word).collect::<Vec<_>>().join(" "),
    }
}

fn name(origin: Origin) -> String {
    match origin {
        Origin::Role(number) => format!("role {number}"),
        Origin::Capability(number) => format!("capability {number}"),
    }
}

fn masks(hours: u32, places: u16, devices: u16) -> String {
    format!("hours {}, places {}, devices {}", items(hours), items(places), items(devices))
}

fn domains(register: &Register) -> Vec<String> {
    let of = |domain: usize| {
        (0..USERS)
            .filter(|&user| {
                register.has_user(user as u8) && usize::from(register.domains[user]) == domain
            })
            .fold(0u64, |mask, user| mask | 1 << user)
    };
    let there = (0..DOMAINS).filter(|&domain| of(domain) != 0);
    there.map(|domain| format!("domain {domain}: users {}", items(of(domain)))).collect()
}

fn role(register: &Register, number: u8) -> Block {
    let role = register.role(number);
    vec![
        (0, format!("role {number}: domain {}", role.domain)),
        (1, format!("permissions {}", items(role.permissions))),
        (1, format!("appointed users {}", items(role.appointed))),
        (1, masks(role.hours, role.places, role.devices)),
    ]
}

fn capability(register: &Register, number: u8) -> Block {
    let c = register.capability(number);
    let mark = if c.revoked { ", revoked" } else { "" };
    let uses = format!("uses {} of {}", c.uses, c.use_limit);
    let creations = format!("creations {} of {}", c.creations, c.creation_limit);
    let hops = format!("hops {} of {}", c.hops, c.hop_limit);
    vec![
        (0, format!("capability {number}: created by user {}{mark}", c.creator)),
        (1, format!("own permissions {}", items(c.permissions))),
        (1, format!("lent roles {}", items(c.lent))),
        (1, format!("holders {}", items(c.holders))),
        (1, format!("life {} to {}", c.first, c.last)),
        (1, format!("{uses}, {creations}, {hops}")),
        (1, masks(c.hours, c.places, c.devices)),
    ]
}

fn session(register: &Register, number: u8) -> String {
    let s = register.sessions[usize::from(number)];
    let on = name(s.on);
    format!(
        "session {number}: user {} on {on}, hour {}, place {}, device {}",
        s.user, s.hour, s.place, s.device
    )
}

fn roles(register: &Register) -> Vec<u8> {
    (0..ROLES as u8).filter(|&number| register.has_role(number)).collect()
}

fn sessions(register: &Register) -> Vec<u8> {
    (0..SESSIONS as u8).filter(|&number| register.sessions[usize::from(number)].active).collect()
}

fn below(register: &Register, origin: Origin, level: usize, out: &mut Block) {
    for number in register.numbers().filter(|&number| register.capability(number).origin == origin)
    {
        out.extend(
            capability(register, number).into_iter().map(|(deeper, line)| (level + deeper, line)),
        );
        below(register, Origin::Capability(number), level + 1, out);
    }
}

fn text(register: &Register) -> String {
    let mut out: Block = vec![(0, format!("clock {}", register.clock)), (0, String::new())];
    out.push((0, format!("users ({})", register.enrolled.count_ones())));
    out.extend(domains(register).into_iter().map(|line| (1, line)));
    out.push((
        0,
        format!("\nroles ({}), capabilities ({})", roles(register).len(), register.count),
    ));
    for number in roles(register) {
        out.extend(role(register, number).into_iter().map(|(deeper, line)| (1 + deeper, line)));
        below(register, Origin::Role(number), 2, &mut out);
    }
    out.push((0, format!("\nsessions ({})", sessions(register).len())));
    out.extend(sessions(register).into_iter().map(|number| (1, session(register, number))));
    out.iter().map(|(level, line)| format!("{}{line}\n", "  ".repeat(*level))).collect()
}

fn node(name: &str, lines: &[String], attributes: &str) -> String {
    let label: String = lines.iter().map(|line| format!("{line}\\l")).collect();
    format!("  \"{name}\" [label=\"{label}\"{attributes}];\n")
}

fn lines(block: Block) -> Vec<String> {
    block.into_iter().map(|(_, line)| line).collect()
}

fn dot(register: &Register) -> String {
    let mut label = vec![format!("clock {}", register.clock)];
    label.extend(domains(register));
    let label: String = label.iter().map(|line| format!("{line}\\l")).collect();
    let mut out = format!("digraph register {{\n  graph [label=\"{label}\", labelloc=t, labeljust=l];\n  node [shape=box];\n");
    for number in roles(register) {
        out += &node(&name(Origin::Role(number)), &lines(role(register, number)), ", style=bold");
    }
    for number in register.numbers() {
        let c = register.capability(number);
        let (from, to) = (name(c.origin), name(Origin::Capability(number)));
        let style = if c.revoked { ", style=dashed" } else { "" };
        out += &node(&to, &lines(capability(register, number)), style);
        out += &format!("  \"{from}\" -> \"{to}\";\n");
    }
    for number in sessions(register) {
        let (from, to) =
            (name(register.sessions[usize::from(number)].on), format!("session {number}"));
        out += &node(&to, &[session(register, number)], ", shape=ellipse");
        out += &format!("  \"{from}\" -> \"{to}\" [style=dotted];\n");
    }
    out + "}\n"
}

fn main() {
    let arguments: Vec<String> = std::env::args().skip(1).collect();
    let print = match arguments[0].as_str() {
        "text" => text,
        "dot" => dot,
        other => panic!("{other}: text or dot"),
    };
    for path in &arguments[1..] {
        let bytes = std::fs::read(path).expect("an image");
        let register =
            load(&bytes).unwrap_or_else(|refusal| panic!("{path}: refused with {refusal}"));
        std::print!("{}", print(&register));
    }
}
