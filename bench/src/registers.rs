//! The registers that are measured, made by lines.

use reference::{apply_trusted, parse, Register};

/// What a register holds. Every pass has all its fields but the uses.
#[derive(Clone, Copy)]
pub struct Size {
    pub users: usize,
    pub roles: usize,
    pub passes: usize,
    pub sessions: usize,
}

/// The creation tree: pass 0 comes from role 1, and every other pass from the
/// one before it, or from pass 0.
#[derive(Clone, Copy, PartialEq)]
pub enum Shape {
    Deep,
    Wide,
}

/// What a small shop has.
pub const TYPICAL: Size = Size { users: 10, roles: 4, passes: 20, sessions: 8 };
pub const HALF: Size = Size { users: 32, roles: 16, passes: 128, sessions: 32 };
pub const FULL: Size = Size { users: 64, roles: 32, passes: 256, sessions: 64 };

/// A register that differs from others of this kind only in its passes.
pub fn with_passes(passes: usize) -> Size {
    Size { users: 32, roles: 16, passes, sessions: 16 }
}

/// The line that creates pass `number`.
pub fn creation(number: usize, shape: Shape) -> String {
    let origin = match (number, shape) {
        (0, _) => "role 1".to_string(),
        (_, Shape::Deep) => format!("pass {}", number - 1),
        (_, Shape::Wide) => "pass 0".to_string(),
    };
    format!("create 3 {origin} 9 0 0 5 100 60000 60000 60000 16777215 65535 65535")
}

/// The register of this size.
pub fn grown(size: Size, shape: Shape) -> Register {
    let mut register = Register::fresh();
    for line in lines(size, shape) {
        let request = parse(line.as_bytes()).expect("a request");
        apply_trusted(&mut register, &request).expect("an accepted line");
    }
    register
}

fn lines(size: Size, shape: Shape) -> Vec<String> {
    let mut lines = vec!["clock 10".to_string()];
    lines.extend((0..size.users).map(|user| format!("enrol {user} 0")));
    for role in 0..size.roles {
        lines.push(format!("found {role} 0 16777215 65535 65535"));
        lines.push(format!("grant {role} 0"));
        lines.push(format!("grant {role} 4"));
        lines.push(format!("appoint 3 {role}"));
    }
    for pass in 0..size.passes {
        lines.push(creation(pass, shape));
        lines.push(format!("allow 3 {pass} 17"));
        lines.push(format!("lend 3 {pass} 2"));
        lines.push(format!("hand 3 3 {pass}"));
    }
    for session in 0..size.sessions {
        let pass = session % size.passes;
        lines.push(format!("open {session} 3 pass {pass} 9 0 0"));
    }
    lines
}
