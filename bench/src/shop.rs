//! The register as SQLite tables. The statements are in `shop.c`; here the
//! tables are filled, and the calls handed over.

use crate::cases::Case;
use crate::contender::Contender;
use reference::{parse, Capability, Creation, Named, Opening, Origin, Register, Request};
use std::ffi::{c_char, c_int, CString};
use std::fmt::Write;

const TABLES: &str = "
    CREATE TABLE clock (tick INTEGER);
    CREATE TABLE user (id INTEGER PRIMARY KEY, domain INTEGER);
    CREATE TABLE role (id INTEGER PRIMARY KEY, domain INTEGER, permissions INTEGER,
        hours INTEGER, places INTEGER, devices INTEGER);
    CREATE TABLE appointed (role INTEGER, user INTEGER, PRIMARY KEY (role, user)) WITHOUT ROWID;
    CREATE TABLE pass (id INTEGER PRIMARY KEY, role INTEGER, origin INTEGER, creator INTEGER,
        permissions INTEGER, first INTEGER, last INTEGER, use_limit INTEGER, uses INTEGER,
        creation_limit INTEGER, creations INTEGER, hop_limit INTEGER,
        hours INTEGER, places INTEGER, devices INTEGER, revoked INTEGER);
    CREATE INDEX pass_origin ON pass (origin);
    CREATE TABLE lent (pass INTEGER, role INTEGER, PRIMARY KEY (pass, role)) WITHOUT ROWID;
    CREATE TABLE holder (pass INTEGER, user INTEGER, PRIMARY KEY (pass, user)) WITHOUT ROWID;
    CREATE TABLE session (id INTEGER PRIMARY KEY, user INTEGER, role INTEGER, pass INTEGER,
        hour INTEGER, place INTEGER, device INTEGER);";

#[repr(C)]
struct Base {
    _opaque: [u8; 0],
}

type Function = unsafe extern "C" fn(*mut Base, *const i64) -> i64;

#[link(name = "shop", kind = "static")]
#[link(name = "sqlite3")]
extern "C" {
    fn shop_open(text: *const c_char) -> *mut Base;
    fn shop_run(shop: *mut Base, text: *const c_char) -> c_int;
    fn shop_check(shop: *mut Base, arguments: *const i64) -> i64;
    fn shop_enter(shop: *mut Base, arguments: *const i64) -> i64;
    fn shop_create(shop: *mut Base, arguments: *const i64) -> i64;
    fn shop_revoke(shop: *mut Base, arguments: *const i64) -> i64;
}

/// One call on an open register.
pub struct Shop {
    base: *mut Base,
    function: Function,
    arguments: Vec<i64>,
    undo: CString,
}

impl Shop {
    /// None if the line's call is not among the four.
    pub fn new(case: &Case) -> Option<Shop> {
        let (function, arguments, undo) = call(&parse(case.line.strip_suffix(b"\n")?)?)?;
        let text = CString::new(rows(&case.register)).expect("no zero byte");
        // The text ends with a zero byte, and the function aborts on failure.
        let base = unsafe { shop_open(text.as_ptr()) };
        let undo = CString::new(undo).expect("no zero byte");
        Some(Shop { base, function, arguments, undo })
    }
}

impl Contender for Shop {
    fn call(&mut self) -> i64 {
        // The arguments are as many as the function takes.
        unsafe { (self.function)(self.base, self.arguments.as_ptr()) }
    }

    fn undo(&mut self) {
        let failed = unsafe { shop_run(self.base, self.undo.as_ptr()) };
        assert_eq!(failed, 0, "the call is taken back");
    }

    fn leaves_a_change(&self) -> bool {
        !self.undo.is_empty()
    }
}

/// The function, its arguments, and what takes the call back.
fn call(request: &Request) -> Option<(Function, Vec<i64>, String)> {
    match *request {
        Request::Check(_) => {
            let mut copy = *request;
            let arguments = copy.arguments_mut().into_iter().map(|&mut number| number as i64);
            Some((shop_check, arguments.collect(), String::new()))
        }
        Request::Open(Opening { session, on: Named::Capability(pass), .. }) => {
            let mut copy = *request;
            let arguments = copy.arguments_mut().into_iter().map(|&mut number| number as i64);
            let undo = format!(
                "DELETE FROM session WHERE id = {session};
                 UPDATE pass SET uses = uses - 1 WHERE id = {pass}"
            );
            Some((shop_enter, arguments.collect(), undo))
        }
        Request::Create(Creation { origin: Named::Capability(origin), .. }) => {
            let mut copy = *request;
            let arguments = copy.arguments_mut().into_iter().map(|&mut number| number as i64);
            let undo = format!(
                "DELETE FROM pass WHERE id = (SELECT max(id) FROM pass);
                 UPDATE pass SET creations = creations - 1 WHERE id = {origin}"
            );
            Some((shop_create, arguments.collect(), undo))
        }
        Request::Revoke { user, capability } => {
            let undo = "UPDATE pass SET revoked = 0".to_string();
            Some((shop_revoke, vec![user as i64, capability as i64], undo))
        }
        _ => None,
    }
}

/// The text that makes the tables and fills them.
fn rows(register: &Register) -> String {
    let mut text = format!("{TABLES} BEGIN; INSERT INTO clock VALUES ({});", register.clock);
    for user in (0..64).filter(|&user| register.has_user(user)) {
        insert(&mut text, "user", &[user.into(), register.domains[usize::from(user)].into()]);
    }
    for (number, role) in register.roles.iter().enumerate().filter(|(_, role)| role.founded) {
        let masks = [role.hours.into(), role.places.into(), role.devices.into()];
        let own = [number as u64, role.domain.into(), role.permissions.into()];
        insert(&mut text, "role", &[own, masks].concat());
        insert_pairs(&mut text, "appointed", number, role.appointed);
    }
    for number in register.numbers() {
        insert_pass(&mut text, number.into(), register.capability(number));
    }
    for (number, session) in register.sessions.iter().enumerate().filter(|(_, open)| open.active) {
        let context = [session.hour, session.place, session.device].map(|part| part.to_string());
        let (on, context) = (columns(session.on), context.join(","));
        write!(text, "INSERT INTO session VALUES ({number},{},{on},{context});", session.user)
            .expect("a string takes all");
    }
    text + "COMMIT;"
}

fn insert_pass(text: &mut String, number: usize, pass: &Capability) {
    let numbers: [u64; 12] = [
        pass.permissions.into(),
        pass.first.into(),
        pass.last.into(),
        pass.use_limit.into(),
        pass.uses.into(),
        pass.creation_limit.into(),
        pass.creations.into(),
        pass.hop_limit.into(),
        pass.hours.into(),
        pass.places.into(),
        pass.devices.into(),
        pass.revoked.into(),
    ];
    let (origin, numbers) = (columns(pass.origin), numbers.map(|field| field.to_string()));
    let numbers = numbers.join(",");
    write!(text, "INSERT INTO pass VALUES ({number},{origin},{},{numbers});", pass.creator)
        .expect("a string takes all");
    insert_pairs(text, "lent", number, pass.lent.into());
    insert_pairs(text, "holder", number, pass.holders);
}

/// The columns for a role and for a pass, of which one is empty.
fn columns(origin: Origin) -> String {
    match origin {
        Origin::Role(number) => format!("{number},NULL"),
        Origin::Capability(number) => format!("NULL,{number}"),
    }
}

fn insert_pairs(text: &mut String, table: &str, number: usize, mask: u64) {
    for item in (0..64).filter(|item| mask >> item & 1 == 1) {
        insert(text, table, &[number as u64, item]);
    }
}

fn insert(text: &mut String, table: &str, numbers: &[u64]) {
    let numbers: Vec<String> = numbers.iter().map(u64::to_string).collect();
    write!(text, "INSERT INTO {table} VALUES ({});", numbers.join(","))
        .expect("a string takes all");
}
