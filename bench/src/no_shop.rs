//! Stands for `shop.rs` where SQLite is not installed.

use crate::cases::Case;
use crate::contender::Contender;

pub enum Shop {}

impl Shop {
    pub fn new(_: &Case) -> Option<Shop> {
        None
    }
}

impl Contender for Shop {
    fn call(&mut self) -> i64 {
        match *self {}
    }
}
