//! Images of random registers that keep the rules: `random COUNT FOLDER` writes them to FOLDER/0.image and so on. A program
//! over reference/, built by tests/inspect.sh; the same count gives the same images everywhere.
use reference::generate::register;
use reference::random::Random;
use std::path::Path;

fn main() {
    let arguments: Vec<String> = std::env::args().skip(1).collect();
    let count: u64 = arguments[0].parse().expect("a count");
    let mut random = Random::new(31);
    for number in 0..count {
        let image = reference::encode(&register(&mut random));
        std::fs::write(Path::new(&arguments[1]).join(format!("{number}.image")), image)
            .expect("a folder");
    }
}
