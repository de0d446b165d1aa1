//! The tables of the entry point.

use crate::cases::{calls, growth, images, Case, GROWTH};
use crate::contender::{Call, Contender, Copy, Independent, Load, Proved, TestedOnce};
use crate::meter::{Measured, Meter};
use crate::shop::Shop;
use crate::table::{count, head, micros, row, times};

/// SQLite's check on the full register, and its instructions.
pub struct ShopCheck {
    pub contender: Box<dyn Contender>,
    pub count: Option<f64>,
}

/// The contenders of a call: proved, independent, tested once, copy, SQLite.
fn contenders(case: &Case) -> Vec<Box<dyn Contender>> {
    let call = || Call::new(case);
    let mut all: Vec<Box<dyn Contender>> =
        vec![Box::new(Proved(call())), Box::new(Independent(call())), Box::new(TestedOnce(call()))];
    if let Some(shop) = Shop::new(case) {
        all.push(Box::new(shop));
    }
    let answer = all[0].call();
    for contender in &mut all {
        assert_eq!(contender.call(), answer, "{}: all answer alike", case.name);
        contender.undo();
    }
    all.insert(3, Box::new(Copy(call())));
    all
}

/// Prints the tables, and gives SQLite's check for the table of journals.
pub fn print_all(meter: &mut Meter) -> Option<ShopCheck> {
    let measured: Vec<(Case, bool, Measured)> = calls()
        .into_iter()
        .map(|case| {
            let all = contenders(&case);
            let with_shop = all.len() > 4;
            (case, with_shop, meter.measure(all))
        })
        .collect();
    print_calls(&measured);
    let check = print_shop(&measured);
    print_images(meter);
    print_growth(meter);
    check
}

fn print_calls(measured: &[(Case, bool, Measured)]) {
    head(
        "One call: load, one line, save",
        &[
            "register: line",
            "image bytes",
            "µs",
            "instructions",
            "time / reference",
            "instructions / reference",
            "time / tested once",
            "instructions / tested once",
            "time / copy",
        ],
    );
    for (case, _, measured) in measured {
        row(&[
            case.name.clone(),
            case.image.len().to_string(),
            micros(measured.time(0)),
            count(measured.count(0)),
            times(measured.time_ratio(0, 1)),
            times(measured.count_ratio(0, 1)),
            times(measured.time_ratio(0, 2)),
            times(measured.count_ratio(0, 2)),
            times(measured.time_ratio(0, 3)),
        ]);
    }
}

fn print_shop(measured: &[(Case, bool, Measured)]) -> Option<ShopCheck> {
    if measured.iter().all(|(_, with_shop, _)| !with_shop) {
        return None;
    }
    head(
        "The same calls on SQLite tables",
        &["register: line", "SQLite µs", "instructions", "time / SQLite", "instructions / SQLite"],
    );
    let mut check = None;
    for (case, _, measured) in measured.iter().filter(|(_, with_shop, _)| *with_shop) {
        row(&[
            case.name.clone(),
            micros(measured.time(4)),
            count(measured.count(4)),
            times(measured.time_ratio(0, 4)),
            times(measured.count_ratio(0, 4)),
        ]);
        if case.line.starts_with(b"check") {
            let count = measured.count(4);
            check = Shop::new(case).map(|shop| ShopCheck { contender: Box::new(shop), count });
        }
    }
    check
}

fn print_images(meter: &mut Meter) {
    let measured = images().into_iter().map(|[load, both]| {
        let all: Vec<Box<dyn Contender>> = vec![
            Box::new(Proved(Call::new(&load))),
            Box::new(Independent(Call::new(&load))),
            Box::new(Load(Call::new(&load))),
            Box::new(Proved(Call::new(&both))),
            Box::new(Independent(Call::new(&both))),
        ];
        (load.name, meter.measure(all))
    });
    let measured: Vec<(String, Measured)> = measured.collect();
    head(
        "Load: a call with a malformed line",
        &[
            "register",
            "µs",
            "instructions",
            "time / reference's load",
            "instructions / reference's load",
            "time / reference's call",
            "instructions / reference's call",
        ],
    );
    measured.iter().for_each(|(name, measured)| print_load(name, measured));
    head(
        "Save: a call that changes nothing, less the load",
        &["register", "µs", "instructions", "time / reference", "instructions / reference"],
    );
    measured.iter().for_each(|(name, measured)| print_save(name, measured));
}

fn print_load(name: &str, measured: &Measured) {
    row(&[
        name.to_string(),
        micros(measured.time(0)),
        count(measured.count(0)),
        times(measured.time_ratio(0, 2)),
        times(measured.count_ratio(0, 2)),
        times(measured.time_ratio(0, 1)),
        times(measured.count_ratio(0, 1)),
    ]);
}

fn print_save(name: &str, measured: &Measured) {
    let save = |both, load| measured.time(both) - measured.time(load);
    let save_count = |both, load| Some(measured.count(both)? - measured.count(load)?);
    let counts = save_count(3, 0).zip(save_count(4, 1));
    row(&[
        name.to_string(),
        micros(save(3, 0)),
        count(save_count(3, 0)),
        times(save(3, 0) / save(4, 1)),
        times(counts.map(|(proved, independent)| proved / independent)),
    ]);
}

fn print_growth(meter: &mut Meter) {
    let names = ["check", "open", "create", "revoke, deep", "revoke, wide"];
    let mut columns = vec!["call".to_string(), "of".to_string(), "at 16".to_string()];
    columns.extend(GROWTH[1..].iter().map(|passes| format!("{passes} / 16")));
    let columns: Vec<&str> = columns.iter().map(String::as_str).collect();
    head("Growth with the number of passes", &columns);
    for (name, cases) in names.into_iter().zip(growth()) {
        let measured = meter.measure(cases.iter().flat_map(pair).collect());
        for (at, who) in ["proved", "reference"].into_iter().enumerate() {
            print_quotients(name, who, at, &measured);
        }
    }
}

fn pair(case: &Case) -> [Box<dyn Contender>; 2] {
    [Box::new(Proved(Call::new(case))), Box::new(Independent(Call::new(case)))]
}

/// Times and counts of every second contender from `first` on, over those of
/// the first of them.
fn print_quotients(name: &str, who: &str, first: usize, measured: &Measured) {
    let others = || (1..GROWTH.len()).map(|step| first + 2 * step);
    let mut line = vec![name.to_string(), format!("{who}, µs"), micros(measured.time(first))];
    line.extend(others().map(|at| times(measured.time_ratio(at, first))));
    row(&line);
    let counted = count(measured.count(first));
    let mut line = vec![name.to_string(), format!("{who}, instructions"), counted];
    line.extend(others().map(|at| times(measured.count_ratio(at, first))));
    row(&line);
}
