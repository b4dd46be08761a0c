//! What each reader says of each argument, with the days that it covers:
//! `cargo run --example show -- 49 2000-02-30 2000-21`.

use knobstream::{Date, DateValue, Datetime, TypeError};

fn main() {
    let texts: Vec<String> = std::env::args().skip(1).collect();
    let texts =
        if texts.is_empty() { ["49", "2000-02-30"].map(String::from).to_vec() } else { texts };
    for text in &texts {
        println!("{text}");
        println!("  {:<10} {}", "ported", told(Date::parse_str(text)));
        println!("  {:<10} {}", "strict", told(Date::parse_strict_str(text)));
        println!("  {:<10} {}", "level one", told(Date::parse_level_one_str(text)));
    }
}

/// The date with its times and its days, or why there is none.
fn told(read: Result<Date, TypeError>) -> String {
    match read {
        Ok(date) => format!("{:<24} {}", date.timed(), days(date.value)),
        Err(error) => error.to_string(),
    }
}

fn days(value: DateValue) -> String {
    let first = |d: Datetime| d.days().map(|days| *days.start());
    let last = |d: Datetime| d.days().map(|days| *days.end());
    let days = match value {
        DateValue::At(d) => first(d).and_then(|a| Ok(format!("days {a} to {}", last(d)?))),
        DateValue::After(d) => first(d).map(|a| format!("days from {a} on")),
        DateValue::Before(d) => last(d).map(|b| format!("days up to {b}")),
        DateValue::Between(d, e) => first(d).and_then(|a| Ok(format!("days {a} to {}", last(e)?))),
    };
    days.unwrap_or_else(|error| error.to_string())
}
