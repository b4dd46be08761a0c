//! A volume of letters: each is entered by its date, the list is in order, and
//! a question is whether anything is dated in a year.

use knobstream::{Chronology, Date, DateValue, PageRange, TypeError};

/// The date, the pages and the number of each letter.
const LETTERS: [(&str, &str, u32); 4] = [
    ("1793-01-21", "7-12", 1),
    ("1789-07~", "1-6", 2),
    ("1799-11-09/1799-11-10", "20", 3),
    ("1793", "13-19", 4),
];

fn main() -> Result<(), TypeError> {
    let mut volume = Chronology::new();
    for (date, pages, number) in LETTERS {
        let date: Date = date.parse()?;
        let pages: PageRange = pages.parse()?;
        let days = match date.value {
            DateValue::At(d) => d.days()?,
            DateValue::Between(d, e) => *d.days()?.start()..=*e.days()?.end(),
            DateValue::After(_) | DateValue::Before(_) => continue,
        };
        println!("letter {number}: {date:<22} pages {pages:>6}, days {days:?}");
        volume.add(days, number)?;
    }
    let order: Vec<u32> = volume.iter().map(|entry| entry.id).collect();
    println!("in order: {order:?}");
    for year in ["1790", "1793"] {
        let DateValue::At(d) = year.parse::<Date>()?.value else { continue };
        let found = volume.any_dated(d.days()?)?.found;
        println!("{year}: {}", if found { "something is dated in it" } else { "nothing" });
    }
    Ok(())
}
