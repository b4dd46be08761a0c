//! Prints frames: a fixed list that covers the rules, or many by a seed.

use std::collections::HashSet;
use std::env;
use std::io::{self, BufWriter, Write};
use std::process::ExitCode;

use oracle::make::{hex, list, normal, one, piece, sized, spread, three, Piece, MONTH_NAMES};
use oracle::{LEVEL, PORTED, STRICT, STRICT_TOO};

const USAGE: &str = "usage: gen list
       gen many N SEED
       gen level N SEED
       gen import N SEED

list   the fixed list; its last line has no line feed
many   N frames by a seed, most of them odd, for comparing
level  N frames by a seed, most of them the level-one reader's
import N frames by a seed as an import file has them, for measuring";

fn main() -> ExitCode {
    let args: Vec<String> = env::args().skip(1).collect();
    let out = &mut BufWriter::with_capacity(1 << 16, io::stdout().lock());
    let result = match args.iter().map(String::as_str).collect::<Vec<_>>().as_slice() {
        ["list"] => fixed(out),
        ["many", n, seed] => match (n.parse(), seed.parse()) {
            (Ok(n), Ok(seed)) => many(n, seed, out),
            _ => return fail(USAGE),
        },
        ["level", n, seed] => match (n.parse(), seed.parse()) {
            (Ok(n), Ok(seed)) => drawn(n, seed, leveled, out),
            _ => return fail(USAGE),
        },
        ["import", n, seed] => match (n.parse(), seed.parse()) {
            (Ok(n), Ok(seed)) => drawn(n, seed, import_line, out),
            _ => return fail(USAGE),
        },
        _ => return fail(USAGE),
    };
    match result.and_then(|()| out.flush()) {
        Ok(()) => ExitCode::SUCCESS,
        Err(e) if e.kind() == io::ErrorKind::BrokenPipe => ExitCode::SUCCESS,
        Err(e) => fail(&format!("gen: {e}")),
    }
}

fn fail(message: &str) -> ExitCode {
    eprintln!("{message}");
    ExitCode::from(2)
}

// The fixed list.

/// Date fields: the examples, and what they leave out.
#[rustfmt::skip]
const DATES: &[&str] = &[
    // The worked examples of docs/RULES.md.
    "49?", "49", "50", "0049", "-12", "2000-02-29", "1900-02-29", "../..", "19XX/2005",
    "2000-02-XX",
    // Places as the Rust gives them.
    " 123", "2000.1", "2000-  13", "2000- -01", "2000-02- 30", "2000-01-01q",
    "2000-01-01T10:20:30é", "1XXX", "2000X", "2000-XX q",
    // What comes before what, whole runs, the order of panics.
    "2000/ ?", "2000/.. ?", "2000/ ..", "2000-01-01T10:20:30Zy", "2000-01-01T10:20:30Zx",
    "19XXX", "2000-XX-XXX", "2000-02-XXX", "2000-01-01T10:20:30+02:003", "½/q", "q/½",
    // Marks and trimming.
    "", " ", "?", "~", "%", "2000?", "2000~", "2000%", "2000 ?", "2000? ", "2000?\u{a0}",
    "2000??", "2000?~", "2000~?", "2000%%", "2000?/2001", "2000/2001?", "2000/2001~",
    "2000/2001%", "19XX?", "2000-XX~", "2000-02-XX%", "19XX ?", "2000-XX ?", "2000-02-XX ?",
    "2000/..?", "2000/..~", "2000/..%", "../2000?", "../2000~", "../2000%", "19XX~", "19XX%",
    "? 2000", "2000\u{85}", " 2000", "\u{a0}2000\u{85}-01", "2000\t-\t01", "/?", "../..?",
    // Halves.
    "/", "//", "/..", "../", " / ", "../ ", " /..", "...", "../...", "/2000", "2000/",
    "2000/..", "../2000", " ../2000", "2000/.. ", "2000 / 2001", "2000/2001/2002", "2001/2000",
    "49/50", "-12/12", "2000-01/2000-02", "2000-13/q", "2000/2000-13", "2000/2000-1-32",
    "2000-02-30/2000", "2000/2001-02-29", "é/2000", "2000/é", "é/q", "ß/123", "ÿ/123",
    "2000-01-01T10/2000-01-01T11:30", "2000-01-01T10:20:30Z/2001",
    "2000-01-01T10:20:30Zß/123", "2000-01-01T10:20:30+01:00é/q", "½/½", "2000/½", "½/..",
    "../½", "123/½", "½/123",
    // Years.
    "0", "00", "000", "0000", "00000", "9999", "99", "-99", "+99", "-49", "-50", "-51", "+49",
    "+50", "-0000", "-2000", "+2000", "- 2000", "+ 2000", "--2000", "+-2000", " - 12", "1", "12",
    "123", "12345", "1234567890", "+", "-", "- ", "2000 ", "20 00", "2000 01", "½", "1½", "½1",
    "1½2", "½½", "12½", "²", "1²", "²²", "-½", "+ ½", "½½½", "1½2-01", "2000½",
    // Months and days.
    "2000-", "2000--", "2000-1", "2000-01", "2000-00", "2000-0", "2000-12", "2000-13", "2000-99",
    "2000-001", "2000-123", "2000-½", "2000-²", "2000-1½", "2000---01", "2000 - 01", "2000- 01",
    "2000 -01", "2000-01 ", "2000-01-", "2000-01--", "2000-01-1", "2000-01-01", "2000-01-00",
    "2000-01-31", "2000-01-32", "2000-01-99", "2000-01-001", "2000-01-½", "2000-01-1½",
    "2000 - 01 - 01 ", "2000-01.01", "2000-01 01", "2000-1-1", "49-1-1", "-12-1-1", "2000-q",
    "2000-01-q", "2000-x1", "2000-+1", "2000-01-+1", "2000-02-30", "2000-04-31", "2000/01/01",
    // Times.
    "2000-01-01T", "2000-01-01T1", "2000-01-01t10", "2000-01-01 T 10", "2000-01-01T0",
    "2000-01-01T00", "2000-01-01T23", "2000-01-01T24", "2000-01-01T99", "2000-01-01T 24",
    "2000-01-01T001", "2000-01-01T½", "2000-01-01T-1", "2000-01-01T10 ", "2000-01-01T10:",
    "2000-01-01T10:2", "2000-01-01T10:59", "2000-01-01T10:60", "2000-01-01T10: 60",
    "2000-01-01T10:020", "2000-01-01T10:½", "2000-01-01T10 : 20 : 30 Z", "2000-01-01T10:20:",
    "2000-01-01T10:20:3", "2000-01-01T10:20:59", "2000-01-01T10:20:60", "2000-01-01T10:20:030",
    "2000-01-01T10:20:½", "2000-01-01T10.20", "2000-01-01T10:20.30", "2000-01-01T10Z",
    "2000-01-01T10:20Z", "2000-01-01T10+02", "2000-01-01T10:20+02", "2000-01-01T10:20:30Z",
    "2000-01-01T10:20:30z", "2000-01-01T10:20:30 Z", "2000-01-01T10:20:30Zq",
    "2000-01-01T10:20:30Z?", "2000-01-01T10:20:30Z ?", "2000-01-01T10:20:30Zq/..",
    "2000-01-01T10:20:30+", "2000-01-01T10:20:30+2", "2000-01-01T10:20:30+02",
    "2000-01-01T10:20:30+02 ", "2000-01-01T10:20:30+23", "2000-01-01T10:20:30+24",
    "2000-01-01T10:20:30+002", "2000-01-01T10:20:30+½", "2000-01-01T10:20:30+02:",
    "2000-01-01T10:20:30+02:3", "2000-01-01T10:20:30+02:30", "2000-01-01T10:20:30-02:30",
    "2000-01-01T10:20:30+02:59", "2000-01-01T10:20:30+02:60", "2000-01-01T10:20:30+02:½",
    "2000-01-01T10:20:30+00:00", "2000-01-01T10:20:30-00:00", "2000-01-01T10:20:30+02:30q",
    "2000-01-01T10:20:30 - 02 : 30 q", "2000-01-01T10:20:30+0230", "2000-01-01T10:20:30+02q",
    "2000-01-01T10:20:30q", "2000-01-01T10:20:30.5", "2000-01-01T10:20:30ÿ",
    "2000-01-01T10:20:30ß", "2000-01-01T10:20:30µ", "2000-01-01T10:20:30µ/q",
    "2000-01-01Tq", "2000-01-01é", "2000-01-01T10é", "2000-01T10", "2000T10",
    // X ranges.
    "X", "x", "XX", "XXXX", "XXXXX", "1X", "1XX", "1XXX", "19X", "19XX", "19xx", "19Xx",
    "19XXXX", "199X", "199XX", "1999X", "19999X", "12345-XX", "123456X", " 19XX", "\u{a0}19XX",
    "-19XX", "+19XX", "- 19XX", "19XX-01", "19XXq", "199X-12-31", "19 XX", "½X", "½XX", "19½X",
    "½½XX", "0000-XX", "00XX", "99XX", "999X", "2000-X", "2000-XX", "2000-XXX", "2000-XXXX",
    "2000-xx", "2000 - XX", "2000--XX", "2000XX", "2000 XX", "2000-XX ", "2000-XX-", "2000-XX-X",
    "2000-XX-XX", "2000-XX-XXXX", "2000-XX--XX", "2000-XX - XX", "2000-XX-XX-XX", "2000-XX-XXq",
    "2000-XX-XX q", "2000-XX-XX/q", "2000-XX-01", "2000-XX/2001", "2000-XX 01", "2000-XXé",
    "2000-X1", "2000-1X", "2000-0XX", "2000-00-XX", "2000-01-XX", "2000-1-XX", "2000-001-XX",
    "2000-12-XX", "2000-13-XX", "2000- 13 -XX", "2000-99-XX", "2000-01-XXX", "2000-01-X",
    "2000-01-X1", "2000-01-1X", "2000-01-XX ", "2000-01-XX q", "2000-01-XX-", "2000-01-XX/2001",
    "2000-01 - XX", "2000-01XX", "2000-01 XX", "2000-01-01X", "2000-½-XX", "2000.XX", "2000/20XX",
    "20XX/q", "../19XX", "19XX/..", "2000-01-01T10:20:30X", "200½X", "0001-XX",
    // Upper case that changes letters; the typesetter's characters, and some that are not admitted.
    "ß", "µ", "ÿ", "é", "\u{a0}", "\u{85}", "\u{ad}", "2000−01", "2000\u{2013}01", "2000\u{2009}",
    "\u{2003}2000", "2000\u{2028}-01", "19XX\u{2009}", "2000/\u{2009}", "2000\u{200b}",
    "2000\u{2007}-\u{205f}01\u{206f}", "\u{2013}2000", "2000\u{2070}", "2000\u{1fff}",
    // Math and verbatim signs are characters like others.
    "$2000$", "{2000}", "2000$", "\\2000", "2000,", "2000;", "\u{0}", "2000\u{0}", "\u{7f}",
];

/// Year fields.
#[rustfmt::skip]
const YEARS: &[&str] = &[
    "49", "1000 BC", "0 AD", "- 5", "5 ADx", "-5 BCx", "5 AD,", "5 AD ", "5 BC ", "5 ", "x", "",
    " ", "5", "05", "005", "0005", "00005", "9999", "12345", "1234567890123456789", "-5", "+5",
    "-0", "+0", "0", "00", "0000", "-0000", "-9999", "+9999", "--5", "+-5", "-", "+", "- ", "- x",
    "- 12345", "-12345", "+ 5", "-\u{a0}5", "- 0", "- 5 AD", "- 5 ADx", "- 5 BCx", "- AD",
    "5AD", "5 CE", "5CE", "5BC", "5 BCE", "5BCE", "5 BCEE", "5 BCx", "5 BCEx", "5 BC5", "5 BC½",
    "5 BCª", "5 BC×", "5 BC é", "5 BCé", "5 BC,x", "5 BC AD", "5 BC\u{a0}", "5 BC\u{85}", "5 BCE ",
    "5 BC E", "5 B", "5 BE", "5 A", "5 ad", "5 bc", "5 Ad", "5 C", "5 CE ", "5 CEx", "5 CE5",
    "5 CEé", "5 CE²", "5 CE.", "5 ADAD", "5 AD AD", "5\u{a0}AD", "5\u{85}BC", "5\tAD", "5-",
    "5-01", "5 01", "5 x", "5é", "5½", "½", "½5", "²", "-½", "- ½", "5²", "0 BC", "0 BCE", "0 CE",
    "00 AD", "0000 BC", "-0 AD", "+0 BC", "0 ADx", "0 BCx", "-5 AD", "+5 CE", "-5 BC", "+5 BCE",
    "-0 BCx", "+5 BC x", "1 BC", "2 BC", "9999 BC", "9999 AD", "10000 BC", "10000 AD", "1 AD",
    " 5", "  5 AD", "\u{a0}-5", " - 5", " x", " 12345", "  0 AD", " -5 AD", "2000?", "2000/2001",
    "19XX", "2000-01-01", "AD 5", "$5$", "5$", "5 AD$", "5 BC$", "5\u{2009}BC", "5 BC\u{2013}",
    "-\u{2009}5", "5 BC\u{200b}", "5 ADÿ", "5 BCß", "5 BCµ", "5 BC÷",
];

/// Month fields, with and without a day field.
#[rustfmt::skip]
const MONTHS: &[&str] = &[
    "", " ", "0", "00", "1", "01", "001", "9", "09", "10", "12", "13", "31", "99", "100", "999",
    "1000000", "-", "--", "-4", "-0", "-32", "-256", "+1", " 7", "7 ", "\u{a0}7", "7\u{a0}",
    "7\u{a0}4", "7-4", "7 4", "7,4", "7.4", "07-04", "13-4", "1-2-3", "0-4", "123-4", "123 4",
    "123jul", "123jul-4", "123 jul", "123", "1jul", "12jul-4", "½", "²", "½4", "1½", "½1",
    "½½", "½½jul", "1½jul-4", "²³¹", "1²", "12½", "jul½", "jul-½", "jul-4½", "jul", "JUL", "Jul",
    "jUl", "july", "JULY", "julx", "ju", "j", "julé", "jul-", "jul--", "jul\u{a0}", "jul ",
    "jul\u{85}", "jul\t", "jul,4", "jul-32", "jul-31", "jul-0", "jul-00", "jul-1", "jul-01",
    "jul-031", "jul-0000031", "jul-255", "jul-256", "jul-0256", "jul-1000", "jul-99999999999",
    "jul4", "jul 4", "jul 32", "jul  4", "jul 256", "jul4,", "jul 4,", "jul\u{a0}4", "jul\u{a0}4,",
    "jul -4", "jul \u{a0}4", "jul\u{a0} 4", "jul\u{a0} -4", "jul\u{a0}-\u{a0}4", "jul- 4",
    "jul-\u{a0}-4", "jul~4", "jul-x", "jul-4x", "jul-4-5", "jul\u{a0}x", "jul x", "jul-+4", "jul - ",
    "jul -", " jul", " jul ", " jul-4 ", "\u{a0}jul", "sep", "sept", "SEPT", "Sept", "september",
    "septe", "febr", "feb", "february", "mar", "march", "apr", "april", "may", "jun", "june",
    "aug", "august", "oct", "october", "nov", "november", "dec", "december", "jan", "january",
    "janu", "marc", "novem", "thermidor", "feb-30", "feb-29", "feb-31", "x", "é", "é-4", "xyz-4",
    "xyz 4", "xyz", "spring", "µ", "ß", "ÿ", "ſ", "K", "jul\u{202f}", "jul\u{202f}4", "jul\u{2009}4",
    "jul\u{2013}4", "jul\u{2009}-4", "\u{2003}jul", "$7$", "7$", "jul$4$", "0x", "00x", "-jul",
];

/// Day fields, beside month 1.
#[rustfmt::skip]
const DAYS: &[&str] = &[
    "", " ", "0", "00", "1", "01", "001", "000000000000031", "31", "32", "255", "256", "0256",
    "999", "99999999999999999999", "+1", "+0", "+31", "+32", "+", "-", "-1", "-0", "++1", "+-1",
    "+ 1", " 1", "1 ", " +1 ", "\u{a0}1\u{85}", "\t31\t", "1\u{a0}", "x", "1x", "x1", "½", "1½",
    "²", "é", "1.", "1,", "1 2", "1-2", "0x1", "$1$", "4\u{2009}", "\u{2003}4", "4\u{200b}",
];

/// Good fields, to be damaged.
#[rustfmt::skip]
const GOOD: &[&str] = &[
    "2000-02-29T23:59:58+21:43", "-0044-03-15", "1999/2000-01", "../1900-02-28",
    "2000-12-31/..", "19XX", "199X~", "2000-XX", "2000-XX-XX%", "2000-02-XX?", "49/50",
];

/// Characters that tell the classes apart.
#[rustfmt::skip]
const ODD: &[char] = &[
    '½', '²', '¹', 'ª', 'µ', 'º', 'À', '×', 'ß', 'é', '÷', 'þ', 'ÿ', '\u{a0}', '\u{85}', '\t',
    '\u{b}', '\u{1c}', '\u{7f}', '\u{80}', '\u{ad}', '\0', '\u{2000}', '\u{2009}', '\u{200b}',
    '\u{2013}', '\u{2028}', '\u{202f}', '\u{205f}', '\u{206f}', '\u{2070}',
];

/// Texts of the level-one reader, and what is nearly one.
#[rustfmt::skip]
const LEVELS: &[&str] = &[
    // Strict texts, and what is none.
    "2000", "0000", "-0000", "-0044", "9999", "-9999", "2000-02", "2000-12", "2000-02-29",
    "-0004-02-29", "2000-12-31T23:59:59", "2000-12-31T23:59:59Z", "2000-01-01T00:00:00+23:59",
    "2000-01-01T00:00:00-00:00", "19XX", "199X", "2000-XX", "2000-XX-XX", "2000-02-XX",
    "1900-02-XX", "2000-04-XX", "2000-01-XX", "2000/2001", "2001/2000", "2000/..", "../2000",
    "2000-01/2001-02-03", "", " ", "?", "/", "..", "../..", "../", "/..", "2000/", "/2000",
    "2000//2001", "2000/2001/2002", "49", "200", "+2000", "--2000", " 2000", "2000 ", "2000-2",
    "2000-00", "2000-13", "1900-02-29", "2000-04-31", "2000-01-00", "2000-01-32", "2000T10:20:30",
    "2000-01T10:20:30", "2000-01-01T24:00:00", "2000-01-01T10:60:00", "2000-01-01T10:20:60",
    "2000-01-01T10:20", "2000-01-01t10:20:30", "2000-01-01T10:20:30z", "2000-01-01T10:20:30+24:00",
    "2000-01-01T10:20:30+02:60", "2000-01-01T10:20:30+02", "19xx", "-19XX", "1XXX", "XXXX",
    "19XX/2005", "19XX/..", "2000/20XX", "2000-XX-01", "2000-13-XX", "2000-00-XX", "2000-1-XX",
    "2000-X1", "2000??", "2000?~", "2000~%", "2000?/2001", "../2000?", "2000/..~", "2000%/..",
    "..?/2000", "19XX%", "2000-02-XX~", "é", "2000é", "½000",
    // Seasons.
    "2000-19", "2000-20", "2000-21", "2000-22", "2000-23", "2000-24", "2000-25", "2000-31",
    "2000-33", "2000-41", "2000-42", "2000-99", "-0044-21", "-9999-24", "0000-21", "-0000-21",
    "-0000-24", "9999-23", "+2000-21", "2000-21?", "2000-22~", "2000-23%", "2000-24??", "2000-21-",
    "2000-21-01", "2000-21-21", "2000-21-XX", "2000-XX-21", "2000-01-21", "2000-2", "2000-021",
    "2000-210", "2000-2X", "200X-21", "20XX-21", "49-21", "200-21", "20000-21", "2000-21T10:20:30",
    "2000-21-01T10:20:30", "2000-21Z", "2000-21+01:00", "2000 -21", "2000-21 ", "2000- 21",
    "2000--21", "2000 21", "200021", "2000/21", "2000.21", "2000-S1", "2000-spring", "spring 2000",
    "2000-21/2000-24", "2000-24/2000-21", "2000-21/..", "../2000-21", "2000-21/2001",
    "2000/2001-24", "2000-21/2001-02-03", "2000-02-29T10:20:30Z/2000-22", "-0044-21/0044-22?",
    "../-0044-24~", "2000-24/..%", "2000-21/", "/2000-21", "2000-21/22", "2000-21?/2001-21",
    "2000-21/2001-21?", "2000-21/2001-25", "2000-25/2001-21", "2000-20/..", "../2000-25",
    "2000-21/20XX", "20XX/2000-21",
    // Long years.
    "Y12345", "Y-12345", "Y10000", "Y-10000", "Y99999", "Y123456", "Y1234567", "Y12345678",
    "Y123456789", "Y-123456789", "Y999999999", "Y-999999999", "Y1000000000", "Y2147483647",
    "Y2147483648", "Y-2147483648", "Y4294967295", "Y99999999999999999999", "Y1234", "Y-1234",
    "Y9999", "Y0", "Y", "Y-", "Y01234", "Y-01234", "Y012345", "Y00000", "Y000000001", "Y+12345",
    "Y--12345", "-Y12345", "+Y12345", "y12345", "YY12345", "12345", "-12345", "Y 12345", " Y12345",
    "Y12345 ", "Y12 345", "Y12345Y", "Y1234X", "Y12XXX", "Y12345X", "Y1234é", "Y1234½", "Y12345½",
    "Y12345-", "Y12345-01", "Y12345-21", "Y12345-XX", "Y12345-01-01", "Y12345T10:20:30", "Y12345Z",
    "Y12345E3", "Y1e5", "Y2000-21", "Y2000", "Y12345?", "Y-12345~", "Y123456789%", "Y12345??",
    "Y12345?~", "Y12345/Y23456", "Y-23456/Y-12345", "Y12345/..", "../Y12345", "Y-12345/..?",
    "../Y-999999999%", "Y12345/2000-24%", "2000-21/Y12345", "-9999/Y-10000", "9999/Y10000",
    "Y-10000/-9999", "Y12345/2000-01-01T10:20:30Z", "Y12345/", "/Y12345", "Y12345/12345",
    "12345/Y12345", "Y12345?/..", "Y12345/Y1234", "Y1234/Y12345", "Y12345/Y1234567890",
    "Y12345/19XX", "19XX/Y12345", "Y-999999999/Y-999999999%", "Y-99999/-9999-24?",
];

/// Good ones, to be damaged.
const LEVELS_GOOD: &[&str] = &["-0044-24/Y-12345%", "Y987654321/..", "../2000-21?", "2000-23"];

const NOON: &str = "2000-01-01T12:00:00Z";

/// Byte sequences: ill-formed ones, and well-formed ones at the ends of the set and beyond it.
#[rustfmt::skip]
const SEQUENCES: &[&[u8]] = &[
    &[0x80], &[0xbf], &[0x80, 0x80], &[0xc0], &[0xc0, 0x80], &[0xc1, 0xbf], &[0xc2], &[0xc3],
    &[0xc2, 0x7f], &[0xc2, 0xc2], &[0xc3, 0xc0], &[0xdf], &[0xe0], &[0xe0, 0x80, 0x80],
    &[0xe0, 0x9f, 0xbf], &[0xe0, 0xa0], &[0xe1, 0x80], &[0xe2, 0x82], &[0xe2, 0x28, 0xa1],
    &[0xe2, 0x82, 0x28], &[0xe2, 0x82, 0xc2], &[0xed, 0xa0, 0x80], &[0xed, 0xbf, 0xbf],
    &[0xef, 0xbf], &[0xf0], &[0xf0, 0x80, 0x80, 0x80], &[0xf0, 0x8f, 0xbf, 0xbf],
    &[0xf0, 0x9f, 0x98], &[0xf0, 0x9f, 0x28, 0x80], &[0xf0, 0x28, 0x8c, 0xbc], &[0xf4, 0x90, 0x80, 0x80],
    &[0xf5, 0x80, 0x80, 0x80], &[0xf7, 0xbf, 0xbf, 0xbf], &[0xf8, 0x88, 0x80, 0x80, 0x80],
    &[0xfc, 0x84, 0x80, 0x80, 0x80, 0x80], &[0xfe], &[0xff],
    // Well-formed.
    &[0x7f], &[0xc2, 0x80], &[0xc3, 0xbf], &[0xc4, 0x80], &[0xdf, 0xbf], &[0xe0, 0xa0, 0x80],
    &[0xe1, 0xbf, 0xbf], &[0xe2, 0x80, 0x80], &[0xe2, 0x80, 0x93], &[0xe2, 0x81, 0xaf],
    &[0xe2, 0x81, 0xb0], &[0xe2, 0x82, 0xac], &[0xed, 0x9f, 0xbf], &[0xee, 0x80, 0x80],
    &[0xef, 0xbb, 0xbf], &[0xef, 0xbf, 0xbf], &[0xf0, 0x90, 0x80, 0x80], &[0xf0, 0x9f, 0x98, 0x80],
    &[0xf4, 0x8f, 0xbf, 0xbf],
];

/// Lines, each once, in the order in which they came.
#[derive(Default)]
struct Lines {
    lines: Vec<Vec<u8>>,
    seen: HashSet<Vec<u8>>,
}

impl Lines {
    fn raw(&mut self, line: impl Into<Vec<u8>>) {
        let line = line.into();
        if self.seen.insert(line.clone()) {
            self.lines.push(line);
        }
    }

    fn frame(&mut self, frame: &[u8]) {
        self.raw(hex(frame));
    }

    fn ported(&mut self, pieces: &[Piece]) {
        self.frame(&one(PORTED, pieces));
    }

    fn date(&mut self, text: &str) {
        self.ported(&[normal(100, text)]);
    }

    fn strict(&mut self, pieces: &[Piece]) {
        self.frame(&one(STRICT, pieces));
    }

    fn level(&mut self, pieces: &[Piece]) {
        self.frame(&one(LEVEL, pieces));
    }

    fn fields(&mut self, year: &str, month: Option<&str>, day: Option<&str>) {
        let list = |start, text: &str| vec![normal(start, text)];
        let month = month.map(|text| list(200, text));
        let day = day.map(|text| list(300, text));
        self.frame(&three(&list(100, year), month.as_deref(), day.as_deref()));
    }
}

fn fixed(out: &mut impl Write) -> io::Result<()> {
    let mut l = Lines::default();
    l.raw("04010003000000000000000334393f");
    l.raw("zz");
    // The same of the strict reader, and a date that it takes, by both of its numbers.
    for operation in [STRICT, STRICT_TOO] {
        l.frame(&one(operation, &[normal(0, "49?")]));
        l.frame(&one(operation, &[normal(0, "2049?")]));
    }
    examples(&mut l);
    short_texts(&mut l);
    damaged(&mut l);
    calendar(&mut l);
    odd_characters(&mut l);
    chunks_and_breaks(&mut l);
    spans(&mut l);
    sequences(&mut l);
    limits(&mut l);
    bad_frames(&mut l);
    levels(&mut l);
    // The last line is a frame and has no line feed.
    l.lines.retain(|line| line != b"04010003000000000000000334393F");
    l.lines.push(b"04010003000000000000000334393F".to_vec());
    out.write_all(&l.lines.join(&b'\n'))
}

fn examples(l: &mut Lines) {
    for (i, text) in DATES.iter().enumerate() {
        l.date(text);
        if i % 4 == 0 {
            l.strict(&[normal(100, text)]);
        }
    }
    // The days of each month: the two readers' ranges end apart in the shorter ones.
    for year in ["1900", "2000"] {
        for month in 1..=12 {
            let text = format!("{year}-{month:02}-XX");
            l.date(&text);
            l.strict(&[normal(100, &text)]);
        }
    }
    for text in YEARS {
        l.fields(text, None, None);
    }
    for (i, text) in MONTHS.iter().enumerate() {
        l.fields("2000", Some(text), None);
        if i % 3 == 0 {
            l.fields("2000", Some(text), Some("4"));
        }
    }
    for text in DAYS {
        l.fields("2000", Some("1"), Some(text));
    }

    // Presence, and which field decides.
    let lists = [None, Some(""), Some("1"), Some("0"), Some("x"), Some("jul-4")];
    for year in ["5", "x", "- 5"] {
        for month in lists {
            for day in lists {
                l.fields(year, month, day);
            }
        }
    }
    // Empty lists.
    let text = [normal(9, "1")];
    for year in [&[][..], &text] {
        for month in [None, Some(&[][..]), Some(&text[..])] {
            for day in [None, Some(&[][..]), Some(&text[..])] {
                l.frame(&three(year, month, day));
            }
        }
    }
    l.ported(&[]);
    l.strict(&[]);
    // Days that are no number, by the span.
    for text in ["", "x", "1", "0", "32", "256", " "] {
        for (start, end) in [(5, 5), (5, 9), (9, 5), (0, 0), (u32::MAX, u32::MAX), (0, u32::MAX)] {
            let day = [Piece { kind: 0, start, end, text: text.into() }];
            l.frame(&three(&[normal(0, "5")], Some(&[normal(0, "1")]), Some(&day)));
        }
    }
}

/// Every text of at most `most` characters of an alphabet.
fn every(alphabet: &[char], most: usize) -> Vec<String> {
    let mut texts = vec![String::new()];
    let mut from = 0;
    for _ in 0..most {
        let until = texts.len();
        for i in from..until {
            for &c in alphabet {
                texts.push(format!("{}{c}", texts[i]));
            }
        }
        from = until;
    }
    texts
}

fn short_texts(l: &mut Lines) {
    for text in every(&['1', '-', '/', '.', ' ', 'x', '?', '½'], 3) {
        l.date(&text);
    }
    for text in every(&['5', '-', ' ', '½', 'x'], 3) {
        l.fields(&text, None, None);
    }
    for text in every(&['A', 'D', 'B', 'C', 'E', ' '], 2) {
        l.fields(&format!("5 {text}"), None, None);
        l.fields(&format!("0BC{text}"), None, None);
    }
    for text in every(&['1', '0', '-', '\u{a0}', ' ', '½', 'j'], 2) {
        l.fields("5", Some(&text), None);
    }
    for text in every(&['-', '\u{a0}', ' ', '3'], 3) {
        l.fields("5", Some(&format!("jul{text}")), None);
    }
    for text in every(&['1', '3', '+', ' ', 'x'], 2) {
        l.fields("5", Some("1"), Some(&text));
    }
}

fn damaged(l: &mut Lines) {
    let pool: Vec<char> = "0-9X /1½T.5:Z?é".chars().collect();
    let mut turn = 0;
    let mut next = || {
        turn += 1;
        pool[turn % pool.len()]
    };
    for good in GOOD {
        let chars: Vec<char> = good.chars().collect();
        l.date(good);
        for i in 0..=chars.len() {
            for _ in 0..2 {
                let mut longer = chars.clone();
                longer.insert(i, next());
                l.date(&longer.iter().collect::<String>());
            }
            if i == chars.len() {
                break;
            }
            let mut shorter = chars.clone();
            shorter.remove(i);
            l.date(&shorter.iter().collect::<String>());
            for _ in 0..2 {
                let mut other = chars.clone();
                other[i] = next();
                l.date(&other.iter().collect::<String>());
            }
        }
    }
}

fn calendar(l: &mut Lines) {
    let last = [31, 28, 31, 30, 31, 30, 31, 31, 30, 31, 30, 31];
    for (i, &day) in last.iter().enumerate() {
        for day in [day, day + 1] {
            l.date(&format!("2001-{:02}-{day}", i + 1));
        }
    }
    for year in ["1900", "2000", "2004", "2001", "0000", "-0004", "-0100", "-0400", "-0001"] {
        for day in [29, 30] {
            l.date(&format!("{year}-02-{day}"));
        }
    }
    for text in ["04-02-29", "05-02-29", "-12-02-29", "-11-02-29"] {
        l.date(text);
    }
    // Every month of the month field and every hour.
    for n in 0..100 {
        l.fields("1", Some(&format!("{n:02}")), (n % 2 == 0).then_some("31"));
    }
    for n in 0..30 {
        l.date(&format!("2000-01-01T{n:02}"));
    }
}

fn odd_characters(l: &mut Lines) {
    for &c in ODD {
        for (before, after) in [
            ("", "2000"),
            ("20", "00"),
            ("2000", ""),
            ("2000-", "1"),
            ("2000-01-01", ""),
            ("2000-01-01T10:20:30", ""),
            ("2000-XX", ""),
            ("2000/", ""),
            ("2000-01-01T10:20:30Z", "/123"),
        ] {
            l.date(&format!("{before}{c}{after}"));
        }
        for (before, after) in [("5", ""), ("5 BC", ""), ("-", "5")] {
            l.fields(&format!("{before}{c}{after}"), None, None);
        }
        for (before, after) in [("", "jul"), ("jul", "4"), ("1", "")] {
            l.fields("5", Some(&format!("{before}{c}{after}")), None);
        }
        l.fields("5", Some("1"), Some(&format!("4{c}")));
    }
}

fn chunks_and_breaks(l: &mut Lines) {
    let firsts = ["2000", "2000 ", "2000\n", "", " "];
    let seconds = ["\n-01", "\r\n-1q", " \n\r -01", "\n", "-\n01"];
    for kind1 in 0..3 {
        for kind2 in 0..3 {
            for (i, first) in firsts.iter().enumerate() {
                for (j, second) in seconds.iter().enumerate() {
                    // Two Normal chunks in full, of the others every second.
                    if kind1 + kind2 == 0 || (i + j + kind1 + kind2) % 2 == 0 {
                        l.ported(&[piece(kind1 as u8, 10, first), piece(kind2 as u8, 40, second)]);
                    }
                }
            }
        }
    }
    // Behind Z nothing is read, so the slash shows which breaks went.
    for before in ["", " ", "\n"] {
        for kind in 0..3 {
            for middle in ["", " ", "\n", " \n", "a", "\u{a0}", "\r"] {
                let start = normal(7, format!("{NOON}{before}"));
                let end = normal(70, "\n\r/q");
                l.ported(&[start, piece(kind, 50, middle), end]);
            }
        }
    }
    // A text over several chunks, cut anywhere, and as each kind.
    for text in ["2000-02-29", "1999/2001?", "2000-XX-XX~"] {
        for cut in 1..text.len() {
            let (a, b) = text.split_at(cut);
            let kind = (cut % 3) as u8;
            l.ported(&[normal(5, a), piece(kind % 2, 90, b)]);
            l.strict(&[piece(kind, 5, a), normal(90, b)]);
        }
        for kind in 0..3 {
            l.ported(&[piece(kind, 5, text)]);
            l.strict(&[piece(kind, 5, text)]);
        }
        let letters: Vec<Piece> = text
            .bytes()
            .enumerate()
            .map(|(i, b)| piece((i % 2) as u8, 10 * i as u32, [b]))
            .collect();
        l.ported(&letters);
        l.strict(&letters);
    }
    // The fields too.
    for kind in 0..3 {
        let year = [piece(kind, 5, "-5"), normal(50, "\n")];
        let month = [piece(kind, 6, "ju"), normal(60, "l\n"), piece(kind, 65, "\n4")];
        let day = [piece(kind, 7, "\n3"), normal(70, "1\n")];
        l.frame(&three(&year, None, None));
        l.frame(&three(&year[1..], Some(&month), None));
        l.frame(&three(&[normal(5, "5")], Some(&month), None));
        l.frame(&three(&[normal(5, "5")], Some(&month), Some(&day)));
        l.frame(&three(&[normal(5, "5\nBC"), piece(kind, 8, "\n")], None, None));
    }
    for text in [
        "\n2000",
        "2000\n",
        "20\n00",
        "2000\r\n-\r\n01",
        "2000\n/\n",
        "\n\n",
        "2000-\n\n13",
        "2000 \n-\n 13",
        "\r2000\r/\r123",
        "2000/\n\r123",
    ] {
        for kind in 0..3 {
            l.ported(&[piece(kind, 100, text)]);
        }
    }
}

fn spans(l: &mut Lines) {
    let top = u32::MAX;
    for text in ["q", "2000/q", "q/2000", "../q", "../..", "2000-13", "2000/123", "1XXX", "2000"] {
        for (start, end) in [(0, 0), (1, 0), (0, top), (top, top), (top, 0), (top - 3, top), (5, 9)]
        {
            l.ported(&[Piece { kind: 0, start, end, text: text.into() }]);
        }
        // The start is the first chunk's, the end the last one's.
        l.ported(&[normal(700, ""), normal(800, text), normal(900, "")]);
        l.ported(&[piece(1, 30, text), Piece { kind: 1, start: 3, end: 4, text: vec![] }]);
    }
    for (year, month) in [("x", None), ("12345", None), ("5 ADx", None), ("5", Some("jul-32"))] {
        for start in [0, 7, top - 2, top] {
            let month = month.map(|text| vec![normal(start, text)]);
            l.frame(&three(&[normal(start, year)], month.as_deref(), None));
        }
    }
}

fn sequences(l: &mut Lines) {
    for &bytes in SEQUENCES {
        let around = |before: &[u8], after: &[u8]| [before, bytes, after].concat();
        l.ported(&[normal(100, bytes)]);
        l.ported(&[normal(100, around(b"20", b"00"))]);
        l.ported(&[normal(100, "20é"), piece(2, 200, around(b"1", "€".as_bytes()))]);
        l.strict(&[normal(100, around(b"2000", b""))]);
        l.frame(&three(&[normal(0, b"5")], Some(&[normal(0, around(b"", b"7"))]), None));
        if bytes.len() > 1 {
            let (a, b) = bytes.split_at(bytes.len() / 2);
            l.ported(&[normal(0, a), normal(0, b)]);
        }
    }
    // Which list and which fault comes first.
    let [fine, ill, far, kind]: [Vec<Piece>; 4] = [
        vec![normal(9, "5")],
        vec![normal(9, "é"), normal(9, [b'5', 0xff])],
        vec![normal(9, "é"), normal(9, "1€")],
        vec![normal(9, [0xff]), piece(3, 9, "5")],
    ];
    let long = vec![normal(9, [0xff]); 65];
    let long_kind: Vec<Piece> = (0..65).map(|i| piece(i / 64 * 7, 9, "")).collect();
    let all = [&fine, &ill, &far, &kind, &long, &long_kind];
    for year in all {
        l.ported(year);
        l.strict(year);
        l.frame(&three(year, None, Some(&kind)));
        for other in all {
            l.frame(&three(&fine, Some(year), Some(other)));
            l.frame(&three(year, Some(other), None));
        }
    }
    for k in [3, 4, 127, 128, 255] {
        l.ported(&[piece(k, 9, "2000")]);
        l.ported(&[normal(9, "2000"), piece(k, 9, "")]);
        l.strict(&[piece(k, 9, "2000")]);
        l.frame(&three(&[piece(k, 9, "5")], None, None));
    }
}

fn limits(l: &mut Lines) {
    // Chunks.
    for n in [63, 64, 65, 255] {
        for kind in 0..3 {
            let mut pieces = vec![piece(kind, 5, ""); n];
            l.ported(&pieces);
            pieces[n - 1] = normal(6, "2000");
            l.ported(&pieces);
            if kind == 1 {
                l.strict(&pieces);
                l.frame(&three(&pieces, None, None));
                pieces[n - 1] = normal(6, "7");
                l.frame(&three(&[normal(0, "5")], Some(&pieces), None));
                l.frame(&three(&[normal(0, "5")], Some(&[normal(0, "1")]), Some(&pieces)));
                l.frame(&three(&[normal(0, "5")], None, Some(&pieces)));
            }
        }
    }
    // Bytes of a list and of a chunk.
    for n in [255, 256, 4095, 4096, 4097] {
        for (fill, text) in [
            (" ", "2000"),
            (" ", "123"),
            ("\n", "2000"),
            ("9", ""),
            ("9", "X"),
            (" ", "2000/q"),
            ("-", "1"),
            ("½", ""),
            ("\u{a0}", "2000-13"),
            (" ", "19XX"),
        ] {
            let count = (n - text.len()) / fill.len();
            let whole = format!("{}{text}", fill.repeat(count));
            l.ported(&spread(1000, &whole));
        }
        let inside = format!("2000{}-{}13", " ".repeat(n / 2), "-".repeat(n - n / 2 - 7));
        l.ported(&spread(0, &inside));
        let year = spread(0, &format!("5{}BC", " ".repeat(n - 3)));
        let day = spread(0, &format!("{}31", "0".repeat(n - 2)));
        l.frame(&three(&year, None, None));
        l.frame(&three(&[normal(0, "5")], Some(&[normal(0, "1")]), Some(&day)));
        l.frame(&three(&[normal(0, "5")], None, Some(&day)));
        let day = spread(0, &format!("jul-{}4", "0".repeat(n - 5)));
        l.frame(&three(&[normal(0, "5")], Some(&day), None));
        let name = spread(0, &"j".repeat(n));
        l.frame(&three(&[normal(0, "5")], Some(&name), None));
    }
    // The longest formatted text: 64 Math chunks of 64 bytes.
    for (n, len) in [(64, 64), (64, 63), (63, 64), (64, 65)] {
        for fill in [" ", "$", "é", "ß"] {
            let text = fill.repeat(len / fill.len());
            l.ported(&vec![piece(2, 3, &text); n]);
            let mut pieces = vec![piece(2, 3, &text); n - 1];
            pieces.insert(0, normal(3, NOON));
            pieces.push(normal(3, "/q"));
            pieces.remove(1);
            l.ported(&pieces);
        }
    }
    // Frames of 8,191 to 8,193 bytes, and many more digits.
    for n in [8191, 8192, 8193, 8194] {
        l.frame(&sized(n));
        let full = vec![normal(0, [b' '; 255]); 30];
        let rest = n - 2 - 30 * 265;
        let mut pieces = full;
        pieces.push(normal(0, vec![b' '; rest - 10]));
        l.ported(&pieces);
    }
    for n in [8192, 8193, 20000] {
        l.raw("00".repeat(n));
        l.raw("01".repeat(n));
        l.raw("04".repeat(n));
        l.raw("0".repeat(2 * n - 1));
    }
}

fn bad_frames(l: &mut Lines) {
    let single = one(PORTED, &[normal(0, "49?")]);
    let double = one(PORTED, &[normal(0, "2000"), piece(1, 4, "-01")]);
    let fields = three(&[normal(0, "5")], Some(&[normal(0, "jul")]), Some(&[normal(0, "4")]));
    let half = three(&[normal(0, "5")], None, Some(&[normal(0, "4")]));
    let strict = one(STRICT, &[normal(0, "2000")]);

    l.raw("");
    for frame in [&single, &double, &fields, &half, &strict] {
        // Cut short, and too long.
        for n in (1..frame.len()).filter(|n| n % 2 == 1 || *n < 13) {
            l.frame(&frame[..n]);
        }
        for more in [&[0][..], &[1], &[0xff], &[0, 0]] {
            l.frame(&[frame, more].concat());
        }
        // Operations.
        for operation in [0, 1, 2, 3, 4, 5, 6, 7, 0x10, 0x31, 0x7f, 0x80, 0xff] {
            let mut other = frame.to_vec();
            other[0] = operation;
            l.frame(&other);
        }
        // Counts and lengths.
        for at in [1, 3] {
            for add in [1, 0xff, 2, 0x80] {
                let mut other = frame.to_vec();
                other[at] = other[at].wrapping_add(add);
                l.frame(&other);
            }
        }
        // Digits.
        let line = hex(frame);
        l.raw(line.to_uppercase());
        l.raw(&line[..line.len() - 1]);
        l.raw(&line[1..]);
        for (before, after) in [
            ("", "\r"),
            (" ", ""),
            ("", " "),
            ("0x", ""),
            ("", "\t"),
            ("", "0"),
            ("+", "0"),
            ("", "\0\0"),
            ("\u{feff}", ""),
            ("", "h"),
        ] {
            l.raw(format!("{before}{line}{after}"));
        }
    }
    // Flags.
    for flag in [2, 3, 0x10, 0x80, 0xff] {
        let year = list(&[normal(0, "5")]);
        let at = 1 + year.len();
        for frame in [&fields, &half] {
            let mut other = frame.clone();
            other[at] = flag;
            l.frame(&other);
        }
        let mut other = half.clone();
        other[at + 1] = flag;
        l.frame(&other);
        l.frame(&[&[3][..], &year, &[flag, 0]].concat());
        l.frame(&[&[3][..], &year, &[0, flag]].concat());
    }
    for line in [
        "0",
        "00",
        "01",
        "02",
        "03",
        "04",
        "05",
        "0100",
        "0200",
        "0300",
        "030000",
        "03000000",
        "0300000000",
        "03000100",
        "0300010000",
        "03000001",
        "0300000100",
        "030001000100",
        "0400",
        "0600",
        "0500",
        "0000",
        "ff00",
        "01ff",
        "0102",
        "04ff",
        "0402",
        "--",
        "g",
        "gg",
        "\r",
        " ",
        "  ",
        "\t\t",
        "é",
        "０１",
        "49?",
        "zz01010003000000000000000334393f",
    ] {
        l.raw(line);
    }
    // Foreign digits around the admitted ones, at the first and last place.
    for byte in *b"/:@G`g\xff\x00\x0b\x7f\x80Oo" {
        let mut line = hex(&single).into_bytes();
        let last = line.len() - 1;
        line[last] = byte;
        l.raw(line.clone());
        line[last] = b'f';
        line[0] = byte;
        l.raw(line);
    }
    // Mixed digits are good ones.
    l.raw("04010003000000000000000334393F");
    l.raw("0401000400000000000000043230303aCaF"[..34].to_string());
    l.raw("0401000200000000000000 0334393f");
    l.raw("040100020000000000000003c3A9");
    l.raw("040100020000000000000003C3a9");
}

/// The level-one reader's frames; every eighth text is asked of the two others too.
fn levels(l: &mut Lines) {
    for (i, text) in LEVELS.iter().enumerate() {
        l.level(&[normal(100, text)]);
        if i % 8 == 0 {
            l.date(text);
            l.strict(&[normal(100, text)]);
        }
    }
    let pool: Vec<char> = "0-2Y 1/4X.?é".chars().collect();
    let mut turn = 0;
    for good in LEVELS_GOOD {
        let chars: Vec<char> = good.chars().collect();
        for i in 0..chars.len() {
            turn += 1;
            let c = pool[turn % pool.len()];
            let (before, after) = (&chars[..i], &chars[i + 1..]);
            for middle in [vec![], vec![c], vec![chars[i], c]] {
                let text: String = before.iter().chain(&middle).chain(after).collect();
                l.level(&[normal(100, text)]);
            }
        }
    }
    // Several chunks, of each kind, cut anywhere; line breaks; spans that fit no text.
    for text in ["2000-21/Y-12345~", "Y123456789"] {
        for cut in 0..=text.len() {
            let (a, b) = text.split_at(cut);
            l.level(&[normal(5, a), piece((cut % 2) as u8, 90, b)]);
        }
        for kind in 0..4 {
            l.level(&[piece(kind, 5, text)]);
            l.level(&[normal(5, text), piece(kind, 90, "")]);
            l.level(&[piece(kind, 5, &text[..4]), normal(7, &text[4..])]);
        }
        for (before, after) in
            [("\n", ""), ("", "\n"), ("", "\r\n"), ("", "\u{a0}"), ("", "€"), ("", "\u{2013}")]
        {
            l.level(&[normal(5, format!("{before}{text}{after}"))]);
            l.level(&[piece(1, 5, format!("{before}{text}{after}"))]);
        }
        let letters: Vec<Piece> = text
            .bytes()
            .enumerate()
            .map(|(i, b)| piece((i % 2) as u8, 10 * i as u32, [b]))
            .collect();
        l.level(&letters);
        for (start, end) in [(0, 0), (9, 5), (u32::MAX, u32::MAX)] {
            l.level(&[Piece { kind: 0, start, end, text: text.into() }]);
        }
    }
    // The list is checked as any other.
    l.level(&[]);
    l.level(&[normal(9, [0xff]), piece(3, 9, "2000-21")]);
    l.level(&[normal(9, "é"), normal(9, [b'5', 0xff])]);
    l.level(&[normal(9, "é"), normal(9, "1€")]);
    for n in [63, 64, 65] {
        let mut pieces = vec![piece(1, 5, ""); n];
        pieces[n - 1] = normal(6, "2000-24");
        l.level(&pieces);
    }
    for n in [4096, 4097] {
        l.level(&spread(0, &format!("Y{}", "1".repeat(n - 1))));
        l.level(&spread(0, &format!("2000-21{}", "\n".repeat(n - 7))));
    }
    // Damaged frames.
    let good = one(LEVEL, &[normal(0, "2000-21/"), piece(1, 8, "Y-12345?")]);
    for n in 1..good.len() {
        l.frame(&good[..n]);
    }
    for more in [&[0][..], &[1], &[0, 0]] {
        l.frame(&[&good, more].concat());
    }
    for at in [0, 1, 3] {
        for add in [1, 2, 0x80, 0xff] {
            let mut other = good.clone();
            other[at] = other[at].wrapping_add(add);
            l.frame(&other);
        }
    }
    let line = hex(&good);
    l.raw(line.to_uppercase());
    l.raw(&line[1..]);
    l.raw(format!("{line}\r"));
    for line in ["0501", "0502", "05ff", "050000", "0500000000"] {
        l.raw(line);
    }
}

// Many frames by a seed.

/// Numbers by SplitMix64.
struct Rng(u64);

impl Rng {
    fn next(&mut self) -> u64 {
        self.0 = self.0.wrapping_add(0x9e37_79b9_7f4a_7c15);
        let mut z = self.0;
        z = (z ^ z >> 30).wrapping_mul(0xbf58_476d_1ce4_e5b9);
        z = (z ^ z >> 27).wrapping_mul(0x94d0_49bb_1331_11eb);
        z ^ z >> 31
    }

    /// A number below `n`.
    fn below(&mut self, n: usize) -> usize {
        (self.next() >> 11) as usize % n
    }

    /// True in `n` of a hundred cases.
    fn percent(&mut self, n: usize) -> bool {
        self.below(100) < n
    }

    fn pick<T: Copy>(&mut self, from: &[T]) -> T {
        from[self.below(from.len())]
    }
}

const DATE_ALPHABET: &[char] =
    &['1', '2', '0', '9', '-', '/', '.', ' ', 'X', 'T', ':', '?', '+', 'Z', '½', '\u{a0}', 'q'];
const YEAR_ALPHABET: &[char] =
    &['5', '0', '-', ' ', 'A', 'D', 'B', 'C', 'E', '+', '½', '\u{a0}', 'x', ','];
const MONTH_ALPHABET: &[char] =
    &['1', '0', '3', '-', '\u{a0}', ' ', 'j', 'u', 'l', 'M', 'A', 'y', '½', ','];

/// Characters that mutations put in.
#[rustfmt::skip]
const POOL: &[char] = &[
    '0', '1', '2', '3', '5', '9', '0', '1', '-', '-', '/', '.', ' ', ' ', 'X', 'x', 'T', 't', 'Z',
    ':', ':', '+', '?', '~', '%', '\n', '\r', '\t', '\u{a0}', '\u{85}', '½', '²', 'é', 'ß', 'µ',
    'ÿ', '$', 'q', 'A', 'D', 'B', 'C', 'E', ',',
];

/// The text of this number among all texts over an alphabet, shortest first.
fn numbered(mut number: u64, alphabet: &[char]) -> String {
    let base = alphabet.len() as u64;
    let mut chars = Vec::new();
    while number > 0 {
        number -= 1;
        chars.push(alphabet[(number % base) as usize]);
        number /= base;
    }
    chars.iter().rev().collect()
}

fn many(n: u64, seed: u64, out: &mut impl Write) -> io::Result<()> {
    let mut rng = Rng(seed);
    // A quarter of the frames are short texts, one after the other.
    let first = seed.wrapping_mul(n / 4);
    for i in 0..n {
        let line = if i % 4 == 0 {
            let number = first.wrapping_add(i / 4);
            let start = rng.pick(&[0, 0, 100]);
            let text = |number, alphabet| vec![normal(start, numbered(number, alphabet))];
            hex(&match i / 4 % 4 {
                0 | 2 => one(PORTED, &text(number / 2, DATE_ALPHABET)),
                1 => three(&text(number / 4, YEAR_ALPHABET), None, None),
                _ => three(&[normal(start, "5")], Some(&text(number / 4, MONTH_ALPHABET)), None),
            })
        } else {
            seeded(&mut rng)
        };
        out.write_all(line.as_bytes())?;
        out.write_all(b"\n")?;
    }
    Ok(())
}

/// One frame, rarely a bad one.
fn seeded(rng: &mut Rng) -> String {
    let frame = match rng.below(100) {
        0..62 => {
            let text = date_field(rng);
            one(PORTED, &pieces(rng, &text))
        }
        62..70 => {
            let text = date_field(rng);
            // A number that nothing uses: without it a seed gives other frames.
            rng.next();
            one(STRICT, &pieces(rng, &text))
        }
        _ => {
            let text = year_field(rng);
            let year = pieces(rng, &text);
            let month = rng.percent(85).then(|| {
                let text = month_field(rng);
                pieces(rng, &text)
            });
            let day = rng.percent(50).then(|| {
                let text = day_field(rng);
                pieces(rng, &text)
            });
            three(&year, month.as_deref(), day.as_deref())
        }
    };
    line_of(rng, &frame)
}

/// The line of a frame, rarely a damaged one.
fn line_of(rng: &mut Rng, frame: &[u8]) -> String {
    let mut line = hex(frame);
    match rng.below(400) {
        0 => line.truncate(rng.below(line.len())),
        1 => line += "00",
        2 => line.insert(rng.below(line.len()), 'g'),
        3 => line.push('\r'),
        4 => line.replace_range(..2, rng.pick(&["00", "06", "1f", "02", "03", "ff"])),
        5..15 => line = line.to_uppercase(),
        _ => {}
    }
    line
}

/// A text as chunks, mostly one Normal one.
fn pieces(rng: &mut Rng, text: &str) -> Vec<Piece> {
    let mut bytes = text.as_bytes().to_vec();
    match rng.below(300) {
        // Ill-formed, of the typesetter's, or not admitted.
        0 => {
            let at = rng.below(bytes.len() + 1);
            bytes.splice(at..at, rng.pick(SEQUENCES).iter().copied());
        }
        1 | 2 => {
            let c = rng.pick(&['\u{2009}', '\u{2013}', '\u{202f}', '\u{2070}', '€', 'Ā', '😀']);
            let mut room = [0; 4];
            let more = c.encode_utf8(&mut room).as_bytes().to_vec();
            let at = boundary(rng, text);
            bytes.splice(at..at, more);
        }
        // Long ones.
        20 => {
            let fill = rng.pick(&["\u{a0}", " ", "\n", "0", "-", "ß"]);
            let most = 4097 - bytes.len().min(4000);
            let n = rng.below(2 * most / fill.len()).min(most / fill.len());
            let at = boundary(rng, text);
            bytes.splice(at..at, fill.repeat(n).into_bytes());
        }
        _ => {}
    }

    let mut cuts = vec![0, bytes.len()];
    if rng.percent(30) {
        for _ in 0..1 + rng.below(4) {
            let at = if rng.percent(3) { rng.below(bytes.len() + 1) } else { boundary(rng, text) };
            cuts.push(at.min(bytes.len()));
        }
    }
    if rng.below(300) == 0 {
        cuts.extend(vec![bytes.len(); 58 + rng.below(8)]);
    }
    // No chunk is longer than its length byte.
    cuts.extend((1..bytes.len()).filter(|i| i % 240 == 0));
    cuts.sort_unstable();

    let mut start = match rng.below(10) {
        0..4 => 0,
        4..7 => rng.below(1000) as u32,
        7 | 8 => rng.next() as u32,
        _ => u32::MAX - rng.below(40) as u32,
    };
    let whole = cuts.len() == 2;
    let mut pieces: Vec<Piece> = cuts
        .windows(2)
        .map(|cut| {
            let kind = match rng.below(100) {
                _ if whole && rng.percent(90) => 0,
                0..60 => 0,
                60..90 => 1,
                _ => 2,
            };
            let p = piece(kind, start, &bytes[cut[0]..cut[1]]);
            start = p.end;
            p
        })
        .collect();
    match rng.below(200) {
        0 => {
            let at = rng.below(pieces.len());
            pieces[at].kind = 3 + rng.below(253) as u8;
        }
        1..10 => {
            let at = rng.below(pieces.len());
            pieces[at].end = rng.pick(&[0, pieces[at].start, 7, u32::MAX]);
        }
        10 => pieces.clear(),
        _ => {}
    }
    pieces
}

/// A place between characters.
fn boundary(rng: &mut Rng, text: &str) -> usize {
    let mut at = rng.below(text.len() + 1);
    while !text.is_char_boundary(at) {
        at -= 1;
    }
    at
}

fn date_field(rng: &mut Rng) -> String {
    let mut text = match rng.below(100) {
        0..45 => point(rng),
        45..65 => format!("{}/{}", point(rng), point(rng)),
        65..72 => {
            let open = rng.pick(&["..", "..", "", " ", ".", "...", ".. "]);
            match rng.below(9) {
                0..4 => format!("{}/{open}", point(rng)),
                4..8 => format!("{open}/{}", point(rng)),
                _ => format!("{open}/{}", rng.pick(&["..", "", " "])),
            }
        }
        72..88 => x_range(rng),
        _ => (0..rng.below(9)).map(|_| rng.pick(POOL)).collect(),
    };
    if rng.percent(25) {
        text.push(rng.pick(&['?', '~', '%']));
    }
    mutated(rng, text)
}

/// Changes no, one or a few characters.
fn mutated(rng: &mut Rng, text: String) -> String {
    mutated_by(rng, text, POOL)
}

fn mutated_by(rng: &mut Rng, text: String, pool: &[char]) -> String {
    let times = rng.pick(&[0, 0, 0, 0, 0, 0, 1, 1, 2, 4]);
    if times == 0 {
        return text;
    }
    let mut chars: Vec<char> = text.chars().collect();
    for _ in 0..times {
        let at = rng.below(chars.len() + 1);
        let c = rng.pick(pool);
        match rng.below(3) {
            0 => chars.insert(at, c),
            1 if at < chars.len() => chars[at] = c,
            _ if at < chars.len() => {
                chars.remove(at);
            }
            _ => chars.push(c),
        }
    }
    chars.iter().collect()
}

fn point(rng: &mut Rng) -> String {
    let mut text = String::from(rng.pick(&["", "", "", "", "", "", "-", "+", " ", "- "]));
    let year = rng.below(10000);
    text += &match rng.below(20) {
        0..15 => format!("{year:04}"),
        15..18 => format!("{:02}", year % 100),
        18 => format!("{}", year % 1000),
        _ => format!("{year}{}", year % 7),
    };
    let depth = rng.below(7);
    if depth >= 1 {
        text += separator(rng, "-");
        text += &padded(rng, 1, 12);
    }
    if depth >= 2 {
        text += separator(rng, "-");
        text += &padded(rng, 1, 31);
    }
    if depth >= 4 {
        text.push(rng.pick(&['T', 'T', 'T', 't']));
        text += &padded(rng, 0, 23);
    }
    if depth >= 5 {
        text += separator(rng, ":");
        text += &padded(rng, 0, 59);
    }
    if depth >= 6 {
        text += separator(rng, ":");
        text += &padded(rng, 0, 59);
        match rng.below(4) {
            0 => {}
            1 => text += rng.pick(&["Z", "z", " Z"]),
            _ => {
                text.push(rng.pick(&['+', '-']));
                text += &padded(rng, 0, 23);
                if rng.percent(80) {
                    text += separator(rng, ":");
                    text += &padded(rng, 0, 59);
                }
            }
        }
    }
    text
}

fn separator(rng: &mut Rng, plain: &'static str) -> &'static str {
    if rng.percent(94) {
        plain
    } else if plain == "-" {
        rng.pick(&["--", " - ", " -", "- ", "---", ".", "\u{a0}-"])
    } else {
        rng.pick(&[" : ", " :", ": ", ".", "::", "\u{85}:"])
    }
}

/// A number, mostly in its range and of two digits.
fn padded(rng: &mut Rng, low: usize, high: usize) -> String {
    let n = if rng.percent(96) { low + rng.below(high - low + 1) } else { rng.below(120) };
    match rng.below(25) {
        0..3 => format!("{n}"),
        3 => format!("{n:03}"),
        _ => format!("{n:02}"),
    }
}

fn x_range(rng: &mut Rng) -> String {
    let year = rng.below(10000);
    let mut text = match rng.below(10) {
        0..2 => format!("{:02}XX", year % 100),
        2..4 => format!("{:03}X", year % 1000),
        4..7 => format!("{year:04}{}XX", separator(rng, "-")),
        7..9 => {
            let month = padded(rng, 1, 12);
            format!("{year:04}{}{month}{}XX", separator(rng, "-"), separator(rng, "-"))
        }
        _ => format!("{year}{}", "X".repeat(rng.below(5))),
    };
    text += rng.pick(&["", "", "", "", "-XX", "-XX", " ", "X", "/2000", " q", "-01", "-XXX"]);
    if rng.percent(20) {
        text.to_lowercase()
    } else {
        text
    }
}

fn year_field(rng: &mut Rng) -> String {
    let mut text = String::from(rng.pick(&["", "", "", "", " ", "-", "+", "- ", " -"]));
    let year = rng.below(10000);
    text += &match rng.below(12) {
        0..8 => format!("{year}"),
        8 => format!("{}", year % 100),
        9 => format!("{year:04}"),
        10 => format!("{}", rng.below(2)),
        _ => format!("{year}{}", year % 10),
    };
    text += rng.pick(&[
        "", "", "", "", "", "", " AD", " BC", "AD", "BC", " CE", " BCE", "BCE", " BC ", " AD ",
        " BCx", " BC,", " ad", " ", "\u{a0}BC", " BC½", " ADé", " B", "?",
    ]);
    if rng.percent(75) {
        text
    } else {
        mutated(rng, text)
    }
}

fn month_field(rng: &mut Rng) -> String {
    // The abbreviations, and words that name no month.
    #[rustfmt::skip]
    const OTHERS: [&str; 14] = [
        "jan", "feb", "mar", "apr", "jun", "jul", "aug", "sep", "sept", "oct", "nov", "dec", "febr",
        "spring",
    ];
    let mut text = match rng.below(10) {
        0..3 => padded(rng, 1, 12),
        3..5 => rng.below(100).to_string(),
        5..9 => {
            let name = rng.pick(&[&MONTH_NAMES[..], &OTHERS].concat());
            match rng.below(4) {
                0 => name.to_uppercase(),
                1 => format!("{}{}", name[..1].to_uppercase(), &name[1..]),
                _ => name.to_string(),
            }
        }
        _ => (0..rng.below(6)).map(|_| rng.pick(MONTH_ALPHABET)).collect(),
    };
    if rng.percent(35) {
        text += rng.pick(&["-", "\u{a0}", " ", "", "--", " -", "\u{a0}-", ","]);
        if rng.percent(80) {
            text += &padded(rng, 1, 31);
        }
        text += rng.pick(&["", "", "", ",", " ", "x"]);
    }
    if rng.percent(80) {
        text
    } else {
        mutated(rng, text)
    }
}

fn day_field(rng: &mut Rng) -> String {
    let text = match rng.below(10) {
        0..7 => padded(rng, 1, 31),
        7 => format!("+{}", padded(rng, 1, 31)),
        8 => format!(" {} ", padded(rng, 1, 31)),
        _ => rng.below(300).to_string(),
    };
    if rng.percent(80) {
        text
    } else {
        mutated(rng, text)
    }
}

// Frames of the level-one reader.

/// Characters that mutations put in there.
#[rustfmt::skip]
const LEVEL_POOL: &[char] = &[
    '0', '1', '2', '3', '4', '5', '9', '0', '1', '2', '-', '-', '/', '.', ' ', 'X', 'Y', 'Y', 'y',
    'T', 'Z', ':', '+', '?', '~', '%', '\n', '\u{a0}', '½', 'é', '$',
];

/// One frame; of twenty one asks the ported reader and one the strict one.
fn leveled(rng: &mut Rng) -> String {
    let operation = match rng.below(20) {
        0 => PORTED,
        1 => STRICT,
        _ => LEVEL,
    };
    let text = level_field(rng);
    let frame = one(operation, &pieces(rng, &text));
    line_of(rng, &frame)
}

fn level_field(rng: &mut Rng) -> String {
    let mut text = match rng.below(100) {
        0..40 => level_point(rng),
        40..65 => format!("{}/{}", level_point(rng), level_point(rng)),
        65..80 => {
            let open = rng.pick(&["..", "..", "..", "..", "..", "..", "", ".", "..."]);
            match rng.below(9) {
                0..4 => format!("{}/{open}", level_point(rng)),
                4..8 => format!("{open}/{}", level_point(rng)),
                _ => format!("{open}/{}", rng.pick(&["..", ""])),
            }
        }
        80..90 => x_range(rng),
        90..95 => date_field(rng),
        _ => (0..rng.below(9)).map(|_| rng.pick(LEVEL_POOL)).collect(),
    };
    if rng.percent(30) {
        text.push(rng.pick(&['?', '~', '%']));
    }
    mutated_by(rng, text, LEVEL_POOL)
}

/// A season, a long year or a strict point, each mostly a good one.
fn level_point(rng: &mut Rng) -> String {
    let sign = if rng.percent(25) { "-" } else { "" };
    let year = rng.below(10000);
    let kind = rng.below(10);
    if kind < 3 {
        let season = if rng.percent(85) { 21 + rng.below(4) } else { 18 + rng.below(25) };
        return format!("{sign}{year:04}-{season}");
    }
    if kind < 6 {
        let count = if rng.percent(85) { 5 + rng.below(5) } else { rng.below(13) };
        let digits: String = (0..count).map(|_| rng.pick(&LEVEL_POOL[..10])).collect();
        // Most begin with no zero.
        let first = if rng.percent(90) { digits.replacen('0', "7", 1) } else { digits };
        return format!("Y{sign}{first}");
    }
    // Now and then a part may be past its end.
    let more = if rng.percent(15) { 6 } else { 0 };
    let whole = format!(
        "{sign}{year:04}-{:02}-{:02}T{:02}:{:02}:{:02}{}",
        1 + rng.below(12 + 2 * more),
        1 + rng.below(28 + more),
        rng.below(24 + more),
        rng.below(60 + more),
        rng.below(60 + more),
        rng.pick(&["", "Z", "+02:00", "-00:00", "-11:30", "+23:59", "+24:00", "-01:60"]),
    );
    let depth = rng.pick(&[4, 7, 10, 19, 99]);
    whole[..whole.len().min(sign.len() + depth)].to_string()
}

// Frames as an import file has them.

/// That many frames, drawn one after the other.
fn drawn(n: u64, seed: u64, draw: fn(&mut Rng) -> String, out: &mut impl Write) -> io::Result<()> {
    let mut rng = Rng(seed);
    for _ in 0..n {
        out.write_all(draw(&mut rng).as_bytes())?;
        out.write_all(b"\n")?;
    }
    Ok(())
}

fn import_line(rng: &mut Rng) -> String {
    let start = rng.below(1 << 20) as u32;
    hex(&imported(rng, start))
}

/// Of a hundred frames seventy ask the ported reader, five the strict one, and twenty-five have three fields.
fn imported(rng: &mut Rng, start: u32) -> Vec<u8> {
    let operation = match rng.below(100) {
        0..70 => PORTED,
        70..75 => STRICT,
        _ => return imported_fields(rng, start),
    };
    let text = imported_date(rng);
    if rng.percent(4) {
        // A group in braces is a chunk of its own.
        let (left, right) = text.split_at(boundary(rng, &text));
        let first = normal(start, left);
        let second = piece(1, first.end, right);
        return one(operation, &[first, second]);
    }
    one(operation, &[normal(start, text)])
}

fn imported_date(rng: &mut Rng) -> String {
    let mut day = |parts: usize| {
        let text = format!(
            "{:04}-{:02}-{:02}",
            1000 + rng.below(1030),
            1 + rng.below(12),
            1 + rng.below(28)
        );
        text[..[4, 7, 10][parts]].to_string()
    };
    let (year, month, date) = (day(0), day(1), day(2));
    match rng.below(100) {
        0..38 => year,
        38..52 => month,
        52..76 => date,
        76..82 => format!("{year}/{}", 2030 + rng.below(70)),
        82..84 => format!("{month}/2031-02"),
        84..86 => format!("{date}/2031-02-03"),
        86..88 => format!("{year}/.."),
        88 => format!("../{year}"),
        89..92 => format!("{}XX", &year[..2]),
        92 => format!("{year}-XX"),
        93..95 => format!("{year}{}", rng.pick(&["?", "~", "%"])),
        95 => format!("{date}T10:20:30Z"),
        96 => year[2..].to_string(),
        97 => format!(" {year} "),
        98 => {
            rng.pick(&["forthcoming", "n.d.", "in press", "", "1900-02-29", "2000-13"]).to_string()
        }
        _ => format!("{year} é"),
    }
}

fn imported_fields(rng: &mut Rng, start: u32) -> Vec<u8> {
    let year = match rng.below(20) {
        0 => format!("{} BC", 1 + rng.below(900)),
        1 => format!("{}", 1 + rng.below(999)),
        _ => format!("{}", 1000 + rng.below(1030)),
    };
    let month = match rng.below(10) {
        0..4 => format!("{}", 1 + rng.below(12)),
        4..7 => MONTH_NAMES[rng.below(12)][..3].to_string(),
        7 | 8 => MONTH_NAMES[rng.below(12)].to_string(),
        _ => format!("{}~{}", rng.pick(&MONTH_NAMES), 1 + rng.below(28)).replace('~', "\u{a0}"),
    };
    let day = format!("{}", 1 + rng.below(28));
    let month = rng.percent(70).then(|| [normal(start + 20, month)]);
    let day = rng.percent(40).then(|| [normal(start + 40, day)]);
    three(&[normal(start, year)], month.as_ref().map(|m| &m[..]), day.as_ref().map(|d| &d[..]))
}
