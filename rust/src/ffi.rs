//! The calls of libknobstream.a, as c/knobstream.h has them. All that is
//! unsafe in this crate stands here.

use core::mem::{offset_of, size_of, MaybeUninit};

/// A Datetime as plain numbers: the struct of the header, its sixteen bytes in
/// two words. Words are made and passed in registers, where single bytes would
/// be stored one by one and loaded together.
#[repr(C)]
#[derive(Copy, Clone, Default)]
pub struct Datetime {
    /// Four bytes of the year, then has_month, month, has_day and day.
    pub day: u64,
    /// has_time, hour, minute, second, offset, offset_hours, offset_minutes and season.
    pub time: u64,
}

/// A Date as plain numbers.
#[derive(Copy, Clone)]
pub struct Date {
    pub first: Datetime,
    pub second: Datetime,
    pub shape: u8,
    pub uncertain: u8,
    pub approximate: u8,
}

/// What a reader answers.
#[repr(C)]
pub struct Answer {
    pub start: u64,
    pub end: u64,
    first: Datetime,
    second: Datetime,
    shape: u8,
    uncertain: u8,
    approximate: u8,
    reserved: u8,
    pub refusal: u8,
    unused: [u8; 3],
}

impl Answer {
    /// The date that was read; of a refusal all zeros.
    pub fn date(&self) -> Date {
        let Self { first, second, shape, uncertain, approximate, .. } = *self;
        Date { first, second, shape, uncertain, approximate }
    }
}

/// What a writer answers, and what measuring does.
#[repr(C)]
pub struct Written {
    pub length: usize,
    pub refusal: u8,
}

/// The days that a Datetime covers.
#[repr(C)]
pub struct Period {
    pub first: i32,
    pub last: i32,
    pub refusal: u8,
}

/// The seconds of an instant.
#[repr(C)]
pub struct Seconds {
    pub seconds: i64,
    pub refusal: u8,
}

/// What reading page ranges answers.
#[repr(C)]
pub struct Pages {
    pub ranges: u64,
    pub start: u64,
    pub end: u64,
    pub refusal: u64,
}

/// How many entries a chronology has room for.
pub const ENTRIES: usize = 512;

/// A chronology. It is one at any time: it is empty at first, only the calls
/// below change it, and by their contracts each leaves one.
#[repr(C)]
#[derive(Clone)]
pub struct Store {
    count: usize,
    firsts: [i32; ENTRIES],
    lasts: [i32; ENTRIES],
    ids: [u32; ENTRIES],
}

/// What a call on a chronology answers.
#[repr(C)]
pub struct Entries {
    pub entries: usize,
    pub refusal: u8,
}

/// Whether anything is dated in a period.
#[repr(C)]
pub struct Reply {
    pub read: usize,
    pub found: u8,
    pub refusal: u8,
}

const _: () = assert!(size_of::<Datetime>() == 16 && offset_of!(Datetime, time) == 8);
const _: () = assert!(size_of::<Answer>() == 56 && size_of::<Written>() == 16);
const _: () = assert!(offset_of!(Answer, first) == 16 && offset_of!(Answer, second) == 32);
const _: () = assert!(offset_of!(Answer, shape) == 48 && offset_of!(Answer, refusal) == 52);
const _: () = assert!(size_of::<Store>() == 6152 && offset_of!(Store, ids) == 4104);
const _: () = assert!(size_of::<Entries>() == 16 && size_of::<Reply>() == 16);
const _: () = assert!(offset_of!(Reply, found) == 8 && offset_of!(Reply, refusal) == 9);
const _: () = assert!(size_of::<Period>() == 12 && offset_of!(Period, refusal) == 8);
const _: () = assert!(size_of::<Seconds>() == 16 && offset_of!(Seconds, refusal) == 8);
const _: () = assert!(size_of::<Pages>() == 32 && offset_of!(Pages, refusal) == 24);
const _: () = assert!(cfg!(target_endian = "little"));

/// A reader of one chunk list: its bytes and its table.
type Reader = unsafe extern "C" fn(*const u8, usize, *const u64, usize, *mut Answer);

/// A measure of a text: the two Datetimes, then shape and marks.
type Measure = unsafe extern "C" fn(Datetime, Datetime, u8, u8, u8) -> Written;

/// A writer: the two Datetimes, the buffer, then shape and marks.
type Writer = unsafe extern "C" fn(Datetime, Datetime, *mut u8, usize, u8, u8, u8) -> Written;

extern "C" {
    fn knobstream_version() -> u32;
    fn knobstream_parse(
        bytes: *const u8,
        bytes_len: usize,
        table: *const u64,
        table_len: usize,
        answer: *mut Answer,
    );
    fn knobstream_parse_strict(
        bytes: *const u8,
        bytes_len: usize,
        table: *const u64,
        table_len: usize,
        answer: *mut Answer,
    );
    fn knobstream_parse_level_one(
        bytes: *const u8,
        bytes_len: usize,
        table: *const u64,
        table_len: usize,
        answer: *mut Answer,
    );
    fn knobstream_parse_three_fields(
        year: *const u8,
        year_len: usize,
        year_table: *const u64,
        year_table_len: usize,
        has_month: u8,
        month: *const u8,
        month_len: usize,
        month_table: *const u64,
        month_table_len: usize,
        has_day: u8,
        day: *const u8,
        day_len: usize,
        day_table: *const u64,
        day_table_len: usize,
        answer: *mut Answer,
    );
    fn knobstream_parse_six_fields(
        year: *const u8,
        year_len: usize,
        year_table: *const u64,
        year_table_len: usize,
        has_month: u8,
        month: *const u8,
        month_len: usize,
        month_table: *const u64,
        month_table_len: usize,
        has_day: u8,
        day: *const u8,
        day_len: usize,
        day_table: *const u64,
        day_table_len: usize,
        has_end_year: u8,
        end_year: *const u8,
        end_year_len: usize,
        end_year_table: *const u64,
        end_year_table_len: usize,
        has_end_month: u8,
        end_month: *const u8,
        end_month_len: usize,
        end_month_table: *const u64,
        end_month_table_len: usize,
        has_end_day: u8,
        end_day: *const u8,
        end_day_len: usize,
        end_day_table: *const u64,
        end_day_table_len: usize,
        answer: *mut Answer,
    );
    fn knobstream_measure_date(
        first: Datetime,
        second: Datetime,
        shape: u8,
        uncertain: u8,
        approximate: u8,
    ) -> Written;
    fn knobstream_write_date(
        first: Datetime,
        second: Datetime,
        out: *mut u8,
        out_len: usize,
        shape: u8,
        uncertain: u8,
        approximate: u8,
    ) -> Written;
    fn knobstream_write_fields(
        first: Datetime,
        second: Datetime,
        out: *mut u8,
        out_len: usize,
        shape: u8,
        uncertain: u8,
        approximate: u8,
    ) -> Written;
    fn knobstream_measure_level_one(
        first: Datetime,
        second: Datetime,
        shape: u8,
        uncertain: u8,
        approximate: u8,
    ) -> Written;
    fn knobstream_write_level_one(
        first: Datetime,
        second: Datetime,
        out: *mut u8,
        out_len: usize,
        shape: u8,
        uncertain: u8,
        approximate: u8,
    ) -> Written;
    fn knobstream_measure_timed(
        first: Datetime,
        second: Datetime,
        shape: u8,
        uncertain: u8,
        approximate: u8,
    ) -> Written;
    fn knobstream_write_timed(
        first: Datetime,
        second: Datetime,
        out: *mut u8,
        out_len: usize,
        shape: u8,
        uncertain: u8,
        approximate: u8,
    ) -> Written;
    fn knobstream_days(datetime: Datetime) -> Period;
    fn knobstream_instant(datetime: Datetime) -> Seconds;
    fn knobstream_compare_instants(first: Datetime, second: Datetime) -> i32;
    fn knobstream_compare(first: Datetime, second: Datetime) -> i32;
    fn knobstream_answer_frame(
        line: *const u8,
        line_len: usize,
        out: *mut u8,
        out_len: usize,
    ) -> Written;
    fn knobstream_parse_pages(
        bytes: *const u8,
        bytes_len: usize,
        table: *const u64,
        table_len: usize,
        counts: *const usize,
        counts_len: usize,
        out: *mut u32,
        out_len: usize,
        answer: *mut Pages,
    );
    fn knobstream_write_range(start: u32, end: u32, out: *mut u8, out_len: usize) -> Written;
    fn knobstream_add_entry(
        count: *mut usize,
        firsts: *mut i32,
        lasts: *mut i32,
        ids: *mut u32,
        first: i32,
        last: i32,
        id: u32,
    ) -> Entries;
    fn knobstream_remove_entry(
        count: *mut usize,
        firsts: *mut i32,
        lasts: *mut i32,
        ids: *mut u32,
        id: u32,
    ) -> Entries;
    #[cfg(test)]
    fn knobstream_count_entries(
        count: *const usize,
        firsts: *const i32,
        lasts: *const i32,
        ids: *const u32,
    ) -> Entries;
    fn knobstream_list_entries(
        count: *const usize,
        firsts: *const i32,
        lasts: *const i32,
        ids: *const u32,
        out: *mut i64,
        out_len: usize,
    ) -> Entries;
    fn knobstream_any_dated(
        count: *const usize,
        firsts: *const i32,
        lasts: *const i32,
        ids: *const u32,
        first: i32,
        last: i32,
    ) -> Reply;
}

/// The bytes of a chunk list and its table.
#[derive(Copy, Clone)]
pub struct List<'a> {
    pub bytes: &'a [u8],
    pub table: &'a [u64],
}

/// The fields year, month and day.
pub type Fields<'a> = (List<'a>, Option<List<'a>>, Option<List<'a>>);

/// A list that is not there.
const ABSENT: List = List { bytes: &[], table: &[] };

pub fn version() -> u32 {
    // SAFETY: the call takes nothing.
    unsafe { knobstream_version() }
}

pub fn parse(list: List) -> Answer {
    read(knobstream_parse, list)
}

pub fn parse_strict(list: List) -> Answer {
    read(knobstream_parse_strict, list)
}

pub fn parse_level_one(list: List) -> Answer {
    read(knobstream_parse_level_one, list)
}

fn read(reader: Reader, List { bytes, table }: List) -> Answer {
    let mut answer = MaybeUninit::uninit();
    // SAFETY: `reader` is one of the three above. The slices are readable for
    // the call, which keeps nothing of them and stores nothing there. It takes
    // any bytes and any numbers, and stores every byte of the answer.
    unsafe {
        reader(bytes.as_ptr(), bytes.len(), table.as_ptr(), table.len(), answer.as_mut_ptr());
        answer.assume_init()
    }
}

pub fn parse_three_fields(year: List, month: Option<List>, day: Option<List>) -> Answer {
    let m = month.unwrap_or(ABSENT);
    let d = day.unwrap_or(ABSENT);
    let mut answer = MaybeUninit::uninit();
    // SAFETY: as for `read`.
    unsafe {
        knobstream_parse_three_fields(
            year.bytes.as_ptr(),
            year.bytes.len(),
            year.table.as_ptr(),
            year.table.len(),
            month.is_some().into(),
            m.bytes.as_ptr(),
            m.bytes.len(),
            m.table.as_ptr(),
            m.table.len(),
            day.is_some().into(),
            d.bytes.as_ptr(),
            d.bytes.len(),
            d.table.as_ptr(),
            d.table.len(),
            answer.as_mut_ptr(),
        );
        answer.assume_init()
    }
}

/// The fields of a start, and of an end.
pub fn parse_six_fields(start: Fields, end: (Option<List>, Option<List>, Option<List>)) -> Answer {
    let (year, month, day) = start;
    let [m, d, ey, em, ed] = [month, day, end.0, end.1, end.2].map(|l| l.unwrap_or(ABSENT));
    let mut answer = MaybeUninit::uninit();
    // SAFETY: as for `read`.
    unsafe {
        knobstream_parse_six_fields(
            year.bytes.as_ptr(),
            year.bytes.len(),
            year.table.as_ptr(),
            year.table.len(),
            month.is_some().into(),
            m.bytes.as_ptr(),
            m.bytes.len(),
            m.table.as_ptr(),
            m.table.len(),
            day.is_some().into(),
            d.bytes.as_ptr(),
            d.bytes.len(),
            d.table.as_ptr(),
            d.table.len(),
            end.0.is_some().into(),
            ey.bytes.as_ptr(),
            ey.bytes.len(),
            ey.table.as_ptr(),
            ey.table.len(),
            end.1.is_some().into(),
            em.bytes.as_ptr(),
            em.bytes.len(),
            em.table.as_ptr(),
            em.table.len(),
            end.2.is_some().into(),
            ed.bytes.as_ptr(),
            ed.bytes.len(),
            ed.table.as_ptr(),
            ed.table.len(),
            answer.as_mut_ptr(),
        );
        answer.assume_init()
    }
}

pub fn measure_date(d: Date) -> Result<usize, u8> {
    measure(knobstream_measure_date, d)
}

pub fn measure_level_one(d: Date) -> Result<usize, u8> {
    measure(knobstream_measure_level_one, d)
}

pub fn measure_timed(d: Date) -> Result<usize, u8> {
    measure(knobstream_measure_timed, d)
}

fn measure(measure: Measure, d: Date) -> Result<usize, u8> {
    // SAFETY: `measure` is one of the three above, which take any numbers.
    let w = unsafe { measure(d.first, d.second, d.shape, d.uncertain, d.approximate) };
    if w.refusal == 0 {
        Ok(w.length)
    } else {
        Err(w.refusal)
    }
}

pub fn write_date(d: Date, out: &mut [u8]) -> Result<&str, u8> {
    write(knobstream_write_date, d, out)
}

pub fn write_fields(d: Date, out: &mut [u8]) -> Result<&str, u8> {
    write(knobstream_write_fields, d, out)
}

pub fn write_level_one(d: Date, out: &mut [u8]) -> Result<&str, u8> {
    write(knobstream_write_level_one, d, out)
}

pub fn write_timed(d: Date, out: &mut [u8]) -> Result<&str, u8> {
    write(knobstream_write_timed, d, out)
}

fn write(writer: Writer, d: Date, out: &mut [u8]) -> Result<&str, u8> {
    let (bytes, room) = (out.as_mut_ptr(), out.len());
    // SAFETY: `writer` is one of the four above. `out` is readable and writable
    // for the call, which keeps nothing of it and stores within it alone.
    let w = unsafe { writer(d.first, d.second, bytes, room, d.shape, d.uncertain, d.approximate) };
    text(w, out)
}

/// What a writer stored.
fn text(w: Written, out: &[u8]) -> Result<&str, u8> {
    if w.refusal != 0 {
        return Err(w.refusal);
    }
    let text = &out[..w.length];
    debug_assert!(text.is_ascii());
    // SAFETY: by the writers' contracts the bytes that they store are digits,
    // letters, signs and line feeds of ASCII.
    Ok(unsafe { core::str::from_utf8_unchecked(text) })
}

pub fn compare(first: Datetime, second: Datetime) -> i32 {
    // SAFETY: the call takes any numbers.
    unsafe { knobstream_compare(first, second) }
}

/// The first and the last day.
pub fn days(d: Datetime) -> Result<(i32, i32), u8> {
    // SAFETY: the call takes any numbers.
    let p = unsafe { knobstream_days(d) };
    if p.refusal == 0 {
        Ok((p.first, p.last))
    } else {
        Err(p.refusal)
    }
}

pub fn instant(d: Datetime) -> Result<i64, u8> {
    // SAFETY: the call takes any numbers.
    let s = unsafe { knobstream_instant(d) };
    if s.refusal == 0 {
        Ok(s.seconds)
    } else {
        Err(s.refusal)
    }
}

/// -1, 0, 1, or the number of a refusal, which is above 1.
pub fn compare_instants(first: Datetime, second: Datetime) -> i32 {
    // SAFETY: the call takes any numbers.
    unsafe { knobstream_compare_instants(first, second) }
}

/// One piece as a page range: its two numbers, or the answer that refuses it.
pub fn parse_range(List { bytes, table }: List) -> Result<[u32; 2], Pages> {
    let counts = [table.len() / 4];
    let mut range = [0; 2];
    let mut answer = MaybeUninit::uninit();
    // SAFETY: the slices are readable for the call and `range` readable and
    // writable, for the two numbers that it has. The call keeps nothing of them
    // and stores within `range` alone. It takes any bytes and any numbers, and
    // stores every byte of the answer.
    let answer = unsafe {
        knobstream_parse_pages(
            bytes.as_ptr(),
            bytes.len(),
            table.as_ptr(),
            table.len(),
            counts.as_ptr(),
            counts.len(),
            range.as_mut_ptr(),
            range.len(),
            answer.as_mut_ptr(),
        );
        answer.assume_init()
    };
    if answer.refusal == 0 {
        Ok(range)
    } else {
        Err(answer)
    }
}

pub fn write_range(start: u32, end: u32, out: &mut [u8]) -> Result<&str, u8> {
    let (bytes, room) = (out.as_mut_ptr(), out.len());
    // SAFETY: `out` is readable and writable for the call, which keeps nothing
    // of it and stores within it alone.
    let w = unsafe { knobstream_write_range(start, end, bytes, room) };
    text(w, out)
}

pub fn answer_frame<'a>(line: &[u8], out: &'a mut [u8]) -> Result<&'a str, u8> {
    let (bytes, room) = (out.as_mut_ptr(), out.len());
    // SAFETY: `line` is readable for the call and `out` readable and writable.
    // The call keeps nothing of them and stores within `out` alone.
    let w = unsafe { knobstream_answer_frame(line.as_ptr(), line.len(), bytes, room) };
    text(w, out)
}

impl Store {
    /// One without entries.
    pub const EMPTY: Self =
        Self { count: 0, firsts: [0; ENTRIES], lasts: [0; ENTRIES], ids: [0; ENTRIES] };

    /// The first days, the last days and the identifiers of the entries.
    pub fn rows(&self) -> (&[i32], &[i32], &[u32]) {
        let n = self.count;
        (&self.firsts[..n], &self.lasts[..n], &self.ids[..n])
    }

    pub fn add(&mut self, first: i32, last: i32, id: u32) -> Result<usize, u8> {
        let Self { count, firsts, lasts, ids } = self;
        let (fs, ls, ds) = (firsts.as_mut_ptr(), lasts.as_mut_ptr(), ids.as_mut_ptr());
        // SAFETY: the count and the columns, of 512 numbers each, are readable and
        // writable for the call and do not overlap. It keeps nothing of them,
        // stores within them alone, and takes any numbers.
        counted(unsafe { knobstream_add_entry(count, fs, ls, ds, first, last, id) })
    }

    pub fn remove(&mut self, id: u32) -> Result<usize, u8> {
        let Self { count, firsts, lasts, ids } = self;
        let (fs, ls, ds) = (firsts.as_mut_ptr(), lasts.as_mut_ptr(), ids.as_mut_ptr());
        // SAFETY: as for `add`.
        counted(unsafe { knobstream_remove_entry(count, fs, ls, ds, id) })
    }

    #[cfg(test)]
    fn count(&self) -> Result<usize, u8> {
        let (fs, ls, ds) = (self.firsts.as_ptr(), self.lasts.as_ptr(), self.ids.as_ptr());
        // SAFETY: as for `any_dated`.
        counted(unsafe { knobstream_count_entries(&self.count, fs, ls, ds) })
    }

    pub fn list(&self, out: &mut [i64]) -> Result<usize, u8> {
        let (fs, ls, ds) = (self.firsts.as_ptr(), self.lasts.as_ptr(), self.ids.as_ptr());
        let (numbers, room) = (out.as_mut_ptr(), out.len());
        // SAFETY: as for `any_dated`, and `out` is readable and writable for the
        // call, which stores within it alone.
        counted(unsafe { knobstream_list_entries(&self.count, fs, ls, ds, numbers, room) })
    }

    /// Whether there is such an entry, and how many were read to tell.
    pub fn any_dated(&self, first: i32, last: i32) -> Result<(bool, usize), u8> {
        let (fs, ls, ds) = (self.firsts.as_ptr(), self.lasts.as_ptr(), self.ids.as_ptr());
        // SAFETY: the count and the columns, of 512 numbers each, are readable for
        // the call. It keeps nothing of them, stores nothing there, and takes any
        // numbers.
        let r = unsafe { knobstream_any_dated(&self.count, fs, ls, ds, first, last) };
        if r.refusal == 0 {
            Ok((r.found != 0, r.read))
        } else {
            Err(r.refusal)
        }
    }
}

/// How many entries, or why not.
fn counted(e: Entries) -> Result<usize, u8> {
    if e.refusal == 0 {
        Ok(e.entries)
    } else {
        Err(e.refusal)
    }
}

#[cfg(test)]
#[test]
fn entries_are_counted() {
    let mut store = Store::EMPTY;
    assert_eq!(store.count(), Ok(0));
    assert_eq!(store.add(1, 2, 3), Ok(1));
    assert_eq!(store.count(), Ok(1));
    // what no caller of the crate can make
    store.lasts[0] = 0;
    assert_eq!((store.count(), store.any_dated(0, 0)), (Err(26), Err(26)));
    store.count = 513;
    assert_eq!((store.count(), store.list(&mut [0; 3])), (Err(26), Err(26)));
    assert_eq!((store.add(1, 2, 3), store.remove(3)), (Err(26), Err(26)));
}
