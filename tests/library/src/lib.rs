//! The functions of librsk_c.a over slices, as include/rsk.h has them.

/// The number of the refusal, three numbers, the cycle's length, the cycle, then 0.
pub type Answer = [u32; 69];

#[derive(Clone, Copy, Debug, PartialEq, Eq)]
pub enum Entry {
    Rewrite,
    Judge,
    Fit,
    First,
    Rotate,
    Search,
    Floor,
    List,
    Run,
    Plain,
}

pub const ENTRIES: [Entry; 10] = [
    Entry::Rewrite,
    Entry::Judge,
    Entry::Fit,
    Entry::First,
    Entry::Rotate,
    Entry::Search,
    Entry::Floor,
    Entry::List,
    Entry::Run,
    Entry::Plain,
];

impl Entry {
    pub fn name(self) -> &'static str {
        match self {
            Entry::Rewrite => "rewrite",
            Entry::Judge => "judge",
            Entry::Fit => "fit",
            Entry::First => "first",
            Entry::Rotate => "rotate",
            Entry::Search => "search",
            Entry::Floor => "floor",
            Entry::List => "list",
            Entry::Run => "run",
            Entry::Plain => "plain",
        }
    }

    /// Whether the archive is said to have the function: see the features in Cargo.toml.
    pub fn is_linked(self) -> bool {
        match self {
            Entry::First => cfg!(feature = "first"),
            Entry::Rotate => cfg!(feature = "rotate"),
            Entry::Search => cfg!(feature = "search"),
            Entry::Run => cfg!(feature = "run"),
            Entry::Plain => cfg!(feature = "plain"),
            _ => true,
        }
    }
}

extern "C" {
    fn rsk_rewrite(record: *const u8, size: usize, out: *mut u8, room: usize, answer: *mut u32) -> u32;
    fn rsk_judge(record: *const u8, size: usize, answer: *mut u32) -> u32;
    fn rsk_fit(record: *const u8, size: usize, out: *mut u8, room: usize, answer: *mut u32) -> u32;
    fn rsk_floor(record: *const u8, size: usize, answer: *mut u32) -> u32;
    fn rsk_list(record: *const u8, size: usize, out: *mut u8, room: usize, answer: *mut u32) -> u32;
}

/// A function that is linked where its feature is on, and cannot be called where it is off.
macro_rules! linked {
    ($feature:literal, $name:ident, $($kind:ty),*) => {
        #[cfg(feature = $feature)]
        extern "C" {
            fn $name($(_: $kind),*) -> u32;
        }
        #[cfg(not(feature = $feature))]
        unsafe fn $name($(_: $kind),*) -> u32 {
            panic!("{} is not linked", stringify!($name))
        }
    };
}

linked!("first", rsk_first, *const u8, usize, *mut u8, usize, *mut u32);
linked!("rotate", rsk_rotate, *const u8, usize, u16, *mut u8, usize, *mut u32);
linked!("search", rsk_search, *const u8, usize, u16, u16, *mut u8, usize, *mut u32);
linked!("run", rsk_run, *const u8, usize, u16, *const u32, usize, *mut u32, usize, *mut u32, usize, *mut u32);
linked!("plain", rsk_plain, *const u8, usize, u16, *const u32, usize, *mut u32, usize, *mut u32);

// Each call lends whole slices and an answer of 69 words, as the functions ask.

pub fn rewrite(record: &[u8], out: &mut [u8], answer: &mut Answer) -> u32 {
    unsafe { rsk_rewrite(record.as_ptr(), record.len(), out.as_mut_ptr(), out.len(), answer.as_mut_ptr()) }
}

pub fn judge(record: &[u8], answer: &mut Answer) -> u32 {
    unsafe { rsk_judge(record.as_ptr(), record.len(), answer.as_mut_ptr()) }
}

pub fn fit(record: &[u8], out: &mut [u8], answer: &mut Answer) -> u32 {
    unsafe { rsk_fit(record.as_ptr(), record.len(), out.as_mut_ptr(), out.len(), answer.as_mut_ptr()) }
}

pub fn first(record: &[u8], out: &mut [u8], answer: &mut Answer) -> u32 {
    unsafe { rsk_first(record.as_ptr(), record.len(), out.as_mut_ptr(), out.len(), answer.as_mut_ptr()) }
}

pub fn rotate(record: &[u8], size: u16, out: &mut [u8], answer: &mut Answer) -> u32 {
    unsafe { rsk_rotate(record.as_ptr(), record.len(), size, out.as_mut_ptr(), out.len(), answer.as_mut_ptr()) }
}

pub fn search(record: &[u8], count: u16, size: u16, out: &mut [u8], answer: &mut Answer) -> u32 {
    unsafe { rsk_search(record.as_ptr(), record.len(), count, size, out.as_mut_ptr(), out.len(), answer.as_mut_ptr()) }
}

pub fn floor(record: &[u8], answer: &mut Answer) -> u32 {
    unsafe { rsk_floor(record.as_ptr(), record.len(), answer.as_mut_ptr()) }
}

pub fn list(record: &[u8], out: &mut [u8], answer: &mut Answer) -> u32 {
    unsafe { rsk_list(record.as_ptr(), record.len(), out.as_mut_ptr(), out.len(), answer.as_mut_ptr()) }
}

pub fn run(
    record: &[u8],
    count: u16,
    starts: &[u32],
    values: &mut [u32],
    finish: &mut [u32],
    answer: &mut Answer,
) -> u32 {
    let (size, table) = (record.len(), starts.len());
    let (value_room, finish_room) = (values.len(), finish.len());
    let (values, finish, answer) = (values.as_mut_ptr(), finish.as_mut_ptr(), answer.as_mut_ptr());
    unsafe {
        rsk_run(record.as_ptr(), size, count, starts.as_ptr(), table, values, value_room, finish, finish_room, answer)
    }
}

pub fn plain(record: &[u8], count: u16, starts: &[u32], values: &mut [u32], answer: &mut Answer) -> u32 {
    let (size, table, room) = (record.len(), starts.len(), values.len());
    let (values, answer) = (values.as_mut_ptr(), answer.as_mut_ptr());
    unsafe { rsk_plain(record.as_ptr(), size, count, starts.as_ptr(), table, values, room, answer) }
}
