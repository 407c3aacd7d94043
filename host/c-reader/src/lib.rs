//! The inline reader of include/ospf.h, compiled by the C compiler from
//! host/c/reader.c: for tests, and for the benchmark of reading in C.

/// What stands at a place of a strip.
#[derive(Clone, Copy, Debug, PartialEq, Eq)]
pub enum Step {
    Entry(Entry),
    /// The strip's end.
    End,
    /// The number of the refusal.
    Refused(u8),
}

/// One entry, and the place after it. What a kind does not have is 0.
#[derive(Clone, Copy, Debug, PartialEq, Eq)]
pub struct Entry {
    pub kind: u8,
    pub id: u8,
    pub start: u32,
    pub end: u32,
    /// An IPv6 address in two halves, the higher first; any other value in
    /// the second.
    pub value: (u64, u64),
    /// Of an open entry.
    pub count: u32,
    pub next: usize,
}

/// The functions of host/c/reader.c.
mod library {
    /// `reader_step` of host/c/reader.c.
    #[repr(C)]
    #[derive(Clone, Default)]
    pub struct Step {
        pub high: u64,
        pub low: u64,
        pub next: usize,
        pub start: u32,
        pub end: u32,
        pub count: u32,
        pub kind: u8,
        pub refused: u8,
        pub id: u8,
    }

    unsafe extern "C" {
        pub unsafe fn reader_step_at(
            strip: *const u8,
            length: usize,
            place: usize,
            step: *mut Step,
        );
        pub unsafe fn reader_next(
            strip: *const u8,
            length: usize,
            steps: *mut Step,
            count: *mut usize,
        ) -> u8;
        pub unsafe fn reader_read_all(strip: *const u8, length: usize) -> u64;
        pub unsafe fn reader_name(version: u8, id: u8, name: *mut u8, room: usize) -> usize;
    }
}

/// The step at a place, by `ospf_step` and the inline readers. Where there is
/// no entry the next place is the strip's length; this panics if it is not.
pub fn step(strip: &[u8], place: usize) -> Step {
    let mut step = library::Step::default();
    // SAFETY: the function reads at most the `strip.len()` bytes of `strip`,
    // whatever they are and whatever the place, and writes `step`, which has
    // the C struct's fields in their order. Both live for the call and do not
    // overlap, and it keeps neither pointer.
    unsafe { library::reader_step_at(strip.as_ptr(), strip.len(), place, &mut step) };
    match (step.kind, step.refused) {
        (0, refused) => {
            assert_eq!(step.next, strip.len(), "the next place without an entry");
            if refused == 0 {
                Step::End
            } else {
                Step::Refused(refused)
            }
        }
        (_, refused) => {
            assert_eq!(refused, 0, "an entry that is refused");
            Step::Entry(entry(&step))
        }
    }
}

fn entry(step: &library::Step) -> Entry {
    Entry {
        kind: step.kind,
        id: step.id,
        start: step.start,
        end: step.end,
        value: (step.high, step.low),
        count: step.count,
        next: step.next,
    }
}

/// The entries that `ospf_next` gives one after another, and the number of the
/// refusal that ended it or 0.
pub fn next_all(strip: &[u8]) -> (Vec<Entry>, u8) {
    let mut steps = vec![library::Step::default(); strip.len()];
    let mut count = 0;
    let (to, counted) = (steps.as_mut_ptr(), &mut count);
    // SAFETY: the function reads at most the `strip.len()` bytes of `strip`,
    // whatever they are. It writes `count`, and a step for each entry; `steps`
    // has one for each byte, an entry has at least one byte, and a step has
    // the C struct's fields in their order. All three live for the call and do
    // not overlap, and it keeps no pointer.
    let refused = unsafe { library::reader_next(strip.as_ptr(), strip.len(), to, counted) };
    (steps[..count].iter().map(entry).collect(), refused)
}

/// The sum of every id, start, end, value and count of a strip, modulo 2^64, by
/// an ordinary loop over `ospf_next`; where an entry is refused, of those before it.
pub fn read_all(strip: &[u8]) -> u64 {
    // SAFETY: the function reads at most the `strip.len()` bytes of `strip`,
    // whatever they are; they live for the call, and it keeps no pointer.
    unsafe { library::reader_read_all(strip.as_ptr(), strip.len()) }
}

/// The name of a field, by `ospf_name`; none where the version has no such id.
pub fn name(version: u8, id: u8) -> Option<String> {
    let mut name = [0; 64];
    // SAFETY: the function writes at most the `name.len()` bytes of `name`,
    // which lives for the call, and keeps no pointer. It takes any numbers.
    let length = unsafe { library::reader_name(version, id, name.as_mut_ptr(), name.len()) };
    (length > 0).then(|| String::from_utf8_lossy(&name[..length]).into_owned())
}
