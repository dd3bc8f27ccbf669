//! The port's functions as C sees them (tests/speed-port.txt): a slice is its place and its length.
//! Each gives how many numbers it wrote, or what it found; a refusal is a number that no answer is.

pub const RESULT_SIZE: usize = 1_802;
pub const WORK_SIZE: usize = 10_812;
/// The place of an index that is not there.
pub const NOTHING: usize = 999_999;

type In = *const i32;
type Out = *mut i32;

extern "C" {
    fn port_union(_: In, _: usize, _: In, _: usize, _: Out, _: usize, _: Out, _: usize) -> usize;
    fn port_intersect(
        _: In,
        _: usize,
        _: In,
        _: usize,
        _: Out,
        _: usize,
        _: Out,
        _: usize,
    ) -> usize;
    fn port_broadcast(_: In, _: usize, _: i32, _: u8, _: Out, _: usize, _: Out, _: usize) -> usize;
    fn port_concatenate(
        _: In,
        _: usize,
        _: i32,
        _: i32,
        _: Out,
        _: usize,
        _: Out,
        _: usize,
    ) -> usize;
    fn port_contract(_: In, _: usize, _: Out, _: usize, _: Out, _: usize) -> usize;
    fn port_permute(_: In, _: usize, _: In, _: usize, _: Out, _: usize, _: Out, _: usize) -> usize;
    fn port_stretch(_: In, _: usize, _: In, _: usize, _: Out, _: usize, _: Out, _: usize) -> usize;
    fn port_find(_: In, _: usize, _: In, _: usize) -> usize;
    fn port_find_many(_: In, _: usize, _: In, _: usize, _: i32, _: Out, _: usize) -> usize;
    fn port_sound(_: In, _: usize) -> usize;
    fn port_sparse(_: In, _: usize, _: In, _: usize, _: i32, _: Out, _: usize) -> usize;
}

/// A call: the slices that are read, the numbers, the slices that are written.
macro_rules! call {
    ($function:ident; $($read:expr),*; $($number:expr),*; $($written:expr),*) => {
        unsafe {
            $function($($read.as_ptr(), $read.len(),)* $($number,)* $($written.as_mut_ptr(), $written.len(),)*)
        }
    };
}

/// The two buffers that a call is lent. They begin at a fixed place of a cache line, for what it takes
/// to clear the working buffer depends on that.
#[repr(C, align(128))]
pub struct Lent {
    pub work: [i32; WORK_SIZE],
    pub result: [i32; RESULT_SIZE],
}

impl Lent {
    const OLD_RESULT: i32 = 7;
    const OLD_WORK: i32 = 3;

    /// Buffers with old numbers in them.
    pub fn new() -> Box<Self> {
        Box::new(Lent {
            work: [Self::OLD_WORK; WORK_SIZE],
            result: [Self::OLD_RESULT; RESULT_SIZE],
        })
    }

    /// Whether a call wrote just these numbers to the front of the result.
    pub fn has(&self, count: usize, wanted: &[i32]) -> bool {
        count == wanted.len()
            && self.result[..count] == *wanted
            && self.result[count..].iter().all(|&number| number == Self::OLD_RESULT)
    }

    /// Whether the working buffer is all zeros.
    pub fn is_cleared(&self) -> bool {
        self.work.iter().all(|&number| number == 0)
    }
}

/// The union of two records.
pub fn union(left: &[i32], right: &[i32], lent: &mut Lent) -> usize {
    call!(port_union; left, right; ; lent.result, lent.work)
}

/// The intersection of two records.
pub fn intersect(left: &[i32], right: &[i32], lent: &mut Lent) -> usize {
    call!(port_intersect; left, right; ; lent.result, lent.work)
}

/// So many records folded as the operator says.
pub fn broadcast(records: &[i32], count: i32, operator: u8, lent: &mut Lent) -> usize {
    call!(port_broadcast; records; count, operator; lent.result, lent.work)
}

/// So many blocks of a rank joined.
pub fn concatenate(blocks: &[i32], count: i32, rank: i32, lent: &mut Lent) -> usize {
    call!(port_concatenate; blocks; count, rank; lent.result, lent.work)
}

/// A record without its last axis.
pub fn contract(record: &[i32], lent: &mut Lent) -> usize {
    call!(port_contract; record; ; lent.result, lent.work)
}

/// A record with its axes moved.
pub fn permute(record: &[i32], permutation: &[i32], lent: &mut Lent) -> usize {
    call!(port_permute; record, permutation; ; lent.result, lent.work)
}

/// A record stretched to a shape.
pub fn stretch(record: &[i32], shape: &[i32], lent: &mut Lent) -> usize {
    call!(port_stretch; record, shape; ; lent.result, lent.work)
}

/// The place of an index in a record.
pub fn find(record: &[i32], index: &[i32]) -> usize {
    call!(port_find; record, index; ; )
}

/// The places of so many indices in a record, -1 where there is none.
pub fn find_many(record: &[i32], indices: &[i32], count: i32, result: &mut [i32]) -> usize {
    call!(port_find_many; record, indices; count; result)
}

/// 1 where a record is sound, else 0.
pub fn sound(record: &[i32]) -> usize {
    call!(port_sound; record; ; )
}

/// The sparse layout of a shape and so many rows.
pub fn sparse(shape: &[i32], rows: &[i32], count: i32, result: &mut [i32]) -> usize {
    call!(port_sparse; shape, rows; count; result)
}
