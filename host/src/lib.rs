//! A safe interface of the slot pool: blocks of a lent arena of bytes, with the tables in a lent room of their own and their totals in a
//! lent record. [`PlainPool`] is the same by a second engine, without the record.
//!
//! ```
//! // alignments are counted from the arena's first byte, so the arena is aligned itself, here for all of them
//! #[repr(align(4096))]
//! struct Arena([u8; 16_384]);
//!
//! let mut arena = Box::new(Arena([0; 16_384]));
//! let mut room = vec![0; slotpool::room_len(16_384)];
//! let mut totals = slotpool::Totals::default();
//! let mut pool = slotpool::Pool::set_up(&mut arena.0, &mut room, &mut totals).unwrap();
//!
//! let block = pool.grant(160).unwrap();
//! let start = block.start();
//! pool.arena_mut()[start..start + 160].fill(7);
//! assert_eq!(pool.measure(block), Ok(160));
//! pool.release(block).unwrap();
//! assert_eq!(pool.release(block), Err(slotpool::Refusal::NoSuchBlock));
//!
//! // a packet of 400 bytes as one list, in entries of at most 160
//! let (mut sizes, mut list) = ([0; slotpool::ENTRIES], [slotpool::Handle::default(); slotpool::ENTRIES]);
//! let planned = slotpool::plan_list(400, 160, &mut sizes).unwrap();
//! let entries = pool.grant_list(400, 160, &sizes[..planned], &mut list).unwrap();
//! assert_eq!(sizes[..entries], [160, 160, 80]);
//! assert!(list[..entries].iter().map(|entry| entry.start()).eq([16, 208, 4112]));
//! assert_eq!(pool.report().unwrap().requested_bytes, 400);
//!
//! // a ring of 8 descriptors of 16 bytes, which the DMA engine wants at a multiple of 64
//! let ring = pool.grant_aligned(128, 64).unwrap().start();
//! assert_eq!((ring, pool.arena()[ring..].as_ptr().addr() % 64), (448, 0));
//!
//! // a buffer that a driver has mapped: it grows where it is as far as its slot goes, and beyond that the driver itself has it moved
//! let buffer = pool.grant(160).unwrap();
//! assert_eq!(pool.resize_in_place(buffer, 188), Ok(buffer));
//! let grown = match pool.resize_in_place(buffer, 300) {
//!     Err(slotpool::Refusal::NotInPlace) => {
//!         // the mapping is torn down before the block moves, and made anew where it is then
//!         pool.move_block(buffer, 300)
//!     }
//!     in_place => in_place,
//! };
//! assert_eq!((buffer.start(), grown.unwrap().start()), (592, 7184));
//!
//! // two blocks fill a group, so the next one has the slot of one that was released: the old handle is refused
//! let old = pool.grant(2028).unwrap();
//! pool.grant(2028).unwrap();
//! pool.release(old).unwrap();
//! let new = pool.grant(2028).unwrap();
//! assert_eq!(new.start(), old.start());
//! assert_eq!(pool.release(old), Err(slotpool::Refusal::Stale));
//! ```

pub mod trace;

use std::fmt;

/// Why a call was refused. A refused call changes nothing that it was lent.
#[derive(Clone, Copy, Debug, PartialEq, Eq, Hash)]
pub enum Refusal {
    BadArena = 1,
    Unsound = 2,
    TooLarge = 3,
    NoSuchBlock = 4,
    AlreadyFree = 5,
    HeaderDamaged = 6,
    Overrun = 7,
    NoRoom = 8,
    TooLong = 9,
    Stale = 10,
    NotInPlace = 11,
    BadAlignment = 13,
    BadProposal = 17,
}

/// Each refusal with its name.
const REFUSALS: [(Refusal, &str); 13] = [
    (Refusal::BadArena, "bad arena"),
    (Refusal::Unsound, "unsound"),
    (Refusal::TooLarge, "too large"),
    (Refusal::NoSuchBlock, "no such block"),
    (Refusal::AlreadyFree, "already free"),
    (Refusal::HeaderDamaged, "header damaged"),
    (Refusal::Overrun, "overrun"),
    (Refusal::NoRoom, "no room"),
    (Refusal::TooLong, "list too long"),
    (Refusal::Stale, "stale"),
    (Refusal::NotInPlace, "not in place"),
    (Refusal::BadAlignment, "bad alignment"),
    (Refusal::BadProposal, "bad proposal"),
];

/// The refusal with a number, and its name.
fn refusal(number: u32) -> (Refusal, &'static str) {
    *REFUSALS.iter().find(|(refusal, _)| *refusal as u32 == number).expect("the number of a refusal")
}

impl fmt::Display for Refusal {
    fn fmt(&self, f: &mut fmt::Formatter<'_>) -> fmt::Result {
        f.write_str(refusal(*self as u32).1)
    }
}

impl std::error::Error for Refusal {}

/// The totals of a pool, and the record of them that it is lent.
#[repr(C)]
#[derive(Clone, Copy, Debug, Default, PartialEq, Eq)]
pub struct Totals {
    pub live_blocks: usize,
    pub requested_bytes: usize,
    pub rows_held: usize,
    pub rows_free: usize,
    pub ready_slots: usize,
    pub waiting_slots: usize,
}

/// What names a block: grants give it, and the calls on the block take it. It is the block's start plus, in the low four bits, how often the
/// block's slot was granted before, modulo 16; so a handle that was kept too long is refused, even if another block has its start by now,
/// except that a slot's blocks a multiple of 16 grants apart are not told apart if they start at the same place, nor are blocks before and
/// after all of a group were released: then the slots are counted anew.
#[repr(transparent)]
#[derive(Clone, Copy, Debug, Default, PartialEq, Eq, PartialOrd, Ord, Hash)]
pub struct Handle(usize);

impl Handle {
    /// The place of the block's first byte in the arena.
    pub fn start(self) -> usize {
        self.0 & !15
    }

    /// The handle as a number, for keeping it in a descriptor or passing it to C.
    pub fn raw(self) -> usize {
        self.0
    }

    /// The handle of such a number. Of any other number too: calls refuse it, like any handle that is not a live block's.
    pub fn from_raw(number: usize) -> Handle {
        Handle(number)
    }
}

mod sys {
    /// Declares a call on a pool, by its name in C or under another. It begins with what the pool is lent, to be changed or only read: arena,
    /// room and, if there is one, the record.
    macro_rules! on_pool {
        ($prefix:literal $record:tt $access:tt $name:ident $arguments:tt) => {
            on_pool!($prefix $record $access $name as $name $arguments);
        };
        ($prefix:literal [$($record:ident)?] $access:tt $in_c:ident as $name:ident($($argument:ident: $type:ty),*)) => {
            extern "C" {
                #[link_name = concat!($prefix, stringify!($in_c))]
                pub fn $name(
                    arena: *$access u8,
                    arena_len: usize,
                    room: *$access u8,
                    room_len: usize,
                    $(totals: *$access $record,)?
                    $($argument: $type),*
                ) -> u32;
            }
        };
    }

    /// Declares the calls of an engine, whose C names begin with a prefix.
    macro_rules! engine {
        ($engine:ident, $prefix:literal, $record:tt) => {
            pub mod $engine {
                use crate::{Handle, Totals};

                on_pool!($prefix $record mut set_up());
                on_pool!($prefix $record mut grant(n: usize, value: *mut Handle));
                on_pool!($prefix $record mut grant_aligned(n: usize, align: usize, value: *mut Handle));
                on_pool!($prefix $record mut release(handle: Handle));
                on_pool!($prefix $record mut resize_in_place(handle: Handle, n: usize, value: *mut Handle));
                on_pool!($prefix $record mut move as move_block(handle: Handle, n: usize, value: *mut Handle));
                on_pool!($prefix $record const measure(handle: Handle, value: *mut usize));
                on_pool!($prefix $record const report(out: *mut Totals));
                on_pool!($prefix $record mut grant_list(
                    length: usize,
                    cap: usize,
                    sizes: *const usize,
                    sizes_len: usize,
                    handles: *mut Handle,
                    handles_len: usize,
                    value: *mut usize
                ));

                extern "C" {
                    #[link_name = concat!($prefix, "room_len")]
                    pub fn room_len(arena_len: usize) -> usize;
                }
            }
        };
    }

    engine!(masks, "slotpool_", [Totals]);
    engine!(plain, "slotpool_plain_", []);

    extern "C" {
        pub fn slotpool_check_list(length: usize, cap: usize, sizes: *const usize, sizes_len: usize) -> u32;
        pub fn slotpool_plan_list(length: usize, cap: usize, sizes: *mut usize, value: *mut usize) -> u32;
    }
}

/// Makes a call on a pool with what it is lent, to be changed or only read, and with further arguments: the answer's number.
macro_rules! call {
    ($access:tt $pool:ident[$($record:ident)?] $engine:ident::$name:ident($($argument:expr),*)) => {
        unsafe {
            sys::$engine::$name(
                (&raw $access *$pool.arena).cast(),
                $pool.arena.len(),
                (&raw $access *$pool.room).cast(),
                $pool.room.len(),
                $(&raw $access *$pool.$record,)?
                $($argument),*
            )
        }
    };
}

/// The exact size of the table room for an arena, or 0 where the arena's length is outside the rule.
pub fn room_len(arena_len: usize) -> usize {
    unsafe { sys::masks::room_len(arena_len) }
}

fn answer<T>(number: u32, value: T) -> Result<T, Refusal> {
    if number == 0 {
        Ok(value)
    } else {
        Err(refusal(number).0)
    }
}

/// The entries that the hardware takes in a gather list.
pub const ENTRIES: usize = 17;

/// Whether a proposal for a list of `length` bytes is accepted: at most [`ENTRIES`] sizes, each from 1 to the cap, whose sum is the
/// length, for a cap from 1 to 131,051, and nothing else.
pub fn check_list(length: usize, cap: usize, sizes: &[usize]) -> bool {
    unsafe { sys::slotpool_check_list(length, cap, sizes.as_ptr(), sizes.len()) == 1 }
}

/// Writes a proposal that [`check_list`] accepts, full caps and then the rest, to the front of an array, and gives how many sizes it
/// has. Refused with [`Refusal::TooLong`] if the length is over [`ENTRIES`] times the cap, or the cap out of its range.
pub fn plan_list(length: usize, cap: usize, sizes: &mut [usize; ENTRIES]) -> Result<usize, Refusal> {
    let mut value = 0;
    let number = unsafe { sys::slotpool_plan_list(length, cap, sizes.as_mut_ptr(), &mut value) };
    answer(number, value)
}

/// Writes the calls that the pools of both engines have; in brackets the field of the record, for the one that is lent it.
macro_rules! calls {
    ($pool:ident, $engine:ident, $record:tt, $report:literal) => {
        impl $pool<'_> {
            /// Grants a block of `n` zero bytes.
            pub fn grant(&mut self, n: usize) -> Result<Handle, Refusal> {
                let mut value = Handle::default();
                let number = call!(mut self $record $engine::grant(n, &mut value));
                answer(number, value)
            }

            /// Grants a block of `n` zero bytes that starts at a multiple of `align`, a power of two from 1 to 4,096, counted from the arena's
            /// first byte: its address is such a multiple only if the arena's is. Up to 16 this is [`Self::grant`]; from 32 on the block takes
            /// the slot of one of `n + align - 16` bytes, and keeps the alignment when it is resized or moved. Refused with
            /// [`Refusal::BadAlignment`] for any other `align`.
            pub fn grant_aligned(&mut self, n: usize, align: usize) -> Result<Handle, Refusal> {
                let mut value = Handle::default();
                let number = call!(mut self $record $engine::grant_aligned(n, align, &mut value));
                answer(number, value)
            }

            /// Grants the sizes of a proposal in order, all of them or none. Writes the handles of the blocks to the front of `handles`,
            /// keeps its later places, and gives the number of entries. Refused with [`Refusal::TooLong`] where [`plan_list`] is, or if
            /// `handles` has fewer than [`ENTRIES`] places; with [`Refusal::BadProposal`] if [`check_list`] says no; with
            /// [`Refusal::NoRoom`] if one of the grants would be.
            pub fn grant_list(&mut self, length: usize, cap: usize, sizes: &[usize], handles: &mut [Handle]) -> Result<usize, Refusal> {
                let mut value = 0;
                let number = call!(mut self $record $engine::grant_list(
                    length,
                    cap,
                    sizes.as_ptr(),
                    sizes.len(),
                    handles.as_mut_ptr(),
                    handles.len(),
                    &mut value
                ));
                answer(number, value)
            }

            /// Takes a block back.
            pub fn release(&mut self, handle: Handle) -> Result<(), Refusal> {
                answer(call!(mut self $record $engine::release(handle)), ())
            }

            /// Gives a block the size `n` where it is; its handle, which is given back, stays the same. Refused with [`Refusal::NotInPlace`]
            /// if `n` bytes are more than its slot has from its start on, or its slot's class is neither that of a grant of `n` bytes with
            /// the block's alignment nor the next one up; see [`Self::move_block`].
            pub fn resize_in_place(&mut self, handle: Handle, n: usize) -> Result<Handle, Refusal> {
                let mut value = Handle::default();
                let number = call!(mut self $record $engine::resize_in_place(handle, n, &mut value));
                answer(number, value)
            }

            /// Gives a block the size `n` elsewhere, even where [`Self::resize_in_place`] would do, and gives its handle from then on: a
            /// block with its alignment is granted, the bytes that both have are copied, and the old block is released. Refused with
            /// [`Refusal::NoRoom`] if that grant is, while the old block is live.
            pub fn move_block(&mut self, handle: Handle, n: usize) -> Result<Handle, Refusal> {
                let mut value = Handle::default();
                let number = call!(mut self $record $engine::move_block(handle, n, &mut value));
                answer(number, value)
            }

            /// The size of a block.
            pub fn measure(&self, handle: Handle) -> Result<usize, Refusal> {
                let mut value = 0;
                let number = call!(const self $record $engine::measure(handle, &mut value));
                answer(number, value)
            }

            #[doc = $report]
            pub fn report(&self) -> Result<Totals, Refusal> {
                let mut out = Totals::default();
                let number = call!(const self $record $engine::report(&mut out));
                answer(number, out)
            }

            /// The arena, for reading.
            pub fn arena(&self) -> &[u8] {
                self.arena
            }

            /// The arena, for writing packets into granted blocks.
            pub fn arena_mut(&mut self) -> &mut [u8] {
                self.arena
            }

            /// The tables, for keeping or looking at them.
            pub fn room(&self) -> &[u8] {
                self.room
            }
        }
    };
}

/// A pool over a lent arena, a lent table room and a lent record of its totals.
pub struct Pool<'a> {
    arena: &'a mut [u8],
    room: &'a mut [u8],
    totals: &'a mut Totals,
}

impl<'a> Pool<'a> {
    /// Makes a pool with no blocks. The room must have [`room_len`] bytes; the record is written, whatever stands in it.
    pub fn set_up(arena: &'a mut [u8], room: &'a mut [u8], totals: &'a mut Totals) -> Result<Pool<'a>, Refusal> {
        let pool = Pool { arena, room, totals };
        answer(call!(mut pool[totals] masks::set_up()), pool)
    }

    /// A pool over buffers and a record that hold one already, or hold anything: every call checks them.
    pub fn over(arena: &'a mut [u8], room: &'a mut [u8], totals: &'a mut Totals) -> Pool<'a> {
        Pool { arena, room, totals }
    }

    /// The record of the totals as it stands, to be kept with the tables; [`Pool::report`] checks it first.
    pub fn totals(&self) -> &Totals {
        self.totals
    }
}

calls!(Pool, masks, [totals], "The totals of the pool: the record, if it and the tables are sound.");

/// A pool of the second engine, over a lent arena and a lent table room: a plain record for each slot in the tables, and no record of the
/// totals beside them.
///
/// From a set up that is done, the same calls and the same stores to the arena get the answers that a [`Pool`] gives, and leave the bytes
/// of the arena that it leaves. Only the bytes of the tables differ, so a room belongs to the engine that set it up.
///
/// ```
/// use slotpool::{PlainPool, Pool, Refusal, Totals};
///
/// let (mut arena, mut room, mut totals) = (vec![0; 4096], vec![0; slotpool::room_len(4096)], Totals::default());
/// let mut pool = Pool::set_up(&mut arena, &mut room, &mut totals).unwrap();
///
/// // a monitor beside it, with an arena and a room of its own
/// let (mut copy, mut tables) = (vec![0; 4096], vec![0; PlainPool::room_len(4096)]);
/// let mut monitor = PlainPool::set_up(&mut copy, &mut tables).unwrap();
///
/// let block = pool.grant(160).unwrap();
/// assert_eq!(monitor.grant(160), Ok(block));
/// for arena in [pool.arena_mut(), monitor.arena_mut()] {
///     arena[block.start() + 160] = 1; // one byte too many
/// }
/// assert_eq!(pool.release(block), Err(Refusal::Overrun));
/// assert_eq!(monitor.release(block), Err(Refusal::Overrun));
/// assert_eq!(monitor.report(), pool.report());
/// assert!(monitor.arena() == pool.arena());
/// ```
pub struct PlainPool<'a> {
    arena: &'a mut [u8],
    room: &'a mut [u8],
}

impl<'a> PlainPool<'a> {
    /// The exact size of the table room for an arena, or 0 where the arena's length is outside the rule.
    pub fn room_len(arena_len: usize) -> usize {
        unsafe { sys::plain::room_len(arena_len) }
    }

    /// Makes a pool with no blocks. The room must have [`PlainPool::room_len`] bytes.
    pub fn set_up(arena: &'a mut [u8], room: &'a mut [u8]) -> Result<PlainPool<'a>, Refusal> {
        let pool = PlainPool { arena, room };
        answer(call!(mut pool[] plain::set_up()), pool)
    }

    /// A pool over buffers that hold one already, or hold anything: every call checks them.
    pub fn over(arena: &'a mut [u8], room: &'a mut [u8]) -> PlainPool<'a> {
        PlainPool { arena, room }
    }
}

calls!(PlainPool, plain, [], "The totals of the pool, counted, if the tables are sound.");
