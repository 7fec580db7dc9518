//! The functions of the allocator as they cross the C boundary, and the plain structs that they answer with.
//! Every lent table is a pointer and a length in elements. Span calls that change nothing have const pointers; the other calls have mutable ones for all that
//! they are lent, also where they only read it. `record` is `handle` in Rattle.

#[repr(C)]
#[derive(Clone, Copy, Debug, PartialEq, Eq)]
pub struct Told {
    pub number: u32,
    pub first: u32,
    pub second: u32,
}

#[repr(C)]
#[derive(Clone, Copy, Debug, PartialEq, Eq)]
pub struct Lengths {
    pub number: u32,
    pub nodes: usize,
    pub pile: usize,
    pub scratch: usize,
}

#[repr(C)]
#[derive(Clone, Copy, Debug, PartialEq, Eq)]
pub struct Packet {
    pub number: u32,
    pub store: u32,
    pub offset: u32,
    pub record: u32,
}

#[repr(C)]
#[derive(Clone, Copy, Debug, PartialEq, Eq)]
pub struct Wrote {
    pub number: u32,
    pub next: usize,
}

#[repr(C)]
#[derive(Clone, Copy, Debug, PartialEq, Eq)]
pub struct Entry {
    pub number: u32,
    pub kind: u32,
    pub first: u32,
    pub second: u32,
    pub next: usize,
}

#[repr(C)]
#[derive(Clone, Copy, Debug, PartialEq, Eq)]
pub struct Step {
    pub ended: u32,
    pub broken: u32,
    pub number: u32,
    pub granted: u32,
    pub offset: u32,
    pub record: u32,
    pub next: usize,
}

#[repr(C)]
#[derive(Clone, Copy, Debug)]
pub struct Watch {
    pub level: f32,
    pub peak: f32,
    pub last: u32,
}

#[repr(C)]
#[derive(Clone, Copy, Debug)]
pub struct Reading {
    pub number: u32,
    pub fill: u32,
    pub level: f32,
    pub peak: f32,
    pub last: u32,
    pub net: i64,
}

/// One macro writes a declaration; `W` and `R` in the list stand for the words of an allocator, lent to be written or to be read.
macro_rules! declare {
    ($(fn $name:ident($($before:ty),*; W; $($after:ty),*) -> $answer:ty;)*) => {
        extern "C" {
            $(pub fn $name($(_: $before,)* bins: *mut u32, leaves: *mut u8, nodes: *mut u32, nodes_len: usize,
                pile: *mut u32, pile_len: usize, $(_: $after),*) -> $answer;)*
        }
    };
    ($(fn $name:ident($($before:ty),*; R; $($after:ty),*) -> $answer:ty;)*) => {
        extern "C" {
            $(pub fn $name($(_: $before,)* bins: *const u32, leaves: *const u8, nodes: *const u32, nodes_len: usize,
                pile: *const u32, pile_len: usize, $(_: $after),*) -> $answer;)*
        }
    };
}

extern "C" {
    pub fn ds_class_down(size: u32) -> u32;
    pub fn ds_class_up(size: u32) -> u32;
    pub fn ds_class_value(class: u32) -> u64;
    pub fn ds_smallest_store(object: u32) -> Told;
    pub fn ds_table_lengths(count: u32) -> Lengths;
    pub fn ds_journal_write(kind: u32, first: u32, second: u32, out: *mut u8, out_len: usize, at: usize) -> Wrote;
    pub fn ds_journal_read(bytes: *const u8, bytes_len: usize, at: usize) -> Entry;
}

declare! {
    fn ds_set_up(*mut u32, u32, u32; W;) -> u32;
    fn ds_new(*mut u32, u32; W;) -> u32;
    fn ds_reset(*mut u32; W;) -> u32;
    fn ds_take(*mut u32, u32; W;) -> Told;
    fn ds_give(*mut u32, u32, u32; W;) -> u32;
    fn ds_take_lent(*mut u32, u32; W;) -> Told;
    fn ds_give_lent(*mut u32, u32, u32; W;) -> u32;
    fn ds_by_value_set_up(*mut u32, u32, u32; W;) -> u32;
    fn ds_by_value_new(*mut u32, u32; W;) -> u32;
    fn ds_by_value_reset(*mut u32; W;) -> u32;
    fn ds_by_value_take(*mut u32, u32; W;) -> Told;
    fn ds_by_value_give(*mut u32, u32, u32; W;) -> u32;
    fn ds_replay_step(*const u8, usize, usize, *mut u32; W;) -> Step;
    fn ds_packet_set_up(u32, u32, *mut u32; W; *mut u8, usize, *const u32, *const u8, usize) -> u32;
}

declare! {
    fn ds_size_of(*const u32, u32, u32; R;) -> Told;
    fn ds_report(*const u32; R;) -> Told;
    fn ds_full_report(*const u32; R; *mut u64, *mut u32) -> u32;
    fn ds_fill(*const u32; R;) -> Told;
    fn ds_audit(*const u32; R; *mut u32, usize) -> u32;
    fn ds_by_value_size_of(*const u32, u32, u32; R;) -> Told;
    fn ds_by_value_report(*const u32; R;) -> Told;
    fn ds_by_value_full_report(*const u32; R; *mut u64, *mut u32) -> u32;
    fn ds_by_value_fill(*const u32; R;) -> Told;
    fn ds_by_value_audit(*const u32; R; *mut u32, usize) -> u32;
    fn ds_gauge(*const u32, Watch; R;) -> Reading;
    fn ds_by_value_gauge(*const u32, Watch; R;) -> Reading;
}

/// The packet calls take two stores, each: scalars, bins, leaves, nodes and length, pile and length, bytes and length.
macro_rules! declare_two {
    ($(fn $name:ident($($before:ty),*) -> $answer:ty;)*) => {
        extern "C" {
            $(pub fn $name($(_: $before,)*
                on: *mut u32, on_bins: *mut u32, on_leaves: *mut u8, on_nodes: *mut u32, on_nodes_len: usize, on_pile: *mut u32, on_pile_len: usize,
                on_bytes: *mut u8, on_bytes_len: usize,
                ex: *mut u32, ex_bins: *mut u32, ex_leaves: *mut u8, ex_nodes: *mut u32, ex_nodes_len: usize, ex_pile: *mut u32, ex_pile_len: usize,
                ex_bytes: *mut u8, ex_bytes_len: usize) -> $answer;)*
        }
    };
}

declare_two! {
    fn ds_packet_take(u32) -> Packet;
    fn ds_packet_give(u32, u32, u32) -> u32;
    fn ds_packet_fill(u32, u32, u32, *const u8, usize) -> u32;
    fn ds_packet_read(u32, u32, u32, *mut u8, usize) -> usize;
    fn ds_packet_length(u32, u32, u32) -> Told;
    fn ds_packet_report(u32) -> Told;
    fn ds_packet_audit(u32, *mut u32, usize) -> u32;
}

extern "C" {
    pub fn ds_packet_set_up_both(
        on_size: u32, on_count: u32,
        on: *mut u32, on_bins: *mut u32, on_leaves: *mut u8, on_nodes: *mut u32, on_nodes_len: usize, on_pile: *mut u32, on_pile_len: usize,
        on_bytes: *mut u8, on_bytes_len: usize,
        ex_size: u32, ex_count: u32,
        ex: *mut u32, ex_bins: *mut u32, ex_leaves: *mut u8, ex_nodes: *mut u32, ex_nodes_len: usize, ex_pile: *mut u32, ex_pile_len: usize,
        ex_bytes: *mut u8, ex_bytes_len: usize,
    ) -> u32;
}
