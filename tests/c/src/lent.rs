//! Memory that is lent to a call.

use std::mem::{align_of, size_of, size_of_val};
use std::ptr;
use std::slice;

use second::random::Random;

use crate::c;

/// Guard bytes on either side, at least.
const GUARD: usize = 64;

/// Elements of `T`, a type of plain numbers, with guard bytes on both sides,
/// or without guards at the start of a large stretch of addresses.
pub struct Lent<T> {
    memory: Memory,
    /// Bytes before the first element.
    lead: usize,
    /// Elements that are looked at.
    count: usize,
    /// Elements that can be lent.
    room: usize,
    first: *mut T,
}

enum Memory {
    Guarded(Vec<u64>, u8),
    Reserved(*mut u8, usize),
}

/// The guard byte at a place.
fn guard(salt: u8, place: usize) -> u8 {
    salt.wrapping_add((place as u8).wrapping_mul(37))
}

impl<T: Copy + PartialEq + std::fmt::Debug> Lent<T> {
    /// Memory with this content, as little aligned as its type allows.
    pub fn new(random: &mut Random, content: &[T]) -> Lent<T> {
        let lead = GUARD + align_of::<T>() * random.below(8);
        let size = size_of_val(content);
        let mut words = vec![0u64; (lead + size + GUARD).div_ceil(8)];
        let salt = random.any() as u8;
        for (i, word) in words.iter_mut().enumerate() {
            *word = u64::from_le_bytes(std::array::from_fn(|j| guard(salt, 8 * i + j)));
        }
        // SAFETY: the lead lies inside.
        let first = unsafe { words.as_mut_ptr().cast::<u8>().add(lead).cast() };
        let count = content.len();
        let lent = Lent { memory: Memory::Guarded(words, salt), lead, count, room: count, first };
        // SAFETY: the words have room for the content behind the lead.
        unsafe { ptr::copy_nonoverlapping(content.as_ptr(), first, count) };
        lent
    }

    /// Memory of `room` elements, beginning with this content; what follows
    /// is 0.
    pub fn reserved(content: &[T], room: usize) -> Lent<T> {
        let bytes = size_of::<T>() * room;
        // SAFETY: the answer is looked at.
        let start = unsafe { c::shim_reserve(bytes) };
        assert!(!start.is_null(), "no addresses for {bytes} bytes");
        let first = start.cast();
        // SAFETY: the content is not longer than the room.
        unsafe { ptr::copy_nonoverlapping(content.as_ptr(), first, content.len()) };
        Lent { memory: Memory::Reserved(start, bytes), lead: 0, count: content.len(), room, first }
    }

    /// The pointer that is lent, also for 0 elements.
    pub fn pointer(&self) -> *mut T {
        self.first
    }

    /// The first elements.
    pub fn part(&self, count: usize) -> &[T] {
        assert!(count <= self.room);
        // SAFETY: there are as many.
        unsafe { slice::from_raw_parts(self.first, count) }
    }

    pub fn part_mut(&mut self, count: usize) -> &mut [T] {
        assert!(count <= self.room);
        // SAFETY: there are as many, and they are borrowed with `self`.
        unsafe { slice::from_raw_parts_mut(self.first, count) }
    }

    /// All that are looked at.
    pub fn all(&self) -> &[T] {
        self.part(self.count)
    }

    pub fn all_mut(&mut self) -> &mut [T] {
        self.part_mut(self.count)
    }

    /// Where a guard byte has changed, counted from the first element.
    fn touched(&self) -> Option<isize> {
        let Memory::Guarded(words, salt) = &self.memory else { return None };
        // SAFETY: bytes of the words.
        let bytes = unsafe { slice::from_raw_parts(words.as_ptr().cast::<u8>(), 8 * words.len()) };
        let end = self.lead + size_of::<T>() * self.count;
        let mut guards = (0..self.lead).chain(end..bytes.len());
        let place = guards.find(|&place| bytes[place] != guard(*salt, place))?;
        Some(place as isize - self.lead as isize)
    }
}

impl<T> Drop for Lent<T> {
    fn drop(&mut self) {
        if let Memory::Reserved(start, bytes) = self.memory {
            // SAFETY: it was reserved with this size.
            unsafe { c::shim_release(start, bytes) };
        }
    }
}

/// The same memory twice: lent to C, and lent to the second implementation.
pub struct Both<T> {
    pub there: Lent<T>,
    pub here: Lent<T>,
}

impl<T: Copy + PartialEq + std::fmt::Debug> Both<T> {
    pub fn new(random: &mut Random, content: &[T]) -> Both<T> {
        Both { there: Lent::new(random, content), here: Lent::new(random, content) }
    }

    pub fn reserved(content: &[T], room: usize) -> Both<T> {
        Both { there: Lent::reserved(content, room), here: Lent::reserved(content, room) }
    }

    /// Changes an element of both.
    pub fn change(&mut self, i: usize, change: impl FnOnce(&mut T)) {
        change(&mut self.here.all_mut()[i]);
        self.there.all_mut()[i] = self.here.all()[i];
    }

    /// Both hold the same and no guard byte has changed; else where, and what
    /// `tell` says of the two elements that differ.
    pub fn agree_by(&self, name: &str, tell: impl Fn(&T, &T) -> String) -> Result<(), String> {
        let (there, here) = (self.there.all(), self.here.all());
        if there != here {
            let i = (0..here.len()).find(|&i| there[i] != here[i]).unwrap_or(0);
            return Err(format!("{name}, element {i}: {}", tell(&there[i], &here[i])));
        }
        match self.there.touched() {
            None => Ok(()),
            Some(place) => Err(format!("{name}: the guard at byte {place} is touched")),
        }
    }

    pub fn agree(&self, name: &str) -> Result<(), String> {
        self.agree_by(name, |there, here| format!("C {there:?}, here {here:?}"))
    }
}
