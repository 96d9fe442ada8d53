//! The memory of this program: freed blocks are kept by their size, each thread
//! has its own. The trees and items of one image after another are all small
//! blocks, and with the system's allocator half of a run went into it.

use std::{
    alloc::{GlobalAlloc, Layout, System},
    cell::Cell,
    ptr,
};

/// Sizes from 16 bytes on, each twice the one before.
const SIZES: usize = 9;
const SMALLEST: usize = 16;

thread_local! {
    /// The first free block of each size. In a free block stands the next one.
    static FREE: [Cell<*mut u8>; SIZES] = const { [const { Cell::new(ptr::null_mut()) }; SIZES] };
}

/// Which size a block has, `None` for one that the system keeps.
fn size(layout: Layout) -> Option<usize> {
    let blocks = layout.size().div_ceil(SMALLEST).next_power_of_two();
    let size = blocks.trailing_zeros() as usize;
    (size < SIZES && layout.align() <= SMALLEST).then_some(size)
}

pub struct Blocks;

// A block of a size comes from the system with that size, and goes to the list of
// that size and nowhere else; the list is this thread's.
unsafe impl GlobalAlloc for Blocks {
    unsafe fn alloc(&self, layout: Layout) -> *mut u8 {
        let Some(size) = size(layout) else {
            return unsafe { System.alloc(layout) };
        };
        FREE.with(|free| {
            let block = free[size].get();
            if block.is_null() {
                return unsafe {
                    System.alloc(Layout::from_size_align_unchecked(
                        SMALLEST << size,
                        SMALLEST,
                    ))
                };
            }
            free[size].set(unsafe { block.cast::<*mut u8>().read() });
            block
        })
    }

    unsafe fn dealloc(&self, block: *mut u8, layout: Layout) {
        let Some(size) = size(layout) else {
            return unsafe { System.dealloc(block, layout) };
        };
        FREE.with(|free| {
            unsafe { block.cast::<*mut u8>().write(free[size].get()) };
            free[size].set(block);
        });
    }

    unsafe fn realloc(&self, block: *mut u8, layout: Layout, wanted: usize) -> *mut u8 {
        let new = unsafe { Layout::from_size_align_unchecked(wanted, layout.align()) };
        match (size(layout), size(new)) {
            (None, None) => unsafe { System.realloc(block, layout, wanted) },
            (old, same) if old == same => block,
            _ => unsafe {
                let moved = self.alloc(new);
                if !moved.is_null() {
                    ptr::copy_nonoverlapping(block, moved, layout.size().min(wanted));
                    self.dealloc(block, layout);
                }
                moved
            },
        }
    }
}
