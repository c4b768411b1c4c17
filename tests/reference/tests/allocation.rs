//! `fast` allocates nothing in a call or a read-out.

use reference::fast;
use reference::paper::*;
use std::alloc::{GlobalAlloc, Layout, System};
use std::cell::Cell;

struct Counting;

thread_local! {
    static ALLOCATIONS: Cell<usize> = const { Cell::new(0) };
}

unsafe impl GlobalAlloc for Counting {
    unsafe fn alloc(&self, layout: Layout) -> *mut u8 {
        ALLOCATIONS.set(ALLOCATIONS.get() + 1);
        System.alloc(layout)
    }

    unsafe fn dealloc(&self, block: *mut u8, layout: Layout) {
        System.dealloc(block, layout)
    }
}

#[global_allocator]
static COUNTING: Counting = Counting;

#[test]
fn calls_allocate_nothing() {
    for structure in [MAP, STACK, HEAP, QUEUE] {
        let mut tree = vec![0; tree_bytes(8)];
        let mut state = fast::open(structure, 8, &mut tree);
        let tape: Vec<u16> = (0..67).map(|number| number * 31).collect();
        let mut trace = vec![0; 66];
        let before = ALLOCATIONS.get();
        for number in 0..600u32 {
            let kind = match structure {
                MAP => [PUT, PUT, GET, REMOVE][number as usize % 4],
                STACK => [PUSH, PUSH, POP][number as usize % 3],
                HEAP => [ADD, ADD, TAKE][number as usize % 3],
                _ => [IN, IN, OUT][number as usize % 3],
            };
            let ticket = Ticket::new(kind, number * 7 % 300, 1);
            // One in five may have a stray field.
            let ticket = match number % 5 {
                0 => ticket.bytes(),
                _ => ticket.cleaned().bytes(),
            };
            fast::call(&mut state, &mut tree, &ticket, &tape, &mut trace);
        }
        assert_eq!(ALLOCATIONS.get(), before);
    }
}

#[test]
fn read_outs_allocate_nothing() {
    let mut tree = vec![0; tree_bytes(8)];
    let mut state = fast::open(STACK, 8, &mut tree);
    let (mut trace, mut output) = ([0; 2], vec![0; 2000]);
    for number in 1..=101 {
        let ticket = Ticket::new(PUSH, 0, number).bytes();
        fast::call(&mut state, &mut tree, &ticket, &[0; 3], &mut trace);
    }
    // A bad slot, so that there is a report.
    tree[0] = 2;
    let before = ALLOCATIONS.get();
    assert_eq!(fast::read_out(&state, &tree, &mut output), Ok(1607));
    assert_eq!(ALLOCATIONS.get(), before);
}
