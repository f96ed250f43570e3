// The order in which nodes are made: an allocator that notes each place of a node's size.

use reference::unicorn::{Node, NodeRef};
use std::alloc::{GlobalAlloc, Layout, System};
use std::cell::RefCell;
use std::rc::Rc;
use std::sync::atomic::{AtomicUsize, Ordering::Relaxed};

const COUNTS: usize = 2 * size_of::<usize>(); // an Rc's two counts stand before its value
const SIZE: usize = COUNTS + size_of::<RefCell<Node>>();
const MOST: usize = 1 << 16;

static PLACES: [AtomicUsize; MOST] = [const { AtomicUsize::new(0) }; MOST];
static NOTED: AtomicUsize = AtomicUsize::new(0);

struct Noting;

#[global_allocator]
static NOTING: Noting = Noting;

unsafe impl GlobalAlloc for Noting {
    unsafe fn alloc(&self, layout: Layout) -> *mut u8 {
        let place = unsafe { System.alloc(layout) };
        if layout.size() == SIZE {
            if let Some(free) = PLACES.get(NOTED.fetch_add(1, Relaxed)) {
                free.store(place as usize, Relaxed);
            }
        }
        place
    }

    unsafe fn dealloc(&self, place: *mut u8, layout: Layout) {
        unsafe { System.dealloc(place, layout) }
    }
}

pub fn start() {
    NOTED.store(0, Relaxed);
}

// A number that rises in order of making, for a node made since the start and still alive.
pub fn order(node: &NodeRef) -> usize {
    let place = Rc::as_ptr(node) as usize - COUNTS;
    let noted = NOTED.load(Relaxed);
    assert!(noted <= MOST, "too many allocations");
    (0..noted).rfind(|k| PLACES[*k].load(Relaxed) == place).expect("a node made since the start")
}
