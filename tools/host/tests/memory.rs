//! `Saddles` takes its memory when it is made and none afterwards. This test has a program of its own, since its allocator counts.

use muosleap::image_util::{Saddles, kernel};
use muosleap::{Point, Refusal, Shape};
use std::alloc::{GlobalAlloc, Layout, System};
use std::cell::Cell;

/// The system's allocator, which counts what each thread asks of it.
struct Counting;

thread_local! {
    static ASKED: Cell<usize> = const { Cell::new(0) };
}

// SAFETY: every call is passed on to the system's allocator as it came. Growing and zeroed memory come here too, by the trait's
// own `realloc` and `alloc_zeroed`. The counter is made without memory.
unsafe impl GlobalAlloc for Counting {
    unsafe fn alloc(&self, layout: Layout) -> *mut u8 {
        ASKED.set(ASKED.get() + 1);
        unsafe { System.alloc(layout) }
    }

    unsafe fn dealloc(&self, memory: *mut u8, layout: Layout) {
        unsafe { System.dealloc(memory, layout) }
    }
}

#[global_allocator]
static COUNTING: Counting = Counting;

/// How often memory was asked for while `work` ran, and its answer.
fn counted<A>(work: impl FnOnce() -> A) -> (usize, A) {
    let before = ASKED.get();
    let answer = work();
    (ASKED.get() - before, answer)
}

#[test]
fn saddles_take_no_memory_for_pictures() {
    let shape = Shape { width: 64, height: 48 };
    let plane = |sample: fn(usize) -> f32| (0..shape.len()).map(sample).collect::<Vec<f32>>();
    let grey = plane(|_| 0.5);
    let squares = plane(|i| ((i % 64 / 9 + i / 64 / 7) % 2) as f32);
    let dots = plane(|i| ((i % 64 + i / 64) % 2) as f32);
    let noise = plane(|i| (i * i * 7919 % 251) as f32 / 250.0);
    let (weights, sharp) = (kernel(1.5), kernel(0.3));

    let (asked, mut saddles) = counted(|| Saddles::new(shape));
    assert!(asked > 0, "the allocator does not count");
    let mut most = 0;
    for (picture, weights) in [(&grey, &weights), (&squares, &weights), (&noise, &weights), (&dots, &sharp), (&noise, &sharp)] {
        let (asked, total) = counted(|| {
            let clusters = saddles.find(picture, weights).unwrap();
            let total = clusters.len();
            let right = |center: &Point| center.x < shape.width as f32 && center.y < shape.height as f32;
            assert_eq!(clusters.filter_map(|cluster| cluster.center().ok()).filter(right).count(), total);
            total
        });
        assert_eq!(asked, 0, "memory for a picture with {total} clusters");
        most = most.max(total);
    }
    assert!(most > 100, "no picture has many clusters");
    let (asked, refusal) = counted(|| saddles.find(&grey[1..], &weights).err());
    assert_eq!((asked, refusal), (0, Some(Refusal::PlaneSize)));
}
