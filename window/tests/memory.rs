//! What an index and its image take, and what a build and a reading take meanwhile, as README says.

mod ids;

use ids::ids;
use shawltide::{Index, Refusal, Room, GAMMA};
use std::alloc::{GlobalAlloc, Layout, System};
use std::cell::Cell;

thread_local! {
    /// The bytes that this thread has now, and the most so far: other threads, as those of the test harness, do not count.
    static NOW: Cell<isize> = const { Cell::new(0) };
    static MOST: Cell<isize> = const { Cell::new(0) };
}

struct Counted;

#[global_allocator]
static MEMORY: Counted = Counted;

unsafe impl GlobalAlloc for Counted {
    unsafe fn alloc(&self, layout: Layout) -> *mut u8 {
        NOW.with(|now| {
            now.set(now.get() + layout.size() as isize);
            MOST.with(|most| most.set(most.get().max(now.get())));
        });
        System.alloc(layout)
    }

    unsafe fn dealloc(&self, place: *mut u8, layout: Layout) {
        NOW.with(|now| now.set(now.get() - layout.size() as isize));
        System.dealloc(place, layout)
    }
}

/// What an act makes, the bytes that it keeps for it, and the most that it took meanwhile.
fn measured<T>(act: impl FnOnce() -> Result<T, Refusal>) -> Result<(T, usize, usize), Refusal> {
    let before = NOW.with(Cell::get);
    MOST.with(|most| most.set(before));
    let made = act()?;
    let most = (MOST.with(Cell::get) - before) as usize;
    let kept = (NOW.with(Cell::get) - before) as usize;
    Ok((made, kept, most))
}

/// The bytes of an index of so many ids, and the most that its build took beside the ids.
fn build_of(count: u64, gamma: f64) -> Result<(usize, usize), Refusal> {
    let ids = ids(count);
    let (index, kept, most) = measured(|| Index::build(&ids, gamma))?;
    assert_eq!(8 * kept, index.bits());
    Ok((kept, most))
}

#[test]
fn an_index_and_its_build() -> Result<(), Refusal> {
    for (count, gamma) in [(0, GAMMA), (1_000, GAMMA), (1_000_000, GAMMA), (1_000_000, 16.0)] {
        let (kept, most) = build_of(count as u64, gamma)?;
        let (room, first) = (Room::likely(count, gamma), Room::of_first_level(count, gamma));
        let lent = 8 * (room.words + room.samples + first.words + count);
        assert!(
            kept <= most && most <= lent + kept,
            "{count} ids: {kept}, {most}, {lent}"
        );
    }
    let (kept, most) = build_of(1_000_000, GAMMA)?;
    assert!((429_000..432_000).contains(&kept), "{kept}");
    assert!(most < 9_500_000, "{most}");
    Ok(())
}

/// A writing takes the image and no more; a reading, beside what it keeps, a sixth more than the image at most.
#[test]
fn an_image_and_its_reading() -> Result<(), Refusal> {
    for count in [0, 1_000, 300_000] {
        let ids: Vec<u64> = (0..count).collect();
        let index = Index::build(&ids, GAMMA)?;
        let (image, kept, most) = measured(|| index.to_image())?;
        assert_eq!((kept, most), (image.len(), image.len()));
        let (read, kept, most) = measured(|| Index::from_image(&image))?;
        assert_eq!(8 * kept, read.bits());
        assert!(
            6 * most <= 7 * image.len() + 6 * kept,
            "{count} ids: {most}, {}",
            image.len()
        );
    }
    Ok(())
}
