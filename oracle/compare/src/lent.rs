//! Stores that are lent to a call, and what they must come back as.

use std::ops::Range;
use std::{error, fmt};

/// What is not as it has to be.
#[derive(Debug)]
pub struct Difference(pub String);

impl fmt::Display for Difference {
    fn fmt(&self, f: &mut fmt::Formatter) -> fmt::Result {
        self.0.fmt(f)
    }
}

impl error::Error for Difference {}

pub type Compared = Result<(), Difference>;

pub fn same_number(what: &str, got: u64, wanted: u64) -> Compared {
    if got == wanted {
        return Ok(());
    }
    Err(Difference(format!("{what} is {got}, and should be {wanted}")))
}

/// The first place where two stores differ is named.
pub fn same_store<T: Copy + Into<u64> + PartialEq>(what: &str, got: &[T], wanted: &[T]) -> Compared {
    if got == wanted {
        return Ok(());
    }
    same_number(&format!("length of {what}"), got.len() as u64, wanted.len() as u64)?;
    let place = got.iter().zip(wanted).take_while(|(one, two)| one == two).count();
    same_number(&format!("{what}[{place}]"), got[place].into(), wanted[place].into())
}

/// A store with places before and after it that no call may touch.
pub struct Lent<T> {
    places: Vec<T>,
    content: Range<usize>,
    /// What is in the other places.
    fence: T,
}

impl Lent<u64> {
    pub fn new(content: &[u64]) -> Lent<u64> {
        const FENCE: usize = 4;
        let places = vec![0x5AFE_5AFE_5AFE_5AFE; content.len() + 2 * FENCE];
        Lent::within(places, FENCE, content)
    }
}

impl Lent<u8> {
    /// A store whose address is so many bytes past a multiple of 8.
    pub fn at(past: usize, content: &[u8]) -> Lent<u8> {
        const FENCE: usize = 32;
        let places = vec![0x5A; content.len() + 3 * FENCE];
        let beyond = (places.as_ptr() as usize + FENCE) % 8;
        Lent::within(places, FENCE + (8 + past - beyond) % 8, content)
    }
}

impl<T: Copy + Into<u64> + PartialEq> Lent<T> {
    /// The content from this place on, the places around it as they are.
    fn within(mut places: Vec<T>, start: usize, content: &[T]) -> Lent<T> {
        let fence = places[0];
        let content_places = start..start + content.len();
        places[content_places.clone()].copy_from_slice(content);
        Lent {
            places,
            content: content_places,
            fence,
        }
    }

    pub fn content(&mut self) -> &mut [T] {
        &mut self.places[self.content.clone()]
    }

    /// The store holds this, and nothing beside it was touched.
    pub fn holds(&mut self, what: &str, wanted: &[T]) -> Compared {
        same_store(what, self.content(), wanted)?;
        let beside = [&self.places[..self.content.start], &self.places[self.content.end..]];
        if beside.into_iter().flatten().all(|place| *place == self.fence) {
            return Ok(());
        }
        Err(Difference(format!("what lies beside {what} was touched")))
    }
}
