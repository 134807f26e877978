//! Calls that are wrong in what they make of a kind.

use super::finds;
use super::images::{bytes, kept, reads, says, sees, without_room, writes_before};
use super::images::{Blocks, Index, Reader, Stores, Writer};
use crate::calls::{BuildStores, Calls, Proved};
use crate::kinds::of_kind;
use crate::reading::bounds::*;
use crate::reading::image::{blocks, check, FORM, FORMS, OLDER};
use crate::reading::index::{known, Given};
use crate::reading::{refused, NONE};

/// A refusal for the kind where one that is asked for later would have come, or an answer: that is said in its place.
fn later(wrong: u64, result: u64, if_plain: u64) -> u64 {
    if result == refused(16) && if_plain == wrong {
        return wrong;
    }
    result
}

/// Some kinds that are not known count as the plain one.
fn taken(kind: u64, plain: fn(u64) -> bool) -> u64 {
    if plain(kind) {
        PLAIN
    } else {
        kind
    }
}

/// Ways to take too many kinds for known ones: all, the first, the second, the last, all with a low part of 0.
const TAKEN: [fn(u64) -> bool; 6] = [
    |_| true,
    |kind| kind == 1,
    |kind| kind == 2,
    |kind| kind == u64::MAX,
    |kind| kind as u32 == 0,
    |kind| kind as u8 == 0,
];

/// A build that takes such kinds too.
struct BuildTakes(fn(u64) -> bool);

impl Calls for BuildTakes {
    fn build(&self, kind: u64, gamma: f64, ids: &[u64], stores: BuildStores) -> u64 {
        Proved.build(taken(kind, self.0), gamma, ids, stores)
    }
}

/// A build that says this before it asks for the kind.
struct BuildSays(u64);

impl Calls for BuildSays {
    fn build(&self, kind: u64, gamma: f64, ids: &[u64], stores: BuildStores) -> u64 {
        let mut copies = [0, 1, 2, 3, 4].map(|store| stores[store].to_vec());
        let [words, samples, collide, rest, out] = &mut copies;
        let if_plain = Proved.build(PLAIN, gamma, ids, [words, samples, collide, rest, out]);
        later(self.0, Proved.build(kind, gamma, ids, stores), if_plain)
    }
}

/// A build that then leaves or says something else for a kind that is not known.
struct BuildLeaves(fn(u64, &mut BuildStores) -> u64);

impl Calls for BuildLeaves {
    fn build(&self, kind: u64, gamma: f64, ids: &[u64], stores: BuildStores) -> u64 {
        let mut stores = stores;
        let [words, samples, collide, rest, out] = &mut stores;
        let result = Proved.build(kind, gamma, ids, [words, samples, collide, rest, out]);
        if known(kind) {
            return result;
        }
        (self.0)(kind, &mut stores)
    }
}

#[test]
fn builds_that_take_a_kind_wrongly_are_found() {
    for plain in TAKEN {
        assert!(finds(&BuildTakes(plain)));
    }
    for number in 1..=6 {
        assert!(finds(&BuildSays(refused(number))));
    }
    for wrong in [
        |_, _| refused(16),
        |kind, stores| leaves(stores, |[.., out]| out[0] = kind),
        |kind, stores| leaves(stores, |[.., out]| out[1] = kind),
        |_, stores| leaves(stores, |[words, ..]| words.fill(0)),
        |_, stores| leaves(stores, |[_, samples, ..]| samples.fill(0)),
        |_, stores| leaves(stores, |[_, _, collide, ..]| collide.fill(0)),
        |_, stores| leaves(stores, |[.., rest, _]| rest.fill(0)),
    ] as [fn(u64, &mut BuildStores) -> u64; 7]
    {
        assert!(finds(&BuildLeaves(wrong)));
    }
}

/// Such a change of what is left, where `out` was long enough.
fn leaves(stores: &mut BuildStores, change: impl Fn(&mut BuildStores)) -> u64 {
    if stores[4].len() < OUT {
        return refused(11);
    }
    change(stores);
    refused(16)
}

/// The index as it would be of the plain kind, where these kinds count as that. A head of another length stays as it is.
fn as_plain(given: &Given, plain: fn(u64) -> bool) -> Given {
    if given.head.len() != HEAD {
        return given.clone();
    }
    of_kind(given, taken(given.head[KIND], plain))
}

/// Whether a head, of any length, has a kind that is not known where kinds stand.
fn strange(head: &[u64]) -> bool {
    head.get(KIND).map_or(false, |kind| !known(*kind))
}

/// Lookups, row lists and a writer that take such kinds too.
struct Takes(fn(u64) -> bool, Call);

/// Lookups, row lists or a writer that say this before they ask for the kind.
struct Says(u64, Call);

/// Those that say 16 before 7 for a head of another length.
struct KindFirst(Call);

/// Lookups that say 16 before 11 for a short `place`.
struct KindBeforePlace;

#[derive(Clone, Copy, PartialEq)]
enum Call {
    Lookup,
    Rows,
    Write,
}

impl Calls for Takes {
    fn lookup(&self, given: &Given, id: u64, place: &mut [u64]) -> u64 {
        let plain = if self.1 == Call::Lookup { self.0 } else { known };
        Proved.lookup(&as_plain(given, plain), id, place)
    }

    fn rows(&self, given: &Given, ids: &[u64], rows: &mut [u64], marks: &mut [u64]) -> u64 {
        let plain = if self.1 == Call::Rows { self.0 } else { known };
        Proved.rows(&as_plain(given, plain), ids, rows, marks)
    }

    fn image_write(&self, index: Index, image: &mut [u8]) -> u64 {
        let plain = if self.1 == Call::Write { self.0 } else { known };
        write(&as_plain(&given(index), plain), image)
    }
}

fn given(index: Index) -> Given {
    let [head, words, samples] = index.map(<[u64]>::to_vec);
    Given { head, words, samples }
}

fn write(given: &Given, image: &mut [u8]) -> u64 {
    Proved.image_write(given.named().map(|(_, part)| part), image)
}

impl Calls for Says {
    fn lookup(&self, given: &Given, id: u64, place: &mut [u64]) -> u64 {
        let result = Proved.lookup(given, id, place);
        if self.1 != Call::Lookup || result != refused(16) {
            return result;
        }
        later(
            self.0,
            result,
            Proved.lookup(&as_plain(given, |_| true), id, &mut place.to_vec()),
        )
    }

    fn rows(&self, given: &Given, ids: &[u64], rows: &mut [u64], marks: &mut [u64]) -> u64 {
        let result = Proved.rows(given, ids, rows, marks);
        if self.1 != Call::Rows || result != refused(16) {
            return result;
        }
        let (mut rows, mut marks) = (rows.to_vec(), marks.to_vec());
        later(
            self.0,
            result,
            Proved.rows(&as_plain(given, |_| true), ids, &mut rows, &mut marks),
        )
    }

    fn image_write(&self, index: Index, image: &mut [u8]) -> u64 {
        let result = Proved.image_write(index, image);
        if self.1 != Call::Write || result != refused(16) {
            return result;
        }
        later(
            self.0,
            result,
            write(&as_plain(&given(index), |_| true), &mut image.to_vec()),
        )
    }
}

impl Calls for KindFirst {
    fn lookup(&self, given: &Given, id: u64, place: &mut [u64]) -> u64 {
        if self.0 == Call::Lookup && strange(&given.head) && place.len() >= PLACE {
            return refused(16);
        }
        Proved.lookup(given, id, place)
    }

    fn rows(&self, given: &Given, ids: &[u64], rows: &mut [u64], marks: &mut [u64]) -> u64 {
        if self.0 == Call::Rows && strange(&given.head) {
            return refused(16);
        }
        Proved.rows(given, ids, rows, marks)
    }

    fn image_write(&self, index: Index, image: &mut [u8]) -> u64 {
        if self.0 == Call::Write && strange(index[0]) {
            return refused(16);
        }
        Proved.image_write(index, image)
    }
}

impl Calls for KindBeforePlace {
    fn lookup(&self, given: &Given, id: u64, place: &mut [u64]) -> u64 {
        if given.head.len() == HEAD && strange(&given.head) {
            return refused(16);
        }
        Proved.lookup(given, id, place)
    }
}

#[test]
fn indexes_of_unknown_kinds_that_are_taken_are_found() {
    for call in [Call::Lookup, Call::Rows, Call::Write] {
        for plain in TAKEN {
            assert!(finds(&Takes(plain, call)));
        }
        assert!(finds(&KindFirst(call)));
    }
    assert!(finds(&KindBeforePlace));
}

/// All that these do beside what is wrong.
struct Right;

impl Calls for Right {
    fn build(&self, kind: u64, gamma: f64, ids: &[u64], stores: BuildStores) -> u64 {
        BuildSays(refused(16)).build(kind, gamma, ids, stores)
    }

    fn lookup(&self, given: &Given, id: u64, place: &mut [u64]) -> u64 {
        Takes(known, Call::Lookup).lookup(given, id, place)
    }

    fn rows(&self, given: &Given, ids: &[u64], rows: &mut [u64], marks: &mut [u64]) -> u64 {
        Says(refused(16), Call::Rows).rows(given, ids, rows, marks)
    }

    fn image_write(&self, index: Index, image: &mut [u8]) -> u64 {
        Takes(known, Call::Write).image_write(index, image)
    }
}

#[test]
fn what_is_right_in_these_is_equal() {
    assert!(!finds(&Right));
}

#[test]
fn a_kind_that_is_asked_for_late_is_found() {
    for (call, later) in [
        (Call::Lookup, &[refused(7), refused(8), NONE][..]),
        (Call::Rows, &[refused(7), refused(11), refused(12)]),
        (Call::Write, &[refused(7), refused(11), refused(15)]),
    ] {
        for wrong in later {
            assert!(finds(&Says(*wrong, call)));
        }
    }
}

/// Calls that write although the kind is not known.
struct Touches(Call);

impl Calls for Touches {
    fn lookup(&self, given: &Given, id: u64, place: &mut [u64]) -> u64 {
        let result = Proved.lookup(given, id, place);
        if self.0 == Call::Lookup && result == refused(16) {
            place[PLACE - 1] = 0;
        }
        result
    }

    fn rows(&self, given: &Given, ids: &[u64], rows: &mut [u64], marks: &mut [u64]) -> u64 {
        let result = Proved.rows(given, ids, rows, marks);
        if self.0 == Call::Rows && result == refused(16) {
            marks.fill(0);
        }
        result
    }
}

#[test]
fn stores_that_are_written_for_an_unknown_kind_are_found() {
    assert!(finds(&Touches(Call::Lookup)));
    assert!(finds(&Touches(Call::Rows)));
    assert!(finds(&Writer(|index, image| {
        let result = Proved.image_write(index, image);
        if result == refused(16) {
            image.iter_mut().take(1).for_each(|byte| *byte = !*byte);
        }
        result
    })));
}

/// A reader that takes this form for that.
fn of_form(blocks: &mut Blocks, form: u64, other: u64) {
    if blocks[0][1] == form {
        kept(blocks, |blocks| blocks[0][1] = other);
    }
}

/// A reader that takes such kinds too.
fn kinds_taken(blocks: &mut Blocks, plain: fn(u64) -> bool) {
    if blocks[0][1] == FORM {
        kept(blocks, |blocks| blocks[0][2] = taken(blocks[0][2], plain));
    }
}

#[test]
fn readers_that_take_other_forms_and_kinds_are_found() {
    for wrong in [
        |image, stores| sees(image, stores, |blocks| of_form(blocks, OLDER, 0)),
        |image, stores| sees(image, stores, |blocks| of_form(blocks, OLDER, FORM)),
        |image, stores| sees(image, stores, |blocks| of_form(blocks, FORM, OLDER)),
        |image, stores| sees(image, stores, |blocks| of_form(blocks, 0, OLDER)),
        |image, stores| sees(image, stores, |blocks| of_form(blocks, 3, FORM)),
        |image, stores| sees(image, stores, |blocks| kinds_taken(blocks, TAKEN[0])),
        |image, stores| sees(image, stores, |blocks| kinds_taken(blocks, TAKEN[1])),
        |image, stores| sees(image, stores, |blocks| kinds_taken(blocks, TAKEN[2])),
        |image, stores| sees(image, stores, |blocks| kinds_taken(blocks, TAKEN[3])),
        |image, stores| sees(image, stores, |blocks| kinds_taken(blocks, TAKEN[4])),
        |image, stores| sees(image, stores, |blocks| kinds_taken(blocks, TAKEN[5])),
    ] as [fn(&[u8], Stores) -> u64; 11]
    {
        assert!(finds(&Reader(wrong)));
    }
}

/// The whole blocks of bytes that have two at least.
fn whole_blocks(image: &[u8]) -> Option<Blocks> {
    let whole = &image[..image.len() / BLOCK_BYTES * BLOCK_BYTES];
    (image.len() >= MIN_IMAGE).then(|| blocks(whole))
}

/// The content has a kind, and it is not known.
fn of_unknown_kind(blocks: &Blocks) -> bool {
    blocks[0][1] == FORM && !known(blocks[0][2])
}

/// 16 before 13 and 14.
fn kind_before(number: u64, image: &[u8], stores: Stores) -> u64 {
    reads(image, stores, |result, [_, _, out]| {
        if result == refused(number) && whole_blocks(image).map_or(false, |blocks| of_unknown_kind(&blocks)) {
            out[0] = 0;
            return refused(16);
        }
        result
    })
}

/// 16 before 15 for content word 0: what follows that is taken for a kind whatever it is.
fn kind_before_form(image: &[u8], stores: Stores) -> u64 {
    reads(image, stores, |result, _| {
        let other = |blocks: Blocks| !FORMS.contains(&blocks[0][1]) && !known(blocks[0][2]);
        if result == refused(15) && whole_blocks(image).map_or(false, other) {
            return refused(16);
        }
        result
    })
}

/// An older image's id count is asked for as if it were a kind.
fn kind_of_older(image: &[u8], stores: Stores) -> u64 {
    reads(image, stores, |result, _| {
        let counted = |blocks: Blocks| blocks[0][1] == OLDER && blocks[0][2] > MAX_IDS;
        if result == refused(15) && whole_blocks(image).map_or(false, counted) {
            return refused(16);
        }
        result
    })
}

/// 16 after the rest of 15, or after 11 where no level has room.
fn kind_after(number: u64, image: &[u8], stores: Stores) -> u64 {
    reads(image, stores, |result, [words, samples, _]| {
        if result != refused(16) || number == 11 && !words.is_empty() && !samples.is_empty() {
            return result;
        }
        let mut blocks = blocks(image);
        blocks[0][2] = PLAIN;
        blocks[0][63] = check(&blocks[0][..63]);
        later(refused(number), result, without_room(&bytes(&blocks))[0])
    })
}

#[test]
fn readers_that_ask_for_the_kind_at_another_time_are_found() {
    for wrong in [
        |image, stores| kind_before(13, image, stores),
        |image, stores| kind_before(14, image, stores),
        kind_before_form,
        kind_of_older,
        |image, stores| kind_after(15, image, stores),
        |image, stores| kind_after(11, image, stores),
    ] as [fn(&[u8], Stores) -> u64; 6]
    {
        assert!(finds(&Reader(wrong)));
    }
}

#[test]
fn readers_that_leave_something_else_for_a_kind_are_found() {
    for wrong in [
        |image, stores| writes_before(16, image, stores),
        |image, stores| says(0, |result| result == refused(16), image, stores),
        |image, stores| says(1 + KIND, |result| result == refused(16), image, stores),
        |image, stores| says(1 + KIND, |result| result == 0, image, stores),
        |image, stores| says(OUT - 1, |result| result == refused(16), image, stores),
        |image, stores| says(OUT, |result| result == refused(16), image, stores),
    ] as [fn(&[u8], Stores) -> u64; 6]
    {
        assert!(finds(&Reader(wrong)));
    }
}
