//! The makers fail where they are asked for what they cannot make, books come
//! in all kinds, and numbers are put and read by their width.

use plain::{
    join, layout_in, layout_of, number_at, pooled_mean, put_number, LAYOUTS, MAX_COUNT, VERSION_1,
    VERSION_2,
};
use trials::made::{
    book, damage, damaged, pooled_book, record, record_by_turns, record_in, scheme_of, BandLists,
    Shape, DAMAGES,
};
use trials::rng::Rng;

/// A shape that can be made.
const SHAPE: Shape = Shape::of(2, 3);

fn make(shape: Shape) {
    scheme_of(&mut Rng::new(31), shape);
}

#[test]
fn the_usual_shape() {
    make(SHAPE);
    make(SHAPE.in_version(2));
}

#[test]
#[should_panic(expected = "no record is written in version 3")]
fn a_scheme_for_another_version() {
    make(SHAPE.in_version(3));
}

#[test]
#[should_panic(expected = "no record is written in version 0")]
fn a_record_in_another_version() {
    let scheme = scheme_of(&mut Rng::new(32), SHAPE);
    record_in(&scheme, 0);
}

#[test]
#[should_panic(expected = "no scheme has 33 classes")]
fn too_many_classes() {
    make(Shape::of(33, 3));
}

#[test]
#[should_panic(expected = "no scheme has 0 columns")]
fn no_columns() {
    make(Shape::of(2, 0));
}

#[test]
#[should_panic(expected = "no scheme has bands by class")]
fn bands_by_class() {
    make(Shape {
        bands: BandLists::ByClass,
        ..SHAPE
    });
}

#[test]
#[should_panic(expected = "no scheme has 2 size steps")]
fn size_steps() {
    make(Shape { sizes: 2, ..SHAPE });
}

#[test]
#[should_panic(expected = "there is no damage of kind 19")]
fn damage_of_another_kind() {
    let mut rng = Rng::new(33);
    let mut record = record_in(&scheme_of(&mut rng, SHAPE), SHAPE.version);
    damage(&mut rng, &mut record, DAMAGES);
}

#[test]
fn the_same_books_from_a_seed() {
    let (mut first, mut second) = (Rng::new(34), Rng::new(34));
    for s in (1..=32).cycle().take(320) {
        assert_eq!(book(&mut first, s), book(&mut second, s));
        assert_eq!(pooled_book(&mut first, s), pooled_book(&mut second, s));
    }
}

/// Most books are pooled, some are refused for either cause, many can be
/// joined, and the edges occur, up to s and beyond.
#[test]
fn books_of_all_kinds() {
    let mut rng = Rng::new(35);
    let (mut causes, mut joined) = ([0; 20], 0);
    let (mut counts, mut beyond) = (Vec::new(), Vec::new());
    for s in (1..=32).cycle().take(4_000) {
        let scheme = scheme_of(&mut rng, Shape::of(s, 2));
        let (any, pooled) = (book(&mut rng, s), pooled_book(&mut rng, s));
        assert!(pooled_mean(&scheme, &pooled, 0).is_ok());
        let cause = pooled_mean(&scheme, &any, 0).err().unwrap_or(0);
        causes[usize::from(cause)] += 1;
        joined += u64::from(join(&any, &pooled).is_ok());
        let (to_s, past_s) = any.split_at(usize::from(s));
        counts.extend_from_slice(to_s);
        beyond.extend_from_slice(past_s);
    }
    assert!(causes[0] > 3_000 && causes[18] > 200 && causes[19] > 100);
    assert!(joined > 400, "{joined}");
    for edge in [0, 1, MAX_COUNT, MAX_COUNT + 1, u32::MAX] {
        assert!(counts.contains(&edge) && beyond.contains(&edge), "{edge}");
    }
}

/// Records and damaged ones come in both versions alike, and by turns.
#[test]
fn records_of_both_versions() {
    let mut rng = Rng::new(36);
    let (mut whole, mut damages) = ([0; 256], [0; 256]);
    for _ in 0..4_000 {
        whole[usize::from(record(&mut rng)[0])] += 1;
        if let Some(&version) = damaged(&mut rng).first() {
            damages[usize::from(version)] += 1;
        }
    }
    assert_eq!(whole[1] + whole[2], 4_000);
    for counts in [whole, damages] {
        assert!(counts[1] > 1_700 && counts[2] > 1_700, "{counts:?}");
    }
    let scheme = scheme_of(&mut rng, SHAPE);
    for (turn, version) in [(0, 1), (1, 2), (2, 1), (u64::MAX, 2)] {
        assert_eq!(record_by_turns(&scheme, turn), record_in(&scheme, version));
    }
}

#[test]
fn layouts_by_their_version() {
    assert_eq!(LAYOUTS, [VERSION_1, VERSION_2]);
    for layout in LAYOUTS {
        assert_eq!(layout_of(&[layout.version, 9]), Some(layout));
        assert_eq!(layout_in(layout.version.into()), Some(layout));
        assert_eq!(layout_in(u64::from(layout.version) + (1 << 8)), None);
        assert_eq!(layout_in(u64::from(layout.version) + (1 << 32)), None);
    }
    let known = |version: &u8| LAYOUTS.iter().any(|layout| layout.version == *version);
    for version in (0..=255).filter(|version| !known(version)) {
        assert_eq!(layout_of(&[version]), None);
        assert_eq!(layout_in(version.into()), None);
    }
    assert_eq!(layout_of(&[]), None);
}

#[test]
fn numbers_by_width() {
    let number = 0x0123_4567;
    for (width, last) in [(1, 0x67), (2, 0x4567), (3, 0x23_4567), (4, number)] {
        let mut bytes = [0xEE; 6];
        put_number(&mut bytes, 1, width, number);
        assert_eq!(number_at(&bytes, 1, width), last);
        assert_eq!(&bytes[1..=width], &number.to_be_bytes()[4 - width..]);
        assert_eq!(bytes[0], 0xEE);
        assert!(bytes[width + 1..].iter().all(|&byte| byte == 0xEE));
    }
}
