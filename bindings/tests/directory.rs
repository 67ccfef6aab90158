//! A library that has a directory answers as one that has none, and its directory is the one that a build writes.

use hrbotaj::{Directory, Filter, Library, LookUp, Place, Refusal, Sheet, ROWS};

/// The same numbers in every run.
struct Random(u64);

impl Random {
    fn below(&mut self, n: u64) -> u64 {
        self.0 = self.0.wrapping_mul(6364136223846793005).wrapping_add(1442695040888963407);
        (self.0 >> 33) % n
    }
}

/// The containers in use of a library's rows: key, first row and number of rows.
fn containers(library: &Library) -> Vec<(u64, u64, u64)> {
    let mut all: Vec<(u64, u64, u64)> = Vec::new();
    for (row, key) in library.keys[..library.used as usize].iter().enumerate() {
        match all.last_mut() {
            Some((last, _, count)) if last == key => *count += 1,
            _ => all.push((*key, row as u64, 1)),
        }
    }
    all
}

/// The directory of a library's rows, in so many places.
fn directory_of(library: &Library, places: usize) -> Directory {
    let mut directory = Directory::with_space(places);
    for (place, (key, first, count)) in containers(library).into_iter().enumerate() {
        directory.keys[place] = key;
        directory.firsts[place] = first;
        directory.counts[place] = count;
        directory.used += 1;
    }
    directory
}

/// A library without its directory.
fn rows_of(library: &Library) -> Library {
    Library { directory: None, ..library.clone() }
}

/// Document 01's sheet S: corners (0, 0) and (8, 4), 8 divisions, tolerance 1/512, border 0.
fn s() -> Sheet {
    Sheet::new(&[0.0, 0.0], &[8.0, 4.0], Some(8), Some(1.0 / 512.0), Some(0.0)).unwrap()
}

/// A library of three marks with a directory, and some places of any content behind those in use.
fn three_marks() -> (Sheet, Library) {
    let sheet = s();
    let mut library = Library::with_directory(16, 8);
    for (id, x) in [(7, [2.0, 1.0]), (9, [2.5, 1.5]), (4, [2.5, 1.25])] {
        library.insert(&sheet, id, &x).unwrap();
    }
    let directory = library.directory.as_mut().unwrap();
    let used = directory.used as usize;
    directory.keys[used..].fill(u64::MAX);
    directory.counts[used..].fill(5);
    (sheet, library)
}

#[test]
fn answers_are_the_same_with_a_directory_and_without() {
    let mut r = Random(1);
    let mut refused = [0; 30];
    for ndim in [2, 3] {
        let sheet = Sheet::new(&vec![0.0; ndim], &vec![4.0; ndim], Some(4), Some(1.0 / 64.0), Some(0.0)).unwrap();
        let mut with = Library::with_directory(24, 30);
        let mut without = Library::with_space(24);
        for _ in 0..800 {
            // on a grid of quarters: in containers, at their edges and corners, and outside the sheet
            let x: Vec<f64> = (0..ndim).map(|_| r.below(18) as f64 / 4.0).collect();
            let id = r.below(12);
            // whatever stands past the places in use is not read, and becomes 0 where rows change
            let directory = with.directory.as_mut().unwrap();
            let used = directory.used as usize;
            for list in [&mut directory.keys, &mut directory.firsts, &mut directory.counts] {
                list[used..].fill_with(|| r.below(100));
            }
            let (before, kind) = (with.directory.clone(), r.below(4));
            let answers = match kind {
                0 => [with.strike(&sheet, id).map(Some), without.strike(&sheet, id).map(Some)],
                1 => [with.search(&sheet, &x), without.search(&sheet, &x)],
                2 => {
                    let mut end = x.clone();
                    end[0] += r.below(3) as f64;
                    let place = match (ndim, r.below(3)) {
                        (2, 0) => Place::Circle { center: &x, radius: 1.0 },
                        (_, 0) => Place::Cylinder { a: &x, b: &end, radius: 1.0 },
                        (3, 1) => Place::PlaneXZ(x[1]),
                        _ => Place::Line { a: &x, b: &end },
                    };
                    let part = Filter::Range { axis: r.below(2), low: 1.0, high: 3.0 };
                    let filter = if r.below(2) == 0 { Filter::Everything } else { part };
                    let lists = [&with, &without].map(|library| library.list(&sheet, place, filter));
                    assert_eq!(lists[0], lists[1]);
                    lists.map(|list| list.map(|ids| ids.first().copied()))
                }
                _ => [with.insert(&sheet, id, &x).map(|()| None), without.insert(&sheet, id, &x).map(|()| None)],
            };
            assert_eq!(answers[0], answers[1]);
            refused[answers[0].err().map_or(0, |refusal| refusal.0 as usize)] += 1;
            assert_eq!(rows_of(&with), without);
            let is_changed = answers[0].is_ok() && (kind == 0 || kind == 3);
            let mut built = Library { directory: before.clone(), ..without.clone() };
            built.build_directory(&sheet).unwrap();
            assert_eq!(built.directory, Some(directory_of(&without, 30)));
            assert_eq!(with.directory, if is_changed { built.directory } else { before });
        }
    }
    // answered, outside, no row free, ends too close, no row of the id
    assert!([0, 11, 12, 15, 26].iter().all(|n| refused[*n] > 10), "{refused:?}");
}

#[test]
fn a_directory_is_built_in_the_space_that_it_has() {
    let (sheet, library) = three_marks();
    let rows = rows_of(&library);
    let used = containers(&rows).len();
    assert_eq!(used, 4);
    for places in 0..used + 3 {
        let mut own = rows.clone();
        // whatever it holds
        let (any, seven) = (vec![u64::MAX; places], vec![7; places]);
        own.directory = Some(Directory { keys: any.clone(), firsts: seven, counts: any, used: u64::MAX });
        let before = own.clone();
        if places < used {
            assert_eq!(own.build_directory(&sheet), Err(Refusal::FULL));
            assert_eq!(own, before);
        } else {
            assert_eq!(own.build_directory(&sheet), Ok(()));
            assert_eq!(own.directory, Some(directory_of(&rows, places)));
            assert_eq!(rows_of(&own), rows);
        }
    }
    // a library without one gets a place for each row, unless the build is refused
    let mut own = rows.clone();
    own.build_directory(&sheet).unwrap();
    assert_eq!(own.directory, Some(directory_of(&rows, 16)));
    let mut damaged = Library { used: 17, ..rows.clone() };
    assert_eq!(damaged.build_directory(&sheet), Err(Refusal::DAMAGED));
    assert_eq!(damaged.directory, None);
    let mut long = Library::with_space(ROWS + 1);
    assert_eq!(long.build_directory(&sheet), Err(Refusal::TOO_LONG));
    assert_eq!(long.directory, None);
}

#[test]
fn places_can_be_too_few_where_rows_are_not() {
    let sheet = s();
    // four containers meet at (2, 1)
    for (rows, places, told) in [(4, 4, Ok(())), (4, 3, Err(Refusal::FULL)), (3, 4, Err(Refusal::FULL)), (9, 9, Ok(()))]
    {
        let mut library = Library::with_directory(rows, places);
        let before = library.clone();
        assert_eq!(library.insert(&sheet, 7, &[2.0, 1.0]), told);
        if told.is_err() {
            assert_eq!(library, before);
        }
    }
    // a container in use takes no new place, and struck off, a mark frees those of its own
    let mut library = Library::with_directory(8, 4);
    library.insert(&sheet, 7, &[2.0, 1.0]).unwrap();
    library.insert(&sheet, 8, &[2.5, 1.5]).unwrap();
    assert_eq!(library.insert(&sheet, 8, &[6.5, 1.5]), Err(Refusal::FULL));
    assert_eq!(library.strike(&sheet, 7), Ok(4));
    library.insert(&sheet, 8, &[6.5, 1.5]).unwrap();
    let places: Vec<_> = library.directory.as_ref().unwrap().places().collect();
    assert_eq!(places, [(10, 0..1), (14, 1..2)]);
}

#[test]
fn the_middle_place_is_read_first() {
    let (sheet, library) = three_marks();
    assert_eq!(library.directory.as_ref().unwrap().keys[..4], [1, 2, 9, 10]);
    let due = [(1, Some(0), 2), (2, Some(1), 1), (9, Some(2), 2), (10, Some(3), 3)];
    let absent = [(0, None, 2), (3, None, 2), (8, None, 2), (11, None, 3), (32, None, 3), (u64::MAX, None, 3)];
    for (key, place, reads) in due.into_iter().chain(absent) {
        assert_eq!(library.look_up(&sheet, key), Ok(LookUp { place, reads }), "{key}");
    }
    // the most reads: the last of as many places as there can be
    let sheet = Sheet::new(&[0.0, 0.0], &[8.0, 8.0], Some(256), None, Some(0.0)).unwrap();
    let mut full = Library::with_space(ROWS);
    (0..ROWS).for_each(|row| full.keys[row] = row as u64);
    full.used = ROWS as u64;
    full.build_directory(&sheet).unwrap();
    assert_eq!(full.look_up(&sheet, 65535), Ok(LookUp { place: Some(65535), reads: 17 }));
    assert_eq!(full.look_up(&sheet, u64::MAX), Ok(LookUp { place: None, reads: 17 }));
    assert_eq!(full.look_up(&sheet, 32767), Ok(LookUp { place: Some(32767), reads: 1 }));
    // no directory is one without a place
    assert_eq!(Library::with_space(4).look_up(&sheet, 0), Ok(LookUp { place: None, reads: 0 }));
    assert_eq!(rows_of(&full).look_up(&sheet, 0), Err(Refusal::MISMATCH));
}

/// A change of a directory by hand.
type Change = fn(&mut Directory);

#[test]
fn a_directory_is_judged_by_every_call() {
    let (sheet, good) = three_marks();
    let ways: [(Change, u64); 22] = [
        (|d| d.keys[0] += 1, 29),
        (|d| d.keys[3] += 1, 29),
        (|d| d.firsts[0] = 1, 29),
        (|d| d.firsts[3] = u64::MAX, 29),
        (|d| d.counts[0] = 2, 29),
        (|d| d.counts[3] -= 1, 29),
        (|d| d.counts[2] = 0, 29),
        (|d| d.counts.fill(u64::MAX), 29),
        (|d| d.used = 0, 29),
        (|d| d.used = 3, 29),
        (|d| d.used = 5, 29),
        (|d| d.used = 8, 29),
        // two joined, and one split
        (|d| (d.counts[2], d.used) = (4, 3), 29),
        (|d| (d.counts[3], d.keys[4], d.firsts[4], d.counts[4], d.used) = (2, 11, 5, 1, 5), 29),
        (|d| d.used = 9, 13),
        (|d| d.used = u64::MAX, 13),
        (|d| d.keys.clear(), 13),
        (|d| d.firsts.push(0), 13),
        (|d| d.counts.truncate(4), 13),
        (|d| d.keys.resize(ROWS + 1, 0), 24),
        (|d| d.firsts.resize(ROWS + 1, 0), 24),
        (|d| d.counts.resize(ROWS + 1, 0), 24),
    ];
    let origin = [0.0, 0.0];
    for (change, number) in ways {
        let mut library = good.clone();
        change(library.directory.as_mut().unwrap());
        let before = library.clone();
        let refusal = Refusal(number);
        // what each of these is given would be refused next, or answered
        for x in [&[2.5, 1.5][..], &[], &[f64::NAN, 0.0], &[9.0, 1.0]] {
            assert_eq!(library.search(&sheet, x), Err(refusal));
            assert_eq!(library.insert(&sheet, 7, x), Err(refusal));
            let line = Place::Line { a: &origin, b: x };
            assert_eq!(library.list(&sheet, line, Filter::Everything), Err(refusal));
            assert_eq!(library.list_into(&sheet, line, Filter::Everything, &mut []), Err(refusal));
        }
        assert_eq!(library.list(&sheet, Place::PlaneXY(1.0), Filter::Everything), Err(refusal));
        assert_eq!(library.strike(&sheet, 7), Err(refusal));
        assert_eq!(library.strike(&sheet, 99), Err(refusal));
        assert_eq!(library.look_up(&sheet, 10), Err(refusal));
        assert_eq!(library, before);
        // the rows are none the worse, and damaged rows are told first
        assert_eq!(library.check(&sheet).map(|told| told.bad), Ok(None));
        assert_eq!(rows_of(&library).search(&sheet, &[2.5, 1.5]), Ok(Some(9)));
        library.xs[0] = f64::NAN;
        assert_eq!(library.search(&sheet, &[]), Err(if number == 24 { refusal } else { Refusal::DAMAGED }));
    }
    // entries past the used places are not looked at
    assert_eq!(good.search(&sheet, &[2.5, 1.5]), Ok(Some(9)));
    assert_eq!(Refusal::MISMATCH.to_string(), "refused 29: the used places of a directory do not match the rows");
}

#[test]
fn a_directory_that_is_given_up_leaves_the_rows() {
    let (sheet, mut library) = three_marks();
    let directory = library.directory.take();
    assert_eq!(library.search(&sheet, &[2.5, 1.5]), Ok(Some(9)));
    library.strike(&sheet, 9).unwrap();
    // the old one no longer matches
    library.directory = directory;
    assert_eq!(library.search(&sheet, &[2.5, 1.5]), Err(Refusal::MISMATCH));
    library.build_directory(&sheet).unwrap();
    assert_eq!(library.search(&sheet, &[2.5, 1.5]), Ok(None));
    assert_eq!(library.search(&sheet, &[2.0, 1.0]), Ok(Some(7)));
}
