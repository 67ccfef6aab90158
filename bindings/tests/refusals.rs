//! A refused call has changed nothing, and plain data that was changed by hand is refused or searched, never trusted.

use hrbotaj::survey::{self, ImportError, Mark};
use hrbotaj::{CellIndex, Check, Filter, Library, Mesh, Place, Refusal, Sheet};

/// Document 01's sheet S: corners (0, 0) and (8, 4), 8 divisions, tolerance 1/512, border 0.
fn s() -> Sheet {
    Sheet::new(&[0.0, 0.0], &[8.0, 4.0], Some(8), Some(1.0 / 512.0), Some(0.0)).unwrap()
}

/// A change of plain data by hand.
type Change<T> = fn(&mut T);

#[test]
fn a_refusal_changes_nothing() {
    let sheet = s();
    let mut library = Library::with_space(3);
    library.keys.fill(u64::MAX);
    library.xs.fill(-1.5);
    let before = library.clone();
    // four rows are needed
    assert_eq!(library.insert(&sheet, 7, &[2.0, 1.0]), Err(Refusal(12)));
    assert_eq!(library.insert(&sheet, 7, &[2.0, 1.0, 0.0]), Err(Refusal(2)));
    assert_eq!(library.insert(&sheet, 7, &[2.0, f64::NAN]), Err(Refusal(3)));
    assert_eq!(library.insert(&sheet, 7, &[8f64.next_up(), 1.0]), Err(Refusal(11)));
    assert_eq!(library.strike(&sheet, 7), Err(Refusal(26)));
    assert_eq!(library, before);
    library.insert(&sheet, 7, &[2.5, 1.5]).unwrap();
    assert_eq!((library.used, library.keys[0], library.keys[1]), (1, 10, u64::MAX));
    let before = library.clone();
    assert_eq!(library.strike(&sheet, 8), Err(Refusal(26)));
    assert_eq!(library, before);

    let line = Place::Line { a: &[2.5, 0.0], b: &[2.5, 4.0] };
    let mut list = [5];
    assert_eq!(library.list_into(&sheet, line, Filter::Everything, &mut list[..0]), Err(Refusal(14)));
    assert_eq!(list, [5]);
    assert_eq!(library.list_into(&sheet, line, Filter::Everything, &mut list), Ok(1));
    assert_eq!(list, [7]);
}

#[test]
fn a_changed_sheet_is_damaged() {
    let library = Library::with_space(4);
    // two rows of one container and id, which are not judged on a sheet that is damaged
    let bad = Library { used: 2, ..library.clone() };
    assert_eq!(bad.check(&s()), Ok(Check { bad: Some(1), visited: 2 }));
    let damaged = |sheet: &Sheet, what: &str, i: usize| {
        assert_eq!(library.search(sheet, &[1.0, 1.0]), Err(Refusal(13)), "{what} {i}");
        assert_eq!(library.check(sheet), Err(Refusal(13)), "{what} {i}");
        assert_eq!(bad.check(sheet), Err(Refusal(13)), "{what} {i}");
    };
    for i in 0..8 {
        let mut sheet = s();
        sheet.numbers[i] += 1;
        damaged(&sheet, "number", i);
    }
    for i in 0..17 {
        let mut sheet = s();
        sheet.floats[i] = sheet.floats[i].next_up();
        damaged(&sheet, "float", i);
    }
}

#[test]
fn lists_of_any_length_are_judged() {
    let sheet = s();
    let good = Library::with_space(4);
    // a check is refused for the same reasons, but for a bad row, which it tells
    let ways: [(Change<Library>, u64, Option<Check>); 10] = [
        (|l| l.keys.clear(), 13, None),
        (|l| l.zs.push(0.0), 13, None),
        (|l| l.used = 5, 13, None),
        (|l| l.used = u64::MAX, 13, None),
        (|l| l.used = 2, 13, Some(Check { bad: Some(1), visited: 2 })), // two rows of one container and id
        // each list by itself
        (|l| l.keys.resize(65537, 0), 24, None),
        (|l| l.ids.resize(65537, 0), 24, None),
        (|l| l.xs.resize(65537, 0.0), 24, None),
        (|l| l.ys.resize(65537, 0.0), 24, None),
        (|l| l.zs.resize(65537, 0.0), 24, None),
    ];
    for (change, number, told) in ways {
        let mut library = good.clone();
        change(&mut library);
        assert_eq!(library.check(&sheet), told.ok_or(Refusal(number)));
        assert_eq!(library.search(&sheet, &[1.0, 1.0]), Err(Refusal(number)));
        let before = library.clone();
        assert_eq!(library.insert(&sheet, 1, &[1.0, 1.0]), Err(Refusal(number)));
        assert_eq!(library.strike(&sheet, 0), Err(Refusal(number)));
        assert_eq!(library, before);
    }
    assert_eq!(Library::with_space(0).search(&sheet, &[1.0, 1.0]), Ok(None));
    assert_eq!(Library::with_space(65536).search(&sheet, &[]), Err(Refusal(2)));
    assert_eq!(Library::with_space(65536).check(&sheet), Ok(Check { bad: None, visited: 0 }));
    // lists that are too long are judged before the sheet
    let damaged = Sheet { numbers: [0; 8], ..sheet };
    assert_eq!(Library::with_space(65536).check(&damaged), Err(Refusal(13)));
    assert_eq!(Library::with_space(65537).check(&damaged), Err(Refusal(24)));
}

#[test]
fn an_index_is_judged() {
    let coords = [0.0, 0.0, 4.0, 0.0, 4.0, 4.0, 0.0, 4.0];
    let mesh = Mesh { ndim: 2, coords: &coords, corners: &[0, 1, 2, 0, 2, 3] };
    let good = CellIndex::new(&mesh, None, None, None, None).unwrap();
    let ways: [(Change<CellIndex>, u64); 6] = [
        (|i| i.numbers[0] = 4, 1),
        (|i| i.large.resize(65537, 0), 24),
        (|i| i.numbers[4] = 1 << 40, 13),
        (|i| i.cells[0] = 2, 13), // there are two cells, 0 and 1
        (|i| i.cells.swap(0, 1), 13),
        (|i| i.floats[0] = f64::NAN, 13),
    ];
    for (change, number) in ways {
        let mut index = good.clone();
        change(&mut index);
        let mut zeta = [5.0; 4];
        assert_eq!(index.search(&mesh, &mut zeta, &[3.0, 1.0]), Err(Refusal(number)));
        assert_eq!(zeta, [5.0; 4]);
    }
    assert_eq!(good.search(&mesh, &mut [0.0; 3], &[3.0, 1.0]), Err(Refusal(25)));

    let mut index = good.clone();
    let broken = Mesh { corners: &[0, 1, 4], ..mesh };
    assert_eq!(index.build(&broken, None, None, None, None), Err(Refusal(19)));
    assert_eq!(index, good);
}

#[test]
fn the_first_malformed_line_is_told() {
    let malformed = [
        "",
        "1",
        "1,2,3,4",
        "1,2,3,4,5,",
        ",2,3,4,",
        "1,,3,4,",
        "1,2,3,,",
        "-1,2,3,4,",
        "+1,2,3,4,",
        " 1,2,3,4,",
        "18446744073709551616,2,3,4,",
        "000000000000000000000,2,3,4,",
        "1,+2,3,4,",
        "1,--2,3,4,",
        "1,2.,3,4,",
        "1,.2,3,4,",
        "1,2e3,3,4,",
        "1,2.0000,3,4,",
        "1,00000002,3,4,",
        "1,1048576.001,3,4,",
        "1,2,-1048577,4,",
        "1,2,3, 4,",
        "1,2,3,4,\t",
        "1,2,3,4,\x7f",
        "1,2,3,4,\u{e9}",
        "1,2,3,4,\r\r",
        "1,2,3,4,123456789012345678901234567890123",
    ];
    for line in malformed {
        for before in 0..4 {
            let text = ["1,2,3,4,\r\n".repeat(before), line.to_string(), "\n\n1,2,3,4,\n".to_string()].concat();
            let error = survey::import(text.as_bytes()).unwrap_err();
            assert_eq!(error, ImportError { refusal: Refusal(27), line: Some(before as u64 + 1) }, "{text:?}");
            assert_eq!(Refusal::from(error), Refusal::MALFORMED);
        }
    }
    for (text, line) in
        [("", 1), ("\n", 1), ("\r", 1), ("1,2,3,4,\r", 1), ("1,2,3,4,\n\n", 2), ("1,2,3,4,\r5,6,7,8,\n", 1)]
    {
        assert_eq!(survey::import(text.as_bytes()).unwrap_err().line, Some(line), "{text:?}");
    }
    let message = "refused 27 in line 2: a line of the text is malformed";
    assert_eq!(survey::import(b"1,2,3,4,\n1,2,3,4\n").unwrap_err().to_string(), message);
}

#[test]
fn point_lists_have_at_most_65_536_marks() {
    let line = "1,2,3,4,\n";
    assert_eq!(survey::import(line.repeat(65536).as_bytes()).map(|marks| marks.len()), Ok(65536));
    let more = line.repeat(65537);
    let full = ImportError { refusal: Refusal::FULL, line: None };
    assert_eq!(survey::import(more.as_bytes()), Err(full));
    assert_eq!(full.to_string(), Refusal::FULL.to_string());
    // every line is judged before that
    assert_eq!(survey::import((more + "\n").as_bytes()).unwrap_err().line, Some(65538));
    // and the length of the lists before any coordinate
    let mut marks = vec![Mark { id: 1, at: [f64::NAN; 3] }; 65536];
    assert_eq!(survey::export(&marks), Err(Refusal(28)));
    marks.push(marks[0]);
    assert_eq!(survey::export(&marks), Err(Refusal(24)));
}

#[test]
fn what_is_no_decimal_is_not_exported() {
    let good = [Mark { id: 7, at: [1.5, -0.5, 0.0] }, Mark { id: 8, at: [1048576.0, -1048576.0, 0.001] }];
    assert_eq!(survey::export(&good).unwrap(), b"7,1.500,-0.500,0.000,\n8,1048576.000,-1048576.000,0.001,\n");
    let third = 1.0 / 3.0;
    let bad = [-0.0, f64::NAN, f64::INFINITY, f64::NEG_INFINITY, third, 0.0005, 1e300, 0.1 + 0.2, 1048576.001, 5e-324];
    let beside = [1.5f64, -0.5, 1048576.0, -1048576.0, 0.001].map(|x| [x.next_up(), x.next_down()]);
    for x in beside.concat().into_iter().chain(bad) {
        for (mark, axis) in [(0, 0), (0, 1), (0, 2), (1, 0), (1, 1), (1, 2)] {
            let mut marks = good;
            marks[mark].at[axis] = x;
            assert_eq!(survey::export(&marks), Err(Refusal(28)), "{x:e}");
        }
    }
}
