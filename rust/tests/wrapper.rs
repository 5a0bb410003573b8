//! The safe wrapper's own promises, on one small sheet.

use std::error::Error;
use std::{ptr, thread};

use light_sheet::{ffi, Node, Reading, Refusal, Zone};

/// Lines 0 and 2 across, 1, 3 and 4 down; every number differs from every other.
fn sheet() -> Vec<u8> {
    let mut bytes = header_and_lines(&[0, 2], &[1, 3, 4]);
    for (column, row) in nodes() {
        let Node { height, x_slope, y_slope } = node_at(column, row);
        let numbers = [height, x_slope, y_slope];
        bytes.extend(numbers.iter().flat_map(|&number| (number as i16).to_le_bytes()));
    }
    bytes
}

/// The bytes of a sheet before its nodes.
fn header_and_lines(x_lines: &[u16], y_lines: &[u16]) -> Vec<u8> {
    let mut bytes = b"LVS\x01\x00".to_vec();
    bytes.extend([x_lines.len() as u8, y_lines.len() as u8, 0]);
    bytes.extend(x_lines.iter().chain(y_lines).flat_map(|line| line.to_le_bytes()));
    bytes
}

fn nodes() -> impl Iterator<Item = (u32, u32)> {
    (0..3).flat_map(|row| (0..2).map(move |column| (column, row)))
}

fn node_at(column: u32, row: u32) -> Node {
    let number = (10 * row + column) as i32;
    Node { height: number - 4095, x_slope: 300 + number, y_slope: 4095 - number }
}

/// The refusals, their numbers and their words.
const REFUSALS: [(Refusal, u32, &str); 19] = [
    (Refusal::Mark, 1, "fewer than 8 bytes, or another mark than LVS"),
    (Refusal::Version, 2, "the sheet's version is not 1"),
    (Refusal::Counts, 3, "a count of lines is outside 2 to 65, or byte 7 is not 0"),
    (Refusal::Length, 4, "the sheet's length is not the one its counts of lines call for"),
    (Refusal::Lines, 5, "a line does not rise, rises by more than 64, or exceeds 4096"),
    (Refusal::Numbers, 6, "a height or slope of the sheet is outside -4095 to 4095"),
    (Refusal::Pixel, 7, "a pixel is outside the mesh"),
    (Refusal::EmptyRun, 8, "the run is empty"),
    (Refusal::Kind, 9, "the reading kind is above 2"),
    (Refusal::Node, 10, "there is no such column or row"),
    (Refusal::NewNumbers, 11, "a new height or slope, or a sum of two, is outside -4095 to 4095"),
    (Refusal::Stiffness, 12, "the stiffness is above 64"),
    (Refusal::TooSteep, 13, "a filled slope would be outside -4095 to 4095"),
    (Refusal::FewPlaces, 14, "there are fewer than 24 places for bends"),
    (Refusal::Second, 15, "the second sheet would be refused itself"),
    (Refusal::OtherLines, 16, "the lines of the two sheets differ"),
    (Refusal::Target, 17, "the target is not as long as the first sheet"),
    (
        Refusal::ZoneList,
        18,
        "the list of zones is not a multiple of 12 bytes long, or longer than 192",
    ),
    (
        Refusal::Zone,
        19,
        "a zone has left above right, top above bottom, floor above ceiling, \
         or a limit outside -4095 to 4095",
    ),
];

#[test]
#[allow(clippy::type_complexity)] // Written out, they are read beside the functions.
fn functions_have_their_types() {
    let _: fn(&[u8]) -> Result<(), Refusal> = light_sheet::check;
    // A node said to be `'static` passes here: `borrowing` in src/lib.rs refuses it.
    let _: for<'a> fn(&'a [u8], u32, u32) -> Result<&'a [u8; 6], Refusal> = light_sheet::node;
    let _: fn(&[u8], u32, u32) -> Result<Node, Refusal> = light_sheet::node_numbers;
    let _: fn(&mut [u8], u32, u32, Node) -> Result<(), Refusal> = light_sheet::set_node;
    let _: fn(&mut [u8], u32) -> Result<(), Refusal> = light_sheet::fill_slopes;
    let _: fn(&[u8], &[u8], &mut [u8]) -> Result<(), Refusal> = light_sheet::pool;
    let _: fn(&[u8], u32, u32) -> Result<f64, Refusal> = light_sheet::level;
    let _: fn(&[u8], u32, u32) -> Result<[f64; 2], Refusal> = light_sheet::tilt;
    let _: fn(&[u8], u32, u32) -> Result<[f64; 3], Refusal> = light_sheet::bend;
    let _: fn(&[u8], u32, u32, u32) -> Result<Reading, Refusal> = light_sheet::read;
    let _: fn(&[u8], u32, u32, &mut [i64]) -> Result<usize, Refusal> = light_sheet::bends;
    let _: fn(&[u8], u32, u32, &mut [i32]) -> Result<(), Refusal> = light_sheet::fill_run;
    let _: fn(&[u8], &[u8], u32, u32) -> Result<i32, Refusal> = light_sheet::zoned_level;
    let _: fn(&[u8], &[u8], u32, u32, &mut [i32]) -> Result<(), Refusal> =
        light_sheet::fill_zoned_run;
    let _: fn(Zone) -> [u8; 12] = Zone::to_bytes;
    let _: fn(Refusal) -> u32 = Refusal::number;
    let _: fn(u32) -> Option<Refusal> = Refusal::from_number;
}

#[test]
fn refusals_have_their_numbers_and_words() {
    assert_eq!(Refusal::ALL, REFUSALS.map(|(refusal, _, _)| refusal));
    for (refusal, number, words) in REFUSALS {
        assert_eq!(refusal.number(), number);
        assert_eq!(refusal as u32, number);
        assert_eq!(Refusal::from_number(number), Some(refusal));
        assert_eq!(refusal.to_string(), format!("{words} (refusal {number})"));
    }
    for number in [0, 20, 257, 65_537, u32::MAX] {
        assert_eq!(Refusal::from_number(number), None);
    }
}

#[test]
fn refusals_are_errors() {
    let error: Box<dyn Error + Send + Sync> = Box::new(Refusal::EmptyRun);
    assert_eq!(error.to_string(), "the run is empty (refusal 8)");
}

#[test]
fn damaged_sheets_are_refused_by_name() {
    let changed = |place: usize, byte: u8| {
        let mut bytes = sheet();
        bytes[place] = byte;
        bytes
    };
    for (mut bytes, refusal) in [
        (sheet()[..7].to_vec(), Refusal::Mark),
        (changed(0, b'l'), Refusal::Mark),
        (changed(3, 2), Refusal::Version),
        (changed(5, 1), Refusal::Counts),
        (changed(7, 1), Refusal::Counts),
        (sheet()[..53].to_vec(), Refusal::Length),
        ([sheet(), vec![0]].concat(), Refusal::Length),
        (changed(8, 2), Refusal::Lines),
        (changed(53, 0x70), Refusal::Numbers),
    ] {
        assert_refused(&mut bytes, refusal);
    }
}

/// Every call that the sheet would allow, were it whole, is refused for the sheet.
fn assert_refused(sheet: &mut [u8], refusal: Refusal) {
    let whole = self::sheet();
    assert_eq!(light_sheet::pool(sheet, &whole, &mut [0; 54]), Err(refusal));
    assert_eq!(light_sheet::pool(&whole, sheet, &mut [0; 54]), Err(Refusal::Second));
    assert_eq!(light_sheet::check(sheet), Err(refusal));
    assert_eq!(light_sheet::node(sheet, 0, 0), Err(refusal));
    assert_eq!(light_sheet::node_numbers(sheet, 0, 0), Err(refusal));
    assert_eq!(light_sheet::set_node(sheet, 0, 0, Node::default()), Err(refusal));
    assert_eq!(light_sheet::fill_slopes(sheet, 0), Err(refusal));
    assert_eq!(light_sheet::level(sheet, 0, 1), Err(refusal));
    assert_eq!(light_sheet::tilt(sheet, 0, 1), Err(refusal));
    assert_eq!(light_sheet::bend(sheet, 0, 1), Err(refusal));
    assert_eq!(light_sheet::read(sheet, 0, 1, light_sheet::LEVEL), Err(refusal));
    assert_eq!(light_sheet::bends(sheet, 0, 1, &mut [0; 24]), Err(refusal));
    assert_eq!(light_sheet::fill_run(sheet, 0, 1, &mut [0; 3]), Err(refusal));
    for zones in [&[] as &[u8], &[0; 5], &UPSIDE_DOWN.to_bytes()] {
        assert_eq!(light_sheet::zoned_level(sheet, zones, 0, 1), Err(refusal));
        assert_eq!(light_sheet::fill_zoned_run(sheet, zones, 0, 1, &mut [0; 3]), Err(refusal));
    }
}

/// No zone: its top is below its bottom.
const UPSIDE_DOWN: Zone = Zone { left: 0, top: 3, right: 2, bottom: 2, floor: 0, ceiling: 1 };

#[test]
fn wrong_calls_are_refused_by_name() {
    let mut sheet = sheet();
    for (x, y) in [(3, 1), (0, 0), (0, 5)] {
        assert_eq!(light_sheet::level(&sheet, x, y), Err(Refusal::Pixel));
        assert_eq!(light_sheet::tilt(&sheet, x, y), Err(Refusal::Pixel));
        assert_eq!(light_sheet::bend(&sheet, x, y), Err(Refusal::Pixel));
        assert_eq!(light_sheet::read(&sheet, x, y, 3), Err(Refusal::Pixel));
        assert_eq!(light_sheet::bends(&sheet, x, y, &mut [0; 23]), Err(Refusal::Pixel));
        assert_eq!(light_sheet::fill_run(&sheet, x, y, &mut [0]), Err(Refusal::Pixel));
    }
    assert_eq!(light_sheet::fill_run(&sheet, 0, 1, &mut [0; 4]), Err(Refusal::Pixel));
    assert_eq!(light_sheet::fill_run(&sheet, 0, 1, &mut []), Err(Refusal::EmptyRun));
    assert_eq!(light_sheet::read(&sheet, 0, 1, 3), Err(Refusal::Kind));
    for places in [0, 3, 6, 23] {
        let mut list = vec![0; places];
        assert_eq!(light_sheet::bends(&sheet, 0, 1, &mut list), Err(Refusal::FewPlaces));
    }
    let (zero, high) = (Node::default(), Node { height: 4096, ..Node::default() });
    for (column, row) in [(2, 0), (0, 3)] {
        assert_eq!(light_sheet::node(&sheet, column, row), Err(Refusal::Node));
        assert_eq!(light_sheet::node_numbers(&sheet, column, row), Err(Refusal::Node));
        assert_eq!(light_sheet::set_node(&mut sheet, column, row, zero), Err(Refusal::Node));
    }
    assert_eq!(light_sheet::set_node(&mut sheet, 0, 0, high), Err(Refusal::NewNumbers));
    for stiffness in [65, 257, 65_537, u32::MAX] {
        assert_eq!(light_sheet::fill_slopes(&mut sheet, stiffness), Err(Refusal::Stiffness));
    }
    light_sheet::set_node(&mut sheet, 0, 0, Node { height: 4095, ..zero }).unwrap();
    assert_eq!(light_sheet::fill_slopes(&mut sheet, 64), Err(Refusal::TooSteep));
}

/// The first height of the sheet is the least that there may be, so one step less is out of range.
#[test]
fn wrong_pools_are_refused_by_name() {
    let (sheet, mut target) = (sheet(), [HELD_BYTE; 55]);
    let low = Node { height: -1, ..Node::default() };
    for (x_lines, y_lines) in [([0, 1], [1, 3, 4]), ([0, 2], [1, 3, 5])] {
        let other = sheet_with(&x_lines, &y_lines, 0, 0, low);
        assert_eq!(light_sheet::pool(&sheet, &other, &mut target), Err(Refusal::OtherLines));
    }
    let second = sheet_with(&[0, 2], &[1, 3, 4], 0, 0, low);
    for len in [0, 53, 55] {
        let target = &mut target[..len];
        assert_eq!(light_sheet::pool(&sheet, &second, target), Err(Refusal::Target));
    }
    assert_eq!(light_sheet::pool(&sheet, &second, &mut target[..54]), Err(Refusal::NewNumbers));
    assert_eq!(target, [HELD_BYTE; 55], "a refused pool changes nothing");
}

/// Vertical lines 0, 1 and horizontal ones 2, 3, 4, or 0, 1, 2 and 3, 4: the bytes are the same.
#[test]
fn lines_are_told_apart_by_their_axis() {
    let [first, second] = [[2, 3], [3, 2]].map(|[columns, rows]| {
        let (x_lines, y_lines) = [0, 1, 2, 3, 4].split_at(columns);
        assert_eq!(y_lines.len(), rows);
        sheet_with(x_lines, y_lines, 0, 0, Node::default())
    });
    assert_eq!(first[8..], second[8..]);
    let pooled = light_sheet::pool(&first, &second, &mut vec![0; first.len()]);
    assert_eq!(pooled, Err(Refusal::OtherLines));
}

#[test]
fn a_node_is_part_of_the_sheet() {
    let sheet = sheet();
    for (place, (column, row)) in nodes().enumerate() {
        let bytes = light_sheet::node(&sheet, column, row).unwrap();
        assert_eq!(bytes.as_ptr(), sheet[8 + 10 + 6 * place..].as_ptr());
        assert_eq!(light_sheet::node_numbers(&sheet, column, row), Ok(node_at(column, row)));
    }
    for (column, row) in [(2, 0), (0, 3), (u32::MAX, 0), (0, u32::MAX)] {
        assert_eq!(light_sheet::node(&sheet, column, row), Err(Refusal::Node));
        assert_eq!(light_sheet::node_numbers(&sheet, column, row), Err(Refusal::Node));
    }
}

#[test]
fn a_set_node_reads_back() {
    let mut changed = sheet();
    let node = Node { height: -4095, x_slope: 4095, y_slope: -1 };
    light_sheet::set_node(&mut changed, 1, 2, node).unwrap();
    assert_eq!(light_sheet::node_numbers(&changed, 1, 2), Ok(node));
    assert_eq!(light_sheet::level(&changed, 2, 4), Ok(-4095.0));
    assert_eq!(light_sheet::tilt(&changed, 2, 4), Ok([4095.0 / 64.0, -1.0 / 64.0]));
    let node_start = changed.len() - 6;
    assert_eq!(changed[..node_start], sheet()[..node_start]);
}

#[test]
fn every_number_goes_in_and_comes_out() {
    let mut sheet = sheet();
    let numbers = -4095..=4095;
    for (number, other) in numbers.clone().zip(numbers.cycle().skip(1_000)) {
        let node = Node { height: number, x_slope: -number, y_slope: other };
        light_sheet::set_node(&mut sheet, 1, 1, node).unwrap();
        let words = [number, -number, other].map(|number| (number as i16).to_le_bytes());
        assert_eq!(light_sheet::node(&sheet, 1, 1).unwrap(), words.as_flattened());
        assert_eq!(light_sheet::node_numbers(&sheet, 1, 1), Ok(node));
    }
}

/// A sheet that has heights but no slopes: lines 1, 3 and 6 across, 2 and 6 down.
const HEIGHTS_ALONE: [u8; 54] = [
    0x4c, 0x56, 0x53, 0x01, 0x00, 0x03, 0x02, 0x00, // header
    0x01, 0x00, 0x03, 0x00, 0x06, 0x00, 0x02, 0x00, 0x06, 0x00, // lines
    0x01, 0x00, 0x00, 0x00, 0x00, 0x00, 0x04, 0x00, 0x00, 0x00, 0x00, 0x00, // top row
    0x02, 0x00, 0x00, 0x00, 0x00, 0x00, //
    0x04, 0x00, 0x00, 0x00, 0x00, 0x00, 0x01, 0x00, 0x00, 0x00, 0x00, 0x00, // bottom row
    0x02, 0x00, 0x00, 0x00, 0x00, 0x00, //
];

/// Its slopes with a stiffness of 7, row by row, as docs/FORMAT.md works them out by hand.
const WORKED_OUT: [[i32; 2]; 6] = [[11, 5], [1, -5], [-5, 0], [-10, 5], [-3, -5], [2, 0]];

/// Its node bytes then, as docs/FORMAT.md has them.
const FILLED: [u8; 36] = [
    0x01, 0x00, 0x0b, 0x00, 0x05, 0x00, 0x04, 0x00, 0x01, 0x00, 0xfb, 0xff, // top row
    0x02, 0x00, 0xfb, 0xff, 0x00, 0x00, //
    0x04, 0x00, 0xf6, 0xff, 0x05, 0x00, 0x01, 0x00, 0xfd, 0xff, 0xfb, 0xff, // bottom row
    0x02, 0x00, 0x02, 0x00, 0x00, 0x00, //
];

#[test]
fn slopes_are_filled_as_worked_out() {
    let mut sheet = HEIGHTS_ALONE;
    light_sheet::fill_slopes(&mut sheet, 7).unwrap();
    assert_eq!(sheet[..18], HEIGHTS_ALONE[..18]);
    assert_eq!(sheet[18..], FILLED);
    for (place, [x_slope, y_slope]) in (0..).zip(WORKED_OUT) {
        let node = light_sheet::node_numbers(&sheet, place % 3, place / 3).unwrap();
        assert_eq!([node.x_slope, node.y_slope], [x_slope, y_slope]);
        let (x, y) = ([1, 3, 6][place as usize % 3], [2, 6][place as usize / 3]);
        let in_steps = [x_slope, y_slope].map(|slope| f64::from(slope) / 64.0);
        assert_eq!(light_sheet::tilt(&sheet, x, y), Ok(in_steps));
        assert_eq!(light_sheet::level(&sheet, x, y), Ok(node.height.into()));
    }
}

#[test]
fn filled_slopes_come_from_the_heights_alone() {
    let mut sheet = HEIGHTS_ALONE;
    for stiffness in [64, 1, 0] {
        light_sheet::fill_slopes(&mut sheet, stiffness).unwrap();
    }
    assert_eq!(sheet, HEIGHTS_ALONE, "a stiffness of 0 gives flat slopes");
    let steep = Node { height: 4, x_slope: -4095, y_slope: 4095 };
    light_sheet::set_node(&mut sheet, 1, 0, steep).unwrap();
    light_sheet::fill_slopes(&mut sheet, 7).unwrap();
    assert_eq!(sheet[18..], FILLED, "whatever the slopes were");
    let once = sheet;
    light_sheet::fill_slopes(&mut sheet, 7).unwrap();
    assert_eq!(sheet, once, "filled twice as once");
}

/// A sheet with vertical lines at 0 and 2, horizontal ones at 0 and 3.
fn on_lines(nodes: [[u8; 6]; 4]) -> Vec<u8> {
    [header_and_lines(&[0, 2], &[0, 3]), nodes.concat()].concat()
}

/// The sheets of screen and lens that docs/FORMAT.md pools, and their pool, worked out by hand.
const SCREEN: [[u8; 6]; 4] = [
    [0xc8, 0x00, 0xff, 0xff, 0x00, 0x00], // 200, −1, 0
    [0xd4, 0xfe, 0x40, 0x00, 0x80, 0xff], // −300, 64, −128
    [0xa0, 0x0f, 0x0c, 0x00, 0xf9, 0xff], // 4000, 12, −7
    [0x00, 0x00, 0x60, 0xf0, 0x05, 0x00], // 0, −4000, 5
];
const LENS: [[u8; 6]; 4] = [
    [0x64, 0x00, 0x01, 0x00, 0xc0, 0xff], // 100, 1, −64
    [0x32, 0x00, 0xe0, 0xff, 0x80, 0x00], // 50, −32, 128
    [0x5f, 0x00, 0xf4, 0xff, 0xf7, 0xff], // 95, −12, −9
    [0x00, 0x00, 0xa1, 0xff, 0xfa, 0x00], // 0, −95, 250
];
const POOL: [[u8; 6]; 4] = [
    [0x2c, 0x01, 0x00, 0x00, 0xc0, 0xff], // 300, 0, −64
    [0x06, 0xff, 0x20, 0x00, 0x00, 0x00], // −250, 32, 0
    [0xff, 0x0f, 0x00, 0x00, 0xf0, 0xff], // 4095, 0, −16
    [0x00, 0x00, 0x01, 0xf0, 0xff, 0x00], // 0, −4095, 255
];
/// The pool's numbers with the other sign.
const GLASS: [[u8; 6]; 4] = [
    [0xd4, 0xfe, 0x00, 0x00, 0x40, 0x00],
    [0xfa, 0x00, 0xe0, 0xff, 0x00, 0x00],
    [0x01, 0xf0, 0x00, 0x00, 0x10, 0x00],
    [0x00, 0x00, 0xff, 0x0f, 0x01, 0xff],
];

#[test]
fn sheets_are_pooled_as_worked_out() {
    let (screen, lens) = (on_lines(SCREEN), on_lines(LENS));
    assert_eq!(pool(&screen, &lens), on_lines(POOL));
    let twice = pool(&lens, &lens);
    assert_eq!((screen, lens), (on_lines(SCREEN), on_lines(LENS)), "both are only read");
    let node = Node { height: 200, x_slope: 2, y_slope: -128 };
    assert_eq!(light_sheet::node_numbers(&twice, 0, 0), Ok(node));
}

/// The pool of two sheets, in a target that held something else.
fn pool(first: &[u8], second: &[u8]) -> Vec<u8> {
    let mut target = vec![HELD_BYTE; first.len()];
    light_sheet::pool(first, second, &mut target).unwrap();
    target
}

/// The glass takes away what screen and lens add, so all three are flat, in any order and grouping.
#[test]
fn a_pool_can_be_pooled_again() {
    let [screen, lens, glass] = [SCREEN, LENS, GLASS].map(on_lines);
    let flat = sheet_with(&[0, 2], &[0, 3], 0, 0, Node::default());
    for [one, two, three] in [
        [&screen, &lens, &glass],
        [&screen, &glass, &lens],
        [&lens, &screen, &glass],
        [&lens, &glass, &screen],
        [&glass, &screen, &lens],
        [&glass, &lens, &screen],
    ] {
        assert_eq!(pool(&pool(one, two), three), flat);
        assert_eq!(pool(one, &pool(two, three)), flat);
    }
}

/// What a byte and a place hold before a call.
const HELD_BYTE: u8 = 0x5A;
const HELD: i64 = 0x5A5A_5A5A_5A5A_5A5A;

/// The bends at a pixel, three numbers for each piece; the other places are seen to be kept.
fn bends(sheet: &[u8], x: u32, y: u32) -> Vec<[i64; 3]> {
    let mut list = [HELD; light_sheet::BEND_PLACES + 2];
    let pieces = light_sheet::bends(sheet, x, y, &mut list).unwrap();
    let (written, kept) = list.split_at(3 * pieces);
    assert!(kept.iter().all(|&place| place == HELD), "places beyond the list are kept");
    written.chunks_exact(3).map(|bend| bend.try_into().unwrap()).collect()
}

/// A sheet all of whose numbers are 0, but for those of one node.
fn sheet_with(x_lines: &[u16], y_lines: &[u16], column: u32, row: u32, node: Node) -> Vec<u8> {
    let mut bytes = header_and_lines(x_lines, y_lines);
    bytes.resize(bytes.len() + 6 * x_lines.len() * y_lines.len(), 0);
    light_sheet::set_node(&mut bytes, column, row, node).unwrap();
    bytes
}

const HIGH: Node = Node { height: 1, x_slope: 0, y_slope: 0 };
const STEEP: Node = Node { height: 0, x_slope: 64, y_slope: 0 };

/// Sheet A: at its first corner two pieces touch, on its edges one, in its middle four.
#[test]
fn bends_of_sheet_a_are_as_worked_out() {
    let a = sheet_with(&[0, 2], &[0, 2], 0, 0, HIGH);
    assert_eq!(bends(&a, 0, 0), [[-6144, 0, -6144]; 2]);
    assert_eq!(bends(&a, 1, 0), [[0, 0, -3072]]);
    assert_eq!(bends(&a, 0, 1), [[-3072, 0, 0]]);
    assert_eq!(bends(&a, 1, 1), [[0, 3072, 0]; 4]);
}

/// Pieces 0 and 3, on both sides of a diagonal.
#[test]
fn bends_jump_on_a_diagonal_as_worked_out() {
    let sheet = sheet_with(&[0, 4], &[0, 4], 0, 0, STEEP);
    assert_eq!(bends(&sheet, 1, 1), [[-2560, 256, -768], [-1792, -512, 0]]);
}

/// The eight pieces about an inner node, as docs/FORMAT.md works them out by hand.
#[test]
fn bends_at_an_inner_node_are_as_worked_out() {
    let sheet = sheet_with(&[0, 2, 6], &[0, 1, 3], 1, 1, STEEP);
    let list = bends(&sheet, 2, 1);
    let left_top = [[6144, 4096, 0], [8192, 0, 8192]];
    let right_top = [[-4096, 0, -16384], [-3072, 4096, 0]];
    let left_bottom = [[8192, 0, 2048], [6144, -2048, 0]];
    let right_bottom = [[-4096, 0, -4096], [-3072, -2048, 0]];
    assert_eq!(list, [left_top, right_top, left_bottom, right_bottom].concat());
    let read_from = right_bottom[0].map(|number| number as f64 / 4096.0);
    assert_eq!(light_sheet::bend(&sheet, 2, 1), Ok(read_from));
}

#[test]
fn a_zone_has_its_bytes() {
    let zone = Zone { left: 1, top: 0x203, right: 0xfffe, bottom: 4096, floor: -4095, ceiling: 7 };
    assert_eq!(zone.to_bytes(), [1, 0, 3, 2, 0xfe, 0xff, 0, 16, 0x01, 0xf0, 7, 0]);
}

/// An exit lamp over the left top of sheet A, and subtitles from its middle on to beyond the mesh.
const LAMP: Zone = Zone { left: 0, top: 0, right: 1, bottom: 1, floor: -4095, ceiling: 0 };
const SUBTITLES: Zone =
    Zone { left: 1, top: 1, right: 65_535, bottom: 65_535, floor: 1, ceiling: 4095 };

/// The levels of sheet A are 64 32 0, 32 16 0 and 0 0 0. Both zones hold its middle, where the later
/// one has the last word.
#[test]
fn zoned_levels_are_as_worked_out() {
    let a = sheet_with(&[0, 2], &[0, 2], 0, 0, HIGH);
    let [lamp, subtitles] = [LAMP, SUBTITLES].map(Zone::to_bytes);
    assert_zoned(&a, &[], [[64, 32, 0], [32, 16, 0], [0, 0, 0]]);
    assert_zoned(&a, &lamp, [[0, 0, 0], [0, 0, 0], [0, 0, 0]]);
    assert_zoned(&a, &subtitles, [[64, 32, 0], [32, 64, 64], [0, 64, 64]]);
    assert_zoned(&a, &[lamp, subtitles].concat(), [[0, 0, 0], [0, 64, 64], [0, 64, 64]]);
    assert_zoned(&a, &[subtitles, lamp].concat(), [[0, 0, 0], [0, 0, 64], [0, 64, 64]]);
}

/// The zoned levels of a sheet with lines 0 and 2 both ways, pixel by pixel and row by row.
fn assert_zoned(sheet: &[u8], zones: &[u8], rows: [[i32; 3]; 3]) {
    for (y, row) in (0..).zip(rows) {
        let mut levels = [7; 3];
        light_sheet::fill_zoned_run(sheet, zones, 0, y, &mut levels).unwrap();
        assert_eq!(levels, row);
        for (x, level) in (0..).zip(row) {
            assert_eq!(light_sheet::zoned_level(sheet, zones, x, y), Ok(level));
        }
    }
}

#[test]
fn wrong_zones_are_refused_by_name() {
    let sheet = sheet();
    let off_the_mesh = Zone { left: 9, right: 9, ..LAMP };
    let lists = [off_the_mesh.to_bytes(); 17];
    for zones in [0, 1, 16].map(|count| lists[..count].as_flattened()) {
        assert_eq!(light_sheet::zoned_level(&sheet, zones, 0, 1), Ok(-4095 * 64));
        assert_eq!(light_sheet::zoned_level(&sheet, zones, 3, 1), Err(Refusal::Pixel));
    }
    for count in [1, 11, 13, 191, 193, 204] {
        assert_zones_refused(&sheet, &lists.as_flattened()[..count], Refusal::ZoneList);
    }
    for wrong in [
        Zone { left: 2, ..LAMP },
        UPSIDE_DOWN,
        Zone { floor: 1, ..LAMP },
        Zone { floor: -4096, ..LAMP },
        Zone { ceiling: 4096, ..LAMP },
    ] {
        let zones = [off_the_mesh, wrong].map(Zone::to_bytes);
        assert_zones_refused(&sheet, zones.as_flattened(), Refusal::Zone);
        assert_zones_refused(&sheet, &zones.as_flattened()[..23], Refusal::ZoneList);
    }
}

/// Both calls are refused for their zones, but after the pixel and the run.
fn assert_zones_refused(sheet: &[u8], zones: &[u8], refusal: Refusal) {
    let mut levels = [7; 3];
    assert_eq!(light_sheet::zoned_level(sheet, zones, 0, 1), Err(refusal));
    assert_eq!(light_sheet::zoned_level(sheet, zones, 3, 1), Err(Refusal::Pixel));
    let mut fill = |x: u32, count: usize| {
        light_sheet::fill_zoned_run(sheet, zones, x, 1, &mut levels[..count])
    };
    assert_eq!(fill(0, 3), Err(refusal));
    assert_eq!(fill(0, 0), Err(Refusal::EmptyRun));
    assert_eq!(fill(1, 3), Err(Refusal::Pixel));
    assert_eq!(levels, [7; 3], "a refused run changes nothing");
}

#[test]
fn a_refused_call_changes_nothing() {
    let mut kept = sheet();
    let too_high = Node { height: 4096, ..Node::default() };
    assert_eq!(light_sheet::set_node(&mut kept, 0, 0, too_high), Err(Refusal::NewNumbers));
    assert_eq!(light_sheet::set_node(&mut kept, 2, 0, too_high), Err(Refusal::Node));
    assert_eq!(light_sheet::fill_slopes(&mut kept, 65), Err(Refusal::Stiffness));
    assert_eq!(kept, sheet());
    // Only the last slope of the sheet is too steep.
    light_sheet::set_node(&mut kept, 1, 2, Node { height: 4095, ..Node::default() }).unwrap();
    let steep = kept.clone();
    assert_eq!(light_sheet::fill_slopes(&mut kept, 1), Err(Refusal::TooSteep));
    assert_eq!(kept, steep);
    let mut levels = [7; 4];
    assert_eq!(light_sheet::fill_run(&kept, 0, 1, &mut levels), Err(Refusal::Pixel));
    assert_eq!(levels, [7; 4]);
    let mut list = [HELD; 23];
    assert_eq!(light_sheet::bends(&kept, 0, 1, &mut list), Err(Refusal::FewPlaces));
    assert_eq!(light_sheet::bends(&kept, 3, 1, &mut list), Err(Refusal::Pixel));
    assert_eq!(list, [HELD; 23]);
}

#[test]
fn empty_slices_are_refused() {
    assert_eq!(light_sheet::check(&[]), Err(Refusal::Mark));
    assert_eq!(light_sheet::node(&[], 0, 0), Err(Refusal::Mark));
    assert_eq!(light_sheet::set_node(&mut [], 0, 0, Node::default()), Err(Refusal::Mark));
    assert_eq!(light_sheet::fill_slopes(&mut [], 65), Err(Refusal::Mark));
    assert_eq!(light_sheet::pool(&[], &[], &mut []), Err(Refusal::Mark));
    assert_eq!(light_sheet::pool(&sheet(), &[], &mut []), Err(Refusal::Second));
    assert_eq!(light_sheet::pool(&sheet(), &sheet(), &mut []), Err(Refusal::Target));
    assert_eq!(light_sheet::level(&[], 0, 0), Err(Refusal::Mark));
    assert_eq!(light_sheet::bends(&[], 0, 0, &mut []), Err(Refusal::Mark));
    assert_eq!(light_sheet::bends(&sheet(), 0, 1, &mut []), Err(Refusal::FewPlaces));
    assert_eq!(light_sheet::fill_run(&[], 0, 0, &mut []), Err(Refusal::Mark));
    assert_eq!(light_sheet::fill_run(&sheet(), 0, 1, &mut []), Err(Refusal::EmptyRun));
    assert_eq!(light_sheet::fill_run(&sheet(), 0, 0, &mut []), Err(Refusal::Pixel));
    assert_eq!(light_sheet::zoned_level(&[], &[], 0, 0), Err(Refusal::Mark));
    assert_eq!(light_sheet::fill_zoned_run(&[], &[], 0, 0, &mut []), Err(Refusal::Mark));
    assert_eq!(light_sheet::fill_zoned_run(&sheet(), &[], 0, 1, &mut []), Err(Refusal::EmptyRun));
}

#[test]
fn nothing_may_be_lent_by_null() {
    let (sheet, row, bends) = (ptr::null_mut(), ptr::null_mut(), ptr::null_mut());
    let zones = ptr::null();
    let (mut values, mut pieces, mut level) = ([0.5; 3], 77, 88);
    // SAFETY: no bytes and no places are lent but a sheet, the three values, the count of pieces and
    // a level.
    unsafe {
        assert_eq!(ffi::lvs_check(sheet, 0), 1);
        assert_eq!(ffi::lvs_node_refusal(sheet, 0, 0, 0), 1);
        assert_eq!(ffi::lvs_node_offset(sheet, 0, 0, 0), 0);
        assert_eq!(ffi::lvs_set_node(sheet, 0, 0, 0, 1, 2, 3), 1);
        assert_eq!(ffi::lvs_fill_slopes(sheet, 0, 1), 1);
        assert_eq!(ffi::lvs_pool(sheet, 0, sheet, 0, sheet, 0), 1);
        assert_eq!(ffi::lvs_read(sheet, 0, 0, 0, 0, &mut values), 1);
        assert_eq!(ffi::lvs_fill_run(sheet, 0, 0, 0, row, 0), 1);
        let lent = self::sheet();
        let (lent, len) = (lent.as_ptr(), lent.len());
        assert_eq!(ffi::lvs_pool(lent, len, sheet, 0, sheet, 0), 15);
        assert_eq!(ffi::lvs_pool(lent, len, lent, len, sheet, 0), 17);
        assert_eq!(ffi::lvs_fill_run(lent, len, 0, 1, row, 0), 8);
        assert_eq!(ffi::lvs_bends(sheet, 0, 0, 0, bends, 0, &mut pieces), 1);
        assert_eq!(ffi::lvs_bends(lent, len, 0, 1, bends, 0, &mut pieces), 14);
        assert_eq!(ffi::lvs_zoned_level(sheet, 0, zones, 0, 0, 0, &mut level), 1);
        assert_eq!(ffi::lvs_fill_zoned_run(sheet, 0, zones, 0, 0, 0, row, 0), 1);
        assert_eq!(ffi::lvs_fill_zoned_run(lent, len, zones, 0, 0, 1, row, 0), 8);
        assert_eq!(level, 88);
        assert_eq!(ffi::lvs_zoned_level(lent, len, zones, 0, 0, 1, &mut level), 0);
        assert_eq!(level, -4095 * 64);
    }
    assert_eq!((values, pieces), ([0.5; 3], 77));
}

#[test]
fn kinds_are_the_named_readings() {
    let sheet = sheet();
    let (level, tilt) = (light_sheet::level(&sheet, 1, 2), light_sheet::tilt(&sheet, 1, 2));
    let bend = light_sheet::bend(&sheet, 1, 2);
    assert_eq!(light_sheet::read(&sheet, 1, 2, light_sheet::LEVEL), level.map(Reading::Level));
    assert_eq!(light_sheet::read(&sheet, 1, 2, light_sheet::TILT), tilt.map(Reading::Tilt));
    assert_eq!(light_sheet::read(&sheet, 1, 2, light_sheet::BEND), bend.map(Reading::Bend));
    assert_eq!(light_sheet::read(&sheet, 1, 2, 3), Err(Refusal::Kind));
}

#[test]
fn a_run_is_the_levels_in_grains() {
    let sheet = sheet();
    let mut run = [0; 3];
    light_sheet::fill_run(&sheet, 0, 2, &mut run).unwrap();
    for (x, level) in (0..).zip(run) {
        let in_steps = f64::from(level) / f64::from(light_sheet::GRAINS_PER_STEP);
        assert_eq!(light_sheet::level(&sheet, x, 2), Ok(in_steps));
    }
}

#[test]
fn threads_share_a_sheet() {
    let sheet = sheet();
    let run = |y| {
        let mut levels = [0; 3];
        light_sheet::fill_run(&sheet, 0, y, &mut levels).unwrap();
        levels
    };
    let alone = [1, 2, 3, 4].map(run);
    thread::scope(|scope| {
        let threads = [1, 2, 3, 4]
            .map(|_| scope.spawn(|| (0..1_000).all(|_| [1, 2, 3, 4].map(run) == alone)));
        assert!(threads.into_iter().all(|thread| thread.join().unwrap()));
    });
}
