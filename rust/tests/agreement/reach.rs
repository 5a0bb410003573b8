//! How far one node reaches, by the words of 02, #105.

use crate::sheet::Sheet;

/// The most bytes that the program reads.
pub const MOST_READ: usize = 25_621;

/// The cells that touch a node: those that have it as a corner.
#[derive(Clone, Debug)]
pub struct Reach {
    /// "The positions of the touched cells' left, top, right and bottom outermost lines."
    pub lines: [u32; 4],
    /// How many they are.
    pub cells: usize,
}

/// What the program finds in its input, or the refusal. "The last two bytes read are always column
/// and row; fewer than two bytes are refused with 1."
pub fn of_input(input: &[u8]) -> Result<Reach, u32> {
    let read = &input[..input.len().min(MOST_READ)];
    let (sheet, &[column, row]) = read.split_last_chunk().ok_or(1u32)?;
    of_node(&Sheet::decode(sheet)?, column.into(), row.into())
}

/// "A wrong column or row is refused with 10."
pub fn of_node(sheet: &Sheet, column: u32, row: u32) -> Result<Reach, u32> {
    sheet.node_offset(column, row).ok_or(10u32)?;
    // A cell has the number of its left or upper line.
    let touching = |node: u32, lines: &[u32]| {
        let cells =
            (0..lines.len() - 1).filter(|&cell| [cell, cell + 1].contains(&(node as usize)));
        cells.map(|cell| [lines[cell], lines[cell + 1]]).collect::<Vec<[u32; 2]>>()
    };
    let outermost = |cells: &[[u32; 2]]| {
        let ends = cells.as_flattened();
        [*ends.iter().min().expect("a cell touches"), *ends.iter().max().expect("a cell touches")]
    };
    let (across, down) = (touching(column, &sheet.x_lines), touching(row, &sheet.y_lines));
    let ([left, right], [top, bottom]) = (outermost(&across), outermost(&down));
    Ok(Reach { lines: [left, top, right, bottom], cells: across.len() * down.len() })
}

/// The line that is printed.
pub fn printed(found: &Result<Reach, u32>) -> String {
    match found {
        Ok(reach) => format!("{}\n", numbers(reach)),
        Err(refusal) => format!("refused {refusal}\n"),
    }
}

/// What it comes to, as a line of the vectors has it behind the arrow.
pub fn answer(found: &Result<Reach, u32>) -> String {
    match found {
        Ok(reach) => format!("0 {}", numbers(reach)),
        Err(refusal) => refusal.to_string(),
    }
}

/// "Decimal with one blank between."
fn numbers(reach: &Reach) -> String {
    reach.lines.map(|line| line.to_string()).join(" ")
}
