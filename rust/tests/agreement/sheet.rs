//! The sheet's format and its six refusals, read from the format's description.

use std::cell::{Ref, RefCell};

use crate::element::{at_pixel, from_each, Cell, Corner, Exact, Piece};

pub const GRAINS_PER_STEP: i128 = 64;
pub const HEADER: usize = 8;
pub const NODE_BYTES: usize = 6;

/// The cell looked at last, and its pieces: they take longer to make than to read.
type Latest = ((usize, usize), [Piece; 4]);

/// An accepted sheet.
#[derive(Clone, Debug)]
pub struct Sheet {
    pub x_lines: Vec<u32>,
    pub y_lines: Vec<u32>,
    /// Height, x-slope and y-slope of each node, row by row.
    pub nodes: Vec<[i16; 3]>,
    latest: RefCell<Option<Latest>>,
}

impl Sheet {
    /// The sheet in these bytes, or the number of the first refusal.
    pub fn decode(bytes: &[u8]) -> Result<Sheet, u32> {
        if bytes.len() < HEADER || bytes[..3] != *b"LVS" {
            return Err(1);
        }
        if word(bytes, 3) != 1 {
            return Err(2);
        }
        let (columns, rows) = (usize::from(bytes[5]), usize::from(bytes[6]));
        let fits = |count: usize| (2..=65).contains(&count);
        if !fits(columns) || !fits(rows) || bytes[7] != 0 {
            return Err(3);
        }
        if bytes.len() != length(columns, rows) {
            return Err(4);
        }
        let words =
            |start: usize, count: usize| (0..count).map(move |k| word(bytes, start + 2 * k));
        let x_lines: Vec<u32> = words(HEADER, columns).map(u32::from).collect();
        let y_lines: Vec<u32> = words(HEADER + 2 * columns, rows).map(u32::from).collect();
        if !is_mesh(&x_lines) || !is_mesh(&y_lines) {
            return Err(5);
        }
        let nodes_start = HEADER + 2 * (columns + rows);
        let number = |k: usize| word(bytes, nodes_start + 2 * k) as i16;
        let nodes: Vec<[i16; 3]> =
            (0..columns * rows).map(|node| [0, 1, 2].map(|k| number(3 * node + k))).collect();
        if !nodes.iter().flatten().all(|&number| in_bounds(number.into())) {
            return Err(6);
        }
        Ok(Sheet { x_lines, y_lines, nodes, latest: RefCell::new(None) })
    }

    /// How many bytes it has.
    pub fn length(&self) -> usize {
        length(self.x_lines.len(), self.y_lines.len())
    }

    /// Where a node's six bytes start.
    pub fn node_offset(&self, column: u32, row: u32) -> Option<usize> {
        let (columns, rows) = (self.x_lines.len(), self.y_lines.len());
        let (column, row) = (column as usize, row as usize);
        let nodes_start = HEADER + 2 * (columns + rows);
        (column < columns && row < rows)
            .then_some(nodes_start + NODE_BYTES * (row * columns + column))
    }

    /// A node's height, x-slope and y-slope.
    pub fn numbers(&self, column: u32, row: u32) -> Option<[i16; 3]> {
        self.node_offset(column, row)?;
        Some(self.nodes[row as usize * self.x_lines.len() + column as usize])
    }

    /// The nodes' heights, row by row.
    pub fn heights(&self) -> impl Iterator<Item = i16> + '_ {
        self.nodes.iter().map(|&[height, _, _]| height)
    }

    pub fn columns(&self) -> u32 {
        self.x_lines.len() as u32
    }

    pub fn rows(&self) -> u32 {
        self.y_lines.len() as u32
    }

    /// The last pixel's column.
    pub fn last_x(&self) -> u32 {
        self.x_lines[self.x_lines.len() - 1]
    }

    /// The last pixel's row.
    pub fn last_y(&self) -> u32 {
        self.y_lines[self.y_lines.len() - 1]
    }

    /// Whether a pixel is inside the mesh, the outer lines included.
    pub fn holds(&self, x: u32, y: u32) -> bool {
        (self.x_lines[0]..=self.last_x()).contains(&x)
            && (self.y_lines[0]..=self.last_y()).contains(&y)
    }

    /// The exact readings at a pixel inside the mesh.
    pub fn exact(&self, x: u32, y: u32) -> Exact {
        let (column, row) = (line_before(&self.x_lines, x), line_before(&self.y_lines, y));
        at_pixel(&self.pieces(column, row), x - self.x_lines[column], y - self.y_lines[row])
    }

    /// The exact readings at a pixel of this cell from each of its pieces that touches it, by number.
    pub fn exact_in(&self, column: usize, row: usize, x: u32, y: u32) -> Vec<Exact> {
        let (right, down) = (x - self.x_lines[column], y - self.y_lines[row]);
        from_each(&self.pieces(column, row), right, down).collect()
    }

    /// The pieces of the cell to the right of a line and below another.
    fn pieces(&self, column: usize, row: usize) -> Ref<'_, [Piece; 4]> {
        if !matches!(*self.latest.borrow(), Some((cell, _)) if cell == (column, row)) {
            self.latest.replace(Some(((column, row), self.cell(column, row).pieces())));
        }
        Ref::map(self.latest.borrow(), |latest| &latest.as_ref().expect("put there above").1)
    }

    fn cell(&self, column: usize, row: usize) -> Cell {
        let round = [(column, row), (column + 1, row), (column + 1, row + 1), (column, row + 1)];
        Cell {
            width: (self.x_lines[column + 1] - self.x_lines[column]).into(),
            height: (self.y_lines[row + 1] - self.y_lines[row]).into(),
            corners: round.map(|(column, row)| self.corner(column, row)),
        }
    }

    fn corner(&self, column: usize, row: usize) -> Corner {
        let [height, x_slope, y_slope] =
            self.nodes[row * self.x_lines.len() + column].map(i128::from);
        Corner { height: GRAINS_PER_STEP * height, x_slope, y_slope }
    }
}

/// Whether a height or slope may stand in a sheet.
pub fn in_bounds(number: i32) -> bool {
    (-4095..=4095).contains(&number)
}

/// The line whose cell holds a position: on an inner line that line, on the last line the one before.
fn line_before(lines: &[u32], position: u32) -> usize {
    let last_cell = lines.len() - 2;
    (0..last_cell).find(|&line| position < lines[line + 1]).unwrap_or(last_cell)
}

/// The length that so many lines call for.
fn length(columns: usize, rows: usize) -> usize {
    HEADER + 2 * columns + 2 * rows + NODE_BYTES * columns * rows
}

/// Whether a sheet may have these lines, if they are not too many or too few.
pub fn is_mesh<T: Copy + Into<u32>>(lines: &[T]) -> bool {
    let lines: Vec<u32> = lines.iter().map(|&line| line.into()).collect();
    let rises = lines.windows(2).all(|pair| pair[0] < pair[1] && pair[1] - pair[0] <= 64);
    rises && lines.iter().all(|&line| line <= 4096)
}

fn word(bytes: &[u8], start: usize) -> u16 {
    u16::from_le_bytes([bytes[start], bytes[start + 1]])
}
