//! A sheet as one writes it down, right or wrong, and its bytes.

use crate::call::node_bytes;
use crate::sheet::Sheet;

#[derive(Clone, Debug)]
pub struct Draft {
    pub x_lines: Vec<u16>,
    pub y_lines: Vec<u16>,
    /// Height, x-slope and y-slope of each node, row by row.
    pub nodes: Vec<[i16; 3]>,
}

impl Draft {
    /// A sheet whose numbers are all 0.
    pub fn flat(x_lines: &[u16], y_lines: &[u16]) -> Draft {
        let nodes = vec![[0; 3]; x_lines.len() * y_lines.len()];
        Draft { x_lines: x_lines.to_vec(), y_lines: y_lines.to_vec(), nodes }
    }

    /// The same on the lines of a sheet.
    pub fn on(mesh: &Sheet) -> Draft {
        let [x_lines, y_lines] =
            [&mesh.x_lines, &mesh.y_lines].map(|lines| lines.iter().map(|&line| line as u16));
        Draft::flat(&x_lines.collect::<Vec<u16>>(), &y_lines.collect::<Vec<u16>>())
    }

    /// The sheet it is if it has no fault.
    pub fn sheet(&self) -> Sheet {
        Sheet::decode(&self.bytes()).expect("a draft without fault")
    }

    pub fn bytes(&self) -> Vec<u8> {
        let counts = [self.x_lines.len() as u8, self.y_lines.len() as u8];
        let mut bytes = b"LVS\x01\x00".to_vec();
        bytes.extend([counts[0], counts[1], 0]);
        let lines = self.x_lines.iter().chain(&self.y_lines);
        bytes.extend(lines.flat_map(|line| line.to_le_bytes()));
        bytes.extend(self.nodes.iter().flat_map(|&numbers| node_bytes(numbers)));
        bytes
    }
}
