//! Aligned columns.

use std::mem;

use crate::outlets::Outlets;
use crate::terminal::Tone;
use crate::trouble::Trouble;

/// Columns of a terminal that nobody has widened.
const TERMINAL: usize = 80;

/// Columns of a sheet that no terminal shows: enough for every table but one.
pub const WIDTH: usize = 120;

/// Words in as many lines as they need, each behind an indent.
pub fn wrapped(indent: usize, words: &str) -> String {
    let mut text = String::new();
    let mut used = 0;
    for word in words.split(' ') {
        let width = word.chars().count();
        if used > indent && used + 1 + width <= TERMINAL {
            text.push(' ');
            used += 1 + width;
        } else {
            if used > 0 {
                text.push('\n');
            }
            text.push_str(&" ".repeat(indent));
            used = indent + width;
        }
        text.push_str(word);
    }
    text
}

#[derive(Clone, Copy, Debug, PartialEq, Eq)]
pub enum Side {
    Left,
    Right,
}

pub struct Cell {
    pub text: String,
    /// Columns the text takes.
    pub width: usize,
    pub tone: Option<Tone>,
}

impl Cell {
    pub fn plain(text: impl ToString) -> Cell {
        let text = text.to_string();
        let width = text.chars().count();
        Cell {
            text,
            width,
            tone: None,
        }
    }

    pub fn toned(text: impl ToString, tone: Tone) -> Cell {
        Cell {
            tone: Some(tone),
            ..Cell::plain(text)
        }
    }
}

/// A sheet of rows under a heading.
pub struct Sheet {
    sides: Vec<Side>,
    widths: Vec<usize>,
    rows: Vec<Vec<Cell>>,
}

const GAP: &str = "  ";

impl Sheet {
    pub fn new(heading: &[(&str, Side)]) -> Sheet {
        let mut sheet = Sheet {
            sides: heading.iter().map(|(_, side)| *side).collect(),
            widths: vec![0; heading.len()],
            rows: Vec::new(),
        };
        let names = heading
            .iter()
            .map(|(name, _)| Cell::toned(name, Tone::Heading));
        sheet.push(names.collect());
        sheet
    }

    pub fn push(&mut self, row: Vec<Cell>) {
        for (width, cell) in self.widths.iter_mut().zip(&row) {
            *width = cell.width.max(*width);
        }
        self.rows.push(row);
    }

    pub fn print(&self, outlets: &mut Outlets<'_>) -> Result<(), Trouble> {
        let columns: Vec<usize> = (0..self.widths.len()).collect();
        self.print_columns(&columns, outlets)
    }

    /// A sheet too wide to be seen at once goes on below: its columns in blocks,
    /// each behind the first column again.
    pub fn print_in_blocks(&self, outlets: &mut Outlets<'_>) -> Result<(), Trouble> {
        for (index, columns) in self.blocks(outlets.width).iter().enumerate() {
            if index > 0 {
                outlets.print(&"\n")?;
            }
            self.print_columns(columns, outlets)?;
        }
        Ok(())
    }

    /// As many columns a block as there is room for, and one at least.
    fn blocks(&self, room: usize) -> Vec<Vec<usize>> {
        let mut blocks = Vec::new();
        let mut block = vec![0];
        for column in 1..self.widths.len() {
            block.push(column);
            if block.len() > 2 && self.width_of(&block) > room {
                block.pop();
                blocks.push(mem::replace(&mut block, vec![0, column]));
            }
        }
        blocks.push(block);
        blocks
    }

    fn width_of(&self, columns: &[usize]) -> usize {
        let widths = columns.iter().map(|column| self.widths[*column]);
        widths.sum::<usize>() + GAP.len() * columns.len().saturating_sub(1)
    }

    fn print_columns(&self, columns: &[usize], outlets: &mut Outlets<'_>) -> Result<(), Trouble> {
        for row in &self.rows {
            let line = self.line(row, columns, outlets);
            outlets.print(&format_args!("{}\n", line.trim_end()))?;
        }
        Ok(())
    }

    fn line(&self, row: &[Cell], columns: &[usize], outlets: &Outlets<'_>) -> String {
        let mut line = String::new();
        for &column in columns {
            let (cell, side) = (&row[column], self.sides[column]);
            let padding = " ".repeat(self.widths[column] - cell.width);
            let text = match cell.tone {
                Some(tone) => outlets.paint_out.tone(tone, &cell.text),
                None => cell.text.clone(),
            };
            match side {
                Side::Left => line.extend([&text, &padding[..]]),
                Side::Right => line.extend([&padding[..], &text]),
            }
            line.push_str(GAP);
        }
        line
    }
}

#[cfg(test)]
mod tests {
    use super::*;

    fn blocks(names: &[&str], room: usize) -> Vec<Vec<usize>> {
        let heading: Vec<(&str, Side)> = names.iter().map(|name| (*name, Side::Left)).collect();
        Sheet::new(&heading).blocks(room)
    }

    #[test]
    fn columns_go_on_below_where_there_is_no_room() {
        let names = ["aa", "bbb", "cccc", "d"];
        assert_eq!(blocks(&names, 16), [[0, 1, 2, 3]]);
        assert_eq!(blocks(&names, 15), [vec![0, 1, 2], vec![0, 3]]);
        assert_eq!(blocks(&names, 12), [vec![0, 1], vec![0, 2, 3]]);
        assert_eq!(blocks(&names, 0), [[0, 1], [0, 2], [0, 3]]);
        assert_eq!(blocks(&names[..1], 0), [[0]]);
    }
}
