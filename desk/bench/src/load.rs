//! The files that one run of a call goes over.

use samples::large::{file, Shape};

const KIB: usize = 1 << 10;
const MIB: usize = 1 << 20;

/// So many files of so many bytes each.
#[derive(Clone, Copy, Debug, PartialEq, Eq)]
pub struct Size {
    pub files: u64,
    pub bytes: usize,
}

impl Size {
    /// Many files that are read one after the other: one alone takes too
    /// little time to be told by the clock.
    pub const SMALL: Size = Size {
        files: 256,
        bytes: 4 * KIB,
    };

    pub const fn mebibytes(count: usize) -> Size {
        Size {
            files: 1,
            bytes: count * MIB,
        }
    }

    pub fn unit(self) -> &'static str {
        match self.bytes {
            ..MIB => "KiB",
            _ => "MiB",
        }
    }

    /// How many of these units a file has.
    pub fn units(self) -> usize {
        match self.bytes {
            ..MIB => self.bytes / KIB,
            _ => self.bytes / MIB,
        }
    }

    pub fn total(self) -> usize {
        self.files as usize * self.bytes
    }
}

pub struct Load {
    pub size: Size,
    pub files: Vec<Vec<u8>>,
}

impl Load {
    pub fn draw(shape: Shape, size: Size) -> Load {
        let seeds = 1..=size.files;
        let files = seeds.map(|seed| file(shape, size.bytes, seed)).collect();
        Load { size, files }
    }
}

#[cfg(test)]
mod tests {
    use super::*;
    use samples::large::Order;

    #[test]
    fn sizes_by_their_units() {
        let shown = |size: Size| (size.units(), size.unit(), size.total());
        assert_eq!(shown(Size::mebibytes(2)), (2, "MiB", 2 << 20));
        assert_eq!(shown(Size::SMALL), (4, "KiB", 1 << 20));
    }

    #[test]
    fn small_files_differ() {
        let mut files = Load::draw(Shape::Eight(Order::Rising), Size::SMALL).files;
        files.sort();
        files.dedup();
        assert_eq!(files.len(), 256);
    }
}
