//! Every limit and every width of a sheet, and nothing else: a request that moves
//! one moves it here. What an edge row is and how many there may be is asked of
//! the form.

/// Bytes of a word on disk.
pub const WORD: usize = 4;

/// Words before the tables.
pub const HEADER: usize = 6;

/// Words of a node row.
pub const NODE_WIDTH: usize = 4;

pub const MOST_OFFICES: u32 = 2;
pub const MOST_NODES: usize = 512;

/// Of the longest sheet there is, as the document gives them.
pub const MOST_WORDS: usize = 10_246;
pub const MOST_BYTES: usize = 40_984;

/// What the first word of a sheet says of its edge rows.
#[derive(Clone, Copy, Debug, PartialEq)]
pub enum Form {
    One,
}

impl Form {
    pub const fn of_word(word: u32) -> Option<Form> {
        match word {
            1 => Some(Form::One),
            _ => None,
        }
    }

    pub const fn word(self) -> u32 {
        match self {
            Form::One => 1,
        }
    }

    /// Words of an edge row.
    pub const fn edge_width(self) -> usize {
        match self {
            Form::One => 4,
        }
    }

    pub const fn most_edges(self) -> usize {
        match self {
            Form::One => 2_048,
        }
    }

    /// Words of a sheet with so many rows.
    pub const fn length(self, nodes: usize, edges: usize) -> usize {
        edge_offset(nodes) + self.edge_width() * edges
    }
}

/// Of the sheets that are made here, which are of form 1.
pub const MOST_EDGES: usize = Form::One.most_edges();

/// Where the edge table begins.
pub const fn edge_offset(nodes: usize) -> usize {
    HEADER + NODE_WIDTH * nodes
}

// The document's figures follow from one another.
const _: () = assert!(MOST_WORDS == Form::One.length(MOST_NODES, MOST_EDGES));
const _: () = assert!(MOST_BYTES == WORD * MOST_WORDS);
