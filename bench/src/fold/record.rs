// A map as the library's record holds it, and the same record as the three rows that both versions read and write.

/// The kinds of a node: a variable, a constant, a sum, a product, a floordiv, a mod.
pub const VARIABLE: u8 = 0;
pub const CONSTANT: u8 = 1;
pub const SUM: u8 = 2;
pub const PRODUCT: u8 = 3;
pub const FLOORDIV: u8 = 4;
pub const MOD: u8 = 5;

/// A map's counts (of variables, results and constraints, then of the nodes of each), its numbers (bounds, ends, then the
/// values of nodes) and the kinds of its nodes.
#[derive(Clone, PartialEq)]
pub struct Rows {
    pub counts: [usize; 44],
    pub numbers: [i64; 368],
    pub kinds: [u8; 256],
}

impl Rows {
    pub const EMPTY: Rows = Rows { counts: [0; 44], numbers: [0; 368], kinds: [0; 256] };
}

pub struct Record {
    pub dims: usize,
    pub ranges: usize,
    pub lower: [i64; 24],
    pub upper: [i64; 24],
    pub results: usize,
    pub result_nodes: [usize; 8],
    pub constraints: usize,
    pub constraint_nodes: [usize; 32],
    pub constraint_lower: [i64; 32],
    pub constraint_upper: [i64; 32],
    pub kinds: [u8; 256],
    pub values: [i64; 256],
}

impl Record {
    pub const EMPTY: Record = Record {
        dims: 0,
        ranges: 0,
        lower: [0; 24],
        upper: [0; 24],
        results: 0,
        result_nodes: [0; 8],
        constraints: 0,
        constraint_nodes: [0; 32],
        constraint_lower: [0; 32],
        constraint_upper: [0; 32],
        kinds: [0; 256],
        values: [0; 256],
    };

    pub fn of_rows(rows: &Rows) -> Record {
        let (c, n) = (&rows.counts, &rows.numbers);
        Record {
            dims: c[0],
            ranges: c[1],
            lower: std::array::from_fn(|k| n[k]),
            upper: std::array::from_fn(|k| n[24 + k]),
            results: c[2],
            result_nodes: std::array::from_fn(|k| c[4 + k]),
            constraints: c[3],
            constraint_nodes: std::array::from_fn(|k| c[12 + k]),
            constraint_lower: std::array::from_fn(|k| n[48 + k]),
            constraint_upper: std::array::from_fn(|k| n[80 + k]),
            kinds: rows.kinds,
            values: std::array::from_fn(|k| n[112 + k]),
        }
    }

    pub fn write(&self, rows: &mut Rows) {
        let (c, n) = (&mut rows.counts, &mut rows.numbers);
        c[..4].copy_from_slice(&[self.dims, self.ranges, self.results, self.constraints]);
        c[4..12].copy_from_slice(&self.result_nodes);
        c[12..].copy_from_slice(&self.constraint_nodes);
        n[..24].copy_from_slice(&self.lower);
        n[24..48].copy_from_slice(&self.upper);
        n[48..80].copy_from_slice(&self.constraint_lower);
        n[80..112].copy_from_slice(&self.constraint_upper);
        n[112..].copy_from_slice(&self.values);
        rows.kinds = self.kinds;
    }

    pub fn rows(&self) -> Rows {
        let mut rows = Rows::EMPTY;
        self.write(&mut rows);
        rows
    }
}
