//! What is written: rows, each a definition at arguments beside the numbers expected of it, gathered in theorems, modules and crates.

/// A term of the logic that gives a list of numbers, and the numbers that the second program gives.
pub struct Row {
    pub given: String,
    pub expected: Vec<u64>,
}

impl Row {
    pub fn new(given: String, expected: Vec<u64>) -> Row {
        Row { given, expected }
    }
}

/// Rows that one computed test decides.
pub struct Theorem {
    pub name: String,
    pub rows: Vec<Row>,
}

impl Theorem {
    pub fn new(name: impl Into<String>, rows: Vec<Row>) -> Theorem {
        Theorem {
            name: name.into(),
            rows,
        }
    }

    /// How many numbers are compared.
    pub fn values(&self) -> usize {
        self.rows.iter().map(|row| row.expected.len()).sum()
    }

    /// One of the numbers, `choice` says which, is made wrong.
    pub fn spoil(&mut self, choice: usize) {
        let mut place = choice % self.values();
        for row in &mut self.rows {
            if place < row.expected.len() {
                row.expected[place] ^= 1;
                return;
            }
            place -= row.expected.len();
        }
    }
}

/// A file of definitions that its rows share, such as a frame's settings and payload, and its theorems.
pub struct Module {
    pub name: String,
    pub shared: String,
    pub theorems: Vec<Theorem>,
}

/// A crate that is checked by itself.
pub struct Crate {
    pub name: String,
    pub modules: Vec<Module>,
    /// The modules have the same theorems, each of another MCS.
    pub alike: bool,
}

impl Crate {
    pub fn theorems(&self) -> usize {
        self.modules.iter().map(|m| m.theorems.len()).sum()
    }

    pub fn values(&self) -> usize {
        self.modules
            .iter()
            .flat_map(|module| &module.theorems)
            .map(Theorem::values)
            .sum()
    }

    /// One number of each theorem is made wrong. Of modules that are alike the first shows it.
    pub fn spoil(&mut self) {
        if self.alike {
            self.modules.truncate(1);
        }
        let theorems = self.modules.iter_mut().flat_map(|m| &mut m.theorems);
        for (choice, theorem) in theorems.enumerate() {
            theorem.spoil(choice);
        }
    }
}
