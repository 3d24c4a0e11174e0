//! Lines of a table: a name and a number for each side.

pub struct Row {
    pub name: String,
    /// Of the original and of the port, for one call.
    pub sides: [f64; 2],
}

impl Row {
    /// Of the numbers of one pass with so many calls.
    pub fn of(name: &str, calls: usize, pass: [f64; 2]) -> Row {
        Row { name: name.to_string(), sides: pass.map(|x| x / calls as f64) }
    }

    /// Port over original.
    pub fn ratio(&self) -> f64 {
        self.sides[1] / self.sides[0]
    }

    pub fn print(&self) {
        let [a, b] = self.sides;
        println!("{:<32} {a:>14.1} {b:>14.1} {:>8.2}", self.name, self.ratio());
    }
}

/// Prints the line above the others.
pub fn head(first: &str, unit: &str) {
    let [a, b] = ["original", "port"].map(|side| format!("{side} {unit}"));
    println!("{first:<32} {a:>14} {b:>14} {:>8}", "ratio");
}
