//! Rows as text.

use std::fmt::Write;

#[derive(Default)]
pub struct Rows {
    text: String,
    count: usize,
}

impl Rows {
    pub fn text(&self) -> &str {
        &self.text
    }

    pub fn count(&self) -> usize {
        self.count
    }

    /// Starts a row.
    pub fn function(&mut self, name: &str) {
        self.count += 1;
        writeln!(self.text, "fn {name}").unwrap();
    }

    pub fn input(&mut self, label: &str, numbers: &[f64]) {
        self.line("in", label, numbers);
    }

    pub fn output(&mut self, label: &str, numbers: &[f64]) {
        self.line("out", label, numbers);
    }

    /// One line for each vector: `label0`, `label1`, ..
    pub fn inputs<const N: usize>(&mut self, label: &str, vectors: &[[f64; N]]) {
        for (i, vector) in vectors.iter().enumerate() {
            self.input(&format!("{label}{i}"), vector);
        }
    }

    pub fn outputs<const N: usize>(&mut self, label: &str, vectors: &[[f64; N]]) {
        for (i, vector) in vectors.iter().enumerate() {
            self.output(&format!("{label}{i}"), vector);
        }
    }

    pub fn input_whole(&mut self, label: &str, whole: usize) {
        writeln!(self.text, "in {label} {whole}").unwrap();
    }

    pub fn output_whole(&mut self, label: &str, whole: usize) {
        writeln!(self.text, "out {label} {whole}").unwrap();
    }

    /// One line for each vertex: `label0`, `label1`, ..
    pub fn input_pins(&mut self, label: &str, vertices: &[[i32; 4]]) {
        for (i, [x, y, z, twist]) in vertices.iter().enumerate() {
            writeln!(self.text, "in {label}{i} {x} {y} {z} {twist}").unwrap();
        }
    }

    fn line(&mut self, direction: &str, label: &str, numbers: &[f64]) {
        write!(self.text, "{direction} {label}").unwrap();
        for number in numbers {
            write!(self.text, " {:016X}", number.to_bits()).unwrap();
        }
        self.text.push('\n');
    }
}

/// For comparing: to the sign of zero.
pub fn bits<const N: usize>(vectors: &[[f64; N]]) -> Vec<u64> {
    vectors.iter().flatten().map(|x| x.to_bits()).collect()
}
