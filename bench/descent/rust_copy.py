#!/usr/bin/env python3
"""rust_copy.py FOLDER: writes a Rust program into the folder that is the product's descent without its contracts, and counts moves.

The sources of `approx_inverse` are Rust once their clauses are left out, and calls that take an allocator lose it. What they stand on
(matrices, the region, shifts, refusals) is written here again in a few lines. Only `settle` counts, after each move, and `descend` can be told to
take no guess. So the counts are those of the product as long as both find the same solutions, which speed.sh compares."""
import os
import re
import sys

TOP = os.path.dirname(os.path.dirname(os.path.dirname(os.path.abspath(__file__))))
SOURCE = f"{TOP}/crates/approx_inverse/src"
MODULES = ["all", "bits", "column", "descent", "guess", "inverse", "room", "start", "system", "workspace"]

# The module, a text that stands there once, and what stands in its place.
CHANGES = [
    ("descent", "move_entry(h, c, floor, f, region, x, r, j);", "move_entry(h, c, floor, f, region, x, r, j); ::count_move();"),
    ("column", "if begin(h, c, f, guess, region, x, r) {", "if ::takes_guesses() && begin(h, c, f, guess, region, x, r) {"),
]

BELOW = r"""
use std::cell::Cell;

thread_local! {
    static MOVES: Cell<u64> = Cell::new(0);
    static GUESSES: Cell<bool> = Cell::new(true);
}

pub fn count_move() {
    MOVES.with(|it| it.set(it.get() + 1));
}

pub fn takes_guesses() -> bool {
    GUESSES.with(|it| it.get())
}

pub mod memory {
    #[derive(Debug, Clone, Copy)]
    pub struct Global;
    #[derive(Debug)]
    pub struct AllocError;
}

pub mod frac_scaled {
    pub fn floor_shift(v: i128, k: u32) -> i128 {
        v >> k.min(127)
    }
    pub fn shift_left(v: i128, k: u32) -> Option<i128> {
        v.checked_mul(1i128.checked_shl(k).filter(|it| *it > 0)?)
    }
    pub fn limited_product(a: u128, b: u128) -> Option<u128> {
        a.checked_mul(b).filter(|it| *it <= 1 << 126)
    }
    pub fn limited_sum(a: u128, b: u128) -> Option<u128> {
        a.checked_add(b).filter(|it| *it <= 1 << 126)
    }
}

pub mod mat_int {
    use memory::{AllocError, Global};
    #[derive(Debug)]
    pub struct Mat {
        cols: usize,
        rows: usize,
        numbers: Vec<i128>,
    }
    impl Mat {
        pub fn zero(_: Global, rows: usize, cols: usize) -> Result<Mat, AllocError> {
            Ok(Mat { cols, rows, numbers: vec![0; rows * cols] })
        }
        pub fn rows(&self) -> usize {
            self.rows
        }
        pub fn cols(&self) -> usize {
            self.cols
        }
        pub fn at(&self, i: usize, j: usize) -> i128 {
            self.numbers[i * self.cols + j]
        }
        pub fn set(&mut self, i: usize, j: usize, v: i128) {
            self.numbers[i * self.cols + j] = v;
        }
        pub fn set_column(&mut self, j: usize, numbers: &[i128]) {
            for i in 0..self.rows {
                self.set(i, j, numbers[i]);
            }
        }
        pub fn row(&self, i: usize) -> &[i128] {
            &self.numbers[i * self.cols..(i + 1) * self.cols]
        }
        pub fn push_row(&mut self, _: Global, row: &[i128]) -> Result<(), AllocError> {
            self.rows += 1;
            self.numbers.extend_from_slice(row);
            Ok(())
        }
    }
    // The sum of products, where each product and each sum on the way fits.
    pub fn try_dot(xs: &[i128], ys: &[i128]) -> Option<i128> {
        let mut sum = 0i128;
        for (x, y) in xs.iter().zip(ys) {
            sum = sum.checked_add(x.checked_mul(*y)?)?;
        }
        Some(sum)
    }
}

pub mod qp_model {
    use memory::AllocError;
    #[derive(Debug)]
    pub enum Quantity {
        Descent,
    }
    #[derive(Debug)]
    pub struct Wide(pub Quantity);
    #[derive(Debug)]
    pub enum SizeFault {
        Memory,
        TooWide { quantity: Quantity },
    }
    impl From<AllocError> for SizeFault {
        fn from(_: AllocError) -> Self {
            SizeFault::Memory
        }
    }
}

pub mod condensed_form {
    use mat_int::Mat;
    pub struct Condensed {
        pub hess: Mat,
        pub lin: Mat,
        pub off: Vec<i128>,
        pub g: Mat,
        pub limit_den: i128,
        pub weight_den: i128,
        pub cost_row_den: i128,
        pub power: i128,
        pub floor: i128,
    }
}

pub mod word_region {
    use memory::{AllocError, Global};
    #[derive(Debug, Clone, Copy)]
    pub struct Span {
        pub start: usize,
        pub len: usize,
    }
    #[derive(Debug)]
    pub struct Region {
        words: Vec<i128>,
        used: usize,
    }
    impl Region {
        pub fn with_words(_: Global, n: usize) -> Result<Region, AllocError> {
            Ok(Region { words: vec![0; n], used: 0 })
        }
        pub fn take(&mut self, len: usize) -> Option<Span> {
            if len > self.words.len() - self.used {
                return None;
            }
            let start = self.used;
            self.used += len;
            self.words[start..start + len].fill(0);
            Some(Span { start, len })
        }
        pub fn mark(&self) -> usize {
            self.used
        }
        pub fn release(&mut self, mark: usize) {
            self.used = mark;
        }
        pub fn cells(&self, s: &Span) -> &[i128] {
            &self.words[s.start..s.start + s.len]
        }
        pub fn cells_mut(&mut self, s: &Span) -> &mut [i128] {
            &mut self.words[s.start..s.start + s.len]
        }
        pub fn word(&self, s: &Span, i: usize) -> i128 {
            self.cells(s)[i]
        }
        pub fn set_word(&mut self, s: &Span, i: usize, v: i128) {
            self.words[s.start + i] = v;
        }
    }
}

use all::solve_all;
use inverse::Inverse;
use mat_int::Mat;
use memory::Global;
use condensed_form::Condensed;

// The next `rows * cols` numbers of a text.
fn matrix<'a>(words: &mut impl Iterator<Item = &'a str>, rows: usize, cols: usize) -> Mat {
    let mut made = Mat::zero(Global, rows, cols).unwrap();
    for i in 0..rows {
        for j in 0..cols {
            made.set(i, j, words.next().unwrap().parse().unwrap());
        }
    }
    made
}

fn sum_of(found: &Inverse) -> i128 {
    let mut sum = 0i128;
    let rows = (0..found.p_mat.rows()).map(|i| found.p_mat.row(i)).chain([found.t.as_slice()]);
    for row in rows.chain((0..found.w_mat.rows()).map(|i| found.w_mat.row(i))) {
        for v in row {
            sum = sum.wrapping_mul(1000003).wrapping_add(*v);
        }
    }
    sum
}

// Reads the numbers of a design from standard input, and tells the moves a column, and a sum over all solutions. With a word after its
// name it takes no guess.
fn main() {
    GUESSES.with(|it| it.set(std::env::args().count() == 1));
    let mut text = String::new();
    std::io::Read::read_to_string(&mut std::io::stdin(), &mut text).unwrap();
    let words = &mut text.split_whitespace();
    let mut next = || words.next().unwrap().parse::<i128>().unwrap();
    let (entries, states, rows) = (next() as usize, next() as usize, next() as usize);
    let (limit_den, weight_den, cost_row_den, power, floor) = (next(), next(), next(), next(), next());
    let form = Condensed {
        hess: matrix(words, entries, entries),
        lin: matrix(words, entries, states),
        off: matrix(words, 1, entries).row(0).to_vec(),
        g: matrix(words, rows, entries),
        limit_den,
        weight_den,
        cost_row_den,
        power,
        floor,
    };
    let found = solve_all(Global, &form, 40).unwrap();
    let (moves, columns) = (MOVES.with(|it| it.get()), (states + 1 + rows) as u64);
    println!("{}.{} {}", moves / columns, moves * 10 / columns % 10, sum_of(&found));
}
"""


def without_clauses(text):
    """The text without ghost lines, and without each `requires` and `ensures` with its braces."""
    text = re.sub(r"(?m)^\s*ghost .*\n", "", text)
    out, at = [], 0
    for found in re.finditer(r"(?m)^ *(requires|ensures)\b[^{\n]*\{", text):
        if found.start() < at:
            continue
        out.append(text[at:found.start()])
        depth, at = 1, found.end()
        while depth:
            depth += {"{": 1, "}": -1}.get(text[at], 0)
            at += 1
        at += text[at] == "\n"
    return "".join(out) + text[at:]


def rust_of(module):
    text = open(f"{SOURCE}/{module}.rt", encoding="utf-8").read()
    for name, old, new in CHANGES:
        if name == module:
            if text.count(old) != 1:
                sys.exit(f"rust_copy.py: {old!r} stands {text.count(old)} times in {module}.rt: mend this script")
            text = text.replace(old, new)
    text = without_clauses(text)
    text = text.replace("std::alloc::", "memory::")
    text = re.sub(r"(?m)^ *#\[derive\(Drop\)\]\n", "", text)
    text = re.sub(r"vec!\[in alloc; (.*?); (.*?)\]\?", r"vec![\1; \2]", text)
    text = text.replace("Vec::new(alloc)", "Vec::new()")
    return re.sub(r"(\w+\.push\(.*\))\?;", r"\1;", text)


folder = sys.argv[1]
os.makedirs(folder, exist_ok=True)
for module in MODULES:
    with open(f"{folder}/{module}.rs", "w", encoding="utf-8") as out:
        out.write(rust_of(module))
with open(f"{folder}/main.rs", "w", encoding="utf-8") as out:
    out.write("#![allow(dead_code, unused_variables)]\n" + "".join(f"mod {module};\n" for module in MODULES) + BELOW)
