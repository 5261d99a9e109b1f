// Times elimination over bits on the matrices of hubs at degree 1: the proved one, through the static library, beside an
// ordinary one that keeps one byte an element. Both work in the same order on the same matrix, and clear it in the end.
use std::time::{Duration, Instant};

extern "C" {
    fn bits_eliminate(rows: usize, cols: usize, cells: *mut u8, length: usize) -> usize;
    fn bits_clear(rows: usize, cols: usize, cells: *mut u8, length: usize);
}

/// A matrix of bits, one byte each, row after row.
#[derive(Clone)]
struct Matrix {
    rows: usize,
    cols: usize,
    cells: Vec<u8>,
}

/// All monomials in so many variables of at most a degree: lower degree first, then the larger exponent first.
fn monomials(variables: usize, degree: usize) -> Vec<Vec<u8>> {
    fn exactly(variables: usize, degree: usize, front: &mut Vec<u8>, all: &mut Vec<Vec<u8>>) {
        if variables == 0 {
            if degree == 0 {
                all.push(front.clone());
            }
            return;
        }
        for exponent in (0..=degree).rev() {
            front.push(exponent as u8);
            exactly(variables - 1, degree - exponent, front, all);
            front.pop();
        }
    }
    let mut all = Vec::new();
    for d in 0..=degree {
        exactly(variables, d, &mut Vec::new(), &mut all);
    }
    all
}

/// The plain equations of a hub and a rim of so many vertices, each as the exponents of its terms.
fn hub(rim: usize) -> (usize, Vec<Vec<Vec<u8>>>) {
    let n = rim + 1;
    let power = |i: usize, e: u8| {
        let mut m = vec![0u8; n];
        m[i] = e;
        m
    };
    let mut edges: Vec<(usize, usize)> = (1..n).map(|i| (0, i)).collect();
    for i in 1..n {
        let j = if i == rim { 1 } else { i + 1 };
        edges.push((i.min(j), i.max(j)));
    }
    edges.sort();
    let mut equations: Vec<Vec<Vec<u8>>> = (0..n).map(|i| vec![power(i, 3), vec![0; n]]).collect();
    for (i, j) in edges {
        let mut both = power(i, 1);
        both[j] = 1;
        equations.push(vec![power(i, 2), both, power(j, 2)]);
    }
    (n, equations)
}

/// The matrix of degree 1.
fn matrix(rim: usize) -> Matrix {
    let (n, equations) = hub(rim);
    let places: std::collections::HashMap<Vec<u8>, usize> =
        monomials(n, 4).into_iter().enumerate().map(|(k, m)| (m, k)).collect();
    let multipliers = monomials(n, 1);
    let (rows, products) = (places.len(), equations.len() * multipliers.len());
    let cols = products + 1;
    let mut cells = vec![0u8; rows * cols];
    let mut column = 0;
    for equation in &equations {
        for multiplier in &multipliers {
            for term in equation {
                let m: Vec<u8> = term.iter().zip(multiplier).map(|(a, b)| a + b).collect();
                cells[places[&m] * cols + column] ^= 1;
            }
            column += 1;
        }
    }
    cells[products] = 1;
    Matrix { rows, cols, cells }
}

/// Gauss-Jordan elimination, column by column, adding only where the cell is not zero and only from its column on.
fn eliminate(m: &mut Matrix) -> usize {
    let cols = m.cols;
    let mut rank = 0;
    for col in 0..cols {
        let Some(found) = (rank..m.rows).find(|r| m.cells[r * cols + col] != 0) else {
            continue;
        };
        if found != rank {
            for c in 0..cols {
                m.cells.swap(rank * cols + c, found * cols + c);
            }
        }
        let pivot: Vec<u8> = m.cells[rank * cols + col..(rank + 1) * cols].to_vec();
        for r in 0..m.rows {
            if r != rank && m.cells[r * cols + col] != 0 {
                for (x, y) in m.cells[r * cols + col..(r + 1) * cols].iter_mut().zip(&pivot) {
                    *x ^= y;
                }
            }
        }
        rank += 1;
    }
    rank
}

/// The best of some runs, each on a fresh copy, with clearing.
fn best(of: usize, m: &Matrix, mut work: impl FnMut(&mut Matrix) -> usize) -> (Duration, usize, Vec<u8>) {
    let mut least = Duration::MAX;
    let (mut rank, mut reduced) = (0, Vec::new());
    for _ in 0..of {
        let mut copy = m.clone();
        let start = Instant::now();
        rank = work(&mut copy);
        let eliminated = start.elapsed();
        reduced = copy.cells.clone();
        let start = Instant::now();
        copy.cells.fill(0);
        std::hint::black_box(&copy.cells);
        least = least.min(eliminated + start.elapsed());
    }
    (least, rank, reduced)
}

fn ours(of: usize, m: &Matrix) -> (Duration, usize, Vec<u8>) {
    let mut least = Duration::MAX;
    let (mut rank, mut reduced) = (0, Vec::new());
    for _ in 0..of {
        let mut copy = m.clone();
        let (cells, length) = (copy.cells.as_mut_ptr(), copy.cells.len());
        let start = Instant::now();
        // The slice holds zeros and ones alone, and is lent for the call.
        rank = unsafe { bits_eliminate(m.rows, m.cols, cells, length) };
        let eliminated = start.elapsed();
        reduced = copy.cells.clone();
        let start = Instant::now();
        unsafe { bits_clear(m.rows, m.cols, cells, length) };
        least = least.min(eliminated + start.elapsed());
        assert!(copy.cells.iter().all(|x| *x == 0));
    }
    (least, rank, reduced)
}

fn main() {
    println!("| rim | rows | columns | rank | proved, ms | ordinary, ms | ratio |");
    println!("|---|---|---|---|---|---|---|");
    for (rim, of) in [(5, 20), (11, 7), (23, 3)] {
        let m = matrix(rim);
        let (plain, rank, reduced) = best(of, &m, eliminate);
        let (proved, again, same) = ours(of, &m);
        assert_eq!(rank, again);
        assert!(reduced == same);
        let (a, b) = (proved.as_secs_f64() * 1e3, plain.as_secs_f64() * 1e3);
        println!("| {rim} | {} | {} | {rank} | {a:.2} | {b:.2} | {:.2} |", m.rows, m.cols, a / b);
    }
}
