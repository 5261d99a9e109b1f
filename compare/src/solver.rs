//! The solver: a graph, an encoding, the degree reached and a verdict.

use crate::certificate::{self, map_length, Coefficients, Head, HEAD};
use crate::elimination::{Column, Elimination};
use crate::equations::{Encoding, Equation, Graph};
use crate::field::{sum, Field};
use crate::monomials::{self, times, Monomial, MOST_VERTICES, ONE};
use std::collections::HashMap;

pub const LAST_DEGREE: usize = 48;
pub const MOST_ROWS: u128 = 1_000_000;
pub const MOST_PRODUCTS: u128 = 1_000_000;

/// The most that an equation adds to the degree of its multiplier.
const EQUATION_DEGREE: usize = 3;

#[derive(Clone, Copy, Debug, PartialEq, Eq)]
pub enum Refusal {
    OutOfRange = 1,
    SameVertex,
    TableTooSmall,
    OutputTooSmall,
    MalformedHead,
    WrongLength,
    MalformedBody,
    NotOne,
    MalformedLine,
    PlanTooLong,
    NoVertexLeft,
    NoSuchVertex,
    AlreadyJoined,
    NotJoined,
    AlreadyInfeasible,
    LastDegree,
    TooLarge,
    OtherSolver,
}

/// How many multipliers, products and rows there are at a degree, however many.
#[derive(Clone, Copy, Debug, PartialEq, Eq)]
pub struct Sizes {
    pub multipliers: u128,
    pub products: u128,
    pub rows: u128,
}

impl Sizes {
    pub fn new(vertices: usize, equations: usize, degree: usize) -> Sizes {
        let multipliers = monomials::count(vertices, degree);
        Sizes {
            multipliers,
            products: equations as u128 * multipliers,
            rows: monomials::count(vertices, degree + EQUATION_DEGREE),
        }
    }

    pub fn too_large(&self) -> bool {
        self.rows > MOST_ROWS || self.products > MOST_PRODUCTS
    }

    /// The elements of the table for a raise or a trial.
    pub fn table(&self) -> u128 {
        self.rows * (self.products + 1)
    }

    /// The bytes of certificate memory for a raise or a trial.
    pub fn certificate(&self) -> u128 {
        HEAD as u128 + self.products + self.products.div_ceil(8)
    }
}

#[derive(Clone, Copy, Debug, PartialEq, Eq)]
pub enum Verdict {
    /// With the length of the certificate.
    Infeasible(usize),
    Open,
}

#[derive(Clone, Debug)]
pub struct Solver {
    field: Field,
    encoding: Encoding,
    graph: Graph,
    reached: usize,
    infeasible: bool,
}

impl Solver {
    pub fn new(field: Field, encoding: Encoding) -> Solver {
        Solver { field, encoding, graph: Graph::default(), reached: 0, infeasible: false }
    }

    pub fn field(&self) -> Field {
        self.field
    }

    pub fn encoding(&self) -> Encoding {
        self.encoding
    }

    pub fn graph(&self) -> &Graph {
        &self.graph
    }

    pub fn reached(&self) -> usize {
        self.reached
    }

    pub fn infeasible(&self) -> bool {
        self.infeasible
    }

    /// Opens the next vertex and answers its number.
    pub fn open(&mut self) -> Result<usize, Refusal> {
        if self.graph.vertices == MOST_VERTICES {
            return Err(Refusal::NoVertexLeft);
        }
        self.graph.vertices += 1;
        self.grown();
        Ok(self.graph.vertices - 1)
    }

    pub fn add(&mut self, i: usize, j: usize) -> Result<(), Refusal> {
        let edge = self.new_edge(i, j)?;
        self.graph.edges.insert(edge);
        self.grown();
        Ok(())
    }

    pub fn remove(&mut self, i: usize, j: usize) -> Result<(), Refusal> {
        let edge = self.edge(i, j)?;
        if !self.graph.edges.remove(&edge) {
            return Err(Refusal::NotJoined);
        }
        self.reached = 0;
        self.infeasible = false;
        Ok(())
    }

    /// Works the degree after the one reached.
    pub fn raise(&mut self, table: &mut [u8], memory: &mut [u8]) -> Result<Verdict, Refusal> {
        if self.infeasible {
            return Err(Refusal::AlreadyInfeasible);
        }
        if self.reached == LAST_DEGREE {
            return Err(Refusal::LastDegree);
        }
        let verdict = self.work(&self.graph, self.reached + 1, table, memory)?;
        self.reached += 1;
        self.infeasible = verdict != Verdict::Open;
        Ok(verdict)
    }

    /// What a raise to the degree would answer with the edge added.
    pub fn trial(
        &self,
        i: usize,
        j: usize,
        degree: usize,
        table: &mut [u8],
        memory: &mut [u8],
    ) -> Result<Verdict, Refusal> {
        if !(1..=LAST_DEGREE).contains(&degree) {
            return Err(Refusal::OutOfRange);
        }
        let edge = self.new_edge(i, j)?;
        self.work(&self.graph.with(edge), degree, table, memory)
    }

    /// Passes where the sum that the certificate stands for is the polynomial one.
    pub fn check(&self, bytes: &[u8], table: &mut [u8]) -> Result<(), Refusal> {
        let head = Head::read(bytes).ok_or(Refusal::MalformedHead)?;
        let degree = head.degree as usize;
        if !(1..=LAST_DEGREE).contains(&degree) {
            return Err(Refusal::MalformedHead);
        }
        let equations = self.encoding.equations(&self.graph);
        if head != Head::new(self.field, self.graph.vertices, degree, equations.len()) {
            return Err(Refusal::OtherSolver);
        }
        let sizes = Sizes::new(self.graph.vertices, equations.len(), degree);
        if sizes.too_large() {
            return Err(Refusal::TooLarge);
        }
        let (products, rows) = (sizes.products as usize, sizes.rows as usize);
        let body = &bytes[HEAD..];
        if body.len() < map_length(products) {
            return Err(Refusal::WrongLength);
        }
        let (map, codes) = body.split_at(map_length(products));
        let (inside, beyond): (Vec<usize>, Vec<usize>) = certificate::standing(map).partition(|&bit| bit < products);
        if codes.len() != inside.len() {
            return Err(Refusal::WrongLength);
        }
        if !beyond.is_empty() || codes.iter().any(|&code| code == 0 || !self.field.has_code(code)) {
            return Err(Refusal::MalformedBody);
        }
        if table.len() < rows {
            return Err(Refusal::TableTooSmall);
        }
        table[..rows].fill(0);
        let coefficients = inside.into_iter().zip(codes.iter().copied()).collect();
        if stands_for_one(&equations, self.graph.vertices, degree, &coefficients) {
            Ok(())
        } else {
            Err(Refusal::NotOne)
        }
    }

    /// The lower end first, where both are open and they are two.
    fn edge(&self, i: usize, j: usize) -> Result<(usize, usize), Refusal> {
        if i.max(j) >= MOST_VERTICES {
            return Err(Refusal::OutOfRange);
        }
        if i.max(j) >= self.graph.vertices {
            return Err(Refusal::NoSuchVertex);
        }
        if i == j {
            return Err(Refusal::SameVertex);
        }
        Ok((i.min(j), i.max(j)))
    }

    fn new_edge(&self, i: usize, j: usize) -> Result<(usize, usize), Refusal> {
        let edge = self.edge(i, j)?;
        if self.graph.edges.contains(&edge) {
            return Err(Refusal::AlreadyJoined);
        }
        Ok(edge)
    }

    /// More equations keep a certificate, but may make one where there was none.
    fn grown(&mut self) {
        if !self.infeasible {
            self.reached = 0;
        }
    }

    fn work(&self, graph: &Graph, degree: usize, table: &mut [u8], memory: &mut [u8]) -> Result<Verdict, Refusal> {
        let equations = self.encoding.equations(graph);
        let sizes = Sizes::new(graph.vertices, equations.len(), degree);
        if sizes.too_large() {
            return Err(Refusal::TooLarge);
        }
        if (table.len() as u128) < sizes.table() {
            return Err(Refusal::TableTooSmall);
        }
        if (memory.len() as u128) < sizes.certificate() {
            return Err(Refusal::OutputTooSmall);
        }
        table[..sizes.table() as usize].fill(0);
        let products = Products::new(equations, graph.vertices, degree);
        let Some(coefficients) = products.certificate() else {
            return Ok(Verdict::Open);
        };
        let bytes = products.write(self.field, &coefficients);
        memory[..bytes.len()].copy_from_slice(&bytes);
        Ok(Verdict::Infeasible(bytes.len()))
    }
}

/// The products of equations with the monomials of degree at most `degree`, and the elimination of their columns.
pub struct Products {
    vertices: usize,
    degree: usize,
    equations: Vec<Equation>,
    multipliers: Vec<Monomial>,
    rows: HashMap<Monomial, u32>,
    elimination: Elimination,
    /// The numbers of the products that are not independent.
    dependent: Vec<usize>,
}

impl Products {
    pub fn new(equations: Vec<Equation>, vertices: usize, degree: usize) -> Products {
        let rows = monomials::up_to(vertices, degree + EQUATION_DEGREE);
        let mut products = Products {
            vertices,
            degree,
            equations,
            multipliers: monomials::up_to(vertices, degree),
            rows: rows.into_iter().zip(0..).collect(),
            elimination: Elimination::default(),
            dependent: Vec::new(),
        };
        for number in 0..products.count() {
            let column = products.column(number);
            if !products.elimination.take(number, column) {
                products.dependent.push(number);
            }
        }
        products
    }

    pub fn count(&self) -> usize {
        self.equations.len() * self.multipliers.len()
    }

    pub fn multipliers(&self) -> usize {
        self.multipliers.len()
    }

    pub fn dependent(&self) -> &[usize] {
        &self.dependent
    }

    /// The coefficients of independent products that add up to the polynomial one.
    pub fn certificate(&self) -> Option<Coefficients> {
        self.elimination.combination(vec![(0, 1)])
    }

    /// A sum that is zero: a dependent product, and the independent ones that it is the sum of.
    pub fn relation(&self, dependent: usize) -> Option<Coefficients> {
        let mut coefficients = self.elimination.combination(self.column(dependent))?;
        coefficients.insert(dependent, 1);
        Some(coefficients)
    }

    pub fn write(&self, field: Field, coefficients: &Coefficients) -> Vec<u8> {
        let head = Head::new(field, self.vertices, self.degree, self.equations.len());
        certificate::write(head, self.count(), coefficients)
    }

    fn column(&self, number: usize) -> Column {
        let multiplier = &self.multipliers[number % self.multipliers.len()];
        let equation = &self.equations[number / self.multipliers.len()];
        let mut column: Column = equation.iter().map(|term| (self.rows[&times(term, multiplier)], 1)).collect();
        column.sort_unstable();
        column
    }
}

/// Adds up the products with their coefficients, monomial by monomial.
fn stands_for_one(equations: &[Equation], vertices: usize, degree: usize, coefficients: &Coefficients) -> bool {
    let multipliers = monomials::up_to(vertices, degree);
    let mut total: HashMap<Monomial, u8> = HashMap::new();
    for (number, &coefficient) in coefficients {
        let multiplier = &multipliers[number % multipliers.len()];
        for term in &equations[number / multipliers.len()] {
            let entry = total.entry(times(term, multiplier)).or_insert(0);
            *entry = sum(*entry, coefficient);
        }
    }
    total.retain(|_, code| *code != 0);
    total == HashMap::from([(ONE, 1)])
}
