//! A script while it is written. Each line is also worked on a solver, so that later lines can hold certificates that
//! earlier ones make, and so that the memory can be given the length that the calls need.

use super::rng::Rng;
use compare::certificate::{self, map_length, Coefficients, Head, HEAD};
use compare::entries::{self, LONGEST_SCRIPT};
use compare::equations::Graph;
use compare::field::{product, sum};
use compare::monomials::MOST_VERTICES;
use compare::solver::{Products, Sizes, Solver, Verdict, LAST_DEGREE};

const DEGREES: std::ops::RangeInclusive<usize> = 1..=LAST_DEGREE;

pub struct Draft<'a> {
    pub rng: &'a mut Rng,
    pub text: Vec<u8>,
    solver: Solver,
    /// Certificates that raises and trials wrote.
    written: Vec<Vec<u8>>,
    /// The lengths that the calls so far need.
    tables: Vec<usize>,
    certificates: Vec<usize>,
    /// A table and certificate memory to work with. No call that needs a longer table is worked.
    table: Vec<u8>,
    memory: Vec<u8>,
    /// How many more operations on elements a dense elimination may cost.
    work: u64,
}

impl<'a> Draft<'a> {
    pub fn new(rng: &'a mut Rng, kind: u32, largest_table: usize, work: u64) -> Draft<'a> {
        Draft {
            rng,
            text: Vec::new(),
            solver: entries::solver(kind).expect("a kind of solver"),
            written: Vec::new(),
            tables: Vec::new(),
            certificates: Vec::new(),
            table: vec![0; largest_table],
            memory: vec![0; 2 * largest_table + 16],
            work,
        }
    }

    pub fn graph(&self) -> &Graph {
        self.solver.graph()
    }

    pub fn written(&self) -> &[Vec<u8>] {
        &self.written
    }

    /// Adds a line, where the script does not become too long. Answers whether it was added.
    pub fn line(&mut self, line: impl AsRef<[u8]>) -> bool {
        let line = line.as_ref();
        let fits = self.text.len() + line.len() < LONGEST_SCRIPT;
        if fits {
            self.text.extend_from_slice(line);
            self.text.push(b'\n');
        }
        fits
    }

    pub fn open(&mut self) {
        if self.line("B") {
            let _ = self.solver.open();
        }
    }

    pub fn add(&mut self, i: usize, j: usize) {
        let ends = self.numbers(&[i, j]);
        if self.line(format!("C{ends}")) {
            let _ = self.solver.add(i, j);
        }
    }

    pub fn remove(&mut self, i: usize, j: usize) {
        let ends = self.numbers(&[i, j]);
        if self.line(format!("W{ends}")) {
            let _ = self.solver.remove(i, j);
        }
    }

    pub fn raise(&mut self) {
        let degree = self.solver.reached() + 1;
        let refused = self.solver.infeasible() || degree > LAST_DEGREE;
        if !refused && !self.affords(&self.graph().clone(), degree) || !self.line("R") {
            return;
        }
        if let Ok(Verdict::Infeasible(length)) = self.solver.raise(&mut self.table, &mut self.memory) {
            self.written.push(self.memory[..length].to_vec());
        }
    }

    pub fn trial(&mut self, i: usize, j: usize, degree: usize) {
        if i != j && i.max(j) < self.graph().vertices && DEGREES.contains(&degree) {
            let graph = self.graph().with((i.min(j), i.max(j)));
            if !self.affords(&graph, degree) {
                return;
            }
        }
        let numbers = self.numbers(&[i, j, degree]);
        if !self.line(format!("T{numbers}")) {
            return;
        }
        if let Ok(Verdict::Infeasible(length)) = self.solver.trial(i, j, degree, &mut self.table, &mut self.memory) {
            self.written.push(self.memory[..length].to_vec());
        }
    }

    pub fn check(&mut self, bytes: &[u8]) {
        let line = check_line(bytes);
        let line = if self.rng.percent(50) { line.to_uppercase() } else { line };
        if self.line(line) {
            if let Some(head) = Head::read(bytes).filter(|head| DEGREES.contains(&(head.degree as usize))) {
                let sizes = Sizes::new(self.graph().vertices, self.equations(), head.degree as usize);
                if !sizes.too_large() {
                    self.tables.push(sizes.rows as usize);
                }
            }
        }
    }

    /// A graph, its vertices opened and its edges added in some order.
    pub fn build(&mut self, vertices: usize, mut edges: Vec<(usize, usize)>) {
        for _ in 0..vertices {
            self.open();
        }
        self.rng.shuffle(&mut edges);
        for (i, j) in edges {
            self.add(i, j);
        }
    }

    /// The memory for the script: exactly what some call needs, one less, any less, or more.
    pub fn lengths(&mut self) -> (usize, usize) {
        (length(self.rng, &self.tables), length(self.rng, &self.certificates))
    }

    /// Any two vertices that are joined, or that are not.
    pub fn pair(&mut self, joined: bool) -> Option<(usize, usize)> {
        let graph = self.graph();
        let mut pairs = Vec::new();
        for j in 0..graph.vertices {
            pairs.extend((0..j).map(|i| (i, j)).filter(|pair| graph.edges.contains(pair) == joined));
        }
        (!pairs.is_empty()).then(|| self.rng.pick(&pairs))
    }

    /// A certificate for the graph as it is that passes, but mostly is not the one that a raise writes: dependent
    /// products are added in sums that are zero, and it may be of a higher degree than the one it is made from. With a
    /// factor that is not one its sum is the factor, and it does not pass.
    pub fn valid_certificate(&mut self, degree: usize, factor: u8) -> Option<Vec<u8>> {
        let equations = self.solver.encoding().equations(self.graph());
        let count = equations.len();
        let products = Products::new(equations, self.graph().vertices, degree);
        let mut coefficients = products.certificate()?;
        for _ in 0..self.rng.below(4) {
            if products.dependent().is_empty() {
                break;
            }
            let dependent = self.rng.pick(products.dependent());
            let factor = self.factor();
            add(&mut coefficients, factor, &products.relation(dependent)?);
        }
        let higher = if self.rng.percent(70) { degree } else { self.rng.between(degree, degree + 2) };
        let sizes = Sizes::new(self.graph().vertices, count, higher);
        if sizes.too_large() {
            return None;
        }
        let (from, to) = (products.multipliers(), sizes.multipliers as usize);
        let raised = coefficients
            .iter()
            .map(|(number, &code)| (number / from * to + number % from, product(factor, code)))
            .collect();
        Some(certificate::write(self.head(higher), sizes.products as usize, &raised))
    }

    /// A certificate of the right form for the graph as it is, with any products and coefficients.
    pub fn any_certificate(&mut self, degree: usize) -> Vec<u8> {
        let sizes = Sizes::new(self.graph().vertices, self.equations(), degree);
        let mut coefficients = Coefficients::new();
        if sizes.products == 0 || sizes.products > 50_000 {
            return self.head(degree).bytes().to_vec();
        }
        let products = sizes.products as usize;
        for _ in 0..self.rng.below(6) {
            let code = self.factor();
            coefficients.insert(self.rng.below(products), code);
        }
        let mut bytes = certificate::write(self.head(degree), products, &coefficients);
        if self.rng.percent(20) {
            let last = HEAD + map_length(products) - 1;
            bytes[last] |= 0x80;
        }
        bytes
    }

    /// Any element but zero.
    pub fn factor(&mut self) -> u8 {
        self.rng.between(1, self.solver.field().order() as usize - 1) as u8
    }

    /// The head of a certificate of the degree for the graph as it is.
    pub fn head(&self, degree: usize) -> Head {
        Head::new(self.solver.field(), self.graph().vertices, degree, self.equations())
    }

    fn equations(&self) -> usize {
        self.solver.encoding().equations(self.graph()).len()
    }

    /// Whether the call may be made: it is refused without work, or there is work enough left for it.
    fn affords(&mut self, graph: &Graph, degree: usize) -> bool {
        let equations = self.solver.encoding().equations(graph).len();
        let sizes = Sizes::new(graph.vertices, equations, degree);
        if sizes.too_large() || sizes.table() > self.table.len() as u128 {
            return true;
        }
        let cost = (sizes.table() * sizes.rows.min(sizes.products)) as u64;
        if cost > self.work {
            return false;
        }
        self.work -= cost;
        self.tables.push(sizes.table() as usize);
        self.certificates.push(sizes.certificate() as usize);
        true
    }

    /// Numbers as they may stand in a line; the ends of an edge in either order, and some zeros in front.
    fn numbers(&mut self, numbers: &[usize]) -> String {
        let mut numbers = numbers.to_vec();
        if self.rng.percent(50) {
            numbers.swap(0, 1);
        }
        numbers
            .into_iter()
            .map(|number| match self.rng.below(20) {
                0 => format!(" {number:02}"),
                1 => format!(" {number:03}"),
                _ => format!(" {number}"),
            })
            .collect()
    }
}

pub fn check_line(bytes: &[u8]) -> String {
    let digits: String = bytes.iter().map(|byte| format!("{byte:02x}")).collect();
    format!("K {digits}")
}

fn length(rng: &mut Rng, needs: &[usize]) -> usize {
    let most = needs.iter().copied().max().unwrap_or(0);
    let need = if needs.is_empty() || rng.percent(60) { most } else { rng.pick(needs) };
    match rng.below(10) {
        0..=2 => need,
        3 => need.saturating_sub(1),
        4 => rng.below(need + 1),
        _ => most + rng.below(100),
    }
}

/// Adds the factor times each coefficient of `more`.
fn add(coefficients: &mut Coefficients, factor: u8, more: &Coefficients) {
    for (&number, &code) in more {
        let entry = coefficients.entry(number).or_insert(0);
        *entry = sum(*entry, product(factor, code));
    }
    coefficients.retain(|_, code| *code != 0);
}

/// A graph on at most seven vertices with its edges: some have no proper coloring, others miss an edge for that.
pub fn some_graph(rng: &mut Rng) -> (usize, Vec<(usize, usize)>) {
    let (mut vertices, mut edges) = match rng.below(8) {
        0..=1 => complete(4),
        2 => complete(5),
        3 => wheel(5),
        4 => spindle(),
        5 => wheel(4),
        6 => complete(rng.between(2, 3)),
        _ => {
            let (vertices, mut edges) = complete(rng.between(4, 7));
            let density = rng.between(30, 90);
            edges.retain(|_| rng.percent(density));
            (vertices, edges)
        }
    };
    if rng.percent(30) && !edges.is_empty() {
        edges.swap_remove(rng.below(edges.len()));
    }
    if rng.percent(30) && vertices < 6 {
        vertices += 1;
        edges.push((rng.below(vertices - 1), vertices - 1));
    }
    let mut names: Vec<usize> = (0..vertices).collect();
    rng.shuffle(&mut names);
    (vertices, edges.into_iter().map(|(i, j)| (names[i], names[j])).collect())
}

/// All vertices joined.
pub fn complete(vertices: usize) -> (usize, Vec<(usize, usize)>) {
    assert!(vertices <= MOST_VERTICES);
    (vertices, (0..vertices).flat_map(|j| (0..j).map(move |i| (i, j))).collect())
}

/// A hub joined to each vertex of a cycle.
pub fn wheel(cycle: usize) -> (usize, Vec<(usize, usize)>) {
    (cycle + 1, (0..cycle).flat_map(|i| [(i, (i + 1) % cycle), (i, cycle)]).collect())
}

/// Two pairs of triangles that share an edge, hung at one vertex, with their far ends joined.
pub fn spindle() -> (usize, Vec<(usize, usize)>) {
    let edges = [(0, 1), (0, 2), (1, 2), (1, 3), (2, 3), (0, 4), (0, 5), (4, 5), (4, 6), (5, 6), (3, 6)];
    (7, edges.to_vec())
}
