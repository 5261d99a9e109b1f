//! Small graphs whose answers, sizes and certificates are known.

use compare::entries;
use compare::equations::Encoding;
use compare::field::Field;
use compare::solver::{Refusal, Sizes, Solver, Verdict};

const FOUR_TABLE: usize = 3570;
const FOUR_CERTIFICATE: usize = 63;

fn graph(field: Field, encoding: Encoding, vertices: usize, edges: &[(usize, usize)]) -> Solver {
    let mut solver = Solver::new(field, encoding);
    for vertex in 0..vertices {
        assert_eq!(solver.open(), Ok(vertex));
    }
    for &(i, j) in edges {
        assert_eq!(solver.add(j, i), Ok(()));
    }
    solver
}

fn four(field: Field) -> Solver {
    graph(field, Encoding::Plain, 4, &[(0, 1), (0, 2), (0, 3), (1, 2), (1, 3), (2, 3)])
}

/// Raises with all the memory that small graphs need.
fn raise(solver: &mut Solver) -> Result<Verdict, Refusal> {
    solver.raise(&mut vec![0; 1_000_000], &mut vec![0; 10_000])
}

fn check(solver: &Solver, bytes: &[u8]) -> Result<(), Refusal> {
    let mut table = vec![1; 80];
    let answer = solver.check(bytes, &mut table);
    let summed = matches!(answer, Ok(()) | Err(Refusal::NotOne));
    assert!(table[..70].iter().all(|&code| code == if summed { 0 } else { 1 }));
    assert!(table[70..].iter().all(|&code| code == 1));
    answer
}

fn four_certificate(order: u8) -> Vec<u8> {
    let mut bytes = vec![1, order, 4, 1, 0, 0x0A, 0x20, 0x00, 0x20, 0xA8, 0x90, 0xC4, 0x00];
    bytes.extend([1; 10]);
    bytes
}

/// A certificate that uses a dependent product.
fn other_certificate(order: u8) -> Vec<u8> {
    let mut bytes = vec![1, order, 4, 1, 0, 0x0A, 0x01, 0x00, 0xE0, 0xBD, 0x27, 0x10, 0x01];
    bytes.extend([1; 16]);
    bytes
}

#[test]
fn sizes_of_four_vertices() {
    let sizes = Sizes::new(4, 10, 1);
    assert_eq!((sizes.rows, sizes.products), (70, 50));
    assert_eq!(sizes.table(), FOUR_TABLE as u128);
    assert_eq!(sizes.certificate(), FOUR_CERTIFICATE as u128);
}

#[test]
fn four_vertices_are_infeasible() {
    for field in [Field::Bits, Field::FourValues] {
        let mut solver = four(field);
        let (mut table, mut memory) = (vec![1; FOUR_TABLE + 5], vec![0xA5; FOUR_CERTIFICATE + 5]);
        assert_eq!(solver.raise(&mut table[..FOUR_TABLE - 1], &mut memory), Err(Refusal::TableTooSmall));
        assert_eq!(solver.raise(&mut table, &mut memory[..FOUR_CERTIFICATE - 1]), Err(Refusal::OutputTooSmall));
        assert!(table.iter().all(|&code| code == 1));
        assert!(memory.iter().all(|&byte| byte == 0xA5));
        assert_eq!(solver.raise(&mut table, &mut memory), Ok(Verdict::Infeasible(23)));
        assert!(table[..FOUR_TABLE].iter().all(|&code| code == 0));
        assert_eq!(table[FOUR_TABLE..], [1; 5]);
        assert_eq!(memory[..23], four_certificate(field.order()));
        assert!(memory[23..].iter().all(|&byte| byte == 0xA5));
        assert_eq!(raise(&mut solver), Err(Refusal::AlreadyInfeasible));
        assert_eq!(check(&solver, &four_certificate(field.order())), Ok(()));
    }
}

#[test]
fn other_certificates_are_checked() {
    for field in [Field::Bits, Field::FourValues] {
        let solver = four(field);
        let whole = other_certificate(field.order());
        assert_eq!(check(&solver, &whole), Ok(()));
        let mut without_48 = whole.clone();
        without_48[12] = 0;
        assert_eq!(check(&solver, &without_48), Err(Refusal::WrongLength));
        without_48.pop();
        assert_eq!(check(&solver, &without_48), Err(Refusal::NotOne));
        let mut without_0 = whole.clone();
        without_0[6] = 0;
        without_0.pop();
        assert_eq!(check(&solver, &without_0), Err(Refusal::NotOne));
        let mut alpha = whole.clone();
        *alpha.last_mut().unwrap() = 2;
        let refusal = if field == Field::Bits { Refusal::MalformedBody } else { Refusal::NotOne };
        assert_eq!(check(&solver, &alpha), Err(refusal));
        let mut beyond = whole.clone();
        beyond[12] |= 4;
        assert_eq!(check(&solver, &beyond), Err(Refusal::MalformedBody));
    }
    assert_eq!(check(&four(Field::FourValues), &other_certificate(2)), Err(Refusal::OtherSolver));
}

#[test]
fn three_vertices_are_open() {
    for encoding in [Encoding::Plain, Encoding::Triangles] {
        let mut solver = graph(Field::Bits, encoding, 3, &[(0, 1), (0, 2), (1, 2)]);
        let mut memory = [0xA5; 100];
        assert_eq!(solver.raise(&mut [0; 10_000], &mut memory), Ok(Verdict::Open));
        assert_eq!(memory, [0xA5; 100]);
        assert_eq!(solver.reached(), 1);
    }
}

#[test]
fn a_hub_joined_to_a_cycle_of_five_is_infeasible() {
    let cycle = [(0, 1), (1, 2), (2, 3), (3, 4), (0, 4)];
    let spokes = [(0, 5), (1, 5), (2, 5), (3, 5), (4, 5)];
    for encoding in [Encoding::Plain, Encoding::Triangles] {
        let mut solver = graph(Field::Bits, encoding, 6, &[&cycle[..], &spokes[..]].concat());
        assert!(matches!(raise(&mut solver), Ok(Verdict::Infeasible(_))));
        assert_eq!(solver.remove(3, 4), Ok(()));
        assert_eq!(raise(&mut solver), Ok(Verdict::Open));
        let mut memory = vec![0; 10_000];
        let Ok(Verdict::Infeasible(length)) = solver.trial(4, 3, 1, &mut vec![0; 100_000], &mut memory) else {
            panic!("the trial is open");
        };
        assert_eq!(solver.check(&memory[..length], &mut [0; 210]), Err(Refusal::OtherSolver));
        assert_eq!(solver.add(3, 4), Ok(()));
        assert_eq!(solver.check(&memory[..length], &mut [0; 209]), Err(Refusal::TableTooSmall));
        assert_eq!(solver.check(&memory[..length], &mut [0; 210]), Ok(()));
    }
}

fn answers(plan: &[u8]) -> String {
    let mut text = vec![0; entries::LONGEST_ANSWER * (plan.len() + 1)];
    let (length, _) = entries::plan(plan, &mut text);
    String::from_utf8(text[..length as usize].to_vec()).unwrap()
}

#[test]
fn plans_are_answered() {
    let four = b"B\nB\nB\nB\nC 0 1\nC 0 2\nC 0 3\nC 1 2\nC 1 3\nC 2 3\nR\nR";
    assert_eq!(answers(four), "batch 0\nbatch 1\nbatch 2\nbatch 3\nok\nok\nok\nok\nok\nok\nfew 1\nno 15\n");
    assert_eq!(answers(b"C 24 1\nC 0 1\nB\nC 0 0\nW 00 000\n\nR\nT 0 1 1"), {
        "no 1\nno 12\nbatch 0\nno 2\nno 2\nno 9\nopen 1\nno 9\n"
    });
    assert_eq!(answers(&b"\n".repeat(4097)), "no 10\n");
    assert_eq!(entries::plan(b"B\nB", &mut [0; 17]).0, -4);
    assert_eq!(entries::plan(b"", &mut [0; 8]).0, -4);
    assert_eq!(entries::plan(b"", &mut [0; 9]).0, 0);
}

#[test]
fn scripts_are_answered() {
    let script = b"B\nB\nT 0 1 1\nT 0 1 49\nT 1 1 2\nK 0102\nK 010\nK 0102000100020000\nK 0103020100020000\nR";
    let (mut table, mut memory, mut text) = ([1; 1000], [7; 100], [0; 90]);
    let (length, _) = entries::script(0, script, &mut table, &mut memory, &mut text);
    let expected = "batch 0\nbatch 1\nopen 1\nno 1\nno 2\nno 5\nno 9\nno 18\nno 18\nopen 1\n";
    assert_eq!(std::str::from_utf8(&text[..length as usize]), Ok(expected));
    assert_eq!(memory, [7; 100]);
    assert_eq!(entries::script(4, b"B", &mut table, &mut memory, &mut text).0, -1);
    assert_eq!(entries::script(0, &[b'\n'; 65_537], &mut table, &mut memory, &mut [0; 600_000]).0, -10);
    assert_eq!(entries::script(0, b"B\nB", &mut table, &mut memory, &mut text[..17]).0, -4);
}

#[test]
fn the_last_degree_is_48() {
    let plan = b"R\n".repeat(49);
    assert!(answers(&plan).ends_with("open 47\nopen 48\nno 16\n"));
}
