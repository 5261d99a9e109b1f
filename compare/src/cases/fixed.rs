//! Cases that are always run, in order: the bounds of the entries, of the sizes and of the memory, and certificates with
//! every byte changed.

use super::draft::{check_line, complete, spindle, wheel, Draft};
use super::rng::Rng;
use super::Case;
use compare::certificate::{self, Coefficients, Head, HEAD};
use compare::entries::{LARGEST_TABLE, LONGEST_PLAN, LONGEST_SCRIPT};
use compare::equations::{Encoding, Graph};
use compare::monomials::MOST_VERTICES;
use compare::solver::{Sizes, LAST_DEGREE, MOST_PRODUCTS};

/// Takes a case; an error ends the run.
pub type Run<'a> = &'a mut dyn FnMut(Case) -> Result<(), String>;

pub fn each(run: Run) -> Result<(), String> {
    let rng = &mut Rng::new(0, 0);
    bounds_of_the_entries(rng, run)?;
    plans(rng, run)?;
    for kind in 0..4 {
        sizes(rng, kind, run)?;
        most_products(rng, kind, run)?;
        memory(rng, kind, run)?;
        degrees(rng, kind, run)?;
        for graph in [complete(4), wheel(5), complete(5), pendant()] {
            changed_certificates(rng, kind, graph, run)?;
        }
        other_certificates(rng, kind, run)?;
        later_degrees(rng, kind, run)?;
    }
    Ok(())
}

fn bounds_of_the_entries(rng: &mut Rng, run: Run) -> Result<(), String> {
    for kind in [4, 5, 255, 256, u32::MAX] {
        run(Case::script(rng, kind, b"B\nR\n".to_vec(), 100, 100))?;
    }
    for kind in 0..4 {
        for script in [&b""[..], b"\n", b"B", b"B\n", b"B\nB", b"B\n\n", b"R\nR\nR\n"] {
            let enough = Case::script(rng, kind, script.to_vec(), 100, 100).memory.text.len();
            for length in [0, 1, 8, 9, enough - 1, enough, enough + 1, 2 * enough] {
                run(Case::script(rng, kind, script.to_vec(), 100, 100).with_text(rng, length))?;
            }
        }
        for line in [&b"\n"[..], b"B\n", b"K 0102030405060708\n", b"C 0 1\n"] {
            for length in [LONGEST_SCRIPT - 1, LONGEST_SCRIPT, LONGEST_SCRIPT + 1, 2 * LONGEST_SCRIPT] {
                let script: Vec<u8> = line.iter().copied().cycle().take(length).collect();
                run(Case::script(rng, kind, script, 10, 10))?;
            }
        }
        let longest: Vec<u8> = [b"K ".to_vec(), b"0".repeat(LONGEST_SCRIPT - 2)].concat();
        run(Case::script(rng, kind, longest, 10, 10))?;
        for table in [LARGEST_TABLE - 1, LARGEST_TABLE, LARGEST_TABLE + 1] {
            run(Case::script(rng, kind, b"B\nR\n".to_vec(), table, 100))?;
            run(Case::script(rng, kind, b"B\nR\n".to_vec(), table, 100).with_text(rng, 17))?;
        }
    }
    Ok(())
}

fn plans(rng: &mut Rng, run: Run) -> Result<(), String> {
    for line in [&b"\n"[..], b"B\n", b"R\n", b"B\nC 0 1\n", b"K 01\n", b"T 0 1 1\n", b"C 010 2"] {
        for length in [0, 1, 2, 8, 100, LONGEST_PLAN - 1, LONGEST_PLAN, LONGEST_PLAN + 1, 2 * LONGEST_PLAN, 70_000] {
            let plan: Vec<u8> = line.iter().copied().cycle().take(length).collect();
            let enough = Case::plan(rng, plan.clone()).memory.text.len();
            for text in [0, 8, 9, enough - 1, enough, enough + 40] {
                run(Case::plan(rng, plan.clone()).with_text(rng, text))?;
            }
        }
    }
    Ok(())
}

/// Every number of vertices and every degree: which trials and checks are too large, and what heads pass for.
fn sizes(rng: &mut Rng, kind: u32, run: Run) -> Result<(), String> {
    for vertices in 0..=MOST_VERTICES {
        for density in [0, 15, 100] {
            let mut edges = complete(vertices).1;
            edges.retain(|&edge| edge != (0, 1) && rng.percent(density));
            let mut draft = Draft::new(rng, kind, 0, 0);
            draft.build(vertices, edges);
            for degree in 0..=LAST_DEGREE + 1 {
                draft.trial(0, 1, degree);
                let head = draft.head(degree);
                draft.check(&head.bytes());
                draft.check(&Head { vertices: head.vertices ^ 1, ..head }.bytes());
                draft.check(&Head { equations: head.equations ^ 0x100, ..head }.bytes());
            }
            let script = draft.text;
            run(Case::script(rng, kind, script, 0, 0))?;
        }
    }
    Ok(())
}

/// Edge after edge, the degrees at which the products are about as many as there may be.
fn most_products(rng: &mut Rng, kind: u32, run: Run) -> Result<(), String> {
    for vertices in 2..=MOST_VERTICES {
        let mut draft = Draft::new(rng, kind, 0, 0);
        draft.build(vertices, Vec::new());
        while let Some((i, j)) = draft.pair(false) {
            let equations = draft.head(1).equations as usize;
            for degree in 1..=LAST_DEGREE {
                let Sizes { products, multipliers, .. } = Sizes::new(vertices, equations, degree);
                if products.abs_diff(MOST_PRODUCTS) <= 2 * multipliers {
                    let head = draft.head(degree);
                    draft.check(&head.bytes());
                    draft.trial(i, j, degree);
                }
            }
            draft.add(i, j);
        }
        let script = draft.text;
        run(Case::script(rng, kind, script, 100, 100))?;
    }
    Ok(())
}

/// Raises, trials and checks with exactly the memory they need, and with one less of either.
fn memory(rng: &mut Rng, kind: u32, run: Run) -> Result<(), String> {
    let encoding = [Encoding::Plain, Encoding::Triangles][kind as usize % 2];
    for vertices in 0..=6 {
        for degree in 1..=4 {
            let mut edges = complete(vertices).1;
            edges.retain(|_| rng.percent(80));
            let mut draft = Draft::new(rng, kind, 0, 0);
            draft.build(vertices, edges);
            let sizes = |graph: &Graph| Sizes::new(vertices, encoding.equations(graph).len(), degree);
            let here = sizes(draft.graph());
            let empty = certificate::write(draft.head(degree), here.products as usize, &Coefficients::new());
            let mut calls = vec![(check_line(&empty), here.rows, 1)];
            if degree == 1 {
                calls.push(("R".to_string(), here.table(), here.certificate()));
            }
            if let Some((i, j)) = draft.pair(false) {
                let there = sizes(&draft.graph().with((i, j)));
                calls.push((format!("T {j} {i} {degree}"), there.table(), there.certificate()));
            }
            let start = draft.text;
            for (call, table, certificate) in calls {
                if table > 80_000 {
                    continue;
                }
                let (table, certificate) = (table as usize, certificate as usize);
                for (table, certificate) in [
                    (table, certificate),
                    (table - 1, certificate),
                    (table, certificate - 1),
                    (table - 1, certificate - 1),
                    (table + 3, certificate + 3),
                ] {
                    let script = [&start[..], call.as_bytes()].concat();
                    run(Case::script(rng, kind, script, table, certificate))?;
                }
            }
        }
    }
    Ok(())
}

/// Up to the last degree, and again after a vertex more.
fn degrees(rng: &mut Rng, kind: u32, run: Run) -> Result<(), String> {
    let script = [&b"R\n".repeat(50)[..], b"B\n", &b"R\n".repeat(50), b"B\nC 0 1\n", &b"R\n".repeat(8)].concat();
    run(Case::script(rng, kind, script, 12_000, 1_000))
}

/// The certificate of a graph with each byte changed in turn, shortened and made longer.
fn changed_certificates(rng: &mut Rng, kind: u32, graph: (usize, Vec<(usize, usize)>), run: Run) -> Result<(), String> {
    let mut draft = Draft::new(rng, kind, 200_000, u64::MAX);
    let (vertices, edges) = graph;
    draft.build(vertices, edges);
    draft.raise();
    let (start, written) = (draft.text.clone(), draft.written().to_vec());
    let [bytes] = &written[..] else {
        return Err(format!("no certificate of degree 1 for {:?}", draft.graph()));
    };
    let products = draft.head(1).equations as usize * (vertices + 1);
    let mut variants = Vec::new();
    for place in 0..bytes.len() {
        let old = bytes[place];
        let nearby = [old ^ 1, old ^ 2, old ^ 0x10, old ^ 0x80, old.wrapping_add(1), rng.next() as u8];
        for new in [0, 1, 2, 3, 4, 49, 0xFF].into_iter().chain(nearby) {
            let mut variant = bytes.clone();
            variant[place] = new;
            variants.push(variant);
        }
        variants.push(bytes[..=place].to_vec());
        // A product put in or taken out, and its coefficient with it.
        if place >= HEAD {
            let number = 8 * (place - HEAD) + rng.below(8);
            if number < products {
                variants.push(flipped(bytes, products, number));
            }
        }
    }
    for more in [&[0][..], &[1], &[2], &[1, 1], &[0xFF; 9]] {
        variants.push([bytes, more].concat());
    }
    let mut script = start.clone();
    for variant in variants {
        script.extend(check_line(&variant).bytes());
        script.push(b'\n');
        if script.len() > LONGEST_SCRIPT - 3_000 {
            run(Case::script(rng, kind, std::mem::replace(&mut script, start.clone()), 80_000, 1_000))?;
        }
    }
    run(Case::script(rng, kind, script, 80_000, 1_000))
}

/// The certificate with the product put in, with coefficient one, or taken out.
fn flipped(bytes: &[u8], products: usize, number: usize) -> Vec<u8> {
    let map = HEAD..HEAD + certificate::map_length(products);
    let before = certificate::standing(&bytes[map.clone()]).filter(|&bit| bit < number).count();
    let (place, mask) = (HEAD + number / 8, 1 << (number % 8));
    let mut flipped = bytes.to_vec();
    flipped[place] ^= mask;
    if flipped[place] & mask == 0 {
        flipped.remove(map.end + before);
    } else {
        flipped.insert(map.end + before, 1);
    }
    flipped
}

/// Certificates that pass and use dependent products, over four values with all coefficients; each of these with a
/// coefficient changed; and some that add up to another element than one.
fn other_certificates(rng: &mut Rng, kind: u32, run: Run) -> Result<(), String> {
    for (vertices, edges) in [complete(4), wheel(5), complete(5), pendant(), complete(6)] {
        let mut draft = Draft::new(rng, kind, 0, 0);
        draft.build(vertices, edges);
        for _ in 0..25 {
            let factor = draft.factor();
            if let Some(multiple) = draft.valid_certificate(1, factor) {
                draft.check(&multiple);
            }
            if let Some(mut bytes) = draft.valid_certificate(1, 1) {
                draft.check(&bytes);
                let last = bytes.len() - 1;
                bytes[last] = bytes[last] % 3 + 1;
                draft.check(&bytes);
            }
        }
        let script = draft.text;
        run(Case::script(rng, kind, script, 10_000, 0))?;
    }
    Ok(())
}

/// Graphs worked at degree 2 or higher, and certificates of degree 4.
fn later_degrees(rng: &mut Rng, kind: u32, run: Run) -> Result<(), String> {
    let mut draft = Draft::new(rng, kind, 0, 0);
    let (vertices, edges) = spindle();
    draft.build(vertices, edges);
    for factor in [1, 1, 1, draft.factor()] {
        if let Some(bytes) = draft.valid_certificate(4, factor) {
            draft.check(&bytes);
        }
    }
    let script = draft.text;
    run(Case::script(rng, kind, script, 12_000, 0))?;
    for (vertices, edges, table) in [(3, complete(3).1, 80_000), (5, wheel(4).1, 80_000), (7, spindle().1, 500_000)] {
        let mut draft = Draft::new(rng, kind, table, 1_000_000_000);
        draft.build(vertices, edges);
        for _ in 0..6 {
            draft.raise();
        }
        for bytes in draft.written().to_vec() {
            draft.check(&bytes);
        }
        let script = draft.text;
        run(Case::script(rng, kind, script, table, 2_000))?;
    }
    Ok(())
}

/// Four vertices all joined, and a fifth joined to one of them.
fn pendant() -> (usize, Vec<(usize, usize)>) {
    let (_, mut edges) = complete(4);
    edges.push((1, 4));
    (5, edges)
}
