//! Random cases: whole scripts, damaged ones and noise.

use super::draft::{complete, some_graph, Draft};
use super::rng::Rng;
use super::Case;
use compare::entries::{LARGEST_TABLE, LONGEST_PLAN, LONGEST_SCRIPT, PLAN_TABLE};
use compare::script::lines;
use compare::solver::LAST_DEGREE;

pub fn case(rng: &mut Rng) -> Case {
    let case = match rng.below(100) {
        0..=11 => plan(rng),
        12..=14 => noise(rng),
        15..=19 => many_vertices(rng),
        20..=21 => many_degrees(rng),
        _ => script(rng),
    };
    match rng.below(40) {
        0 => {
            let length = case.memory.text.len() - 1;
            case.with_text(rng, length)
        }
        1 => {
            let length = rng.below(case.memory.text.len());
            case.with_text(rng, length)
        }
        2..=6 => {
            let length = case.memory.text.len() + rng.below(50);
            case.with_text(rng, length)
        }
        _ => case,
    }
}

/// A script with raises, trials and checks on a small graph that comes and goes.
fn script(rng: &mut Rng) -> Case {
    let kind = rng.below(4) as u32;
    let (largest, work) = match rng.below(200) {
        0..=109 => (12_000, 3_000_000),
        110..=169 => (80_000, 20_000_000),
        170..=195 => (300_000, 80_000_000),
        196..=198 => (1_000_000, 500_000_000),
        _ => (LARGEST_TABLE, 1_500_000_000),
    };
    let count = if rng.percent(65) { rng.between(1, 12) } else { rng.between(13, 130) };
    let vertices = rng.below(8);
    let mut draft = Draft::new(rng, kind, largest, work);
    if draft.rng.percent(50) {
        let (vertices, edges) = some_graph(draft.rng);
        draft.build(vertices, edges);
        draft.raise();
    }
    for _ in 0..count {
        step(&mut draft, vertices);
    }
    finish(draft, kind)
}

/// Up to 24 vertices, for which a table is mostly too small, and checks, which need less.
fn many_vertices(rng: &mut Rng) -> Case {
    let kind = rng.below(4) as u32;
    let mut draft = Draft::new(rng, kind, 100_000, 20_000_000);
    for _ in 0..draft.rng.between(8, 26) {
        draft.open();
    }
    let (_, clique) = complete(4);
    let most = draft.graph().vertices;
    let mut names: Vec<usize> = (0..most).collect();
    draft.rng.shuffle(&mut names);
    for (i, j) in clique {
        draft.add(names[i], names[j]);
    }
    for _ in 0..draft.rng.below(30) {
        if let Some((i, j)) = draft.pair(false) {
            draft.add(i, j);
        }
    }
    draft.raise();
    for _ in 0..draft.rng.below(6) {
        if let Some(bytes) = draft.valid_certificate(1, 1) {
            let bytes = if draft.rng.percent(50) { damaged_certificate(draft.rng, bytes) } else { bytes };
            draft.check(&bytes);
        }
        step(&mut draft, most);
    }
    finish(draft, kind)
}

/// No vertex, one or two, raised as far as it goes.
fn many_degrees(rng: &mut Rng) -> Case {
    let kind = rng.below(4) as u32;
    let vertices = rng.below(3);
    let mut draft = Draft::new(rng, kind, if vertices < 2 { 3_000 } else { 12_000 }, 20_000_000);
    for _ in 0..vertices {
        draft.open();
    }
    for _ in 0..LAST_DEGREE + 2 {
        draft.raise();
        if draft.rng.percent(3) {
            step(&mut draft, vertices);
        }
    }
    finish(draft, kind)
}

/// A plan; some are too long.
fn plan(rng: &mut Rng) -> Case {
    let mut draft = Draft::new(rng, 0, PLAN_TABLE, 30_000_000);
    let vertices = draft.rng.below(9);
    if draft.rng.percent(50) {
        let (vertices, edges) = some_graph(draft.rng);
        draft.build(vertices, edges);
        draft.raise();
    }
    for _ in 0..draft.rng.below(60) {
        step(&mut draft, vertices);
    }
    let mut text = draft.text;
    // A plan has no trials and no checks; a few stay as malformed lines.
    if rng.percent(90) {
        text = lines(&text).into_iter().filter(|line| !matches!(line[..], [b'T' | b'K', ..])).fold(
            Vec::new(),
            |mut kept, line| {
                kept.extend_from_slice(line);
                kept.push(b'\n');
                kept
            },
        );
    }
    if rng.percent(25) {
        text = damaged(rng, text);
    }
    match rng.below(20) {
        0 => {
            let length = rng.between(LONGEST_PLAN - 1, LONGEST_PLAN + 2);
            let line = rng.pick(&[&b"B\n"[..], b"C 0 1\n", b"W 0 1\n", b"\n", b"R \n"]);
            while text.len() < length {
                text.extend_from_slice(line);
            }
            text.truncate(length);
        }
        _ => text.truncate(LONGEST_PLAN),
    }
    Case::plan(rng, text)
}

/// Bytes that are hardly a script.
fn noise(rng: &mut Rng) -> Case {
    let length = rng.below(400);
    let alphabet: &[u8] = rng.pick(&[&b"BCWRTK 0123456789\n"[..], b"BCR 01\n", b"K 01A\n", b"BR\n"]);
    let input =
        if rng.percent(30) { rng.bytes(length, 256) } else { (0..length).map(|_| rng.pick(alphabet)).collect() };
    if rng.percent(20) {
        return Case::plan(rng, input);
    }
    let (kind, table, certificate) = (rng.below(4) as u32, rng.below(12_000), rng.below(400));
    Case::script(rng, kind, input, table, certificate)
}

/// The script as it is, or damaged, with memory for its calls.
fn finish(mut draft: Draft, kind: u32) -> Case {
    let (table, certificate) = draft.lengths();
    let mut text = draft.text;
    let rng = draft.rng;
    if rng.percent(15) {
        text = damaged(rng, text);
    }
    if rng.percent(20) && text.ends_with(b"\n") {
        text.pop();
    }
    Case::script(rng, kind, text, table, certificate)
}

/// One line more, or none where the call would cost too much.
fn step(draft: &mut Draft, vertices: usize) {
    let open = draft.graph().vertices;
    if open < vertices && draft.rng.percent(60) {
        return draft.open();
    }
    match draft.rng.below(100) {
        0..=34 => {
            if let Some((i, j)) = draft.pair(false) {
                draft.add(i, j);
            }
        }
        35..=54 => draft.raise(),
        55..=66 => {
            let degree = match draft.rng.below(10) {
                0..=6 => 1,
                7..=8 => draft.rng.between(2, 4),
                _ => draft.rng.between(0, LAST_DEGREE + 1),
            };
            match draft.pair(false) {
                Some((i, j)) => draft.trial(i, j, degree),
                None if draft.rng.percent(20) => draft.trial(0, 1, degree),
                None => remove_any(draft),
            }
        }
        67..=75 => remove_any(draft),
        76..=92 => {
            let bytes = certificate(draft);
            draft.check(&bytes);
        }
        93..=96 => refused(draft),
        97 => draft.open(),
        _ => malformed(draft),
    }
}

fn remove_any(draft: &mut Draft) {
    if let Some((i, j)) = draft.pair(true) {
        draft.remove(i, j);
    }
}

/// A certificate to check: one written before, another that passes, or one that should not.
fn certificate(draft: &mut Draft) -> Vec<u8> {
    if !draft.written().is_empty() && draft.rng.percent(75) {
        let place = match draft.rng.percent(60) {
            true => draft.written().len() - 1,
            false => draft.rng.below(draft.written().len()),
        };
        let bytes = draft.written()[place].clone();
        return if draft.rng.percent(50) { bytes } else { damaged_certificate(draft.rng, bytes) };
    }
    if draft.rng.percent(50) && draft.graph().vertices <= 6 {
        let factor = if draft.rng.percent(80) { 1 } else { draft.factor() };
        if let Some(bytes) = draft.valid_certificate(1, factor) {
            return if draft.rng.percent(70) { bytes } else { damaged_certificate(draft.rng, bytes) };
        }
    }
    let degree = if draft.rng.percent(70) { draft.rng.between(1, 3) } else { draft.rng.below(LAST_DEGREE + 3) };
    let bytes = draft.any_certificate(degree);
    if draft.rng.percent(80) {
        bytes
    } else {
        damaged_certificate(draft.rng, bytes)
    }
}

/// One thing in a certificate changed, or the certificate for the other field.
fn damaged_certificate(rng: &mut Rng, mut bytes: Vec<u8>) -> Vec<u8> {
    let place = rng.below(bytes.len());
    match rng.below(10) {
        0 => bytes[1] = 6 - bytes[1],
        1 => bytes.truncate(place.max(1)),
        2 => {
            let more = rng.between(1, 3);
            bytes.extend(rng.bytes(more, 4));
        }
        3 => bytes[place] ^= 1 << rng.below(8),
        4 => {
            let place = rng.below(bytes.len().min(6));
            bytes[place] = rng.below(256) as u8;
        }
        5 => {
            let last = bytes.len() - 1;
            bytes[last] = rng.below(5) as u8;
        }
        6 => {
            let place = bytes.len() / 2 + rng.below(bytes.len().div_ceil(2));
            bytes[place] = rng.below(5) as u8;
        }
        7 => bytes[rng.pick(&[0, 2, 3, 5])] ^= rng.between(1, 3) as u8,
        _ => bytes[place] = rng.below(256) as u8,
    }
    bytes
}

/// A line of the right form that is refused, in most states.
fn refused(draft: &mut Draft) {
    let open = draft.graph().vertices;
    let (i, j) = match draft.rng.below(5) {
        0 => (draft.rng.below(open), draft.rng.between(24, 999)),
        1 => (open.min(23), draft.rng.below(open)),
        2 => (draft.rng.below(open), open),
        3 => {
            let vertex = draft.rng.below(open);
            (vertex, vertex)
        }
        _ => draft.pair(true).unwrap_or((23, 24)),
    };
    match draft.rng.below(4) {
        0 => draft.add(i, j),
        1 => match draft.pair(false) {
            Some((i, j)) => draft.remove(i, j),
            None => draft.remove(i, j),
        },
        2 => draft.remove(i, j),
        _ => {
            let degree = draft.rng.pick(&[0, 1, 48, 49, 999]);
            draft.trial(i, j, degree)
        }
    }
}

fn malformed(draft: &mut Draft) {
    let line = draft.rng.pick(&[
        "",
        " ",
        "b",
        "B ",
        " B",
        "BB",
        "R ",
        "R 1",
        "C",
        "C 1",
        "C 0  1",
        "C 0 1 ",
        "C 0 1 2",
        "C 0000 1",
        "C a 1",
        "W 0",
        "W -1 2",
        "X 0 1",
        "T",
        "T 0 1",
        "T 0 1 ",
        "T 0 1 1 1",
        "T 0 1 0001",
        "K",
        "K ",
        "K 0",
        "K 01 02",
        "K 01 ",
        "K 0g",
        "K 010",
        "k 01",
        "K  01",
        "B\r",
        "K 01\r",
        "C\t0 1",
        "T 0 1 1\0",
    ]);
    draft.line(line);
}

/// Some bytes changed, put in, taken out or cut off, or lines moved about.
fn damaged(rng: &mut Rng, mut text: Vec<u8>) -> Vec<u8> {
    for _ in 0..rng.between(1, 6) {
        let place = rng.below(text.len());
        let byte = match rng.below(4) {
            0 => rng.below(256) as u8,
            1 => rng.pick(b"BCWRTK"),
            2 => rng.pick(b" \n"),
            _ => rng.pick(b"0123456789AFaf"),
        };
        match rng.below(12) {
            0..=4 if !text.is_empty() => text[place] = byte,
            5..=6 => text.insert(place, byte),
            7..=8 if !text.is_empty() => {
                text.remove(place);
            }
            9 if rng.percent(20) => text.truncate(place),
            _ => {
                let mut moved: Vec<Vec<u8>> = lines(&text).into_iter().map(<[u8]>::to_vec).collect();
                if moved.is_empty() {
                    continue;
                }
                let (from, to) = (rng.below(moved.len()), rng.below(moved.len()));
                match rng.below(3) {
                    0 => moved.swap(from, to),
                    1 => {
                        moved.remove(from);
                    }
                    _ => moved.insert(to, moved[from].clone()),
                }
                text = moved.join(&b'\n');
                text.push(b'\n');
            }
        }
    }
    text.truncate(LONGEST_SCRIPT);
    text
}
