//! Times a recipe that is played beside the calls of its steps, one after the other, in turn, and prints a line a case: nanoseconds per cell and
//! step of the calls and of the player, and the quotient of the two.
#[path = "../../driver/src/random.rs"]
mod random;
#[path = "../../driver/src/timing.rs"]
mod timing;

use random::Random;
use suvvokal::BorderMode;
use timing::Repeated;

/// 64, 1,024 and 8,192 cells.
const SHAPES: [&[usize]; 3] = [&[8, 8], &[32, 32], &[16, 16, 32]];
const COUNTS: [usize; 3] = [1, 4, 16];
const NAMES: [&str; 4] = ["minimum", "maximum", "uniform", "mixed"];
/// The windows of the steps, in turn: none needs more than the 8 cells of the shortest axis.
const LENGTHS: [usize; 4] = [3, 5, 9, 15];
/// The code of Reflect in a file.
const REFLECT: u8 = 3;

/// A step under Reflect, with origin 0. The kind is the file's: 0 minimum, 1 maximum, 2 uniform.
struct Step {
    kind: usize,
    axis: usize,
    length: usize,
}

/// Steps of one kind, or of the three in turn, over the axes in turn.
fn steps(name: usize, count: usize, axes: usize) -> Vec<Step> {
    (0..count)
        .map(|k| Step { kind: if name < 3 { name } else { k % 3 }, axis: k % axes, length: LENGTHS[k % LENGTHS.len()] })
        .collect()
}

/// The file of a recipe, as document 02 has it.
fn file(steps: &[Step]) -> Vec<u8> {
    let mut bytes = b"LKS\x00\x01".to_vec();
    bytes.push(steps.len() as u8);
    for step in steps {
        bytes.extend([step.kind as u8, step.axis as u8, step.length as u8, 0, REFLECT, 0, 0]);
    }
    bytes
}

fn call(step: &Step, data: &[i64], shape: &[usize], out: &mut [i64]) {
    let (length, axis, mode) = (step.length, step.axis, BorderMode::Reflect);
    match step.kind {
        0 => suvvokal::minimum_filter1d(data, shape, length, axis, mode, 0, out),
        1 => suvvokal::maximum_filter1d(data, shape, length, axis, mode, 0, out),
        _ => suvvokal::uniform_filter1d(data, shape, length, axis, mode, out),
    }
    .unwrap()
}

fn bits(levels: &[i64]) -> Vec<u64> {
    levels.iter().map(|&level| level as u64).collect()
}

/// The calls one after the other, each over what the one before it filled.
fn called(steps: Vec<Step>, data: Vec<i64>, shape: &'static [usize]) -> Repeated {
    let (mut out, mut second) = (vec![0; data.len()], vec![0; data.len()]);
    Box::new(move |times| {
        for _ in 0..times {
            call(&steps[0], &data, shape, &mut out);
            for step in &steps[1..] {
                std::mem::swap(&mut out, &mut second);
                call(step, &second, shape, &mut out);
            }
            std::hint::black_box(&mut out);
        }
        bits(&out)
    })
}

/// The player.
fn played(file: Vec<u8>, data: Vec<i64>, shape: &'static [usize]) -> Repeated {
    let (mut out, mut second) = (vec![0; data.len()], vec![0; data.len()]);
    Box::new(move |times| {
        for _ in 0..times {
            suvvokal::play(&file, &data, shape, &mut second, &mut out).unwrap();
            std::hint::black_box(&mut out);
        }
        bits(&out)
    })
}

fn main() {
    for shape in SHAPES {
        let cells: usize = shape.iter().product();
        let mut random = Random(1);
        let data: Vec<i64> = (0..cells).map(|_| random.level(1_000_000)).collect();
        for (k, name) in NAMES.iter().enumerate() {
            for count in COUNTS {
                let steps = steps(k, count, shape.len());
                let mut ours = played(file(&steps), data.clone(), shape);
                let mut theirs = called(steps, data.clone(), shape);
                if theirs(1) != ours(1) {
                    println!("{name}, {cells} cells, {count} steps: the levels differ");
                    std::process::exit(1);
                }
                let (their_best, our_best) = timing::in_turn(&mut theirs, &mut ours);
                let each = 1e9 / (cells * count) as f64;
                println!("{name}\t{cells}\t{count}\t{:.3}\t{:.3}", their_best * each, our_best * each);
            }
        }
    }
}
