//! Times each case on both sides, in turn, and prints a line a case: nanoseconds per input cell of the original and of the proved library, and the
//! quotient of the two. A word narrows the cases to those whose name has it. `--cases` only lists them.
mod cases;
mod original;
mod proved;
mod random;
mod timing;

fn main() {
    let words: Vec<String> = std::env::args().skip(1).collect();
    for case in cases::all() {
        let name = case.name();
        if words.iter().any(|word| word != "--cases" && !name.contains(word.as_str())) {
            continue;
        }
        if words.iter().any(|word| word == "--cases") {
            println!("{name}");
            continue;
        }
        let (mut theirs, mut ours) = (original::of(&case), proved::of(&case));
        if theirs(1) != ours(1) {
            println!("{name}: the answers differ");
            std::process::exit(1);
        }
        let (their_best, our_best) = timing::in_turn(&mut theirs, &mut ours);
        let per_cell = 1e9 / case.cells() as f64;
        println!("{name}\t{:.3}\t{:.3}\t{:.3}", their_best * per_cell, our_best * per_cell, their_best / our_best);
    }
}
