//! The stored requests of the program `ndimage`, with the answers of the original Rust and document 01's refusals, put to this crate.
mod requests;

fn stored(name: &str) -> Vec<u8> {
    let path = format!("{}/../../crates/ndimage/{name}", env!("CARGO_MANIFEST_DIR"));
    std::fs::read(&path).unwrap_or_else(|e| panic!("{path}: {e}"))
}

fn odd_text(name: &str) -> Vec<u8> {
    let path = format!("{}/../../compare/{name}", env!("CARGO_MANIFEST_DIR"));
    std::fs::read(&path).unwrap_or_else(|e| panic!("{path}: {e}"))
}

/// The stored lines before the odd text, which is for a reader of text alone.
fn lines(mut text: Vec<u8>, odd: Vec<u8>) -> Vec<String> {
    assert!(text.ends_with(&odd));
    text.truncate(text.len() - odd.len());
    String::from_utf8(text).unwrap().lines().map(str::to_string).collect()
}

#[test]
fn stored_requests() {
    let asked = lines(stored("stdin"), odd_text("text.in"));
    let wanted = lines(stored("stdout"), odd_text("text.out"));
    assert_eq!(asked.len(), wanted.len());
    assert!(asked.len() >= 4_600, "only {} stored requests", asked.len());
    for (request, wanted) in asked.iter().zip(&wanted) {
        assert_eq!(&requests::answer(request), wanted, "{request}");
    }
}

/// A request with a count that no memory holds is lent one cell more than any call takes.
#[test]
fn lent_beyond_memory() {
    assert_eq!(requests::answer("pad 1 3 3 1 2 3 reflect 1 2 2 18446744073709551615"), "refused 10");
    assert_eq!(requests::answer("sobel 1 3 3 1 2 3 0 nearest nearest nearest 3 18446744073709551615"), "refused 2");
}

/// A border for each axis; those past the axis count are neither read nor judged.
#[test]
fn borders_of_each_axis() {
    assert_eq!(requests::answer("sobel 2 2 2 4 1 2 3 4 0 constant 0 nearest mirror 4 4"), "13 15 -5 -7");
    assert_eq!(requests::answer("minimum_filter 2 2 2 4 5 3 4 9 2 nearest wrap mirror 0 4 4"), "3 3 3 3");
    assert_eq!(requests::answer("uniform_filter 2 2 3 6 9 6 -3 12 0 15 2 constant 5 constant 9 mirror 6 6"), "8 6 3 9 6 4");
    assert_eq!(requests::answer("maximum_filter 1 1 1 7 5 nearest mirror constant 2147483648 0 1 1"), "7");
    assert_eq!(requests::answer("maximum_filter 2 1 1 1 7 5 nearest mirror constant 2147483648 0 1 1"), "refused 11");
    assert_eq!(requests::answer("prewitt 3 1 1 1 1 7 0 nearest nearest constant 2147483648 1 1"), "refused 9");
}

/// More pairs of pads than axes.
#[test]
fn pads_of_four_axes() {
    assert_eq!(requests::answer("pad 1 3 3 1 2 3 reflect 4 1 1 1 1 1 1 1 1 5"), "refused 10");
}

/// Document 02's recipe as requests: read, written, played, and refused.
#[test]
fn recipes_as_requests() {
    assert_eq!(requests::answer("read_recipe 4c4b5300010100000200020000"), "1 0 0 2 0 2 0");
    assert_eq!(requests::answer("read_recipe -"), "refused 13");
    assert_eq!(requests::answer("write_recipe 1 1 0 0 2 0 2 0 13"), "4c4b5300010100000200020000");
    assert_eq!(requests::answer("write_recipe 1 1 0 0 2 0 2 0 12"), "refused 14");
    assert_eq!(requests::answer("play 4c4b5300010100000200020000 1 3 3 4 2 7 3 3"), "4 2 2");
    assert_eq!(requests::answer("play 4c4b5300010100000200020000 1 3 3 4 2 7 3 2"), "refused 2");
}

/// A call that breaks its promise on lent cells is told apart from one that keeps it.
#[test]
fn broken_promises_are_seen() {
    use suvvokal::Refusal;
    let kept = |_: &mut [i64]| Err(Refusal::Axis);
    let changed = |out: &mut [i64]| {
        out[1] = 0;
        Err(Refusal::Axis)
    };
    assert_eq!(requests::filled(requests::patterned(3), kept), "refused 8");
    assert_eq!(requests::filled(requests::patterned(3), changed), "refused 8 and changed the output");
    let left = |_: &mut [i64], _: &mut [i64]| Ok(());
    assert!(requests::filled_over(requests::patterned(3), requests::patterned(3), left).ends_with("the second grid is not as promised"));
    let cleared_and_refused = |second: &mut [i64], _: &mut [i64]| {
        second.fill(0);
        Err(Refusal::Axis)
    };
    let said = requests::filled_over(requests::patterned(3), requests::patterned(3), cleared_and_refused);
    assert_eq!(said, "refused 8 and the second grid is not as promised");
}
