//! Recipes as structs: every field at its limits there and back, and each refusal by its name.
use suvvokal::{play, read_recipe, write_recipe, BorderMode, Recipe, Refusal, Step, StepKind};

const LEAST: Step = Step { kind: StepKind::Minimum, axis: 0, length: 2, origin: 0, mode: BorderMode::Nearest };
const FILE: &[u8] = b"LKS\0\x01\x01\x00\x00\x02\x00\x02\x00\x00";

#[test]
fn limits_there_and_back() {
    let mut steps = vec![LEAST];
    for (origin, constant) in [(-128, -32_768), (127, 32_767), (-1, -2)] {
        steps.push(Step { kind: StepKind::Maximum, axis: 255, length: 255, origin, mode: BorderMode::Constant(constant) });
    }
    for mode in [BorderMode::Mirror, BorderMode::Nearest, BorderMode::Reflect, BorderMode::Wrap] {
        steps.push(Step { kind: StepKind::Uniform, axis: 1, length: 3, origin: 0, mode });
    }
    let file = Recipe { steps: steps.clone() }.write().unwrap();
    assert_eq!(file.len(), 6 + 7 * steps.len());
    assert_eq!(Recipe::read(&file).unwrap().steps, steps);
}

#[test]
fn counts() {
    for count in [1, 16] {
        let recipe = Recipe { steps: vec![LEAST; count] };
        assert_eq!(Recipe::read(&recipe.write().unwrap()).unwrap(), recipe);
    }
    for count in [0, 17, 255, 256, 257] {
        assert_eq!(Recipe { steps: vec![LEAST; count] }.write(), Err(Refusal::Count));
    }
}

#[test]
fn refused_files() {
    assert_eq!(Recipe::read(b""), Err(Refusal::Mark));
    assert_eq!(Recipe::read(&FILE[..12]), Err(Refusal::Count));
    let mut bad = FILE.to_vec();
    bad[6] = 3;
    assert_eq!(Recipe::read(&bad), Err(Refusal::Step));
    let moved = Recipe { steps: vec![Step { kind: StepKind::Uniform, origin: 1, ..LEAST }] };
    assert_eq!(moved.write(), Err(Refusal::Step));
}

#[test]
fn refused_calls_leave_what_was_lent() {
    let mut fields = [5; 96];
    assert_eq!(read_recipe(FILE, &mut fields), Err(Refusal::Length));
    assert_eq!(fields, [5; 96]);
    let mut out = [5; 13];
    assert_eq!(write_recipe(1, &[0, 0, 2, 128, 2, 0], &mut out), Err(Refusal::UnknownCode));
    assert_eq!(write_recipe(1, &[3, 0, 2, 128, 2, 0], &mut out), Err(Refusal::Step));
    assert_eq!(out, [5; 13]);
    let file = Recipe { steps: vec![LEAST, Step { axis: 1, ..LEAST }] }.write().unwrap();
    let (mut second, mut out) = ([6; 3], [5; 3]);
    assert_eq!(play(&file, &[4, 2, 7], &[3], &mut second, &mut out), Err(Refusal::Axis));
    assert_eq!((second, out), ([6; 3], [5; 3]));
}

/// Two steps played are the two calls, one after the other.
#[test]
fn played_as_the_calls() {
    let steps = vec![LEAST, Step { kind: StepKind::Uniform, length: 3, mode: BorderMode::Constant(-7), ..LEAST }];
    let data = [4, 2, 7, -9, 1];
    let (mut second, mut out) = ([6; 5], [5; 5]);
    play(&Recipe { steps }.write().unwrap(), &data, &[5], &mut second, &mut out).unwrap();
    let (mut one, mut two) = ([0; 5], [0; 5]);
    suvvokal::minimum_filter1d(&data, &[5], 2, 0, BorderMode::Nearest, 0, &mut one).unwrap();
    suvvokal::uniform_filter1d(&one, &[5], 3, 0, BorderMode::Constant(-7), &mut two).unwrap();
    assert_eq!((second, out), ([0; 5], two));
}
