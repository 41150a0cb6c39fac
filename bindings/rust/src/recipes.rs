//! Recipes: files of 1 to 16 steps, each a minimum, maximum or mean along an axis, and their player.
use crate::ffi;
use crate::modes::BorderMode;
use crate::refusal::{answer, Refusal};

/// Which call a step is.
#[derive(Clone, Copy, Debug, PartialEq, Eq)]
pub enum StepKind {
    /// [`minimum_filter1d`](crate::minimum_filter1d).
    Minimum = 0,
    /// [`maximum_filter1d`](crate::maximum_filter1d).
    Maximum = 1,
    /// [`uniform_filter1d`](crate::uniform_filter1d).
    Uniform = 2,
}

impl StepKind {
    fn of(number: i64) -> StepKind {
        match number {
            0 => StepKind::Minimum,
            1 => StepKind::Maximum,
            _ => StepKind::Uniform,
        }
    }
}

/// One step of a recipe.
#[derive(Clone, Copy, Debug, PartialEq)]
pub struct Step {
    pub kind: StepKind,
    /// The axis that is swept.
    pub axis: u8,
    /// The cells of a window.
    pub length: u8,
    /// How far the window is moved: a positive origin moves it to the left. 0 of a uniform step.
    pub origin: i8,
    /// How the grid is extended beyond its edges.
    pub mode: BorderMode<i16>,
}

impl Step {
    /// The numbers of the step, in the order of the archive.
    fn fields(self) -> [i64; 6] {
        let (code, constant) = self.mode.coded();
        [self.kind as i64, self.axis.into(), self.length.into(), self.origin.into(), code.into(), constant.into()]
    }

    /// The step of numbers that the archive has read.
    fn of(six: &[i64]) -> Step {
        Step {
            kind: StepKind::of(six[0]),
            axis: six[1] as u8,
            length: six[2] as u8,
            origin: six[3] as i8,
            mode: BorderMode::of(six[4] as u8, six[5] as i16),
        }
    }
}

/// The steps of a recipe, which are played one after the other.
///
/// ```
/// use suvvokal::{BorderMode, Recipe, Refusal, Step, StepKind};
/// let least = Step { kind: StepKind::Minimum, axis: 0, length: 2, origin: 0, mode: BorderMode::Nearest };
/// let file = Recipe { steps: vec![least] }.write()?;
/// assert_eq!(file, b"LKS\0\x01\x01\x00\x00\x02\x00\x02\x00\x00");
/// assert_eq!(Recipe::read(&file)?.steps, [least]);
/// assert_eq!(Recipe::read(&file[..12]), Err(Refusal::Count));
/// # Ok::<(), suvvokal::Refusal>(())
/// ```
#[derive(Clone, Debug, PartialEq)]
pub struct Recipe {
    pub steps: Vec<Step>,
}

impl Recipe {
    /// Reads a recipe file. Refuses: `Mark`, `Count`, `Step`.
    pub fn read(file: &[u8]) -> Result<Recipe, Refusal> {
        let mut fields = [0; 97];
        read_recipe(file, &mut fields)?;
        let count = fields[0] as usize;
        Ok(Recipe { steps: fields[1..].chunks_exact(6).take(count).map(Step::of).collect() })
    }

    /// The bytes of the recipe's file. Refuses: `Count` (not 1 to 16 steps), `Step` (an origin of a uniform step).
    pub fn write(&self) -> Result<Vec<u8>, Refusal> {
        let count = self.steps.len().min(255) as u8;
        let mut fields = [0; 96];
        for (six, step) in fields.chunks_exact_mut(6).zip(&self.steps) {
            six.copy_from_slice(&step.fields());
        }
        let mut file = vec![0; 6 + 7 * usize::from(count)];
        write_recipe(count, &fields, &mut file)?;
        Ok(file)
    }
}

/// Reads a recipe file into 97 numbers: the count, then kind, axis, length, origin, border and constant of each of 16 steps, all 0 past the
/// count. [`Recipe::read`] gives them as steps.
///
/// Refuses: `Mark`, `Count`, `Step`, `Length`.
///
/// ```
/// let mut fields = [5; 97];
/// suvvokal::read_recipe(b"LKS\0\x01\x01\x00\x00\x02\x00\x02\x00\x00", &mut fields)?;
/// assert_eq!(fields[..7], [1, 0, 0, 2, 0, 2, 0]);
/// assert_eq!(fields[7..], [0; 90]);
/// # Ok::<(), suvvokal::Refusal>(())
/// ```
pub fn read_recipe(file: &[u8], fields: &mut [i64]) -> Result<(), Refusal> {
    // SAFETY: each pointer stands with the length of its own slice, and fields overlaps nothing: it is borrowed alone.
    answer(unsafe { ffi::suvvokal_read_recipe(file.as_ptr(), file.len(), fields.as_mut_ptr(), fields.len()) })
}

/// Writes the file of a recipe of numbers to `out`, 6 + 7 × count bytes. `fields` has six numbers a step, in the order of [`read_recipe`];
/// missing ones are 0. [`Recipe::write`] takes them as steps.
///
/// Refuses: `Count`, `Step`, `UnknownCode` (a number that its field cannot hold).
///
/// ```
/// use suvvokal::Refusal;
/// let mut out = [5; 13];
/// suvvokal::write_recipe(1, &[0, 0, 2, 0, 2, 0], &mut out)?;
/// assert_eq!(out, *b"LKS\0\x01\x01\x00\x00\x02\x00\x02\x00\x00");
/// assert_eq!(suvvokal::write_recipe(1, &[0, 0, 256, 0, 2, 0], &mut out), Err(Refusal::UnknownCode));
/// # Ok::<(), suvvokal::Refusal>(())
/// ```
pub fn write_recipe(count: u8, fields: &[i64], out: &mut [u8]) -> Result<(), Refusal> {
    // SAFETY: as in `read_recipe`.
    answer(unsafe { ffi::suvvokal_write_recipe(count, fields.as_ptr(), fields.len(), out.as_mut_ptr(), out.len()) })
}

/// Plays a recipe file over a grid: its steps one after the other, all judged before a cell changes.
///
/// Refuses: `Mark`, `Count`, `Step`, then `Shape`, `Length`, `Level`, then what the call of the first refused step refuses: `Kernel`, `Origin`,
/// `Axis`, `Reach`.
///
/// ```
/// let (mut second, mut out) = ([5; 3], [0; 3]);
/// suvvokal::play(b"LKS\0\x01\x01\x00\x00\x02\x00\x02\x00\x00", &[4, 2, 7], &[3], &mut second, &mut out)?;
/// assert_eq!((second, out), ([0; 3], [4, 2, 2]));
/// # Ok::<(), suvvokal::Refusal>(())
/// ```
pub fn play(file: &[u8], data: &[i64], shape: &[usize], second: &mut [i64], out: &mut [i64]) -> Result<(), Refusal> {
    // SAFETY: as in `read_recipe`; second is borrowed alone too.
    answer(unsafe {
        ffi::suvvokal_play(
            file.as_ptr(), file.len(), data.as_ptr(), data.len(), shape.as_ptr(), shape.len(), second.as_mut_ptr(), second.len(), out.as_mut_ptr(),
            out.len(),
        )
    })
}
