//! Jobs that would have an answer if the largest bound were that of every output, and have none.

use super::planted::{planted, Planted, Shape, WrongRows};
use super::planted_marks::Marks;
use super::random::Random;
use crate::layout::{HeaderForm, Job};

const SHAPES: [(Shape, WrongRows); 8] = [
    (Shape::Any, WrongRows::None),
    (Shape::Any, WrongRows::Fewer),
    (Shape::Any, WrongRows::Exact),
    (Shape::Poles, WrongRows::Exact),
    (Shape::CommonFactor, WrongRows::Exact),
    (Shape::WholeField, WrongRows::Exact),
    (Shape::Marked(Marks::Poles), WrongRows::Exact),
    (Shape::Marked(Marks::PolesAndSilent), WrongRows::Fewer),
];

/// A planted answer of which one f has a degree above its own bound, often by 1, while df is the bound of another output.
///
/// An answer within each output's own bound would be one within df for all, as the planted one is; of these there is one
/// only, since the rows suffice for df. So the job has no answer.
pub fn beyond_own_bound(random: &mut Random) -> Planted {
    loop {
        let (shape, wrong) = random.one_of(&SHAPES);
        let mut planted = planted(random, shape, wrong);
        let degree = |output: usize| planted.numerators[output].len().saturating_sub(1);
        let fits = |&output: &usize| degree(output) > 0 && has_df_elsewhere(&planted.job, output);
        let outputs: Vec<usize> = (0..planted.job.outputs()).filter(fits).collect();
        if outputs.is_empty() {
            continue;
        }
        let output = random.one_of(&outputs);
        let degree = degree(output);
        let any = random.below(degree);
        if planted.job.header == HeaderForm::Short {
            planted.job.header = HeaderForm::OwnBounds;
        }
        planted.job.numerator_bounds[output] = random.one_of(&[degree - 1, degree - 1, any]);
        return planted;
    }
}

/// Whether df is the bound of another output too.
fn has_df_elsewhere(job: &Job, output: usize) -> bool {
    let mut bounds = job.numerator_bounds.iter().enumerate();
    bounds.any(|(other, &bound)| other != output && bound == job.numerator_bound())
}
