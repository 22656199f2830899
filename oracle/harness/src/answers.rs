//! Which answers a class of calls ought to have.

/// What is wrong with how often each answer was given: one that must be is lacking, or there is one that may not be.
/// Empty if nothing is.
pub fn complaint(answers: impl IntoIterator<Item = (u32, u64)>, must: &[u32], may: &[u32]) -> String {
    let mut complaint = String::new();
    for (answer, times) in answers {
        if must.contains(&answer) {
            if times == 0 {
                complaint += &format!("  <- lacks answer {answer}");
            }
        } else if times > 0 && !may.contains(&answer) {
            complaint += &format!("  <- holds answer {answer}");
        }
    }
    complaint
}
