//! Lists of cases: the same at each run.

pub mod arcs;
pub mod calls;
pub mod closing;
pub mod numbers;
pub mod reasons;

/// A case: numbers with one space between them.
fn line<T: ToString>(numbers: &[T]) -> String {
    let words: Vec<String> = numbers.iter().map(T::to_string).collect();
    words.join(" ")
}
