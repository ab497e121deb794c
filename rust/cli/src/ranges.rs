//! Numbers and ranges of numbers as a reader likes them: 9,453; 0 to 411, 415.

/// A number with a comma before every three digits.
pub fn number(value: usize) -> String {
    let digits = value.to_string();
    let mut grouped = String::new();
    for (place, digit) in digits.chars().enumerate() {
        if place > 0 && (digits.len() - place).is_multiple_of(3) {
            grouped.push(',');
        }
        grouped.push(digit);
    }
    grouped
}

/// A number and what it counts, in the singular or the plural.
pub fn counted(value: usize, one: &str, many: &str) -> String {
    format!("{} {}", number(value), if value == 1 { one } else { many })
}

/// The numbers from one to another, both among them.
pub fn range(first: usize, last: usize) -> String {
    if last <= first {
        return number(first);
    }
    format!("{} to {}", number(first), number(last))
}

/// The places whose marks are as wanted, as ranges.
pub fn places(marks: &[bool], wanted: bool) -> Vec<String> {
    let mut start = 0;
    marks
        .chunk_by(|before, after| before == after)
        .filter_map(|alike| {
            let first = start;
            start += alike.len();
            (alike[0] == wanted).then(|| range(first, start - 1))
        })
        .collect()
}

#[cfg(test)]
mod tests {
    use super::{counted, number, places, range};

    #[test]
    fn numbers_have_commas() {
        let told = [0, 999, 1_000, 65_536, 1_234_567].map(number);
        assert_eq!(told, ["0", "999", "1,000", "65,536", "1,234,567"]);
        assert_eq!(counted(1, "body", "bodies"), "1 body");
        assert_eq!(counted(2, "body", "bodies"), "2 bodies");
    }

    #[test]
    fn marks_become_ranges() {
        assert_eq!(range(4, 4), "4");
        let marks = [true, true, false, true];
        assert_eq!(places(&marks, true), ["0 to 1", "3"]);
        assert_eq!(places(&marks, false), ["2"]);
        assert!(places(&[], true).is_empty());
    }
}
