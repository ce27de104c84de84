//! Kinds of cases and of inputs, and how many there are of each. `tests/least` has the least number of each kind.

/// A kind: its name, and what makes all that is of it.
pub type Kind<T> = (&'static str, fn() -> Vec<T>);

/// A name and how many there are of it.
pub type Count = (String, usize);

/// All of all kinds, one after the other.
pub fn all_of<T>(kinds: &[Kind<T>]) -> Vec<T> {
    kinds.iter().flat_map(|(_, make)| make()).collect()
}

/// How many there are of each kind, and together.
pub fn counts_of<T>(group: &str, kinds: &[Kind<T>]) -> Vec<Count> {
    let mut counts: Vec<Count> = kinds
        .iter()
        .map(|(name, make)| (format!("{group}/{name}"), make().len()))
        .collect();
    let all = counts.iter().map(|(_, count)| count).sum();
    counts.push((format!("{group}/all"), all));
    counts
}

/// A line for each count.
pub fn text_of(counts: &[Count]) -> String {
    let line = |(name, count): &Count| format!("{name} {count}\n");
    counts.iter().map(line).collect()
}

#[cfg(test)]
mod tests {
    use super::*;

    #[test]
    fn an_empty_kind_is_counted() {
        let kinds: [Kind<u8>; 3] = [
            ("two", || vec![7, 8]),
            ("none", Vec::new),
            ("one", || vec![9]),
        ];
        assert_eq!(all_of(&kinds), [7, 8, 9]);
        assert_eq!(
            text_of(&counts_of("bytes", &kinds)),
            "bytes/two 2\nbytes/none 0\nbytes/one 1\nbytes/all 3\n"
        );
    }
}
