//! The tables that the programs print.

/// The lines above a table: the names of its columns.
pub fn head(names: &[&str]) -> String {
    let names: Vec<String> = names.iter().map(|name| name.to_string()).collect();
    format!("{}\n{}|", row(&names), "|---".repeat(names.len()))
}

/// A line of a table.
pub fn row(columns: &[String]) -> String {
    format!("| {} |", columns.join(" | "))
}

/// The least and the largest of some numbers; a dash if all are 0.
pub fn range(numbers: impl Iterator<Item = usize> + Clone) -> String {
    let least = numbers.clone().min().unwrap_or(0);
    let most = numbers.max().unwrap_or(0);
    match (least, most) {
        (_, 0) => NONE.to_string(),
        _ if least == most => most.to_string(),
        _ => format!("{least} to {most}"),
    }
}

/// Stands where there is nothing to print.
pub const NONE: &str = "-";

#[cfg(test)]
mod tests {
    use super::*;

    #[test]
    fn a_head_has_as_many_columns_as_names() {
        assert_eq!(head(&["set", "nodes"]), "| set | nodes |\n|---|---|");
    }

    #[test]
    fn a_range_is_one_number_if_all_are_the_same() {
        assert_eq!(range([3, 12, 7].into_iter()), "3 to 12");
        assert_eq!(range([128, 128].into_iter()), "128");
        assert_eq!(range([0, 0].into_iter()), "-");
    }
}
