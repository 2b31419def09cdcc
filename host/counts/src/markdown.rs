//! Tables in Markdown.

/// A title and a table under it.
pub fn table(title: &str, heads: &[String], rows: impl IntoIterator<Item = Vec<String>>) -> String {
    let mut text = format!("{title}\n\n| {} |\n|{}\n", heads.join(" | "), "---|".repeat(heads.len()));
    for row in rows {
        assert_eq!(row.len(), heads.len(), "a row of {title} has a cell for each head");
        text += &format!("| {} |\n", row.join(" | "));
    }
    text
}

pub fn heads(names: &[&str]) -> Vec<String> {
    names.iter().map(|name| name.to_string()).collect()
}

#[cfg(test)]
mod tests {
    use super::*;

    #[test]
    fn a_table_of_one_row() {
        let text = table("Title", &heads(&["a", "b"]), [heads(&["1", "2"])]);
        assert_eq!(text, "Title\n\n| a | b |\n|---|---|\n| 1 | 2 |\n");
    }
}
