//! The links of the pages lead to files, and to headings where they name one.
use crate::repository::{all_files, text};
use std::path::Path;

/// A heading as links name it.
pub fn slug(heading: &str) -> String {
    heading
        .trim_start_matches('#')
        .trim()
        .to_lowercase()
        .chars()
        .filter(|c| c.is_alphanumeric() || " -_".contains(*c))
        .map(|c| if c == ' ' { '-' } else { c })
        .collect()
}

/// What stands in the round brackets of `[text](target)`, for each link of a page that leads to the repository.
pub fn targets(page: &str) -> Vec<&str> {
    page.split("](")
        .skip(1)
        .filter_map(|rest| rest.split(')').next())
        .filter(|target| !target.contains(':') && !target.contains(char::is_whitespace))
        .collect()
}

fn leads(page: &Path, target: &str) -> bool {
    let (file, heading) = target.split_once('#').unwrap_or((target, ""));
    let path = if file.is_empty() {
        page.to_path_buf()
    } else {
        page.parent().unwrap().join(file)
    };
    path.exists()
        && (heading.is_empty()
            || text(&path)
                .lines()
                .any(|line| line.starts_with('#') && slug(line) == heading))
}

/// Each link of each page, and whether it leads somewhere.
pub fn links(root: &Path) -> Vec<(String, bool)> {
    let mut found = Vec::new();
    for path in all_files(root)
        .iter()
        .filter(|path| path.extension().is_some_and(|e| e == "md"))
    {
        let page = text(path);
        let name = path.strip_prefix(root).unwrap().display();
        let mut all = targets(&page);
        all.sort();
        all.dedup();
        found.extend(
            all.iter()
                .map(|target| (format!("{name} links to {target}"), leads(path, target))),
        );
    }
    found
}

#[cfg(test)]
mod tests {
    use super::*;

    #[test]
    fn headings_as_links_name_them() {
        assert_eq!(slug("## 3 The separator"), "3-the-separator");
        assert_eq!(
            slug("# What is assumed, and not"),
            "what-is-assumed-and-not"
        );
    }

    #[test]
    fn links_of_a_page() {
        assert_eq!(
            targets("[a](b.md) and [c](d/e.md#f), [g](https://h), `x`"),
            ["b.md", "d/e.md#f"]
        );
    }
}
