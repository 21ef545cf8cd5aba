//! Alters the copied source for the mutations: every listed place becomes a choice between the
//! original text and its alterations, made at run time by number, so that one build holds them
//! all. Used by build.rs if `ORACLE_MUTATIONS` names the list; see mutations.txt for its form.

use std::collections::HashMap;

/// One place in the source and what may stand there instead, each with its number.
struct Site {
    file: String,
    function: String,
    /// Which of several equal texts it is; the only one if none is named.
    occurrence: Option<usize>,
    /// The text before the part that is altered, that part, and the text after it.
    original: [String; 3],
    altered: Vec<(usize, String)>,
}

/// The module that knows which alteration is on.
pub const MODULE: &str = "
pub mod mutation {
    use std::sync::LazyLock;

    static CHOSEN: LazyLock<usize> =
        LazyLock::new(|| std::env::var(\"ORACLE_MUTANT\").map_or(0, |number| number.parse().expect(\"a number\")));

    pub fn on(number: usize) -> bool {
        *CHOSEN == number
    }
}
";

/// The altered texts of all files.
pub fn mutate(list: &str, mut files: HashMap<String, String>) -> HashMap<String, String> {
    let mut places: Vec<(usize, Site)> =
        sites(list).into_iter().map(|site| (place(&files[&site.file], &site), site)).collect();
    // From the last to the first, so that the places found stay right.
    places.sort_by_key(|(at, _)| std::cmp::Reverse(*at));
    for (at, site) in places {
        let text = files.get_mut(&site.file).expect("found above");
        text.replace_range(at..at + site.original[1].len(), &choice(&site));
    }
    files
}

fn sites(list: &str) -> Vec<Site> {
    let (mut sites, mut number) = (Vec::new(), 0);
    let (mut file, mut name) = (String::new(), String::new());
    for line in list.lines() {
        if let Some(heading) = line.strip_prefix('[') {
            let (of, function) = heading.trim_end_matches(']').split_once(' ').expect("[file function]");
            (file, name) = (of.to_owned(), function.to_owned());
        } else if let Some(original) = line.strip_prefix("- ") {
            sites.push(site(&file, &name, original));
        } else if let Some(altered) = line.strip_prefix('+') {
            number += 1;
            let site = sites.last_mut().expect("an original before its alterations");
            site.altered.push((number, altered.trim().to_owned()));
        }
    }
    sites
}

fn site(file: &str, function: &str, line: &str) -> Site {
    let counted = line.strip_prefix('#').and_then(|counted| counted.split_once(' '));
    let (occurrence, text) = counted.map_or((None, line), |(n, text)| (n.parse().ok(), text));
    let original = match text.split('¦').collect::<Vec<_>>()[..] {
        [whole] => ["", whole, ""],
        [before, part] => [before, part, ""],
        [before, part, after] => [before, part, after],
        _ => panic!("{line}: too many marks"),
    };
    Site {
        file: file.to_owned(),
        function: function.to_owned(),
        occurrence,
        original: original.map(str::to_owned),
        altered: Vec::new(),
    }
}

/// Where the site's function starts and ends.
fn function(text: &str, site: &Site) -> (usize, usize) {
    let start = text.find(&format!("fn {}(", site.function));
    let start = start.unwrap_or_else(|| panic!("no function {} in {}", site.function, site.file));
    let mut depth = 0;
    for (at, byte) in text[start..].bytes().enumerate() {
        match byte {
            b'{' => depth += 1,
            b'}' if depth == 1 => return (start, start + at + 1),
            b'}' => depth -= 1,
            _ => {}
        }
    }
    panic!("function {} does not end", site.function)
}

/// Where the part that is altered stands in the file.
fn place(text: &str, site: &Site) -> usize {
    let (start, end) = function(text, site);
    let original = site.original.concat();
    let found: Vec<usize> = text[start..end].match_indices(&original).map(|(at, _)| at).collect();
    let at = match site.occurrence {
        Some(n) => found.get(n - 1),
        None => found.first().filter(|_| found.len() == 1),
    };
    let at = at.unwrap_or_else(|| {
        panic!("{} {}: {original:?} occurs {} times", site.file, site.function, found.len())
    });
    start + at + site.original[0].len()
}

/// A statement, which ends with a semicolon, or an expression, with its alterations.
fn choice(site: &Site) -> String {
    let part = &site.original[1];
    let mut text = String::new();
    for (number, altered) in &site.altered {
        text.push_str(&format!("if crate::mutation::on({number}) {{ {altered} }} else "));
    }
    text.push_str(&format!("{{ {part} }}"));
    if part.ends_with(';') { text } else { format!("({text})") }
}
