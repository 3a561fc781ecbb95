//! The figures in a page, which are to be those of a run and no others.

/// What stands around the figures.
const START: &str = "<!-- figures -->\n";
const END: &str = "<!-- end of figures -->\n";

/// The page with these figures in place of those that it has.
pub fn with_figures(page: &str, figures: &str) -> String {
    let (before, rest) = page.split_once(START).expect("the page has figures");
    let (_, behind) = rest.split_once(END).expect("the figures have an end");
    // Four blanks before a line keep it as it is.
    let lines = figures.lines().map(|line| format!("    {line}"));
    let lines: Vec<String> = lines.map(|line| line.trim_end().to_string()).collect();
    format!("{before}{START}\n{}\n\n{END}{behind}", lines.join("\n"))
}
