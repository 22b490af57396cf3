//! The elements of an SVG.

/// Words at a place, with further attributes. They have no sign that XML would read otherwise.
pub fn text((x, y): (f64, f64), attributes: &str, words: &str) -> String {
    format!("<text x=\"{x:.1}\" y=\"{y:.1}\" {attributes}>{words}</text>\n")
}

/// A line along a path.
pub fn line(path: &str, attributes: &str) -> String {
    format!("<path d=\"{path}\" fill=\"none\" {attributes}/>\n")
}

/// A filled circle.
pub fn dot((x, y): (f64, f64), radius: f64, attributes: &str) -> String {
    format!("<circle cx=\"{x:.3}\" cy=\"{y:.3}\" r=\"{radius}\" {attributes}/>\n")
}

/// Elements that belong together.
pub fn group(name: &str, elements: impl IntoIterator<Item = String>) -> String {
    format!("<g class=\"{name}\">\n{}</g>\n", elements.into_iter().collect::<String>())
}
