//! A table of counts: a line for each count, a column for each family, and one for all of them.

/// Prints the names of the columns, then each count.
pub fn print(head: &str, names: &[&str], lines: &[(&str, Vec<usize>)]) {
    let line = |first: &str, columns: Vec<String>| {
        let columns: String = columns.into_iter().map(|column| format!(" {column:>12}")).collect();
        println!("{first:<34}{columns}");
    };
    line(head, names.iter().chain(&["all"]).map(|name| name.to_string()).collect());
    for (first, counts) in lines {
        let all = counts.iter().sum();
        line(first, counts.iter().chain([&all]).map(|count| count.to_string()).collect());
    }
}
