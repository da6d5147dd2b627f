//! Tables for the terminal, or in Markdown.

/// A paragraph: as it is for Markdown, and broken into lines for the terminal.
pub fn text(words: &str, markdown: bool) -> String {
    if markdown {
        return format!("{words}\n");
    }
    let (mut text, mut column) = (String::new(), 0);
    for word in words.split_whitespace() {
        if column + word.len() > 110 {
            text.push('\n');
            column = 0;
        } else if column > 0 {
            text.push(' ');
            column += 1;
        }
        text.push_str(word);
        column += word.len();
    }
    text
}

/// The first column stands left, the others right.
pub fn table(markdown: bool, heads: &[&str], rows: &[Vec<String>]) {
    let lines = || std::iter::once(heads.iter().map(|head| head.to_string()).collect()).chain(rows.iter().cloned());
    if markdown {
        for (i, line) in lines().enumerate() {
            println!("| {} |", line.join(" | "));
            if i == 0 {
                println!("|---|{}", "---:|".repeat(heads.len() - 1));
            }
        }
    } else {
        let widths: Vec<usize> =
            (0..heads.len()).map(|i| lines().map(|line: Vec<String>| line[i].chars().count()).max().unwrap()).collect();
        for line in lines() {
            let cells = line.iter().zip(&widths).enumerate();
            let cells = cells.map(|(i, (cell, width))| if i == 0 { format!("{cell:<width$}") } else { format!("{cell:>width$}") });
            println!("  {}", cells.collect::<Vec<_>>().join("   "));
        }
    }
    println!();
}
