//! Tables as Markdown, their columns in line.

pub struct Table {
    lines: Vec<Vec<String>>,
}

impl Table {
    pub fn new(names: &[&str]) -> Table {
        Table { lines: vec![names.iter().map(|name| name.to_string()).collect()] }
    }

    pub fn line(&mut self, parts: Vec<String>) {
        self.lines.push(parts);
    }

    pub fn print(&self) {
        let columns = self.lines[0].len();
        let wide = |column: usize| {
            self.lines.iter().map(|line| line[column].chars().count()).max().unwrap_or(0)
        };
        let widths: Vec<usize> = (0..columns).map(wide).collect();
        for (number, line) in self.lines.iter().enumerate() {
            let parts: Vec<String> =
                line.iter().zip(&widths).map(|(part, &width)| format!("{part:width$}")).collect();
            println!("| {} |", parts.join(" | "));
            if number == 0 {
                println!("|{}", "---|".repeat(columns));
            }
        }
    }
}

/// 1234567 as `1,234,567`.
pub fn grouped(number: usize) -> String {
    let digits = number.to_string();
    let mut text = String::new();
    for (place, digit) in digits.chars().enumerate() {
        if place > 0 && (digits.len() - place).is_multiple_of(3) {
            text.push(',');
        }
        text.push(digit);
    }
    text
}
