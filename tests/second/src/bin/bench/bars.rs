//! The bars: each figure beside what is asked of it.

/// What a figure is held to.
#[derive(Clone, Copy)]
pub enum Asked {
    AtLeast(f64),
    AtMost(f64),
}

impl Asked {
    fn is_met(self, figure: f64) -> bool {
        match self {
            Asked::AtLeast(bar) => figure >= bar,
            Asked::AtMost(bar) => figure <= bar,
        }
    }

    fn words(self) -> String {
        match self {
            Asked::AtLeast(bar) => format!("at least {bar}"),
            Asked::AtMost(bar) => format!("at most {bar}"),
        }
    }
}

/// The figures so far that have a bar.
#[derive(Default)]
pub struct Bars {
    rows: Vec<(String, f64, Asked)>,
    not_measured: Vec<String>,
}

impl Bars {
    pub fn hold(&mut self, what: &str, figure: f64, asked: Asked) {
        self.rows.push((what.to_string(), figure, asked));
    }

    pub fn leave_out(&mut self, what: &str) {
        self.not_measured.push(what.to_string());
    }

    /// Prints the table; whether every bar is met.
    pub fn print(&self) -> bool {
        println!("\n| bar | asked | measured | |");
        println!("|---|---|---|---|");
        for (what, figure, asked) in &self.rows {
            let verdict = if asked.is_met(*figure) { "met" } else { "falls short" };
            println!("| {what} | {} | {figure:.3} | {verdict} |", asked.words());
        }
        for what in &self.not_measured {
            println!("| {what} | | not measured | |");
        }
        self.rows.iter().all(|(_, figure, asked)| asked.is_met(*figure))
    }
}
