//! Tables of what was measured, in the form of Markdown.

/// A row: what it is, what it takes here, what it takes the peers, and the most that the ratio to the first of them is to be.
pub struct Row {
    pub name: String,
    pub ours: f64,
    pub peers: [Option<f64>; 3],
    pub aim: Option<f64>,
    /// How often a call asks for memory, here and at the first peer.
    pub mallocs: Option<(f64, Option<f64>)>,
}

impl Row {
    pub fn alone(name: &str, ours: f64) -> Row {
        Row {
            name: name.into(),
            ours,
            peers: [None; 3],
            aim: None,
            mallocs: None,
        }
    }

    pub fn beside(name: &str, ours: f64, peer: f64, aim: Option<f64>) -> Row {
        Row {
            name: name.into(),
            ours,
            peers: [Some(peer), None, None],
            aim,
            mallocs: None,
        }
    }
}

impl Row {
    /// How often it takes what the first peer does, where both are seen.
    fn ratio(&self) -> Option<f64> {
        match self.peers[0] {
            Some(peer) if peer > 0.0 && self.ours > 0.0 => Some(self.ours / peer),
            _ => None,
        }
    }
}

pub struct Table {
    title: String,
    peers: [&'static str; 3],
    rows: Vec<Row>,
}

fn shown(value: Option<f64>) -> String {
    match value {
        None => String::new(),
        // A difference of two runs that other work on the machine hides.
        Some(value) if value <= 0.0 => "below noise".to_string(),
        Some(value) if value >= 100.0 => format!("{value:.0}"),
        Some(value) if value >= 10.0 => format!("{value:.1}"),
        Some(value) => format!("{value:.2}"),
    }
}

impl Table {
    pub fn new(title: &str, peers: [&'static str; 3]) -> Table {
        Table {
            title: title.into(),
            peers,
            rows: Vec::new(),
        }
    }

    pub fn push(&mut self, row: Row) {
        self.rows.push(row);
    }

    pub fn print(&self) {
        let peers: Vec<usize> = (0..3).filter(|at| !self.peers[*at].is_empty()).collect();
        let has_aims = self.rows.iter().any(|row| row.aim.is_some());
        let has_mallocs = self.rows.iter().any(|row| row.mallocs.is_some());
        println!("\n## {}\n", self.title);
        let mut head = vec!["".to_string(), "here".into()];
        head.extend(peers.iter().map(|at| self.peers[*at].to_string()));
        if self.rows.iter().any(|row| row.peers[0].is_some()) {
            head.push(format!("ratio to {}", self.peers[0]));
        }
        if has_aims {
            head.push("at most".into());
        }
        if has_mallocs {
            head.push("mallocs".into());
            head.push(format!("mallocs of {}", self.peers[0]));
        }
        println!("| {} |", head.join(" | "));
        println!("|{}", "---|".repeat(head.len()));
        for row in &self.rows {
            let mut cells = vec![row.name.clone(), shown(Some(row.ours))];
            cells.extend(peers.iter().map(|at| shown(row.peers[*at])));
            if head.iter().any(|cell| cell.starts_with("ratio to")) {
                cells.push(shown(row.ratio()));
            }
            if has_aims {
                cells.push(shown(row.aim));
            }
            if has_mallocs {
                cells.push(shown(row.mallocs.map(|mallocs| mallocs.0)));
                cells.push(shown(row.mallocs.and_then(|mallocs| mallocs.1)));
            }
            println!("| {} |", cells.join(" | "));
        }
    }
}
