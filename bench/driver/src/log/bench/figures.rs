//! CPU times, the best of several, and the table of them.

fn now() -> f64 {
    let mut t = libc::timespec { tv_sec: 0, tv_nsec: 0 };
    unsafe { libc::clock_gettime(libc::CLOCK_THREAD_CPUTIME_ID, &mut t) };
    t.tv_sec as f64 + t.tv_nsec as f64 * 1e-9
}

/// Seconds of the thread's CPU time.
pub fn seconds(f: impl FnOnce()) -> f64 {
    let a = now();
    f();
    now() - a
}

/// The best of at least five turns and a tenth of a second, where a turn says its own seconds. A turn of less than half the middle one's is
/// the clock's fault.
pub fn best_of(mut f: impl FnMut() -> f64) -> f64 {
    let mut turns = Vec::new();
    while turns.len() < 5 || (turns.iter().sum::<f64>() < 0.1 && turns.len() < 2000) {
        turns.push(f());
    }
    turns.sort_by(f64::total_cmp);
    let middle = turns[turns.len() / 2];
    turns.into_iter().find(|t| middle <= 2.0 * t).unwrap()
}

pub fn best(mut f: impl FnMut()) -> f64 {
    best_of(|| seconds(&mut f))
}

#[derive(Clone, Copy, PartialEq)]
enum Better {
    More,
    Less,
}

struct Row {
    section: String,
    name: String,
    better: Better,
    ours: Option<f64>,
    rust: Option<f64>,
}

/// The rows, each the best of what it was told.
#[derive(Default)]
pub struct Figures {
    section: String,
    rows: Vec<Row>,
}

impl Figures {
    pub fn section(&mut self, name: &str) {
        self.section = name.to_string();
    }

    fn row(&mut self, name: &str, better: Better, ours: Option<f64>, rust: Option<f64>) {
        let pick = |a: Option<f64>, b: Option<f64>| match (a, b) {
            (Some(a), Some(b)) => Some(if better == Better::More { a.max(b) } else { a.min(b) }),
            (a, b) => a.or(b),
        };
        let section = self.section.clone();
        match self.rows.iter_mut().find(|r| r.section == section && r.name == name) {
            Some(r) => {
                r.ours = pick(r.ours, ours);
                r.rust = pick(r.rust, rust);
            }
            None => self.rows.push(Row { section, name: name.to_string(), better, ours, rust }),
        }
    }

    /// A speed: more is better.
    pub fn speed(&mut self, name: &str, ours: f64, rust: f64) {
        self.row(name, Better::More, Some(ours), Some(rust));
    }

    /// A time: less is better.
    pub fn time(&mut self, name: &str, ours: f64, rust: f64) {
        self.row(name, Better::Less, Some(ours), Some(rust));
    }

    pub fn our_speed(&mut self, name: &str, ours: f64) {
        self.row(name, Better::More, Some(ours), None);
    }

    pub fn our_time(&mut self, name: &str, ours: f64) {
        self.row(name, Better::Less, Some(ours), None);
    }

    pub fn rust_time(&mut self, name: &str, rust: f64) {
        self.row(name, Better::Less, None, Some(rust));
    }

    pub fn print(&self) {
        let cell = |x: Option<f64>| match x {
            Some(x) if x < 10.0 => format!("{x:.2}"),
            Some(x) if x < 100.0 => format!("{x:.1}"),
            Some(x) => format!("{x:.0}"),
            None => String::new(),
        };
        let mut section = "";
        for r in &self.rows {
            if r.section != section {
                section = &r.section;
                println!("\n| {section:<86} |   ours |   Rust | times |");
                println!("|{}|-------:|-------:|------:|", "-".repeat(88));
            }
            let times = match (r.better, r.ours, r.rust) {
                (Better::More, Some(a), Some(b)) => format!("{:.2}", a / b),
                (Better::Less, Some(a), Some(b)) => format!("{:.2}", b / a),
                _ => String::new(),
            };
            println!("| {:<86} | {:>6} | {:>6} | {times:>5} |", r.name, cell(r.ours), cell(r.rust));
        }
    }
}
