//! The tables and the plot.

use std::fmt::Write;
use std::fs;
use std::path::Path;

use reference::{plain, Round};

use crate::cases::{Ranges, Run};
use crate::measure::Times;
use crate::plot::{self, Series};

pub struct JointRow {
    pub parties: u32,
    pub gates: usize,
    pub products: usize,
    pub times: Times,
}

impl JointRow {
    pub fn new(run: &Run, times: Times) -> JointRow {
        JointRow {
            parties: run.parties,
            gates: run.shape.gates,
            products: run.shape.products,
            times,
        }
    }

    /// Gates times parties, in which the cost is to be linear.
    pub fn size(&self) -> f64 {
        self.gates as f64 * f64::from(self.parties)
    }

    fn per_gate(&self) -> Times {
        self.times.per(self.size())
    }

    fn per_product(&self) -> Times {
        self.times
            .per(self.products as f64 * f64::from(self.parties))
    }
}

/// Nanoseconds of a microsecond.
const MICRO: f64 = 1000.0;

/// A circuit of squares or of many outputs, by gates of one kind.
pub struct KindRow {
    parties: u32,
    by: &'static str,
    /// How many gates square, or are outputs.
    count: usize,
    rounds: usize,
    /// Words and numbers of preprocessing of one party.
    words: usize,
    prep: usize,
    times: Times,
}

impl KindRow {
    pub fn squares(by: &'static str, run: &Run, times: Times) -> KindRow {
        KindRow::new(by, run, run.shape.squares + run.shape.products, times)
    }

    pub fn gives(by: &'static str, run: &Run, times: Times) -> KindRow {
        KindRow::new(by, run, run.shape.outputs, times)
    }

    fn new(by: &'static str, run: &Run, count: usize, times: Times) -> KindRow {
        KindRow {
            parties: run.parties,
            by,
            count,
            rounds: plain::rounds(&run.circuit),
            words: run.shape.words(),
            prep: run.shape.prep_len(),
            times,
        }
    }
}

/// A circuit of overs, or of times in their place: a joint run, and one receive, which works all of them out.
pub struct OverRow {
    parties: u32,
    by: &'static str,
    count: usize,
    joint: Times,
    receive: Times,
}

impl OverRow {
    pub fn new(by: &'static str, run: &Run, joint: Times, receive: Times) -> OverRow {
        OverRow {
            parties: run.parties,
            by,
            count: run.scaled(),
            joint,
            receive,
        }
    }
}

pub struct SingleRow {
    pub round: Round,
    pub gates: usize,
    pub send: Times,
    pub receive: Times,
}

pub struct SheetRow {
    pub name: &'static str,
    pub gates: usize,
    /// Bytes of the sheet that is read.
    pub bytes: usize,
    pub read: Times,
    pub write: Times,
}

/// A circuit that fits, without a change or with one.
pub struct FitRow {
    gates: usize,
    change: bool,
    times: Times,
}

impl FitRow {
    pub fn new(of: &Ranges, times: Times) -> FitRow {
        FitRow {
            gates: of.gates(),
            change: of.change.is_some(),
            times,
        }
    }
}

pub struct Report {
    pub joint: Vec<JointRow>,
    /// None where the proved entries do not know squares.
    pub squares: Vec<KindRow>,
    pub gives: Vec<KindRow>,
    /// By over and by times gates in turns.
    pub overs: Vec<OverRow>,
    pub single: Vec<SingleRow>,
    pub sheets: Vec<SheetRow>,
    pub fits: Vec<FitRow>,
    pub product: Times,
}

/// What the report says of its making.
pub struct Facts<'a> {
    pub date: &'a str,
    pub processor: &'a str,
    pub rust: &'a str,
    pub rattle: &'a str,
    pub repetitions: usize,
}

/// The times of the sides, and those of the proved code over each other's.
fn cells(times: Times, unit: f64, digits: usize) -> String {
    let sides = [Some(times.proved), Some(times.rust), times.tuned];
    let sides = sides.into_iter().flatten();
    let ratios = [Some(times.ratio()), times.tuned_ratio()];
    let ratios = ratios.into_iter().flatten();
    let cells: Vec<String> = sides
        .map(|time| format!("{:.digits$}", time / unit))
        .chain(ratios.map(|ratio| format!("{ratio:.2}")))
        .collect();
    cells.join(" | ")
}

/// The times of the sides alone.
fn plain_cells(times: Times, digits: usize) -> String {
    let sides = [Some(times.proved), Some(times.rust), times.tuned];
    let sides = sides.into_iter().flatten();
    let cells: Vec<String> = sides.map(|time| format!("{time:.digits$}")).collect();
    cells.join(" | ")
}

/// The heads of the columns of `cells`, with a unit.
fn heads(unit: &str) -> String {
    format!("proved {unit} | Rust {unit} | tuned {unit} | proved / Rust | proved / tuned")
}

/// A table of the same circuits by gates of two kinds.
fn by_kinds(out: &mut String, title: &str, what: &str, rows: &[KindRow]) {
    if rows.is_empty() {
        return;
    }
    let _ = writeln!(out, "### {title}\n");
    let _ = writeln!(out, "| parties | gates | {what} | by | rounds | words of a party | preprocessing of a party | {} |", heads("µs"));
    let _ = writeln!(out, "{}", rule(12));
    for row in rows {
        let _ = writeln!(
            out,
            "| {} | {} | {} | {} | {} | {} | {} | {} |",
            row.parties,
            crate::KIND_GATES,
            row.count,
            row.by,
            row.rounds,
            row.words,
            row.prep,
            cells(row.times, MICRO, 2)
        );
    }
    let _ = writeln!(out);
}

/// The table of circuits of overs, and what an inverse costs: by what an over takes longer than a times in its place.
fn by_overs(out: &mut String, rows: &[OverRow]) {
    if rows.is_empty() {
        return;
    }
    let _ = writeln!(
        out,
        "### Joint run, and one receive, of a circuit of overs, by over gates and by times gates\n"
    );
    let heads = heads("µs");
    let _ = writeln!(
        out,
        "| parties | gates | overs | by | joint run {heads} | receive {heads} |\n{}",
        rule(14)
    );
    for row in rows {
        let _ = writeln!(
            out,
            "| {} | {} | {} | {} | {} | {} |",
            row.parties,
            crate::KIND_GATES,
            row.count,
            row.by,
            cells(row.joint, MICRO, 2),
            cells(row.receive, MICRO, 3)
        );
    }
    let _ = writeln!(out, "\nAn inverse, which is what an over takes longer than a times in its place, all parties of a joint run together:\n");
    let _ = writeln!(
        out,
        "| parties | joint run proved ns | Rust ns | tuned ns | receive proved ns | Rust ns | tuned ns |\n{}",
        rule(7)
    );
    for [over, times] in rows.as_chunks().0 {
        let inverse = |over: Times, times: Times| over.less(times).per(rows[0].count as f64);
        let _ = writeln!(
            out,
            "| {} | {} | {} |",
            over.parties,
            plain_cells(inverse(over.joint, times.joint), 1),
            plain_cells(inverse(over.receive, times.receive), 1)
        );
    }
    let _ = writeln!(out);
}

/// The line below the heads of so many columns.
fn rule(columns: usize) -> String {
    "|---".repeat(columns) + "|"
}

/// The smallest and the largest of some numbers.
fn span(numbers: impl Iterator<Item = f64>) -> (f64, f64) {
    numbers.fold((f64::INFINITY, 0.0), |(low, high), x| {
        (f64::min(low, x), f64::max(high, x))
    })
}

impl Report {
    pub fn table(&self) -> String {
        let mut text = String::new();
        let out = &mut text;
        let _ = writeln!(out, "### Joint run\n");
        let _ = writeln!(out, "| parties | gates | mul gates | {} | proved ns a multiplication and party | Rust ns | tuned ns | proved ns a gate and party | Rust ns | tuned ns |", heads("µs"));
        let _ = writeln!(out, "{}", rule(14));
        for row in &self.joint {
            let _ = writeln!(
                out,
                "| {} | {} | {} | {} | {} | {} |",
                row.parties,
                row.gates,
                row.products,
                cells(row.times, MICRO, 2),
                plain_cells(row.per_product(), 1),
                plain_cells(row.per_gate(), 1)
            );
        }
        let _ = writeln!(out, "\n{}\n", self.linear());
        by_kinds(
            out,
            "Joint run of a circuit of squares, by sq gates and by mul gates of a wire with itself",
            "squares",
            &self.squares,
        );
        by_kinds(
            out,
            "Joint run of a circuit of many outputs, by give gates and by out gates",
            "outputs",
            &self.gives,
        );
        by_overs(out, &self.overs);
        let _ = writeln!(out, "### One send, one receive, with all questions\n");
        let _ = writeln!(
            out,
            "| round | gates | send {} | receive {} |",
            heads("µs"),
            heads("µs")
        );
        let _ = writeln!(out, "{}", rule(12));
        for row in &self.single {
            let _ = writeln!(
                out,
                "| {} | {} | {} | {} |",
                row.round.name(),
                row.gates,
                cells(row.send, MICRO, 3),
                cells(row.receive, MICRO, 3)
            );
        }
        let _ = writeln!(
            out,
            "\n### A sheet read, and its circuit written, with all questions (no tuned side)\n"
        );
        let _ = writeln!(out, "| sheet | gates | bytes | read proved µs | Rust µs | ratio | read proved ns a byte | Rust ns | write proved µs | Rust µs | ratio |");
        let _ = writeln!(out, "|---|---|---|---|---|---|---|---|---|---|---|");
        for row in &self.sheets {
            let byte = row.read.per(row.bytes as f64);
            let _ = writeln!(
                out,
                "| {} | {} | {} | {} | {:.2} | {:.2} | {} |",
                row.name,
                row.gates,
                row.bytes,
                cells(row.read, MICRO, 2),
                byte.proved,
                byte.rust,
                cells(row.write, MICRO, 2)
            );
        }
        let _ = writeln!(
            out,
            "\n### Whether a circuit fits, without a change and with one, with all questions\n"
        );
        let _ = writeln!(
            out,
            "| gates | change | {} | proved ns a gate | Rust ns | tuned ns |\n{}",
            heads("µs"),
            rule(10)
        );
        for row in &self.fits {
            let _ = writeln!(
                out,
                "| {} | {} | {} | {} |",
                row.gates,
                if row.change { "given" } else { "none" },
                cells(row.times, MICRO, 3),
                plain_cells(row.times.per(row.gates as f64), 2)
            );
        }
        let _ = writeln!(out, "\n### Field product\n");
        let _ = writeln!(out, "| {} |\n{}", heads("ns"), rule(5));
        let _ = writeln!(out, "| {} |", cells(self.product, 1.0, 3));
        text
    }

    /// Whether the cost is linear in gates times parties.
    fn linear(&self) -> String {
        let costs = plot::SERIES.map(|Series { name, of, .. }| {
            let (low, high) = span(self.joint.iter().filter_map(|row| of(row.per_gate())));
            format!("{low:.1} to {high:.1} ns ({name})")
        });
        let growths = plot::SERIES.map(|Series { name, of, .. }| {
            let growth = self.growth(|row| of(row.times).unwrap_or(f64::NAN));
            format!("{growth:.1}-fold ({name})")
        });
        let ratio = span(self.joint.iter().map(|row| row.times.ratio()));
        let tuned = span(self.joint.iter().filter_map(|row| row.times.tuned_ratio()));
        format!(
            "Over all sizes a gate and party costs {}; proved / Rust lies between {:.2} and {:.2}, proved / tuned between {:.2} and {:.2}. \
             From the smallest size to the largest, gates times parties grow {:.0}-fold and the time {}.",
            costs.join(", "),
            ratio.0,
            ratio.1,
            tuned.0,
            tuned.1,
            self.growth(JointRow::size),
            growths.join(", "),
        )
    }

    fn growth(&self, of: impl Fn(&JointRow) -> f64) -> f64 {
        let (low, high) = span(self.joint.iter().map(of));
        high / low
    }

    pub fn write(&self, folder: &Path, facts: &Facts<'_>) -> std::io::Result<()> {
        let text = format!(
            "# Benchmarks\n\n\
             Written by `bench/run`; do not edit.\n\n\
             The proved code, called through its C entry points (`crates/capi`; the field product through `crates/scaling`), beside two Rust implementations, in one program:\n\n\
             - *proved*: the proved code.\n\
             - *Rust*: written to be read (`reference/`).\n\
             - *tuned*: Rust written for speed (`bench/src/tuned/`), safe, without dependencies and for any x86-64, with the same questions. Sheets have no tuned side.\n\n\
             Measured:\n\n\
             - Date: {}\n- Processor: {}\n- Rust: {}, opt-level 3, one codegen unit\n- Rattle: {}, whose compiler builds the archive with LLVM at -O3\n\n\
             Repeat: `bench/run`. Compare answers only, in seconds: `bench/run --smoke`.\n\n\
             ## What is measured\n\n\
             All sides get the same requests and their own lists of equal length, cleared alike; before a case is timed, all must give equal answers and leave equal\n\
             lists. Batches of at least half a millisecond are timed in turns, all cases one after another and {} times over, and the medians are told. Five of eight gates of each circuit multiply; the\n\
             others are linear, in and out gates, with an out gate every 32 gates. A circuit of squares is of the same shape, with squares for its products; a circuit of many outputs has one for every fourth gate, after two products and a sum, by give gates to parties at random or by out gates; a circuit of overs has one input and one output, and overs between by constants at random, or times by the same constants in their place. Single halves are those of the last round of each sort, at party 1 of 5; a circuit of overs is worked out by one receive, that of its input at party 1.\n\
             A check takes a hash for each party in a joint run; a seal that is sent takes one, and a reveal that is received one for each of the 5 parties. The circuit of 2 gates is an input that is given out: its check has one entry, so that a seal sent there is little more than one hash.\n\
             Sheets are for 5 parties; each is read, and the circuit that it is read as is written, a gate a line.\n\
             Whether a circuit fits is asked of circuits for 5 parties of which every gate does, so that all are gone through and all intervals are written: of eight gates two are adds, two muls, and one each a sub, a times, a square and a plus, with four in gates in front, and an in and an out gate every 32 gates. A change, where one is given, is of the first input, and the moves of all outputs are written too.\n\
             A field product is one of {} that multiply a list in place, once all its numbers are asked.\n\n\
             ## Results\n\n{}\n![Joint run: time over gates times parties](benchmarks.svg)\n",
            facts.date,
            facts.processor,
            facts.rust,
            facts.rattle,
            facts.repetitions,
            crate::PRODUCTS,
            self.table()
        );
        fs::write(folder.join("BENCHMARKS.md"), text)?;
        fs::write(folder.join("benchmarks.svg"), plot::joint(&self.joint))
    }
}
