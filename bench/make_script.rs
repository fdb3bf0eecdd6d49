//! Makes a script for a store of files and directories behind capabilities.
//!
//! `make_script SEED LINES` prints a script of LINES lines: it opens a store, fills about half of
//! it, and goes on with a mix of steps that leaves it so. Most steps are carried out; a few per
//! cent are refused, in various ways. The same arguments always give the same script.

/// Nearly every number below it is fit for a secret.
const MODULUS: usize = 2_147_483_647;
const DIRECTORIES: usize = 10;
/// Files that stay as they are, and files that are replaced and revoked again and again.
const LASTING: usize = 16;
const PASSING: usize = 15;
/// Rows of runs in each directory; one more leads to the next directory.
const RUNS: usize = 11;
/// The first directories have a row for a passing file too, the one of the same number.
const WITH_LATEST: usize = 5;

// Each pocket has one use throughout, so that the script needs no picture of the store. These are
// for the store, a directory that comes and goes, and a revoked capability; one stays empty.
const STORE: &str = "A0";
const VISITOR: &str = "H4";
const REVOKED: &str = "H5";
const EMPTY: &str = "H6";

fn pocket(number: usize) -> String {
    format!("{}{}", char::from(b"ABCDEFGH"[number / 8]), number % 8)
}

/// The whole capability for a directory.
fn owner(directory: usize) -> String {
    pocket(1 + directory)
}

/// A directory's capability with one right left: the inspector's or the buyer's.
fn reader(directory: usize) -> String {
    pocket(11 + directory)
}

fn file_owner(file: usize) -> String {
    pocket(21 + file)
}

fn passing(file: usize) -> String {
    file_owner(LASTING + file)
}

/// Capabilities of files that were looked up, thinned or given.
fn working(number: usize) -> String {
    pocket(52 + number)
}

/// The owner capability and the name of one of a directory's runs.
fn run(directory: usize, index: usize) -> (String, String) {
    if directory < WITH_LATEST && index == RUNS - 1 {
        return (passing(directory), "latest".into());
    }
    let file = (directory + index) % LASTING;
    let pump = ["NK40", "NK50", "CR15", "TP65"][file % 4];
    (file_owner(file), format!("{pump}-{}", 1 + file / 4))
}

struct Script {
    random: u64,
    left: u64,
}

impl Script {
    fn below(&mut self, limit: usize) -> usize {
        self.random ^= self.random << 13;
        self.random ^= self.random >> 7;
        self.random ^= self.random << 17;
        (self.random >> 16) as usize % limit
    }

    fn line(&mut self, line: String) {
        if self.left > 0 {
            self.left -= 1;
            println!("{line}");
        }
    }

    /// Files a few points of a pump's curve, 20 to 200 bytes.
    fn file(&mut self, to: String) {
        let (secret, length) = (self.below(MODULUS), 20 + self.below(181));
        let mut points = String::new();
        while points.len() < length {
            let (flow, head) = (self.below(300) as f64, self.below(600) as f64);
            points += &format!("q={:.1}l/s;h={:.1}m;", flow / 10.0, head / 10.0);
        }
        self.line(format!("file {STORE} {secret} {} {to}", &points[..length]));
    }

    fn set_up(&mut self) {
        self.line(format!("store P {MODULUS} 50554d503031 7"));
        (0..DIRECTORIES).for_each(|n| self.line(format!("dir {STORE} {} {}", 1000 + n, owner(n))));
        (0..LASTING + PASSING).for_each(|n| self.file(file_owner(n)));
        for directory in 0..DIRECTORIES {
            let (own, less) = (owner(directory), reader(directory));
            let next = owner((directory + 1) % DIRECTORIES);
            self.line(format!("enter {own} next {next} ff 02 04"));
            for (file, name) in (0..RUNS).map(|index| run(directory, index)) {
                self.line(format!("enter {own} {name} {file} ff 03 01"));
            }
            self.line(format!("give {own} {less}"));
            for right in (0..8).filter(|&right| right != 1 + directory % 2) {
                self.line(format!("drop {less} {right} {less}"));
            }
        }
        (0..8).for_each(|n| self.line(format!("give {} {}", file_owner(n), working(n))));
        let (last, secret) = (passing(PASSING - 1), self.below(MODULUS));
        self.line(format!("give {last} {REVOKED}"));
        self.line(format!("new {last} {secret} {last}"));
    }

    /// A step, or two or more that belong together.
    fn step(&mut self) {
        let (directory, index) = (self.below(DIRECTORIES), self.below(RUNS));
        let (own, file, secret) = (owner(directory), self.below(PASSING), self.below(MODULUS));
        let seen = [own.clone(), reader(directory)][self.below(2)].clone();
        let held = file_owner(self.below(LASTING + PASSING));
        let (work, to) = (working(self.below(8)), working(self.below(8)));
        match self.below(182) {
            0..20 => self.line(format!("read {held}")),
            20..40 => self.line(format!("read {work}")),
            40..80 => self.line(format!("look {seen} {} {to}", run(directory, index).1)),
            80..93 => self.line(format!("size {held}")),
            93..96 => self.line(format!("size {work}")),
            96..112 => {
                let (_, name) = run((directory + 1) % DIRECTORIES, index);
                self.line(format!("walk {seen} next/{name} {to}"));
            }
            112..121 => self.line(format!("row {seen} {index}")),
            121..130 => self.line(format!("name {seen} {}", run(directory, index % 10).0)),
            130..140 => self.line(format!("drop {held} {} {to}", 2 + index % 6)),
            140..150 => self.line(format!("give {work} {to}")),
            150..158 => {
                let name = format!("trial-{}", secret % 1000);
                self.line(format!("enter {own} {name} {} ff 03 01", passing(file)));
                self.line(format!("out {own} {name}"));
            }
            158..167 => {
                self.line(format!("kill {}", passing(file)));
                self.file(passing(file));
                self.enter_again(file);
            }
            167..175 => {
                self.line(format!("new {0} {secret} {0}", passing(file)));
                self.enter_again(file);
            }
            175 => {
                self.line(format!("dir {STORE} {secret} {VISITOR}"));
                self.line(format!("kill {VISITOR}"));
            }
            _ => self.refused(&own, &reader(directory)),
        }
    }

    /// A file's row is refused from its replacing or revoking until it is entered again, if ever.
    fn enter_again(&mut self, file: usize) {
        if file < WITH_LATEST && self.below(2) == 0 {
            let (own, latest) = (owner(file), passing(file));
            self.line(format!("out {own} latest"));
            self.line(format!("enter {own} latest {latest} ff 03 01"));
        }
    }

    fn refused(&mut self, own: &str, less: &str) {
        let line = match self.below(11) {
            0 => format!("read {EMPTY}"),
            1 => format!("enter {less} spare {STORE} ff 03 01"),
            2 => format!("look {own} unknown {EMPTY}"),
            3 => format!("walk {own} next/unknown {EMPTY}"),
            4 => format!("read {own}"),
            5 => format!("read {REVOKED}"),
            6 => format!("enter {own} next {STORE} ff 03 01"),
            7 => format!("kill {own}"),
            8 => format!("drop {own} 8 {EMPTY}"),
            9 => format!("look {own} a-name-of-twenty-five-byte {EMPTY}"),
            _ => format!("look {own} next I0"),
        };
        self.line(line);
    }
}

fn main() {
    let words: Vec<String> = std::env::args().skip(1).collect();
    let numbers: Option<Vec<u64>> = words.iter().map(|word| word.parse().ok()).collect();
    let Some([seed, lines]) = numbers.as_deref() else {
        eprintln!("usage: make_script SEED LINES");
        std::process::exit(2);
    };
    // The generator must not begin at zero.
    let (random, left) = (seed.wrapping_mul(0x9e37_79b9_7f4a_7c15) | 1, *lines);
    let mut script = Script { random, left };
    script.set_up();
    while script.left > 0 {
        script.step();
    }
}
