// Writes the table of the program `table_arithmetic`: its standard input and what it must print.
//
//     rustc --edition 2021 -O -o target/table_arithmetic office/tables/table_arithmetic.rs && target/table_arithmetic crates/table_arithmetic
//
// Each answer is the hardware's: f64's + - * / and sqrt of this machine. The mark is worked out from the exponent field of the bit
// pattern and, of a subnormal, from its leading digit, and not by comparing magnitudes as the proved code does.
// The operands are chosen by hand and by a fixed sequence (x -> 6364136223846793005 x + 1442695040888963407 modulo 2^64, from 2026),
// so the table is the same each time.
use std::fmt::Write as _;

const NAN: u64 = 0x7ff8_0000_0000_0000;

fn exponent(x: f64) -> i64 {
    let bits = x.to_bits() & 0x7fff_ffff_ffff_ffff;
    let field = (bits >> 52) as i64;
    if field == 0 {
        63 - bits.leading_zeros() as i64 - 1074
    } else {
        field - 1023
    }
}

fn in_range(x: f64) -> bool {
    let bits = x.to_bits() & 0x7fff_ffff_ffff_ffff;
    bits == 0 || (bits < 0x7ff0_0000_0000_0000 && (-800..=800).contains(&exponent(x)))
}

fn bits(x: f64) -> u64 {
    if x.is_nan() { NAN } else { x.to_bits() }
}

struct Table {
    stdin: String,
    stdout: String,
}

impl Table {
    fn line(&mut self, name: &str, a: u64, b: u64, marks: (bool, bool)) {
        let (x, y) = (f64::from_bits(a), f64::from_bits(b));
        let r = match name {
            "sqrt" => x.sqrt(),
            "add " => x + y,
            "sub " => x - y,
            "mul " => x * y,
            _ => x / y,
        };
        let one = name == "sqrt";
        let mut inside = marks.0 && in_range(x) && in_range(r);
        if !one {
            inside = inside && marks.1 && in_range(y);
        }
        if name == "mul " {
            inside = inside && !(r == 0.0 && x != 0.0 && y != 0.0);
        }
        if name == "div " {
            inside = inside && !(r == 0.0 && x != 0.0);
        }
        let text = format!("{name} {a:016x} {b:016x} {}{}", marks.0 as u8, marks.1 as u8);
        writeln!(self.stdin, "{text}").unwrap();
        let word = if inside { "inside" } else { "outside" };
        writeln!(self.stdout, "{text} {:016x} {word}", bits(r)).unwrap();
    }

    fn root(&mut self, a: u64) {
        self.line("sqrt", a, 0, (true, true));
    }

    fn all(&mut self, a: u64, b: u64) {
        for name in ["add ", "sub ", "mul ", "div "] {
            self.line(name, a, b, (true, true));
        }
    }
}

fn power(e: i64) -> f64 {
    if e < -1022 {
        f64::from_bits(1u64 << (e + 1074))
    } else {
        f64::from_bits(((e + 1023) as u64) << 52)
    }
}

fn roots(t: &mut Table) {
    // zeros, infinities, NaNs, negative numbers
    for a in [0, 1 << 63, 0x7ff0 << 48, 0xfff0 << 48, NAN, NAN | 1 << 63, 0x7ff0_0000_0000_0001, 0xbff0 << 48, 0x8000_0000_0000_0001] {
        t.root(a);
    }
    // squares of whole numbers and their neighbours
    for k in [1u64, 2, 3, 5, 7, 10, 255, 65_537, 94_906_265, 94_906_266, 67_108_863] {
        let x = ((k * k) as f64).to_bits();
        t.root(x - 1);
        t.root(x);
        t.root(x + 1);
    }
    // powers of two with odd and even exponents, and their neighbours
    for e in [-1074, -1073, -1072, -1023, -1022, -1021, -801, -800, -799, -53, -52, -1, 0, 1, 2, 3, 511, 512, 799, 800, 801, 1022, 1023] {
        let x = power(e).to_bits();
        t.root(x.saturating_sub(1));
        t.root(x);
        t.root(x + 1);
    }
    // subnormals, and the largest number
    for a in [1, 2, 3, 4, 5, 0xf_ffff_ffff_ffff, 0x8_0000_0000_0000, 0x7_ffff_ffff_ffff, 0x1_2345_6789_abcd, 0x7fef_ffff_ffff_ffff] {
        t.root(a);
    }
    // the largest significands, whose roots lie nearest to the middle between two numbers
    for e in [0x3ff, 0x400, 0x001, 0x7fe] {
        for d in 1..6u64 {
            t.root((e << 52) + 0xf_ffff_ffff_ffff - d);
        }
    }
}

fn steps(t: &mut Table, next: &mut dyn FnMut() -> u64) {
    let one = 1f64.to_bits();
    let special = [0, 1 << 63, 0x7ff0 << 48, 0xfff0 << 48, NAN, 1, 0x7fef_ffff_ffff_ffff, one];
    for a in special {
        for b in [0, 1 << 63, 0x7ff0 << 48, NAN, one, 0xc008 << 48] {
            t.all(a, b);
        }
    }
    // the ends of the range: as operands and as results
    let last = f64::from_bits(power(801).to_bits() - 1);
    let under = f64::from_bits(power(-800).to_bits() - 1);
    for x in [power(-800), under, last, power(801), power(800), power(-801)] {
        t.all(x.to_bits(), one);
        t.all(one, x.to_bits());
        t.all((-x).to_bits(), x.to_bits());
    }
    // products and quotients at the ends, lost to zero and overflowing
    for (x, y) in [(-400, -400), (-400, -401), (400, 400), (400, 401), (-600, -600), (-800, -800), (800, 800)] {
        t.line("mul ", power(x).to_bits(), power(y).to_bits(), (true, true));
        t.line("div ", power(x).to_bits(), power(-y).to_bits(), (true, true));
    }
    // marks that came outside stay outside
    for marks in [(false, true), (true, false), (false, false)] {
        for name in ["add ", "sub ", "mul ", "div ", "sqrt"] {
            t.line(name, one, 3f64.to_bits(), marks);
        }
    }
    // rounding: ties and near ties, cancellation, and operands of any pattern
    for (a, b) in [(one, 0x3ca0 << 48), (one + 1, 0x3ca0 << 48), (one, (0x3ca0 << 48) + 1), (one + 1, one), (0x4340 << 48, one)] {
        t.all(a, b);
    }
    for _ in 0..20 {
        let (a, b) = (next(), next());
        t.all(a, b);
        t.root(a & !(1 << 63));
    }
    for _ in 0..20 {
        let near = |w: u64| (w & 0x800f_ffff_ffff_ffff) | ((0x3fd + (w >> 52) % 5) << 52);
        let (a, b) = (near(next()), near(next()));
        t.all(a, b);
        t.root(a & !(1 << 63));
    }
}

fn main() {
    let folder = std::env::args().nth(1).expect("the folder of the program's stdin and stdout");
    let mut state = 2026u64;
    let mut next = move || {
        state = state.wrapping_mul(6364136223846793005).wrapping_add(1442695040888963407);
        state ^ (state >> 29)
    };
    let mut t = Table { stdin: String::new(), stdout: String::new() };
    roots(&mut t);
    steps(&mut t, &mut next);
    std::fs::write(format!("{folder}/stdin"), t.stdin).unwrap();
    std::fs::write(format!("{folder}/stdout"), t.stdout).unwrap();
}
