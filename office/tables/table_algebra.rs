// Writes the cases of the program `table_algebra` and what it must print.
//
//     rustc --edition 2021 -O -o target/table_algebra office/tables/table_algebra.rs && target/table_algebra crates/table_algebra
//
// The algorithms are written here from document 01, "Dense algebra", in plain loops, over a number that carries its mark; nothing is taken from
// the proved code. Values are this machine's f64; marks are worked out from the exponent field. The matrices come from a fixed sequence
// (s -> 1664525 s + 1013904223 modulo 2^32) and from a list of hard ones: singular, equal pivots, zeros of both signs, equal diagonal
// cells beside negative ones, infinities, NaNs, subnormals, and magnitudes at the ends of the marked range.
use std::fmt::Write as _;

#[derive(Clone, Copy)]
struct Num {
    value: f64,
    inside: bool,
}

fn exponent(x: f64) -> i64 {
    let bits = x.to_bits() & 0x7fff_ffff_ffff_ffff;
    let field = (bits >> 52) as i64;
    if field == 0 { 63 - bits.leading_zeros() as i64 - 1074 } else { field - 1023 }
}

fn in_range(x: f64) -> bool {
    let bits = x.to_bits() & 0x7fff_ffff_ffff_ffff;
    bits == 0 || (bits < 0x7ff0_0000_0000_0000 && (-800..=800).contains(&exponent(x)))
}

fn given(value: f64) -> Num {
    Num { value, inside: true }
}

fn step(a: Num, b: Num, value: f64, lost: bool) -> Num {
    let inside = a.inside && b.inside && in_range(a.value) && in_range(b.value) && in_range(value) && !lost;
    Num { value, inside }
}

fn add(a: Num, b: Num) -> Num {
    step(a, b, a.value + b.value, false)
}

fn sub(a: Num, b: Num) -> Num {
    step(a, b, a.value - b.value, false)
}

fn mul(a: Num, b: Num) -> Num {
    let r = a.value * b.value;
    step(a, b, r, r == 0.0 && a.value != 0.0 && b.value != 0.0)
}

fn div(a: Num, b: Num) -> Num {
    let r = a.value / b.value;
    step(a, b, r, r == 0.0 && a.value != 0.0)
}

fn root(a: Num) -> Num {
    let r = a.value.sqrt();
    Num { value: r, inside: a.inside && in_range(a.value) && in_range(r) }
}

fn also(a: Num, b: Num) -> Num {
    Num { value: a.value, inside: a.inside && b.inside }
}

// A matrix of any size, row by row.
#[derive(Clone)]
struct Matrix {
    cols: usize,
    cells: Vec<Num>,
}

impl Matrix {
    fn new(rows: usize, cols: usize) -> Matrix {
        Matrix { cols, cells: vec![given(0.0); rows * cols] }
    }

    fn at(&self, i: usize, j: usize) -> Num {
        self.cells[i * self.cols + j]
    }

    fn put(&mut self, i: usize, j: usize, x: Num) {
        self.cells[i * self.cols + j] = x;
    }
}

fn table(rows: usize, cols: usize, r: usize, c: usize, f: impl Fn(usize, usize) -> Num) -> Matrix {
    let mut m = Matrix::new(rows, cols);
    for i in 0..r {
        for j in 0..c {
            m.put(i, j, f(i, j));
        }
    }
    m
}

fn sum(n: usize, f: impl Fn(usize) -> Num) -> Num {
    let mut s = given(0.0);
    for k in 0..n {
        s = add(s, f(k));
    }
    s
}

fn product(size: usize, a: &Matrix, b: &Matrix, r: usize, n: usize, c: usize) -> Matrix {
    table(size, size, r, c, |i, j| sum(n, |k| mul(a.at(i, k), b.at(k, j))))
}

fn transpose(size: usize, a: &Matrix, r: usize, c: usize) -> Matrix {
    table(size, size, c, r, |i, j| a.at(j, i))
}

fn sandwich(a: &Matrix, b: &Matrix, q: usize, p: usize) -> Matrix {
    product(6, &product(6, a, b, q, p, p), &transpose(6, a, q, p), q, p, q)
}

fn like_cells(a: &Matrix, b: &Matrix, r: usize, c: usize) -> Num {
    let mut s = given(0.0);
    for i in 0..r {
        for j in 0..c {
            s = add(s, mul(a.at(i, j), b.at(i, j)));
        }
    }
    s
}

fn identity(size: usize, n: usize) -> Matrix {
    table(size, size, n, n, |i, j| given(if i == j { 1.0 } else { 0.0 }))
}

// X of A X = B, and whether a zero pivot was met.
fn solve(size: usize, a: &Matrix, b: &Matrix, n: usize, cols: usize) -> (Matrix, bool) {
    let (mut a, mut b, mut refused) = (a.clone(), b.clone(), false);
    for c in 0..n {
        let mut best = c;
        for r in c + 1..n {
            if a.at(r, c).value.abs() > a.at(best, c).value.abs() {
                best = r;
            }
        }
        refused = refused || a.at(best, c).value == 0.0;
        for j in 0..n {
            let (x, y) = (a.at(c, j), a.at(best, j));
            a.put(c, j, y);
            a.put(best, j, x);
        }
        for k in 0..cols {
            let (x, y) = (b.at(c, k), b.at(best, k));
            b.put(c, k, y);
            b.put(best, k, x);
        }
        for r in c + 1..n {
            let f = div(a.at(r, c), a.at(c, c));
            for j in c + 1..n {
                a.put(r, j, sub(a.at(r, j), mul(f, a.at(c, j))));
            }
            for k in 0..cols {
                b.put(r, k, sub(b.at(r, k), mul(f, b.at(c, k))));
            }
        }
    }
    let mut x = Matrix::new(size, size);
    for i in (0..n).rev() {
        for k in 0..cols {
            let mut s = b.at(i, k);
            for j in i + 1..n {
                s = sub(s, mul(a.at(i, j), x.at(j, k)));
            }
            x.put(i, k, div(s, a.at(i, i)));
        }
    }
    (x, refused)
}

struct Rotated {
    a: Matrix,
    v: Matrix,
    count: usize,
    seen: Num,
}

fn jacobi(m: &Matrix, n: usize) -> Rotated {
    let mut s = Rotated { a: table(6, 6, n, n, |i, j| m.at(i.min(j), i.max(j))), v: identity(6, n), count: 0, seen: given(0.0) };
    for _ in 0..30 {
        for p in 0..n {
            for q in p + 1..n {
                rotate(&mut s, n, p, q);
            }
        }
    }
    s
}

fn rotate(s: &mut Rotated, n: usize, p: usize, q: usize) {
    let (aa, bb, ab) = (s.a.at(p, p), s.a.at(q, q), s.a.at(p, q));
    if ab.value == 0.0 {
        return;
    }
    let left = mul(ab, ab);
    let right = mul(given(2f64.powi(-100)), mul(aa, bb));
    s.seen = also(s.seen, also(left, right));
    if !(left.value > right.value) {
        return;
    }
    s.count += 1;
    let z = div(sub(bb, aa), mul(given(2.0), ab));
    let sign = if z.value < 0.0 { -1.0 } else { 1.0 };
    let size = Num { value: z.value.abs(), inside: z.inside };
    let t = div(given(sign), add(size, root(add(mul(z, z), given(1.0)))));
    let c = div(given(1.0), root(add(mul(t, t), given(1.0))));
    let sn = mul(t, c);
    for r in 0..n {
        turn(&mut s.v, r, p, q, c, sn);
        if r != p && r != q {
            turn(&mut s.a, r, p, q, c, sn);
            let (x, y) = (s.a.at(r, p), s.a.at(r, q));
            s.a.put(p, r, x);
            s.a.put(q, r, y);
        }
    }
    s.a.put(p, p, sub(aa, mul(t, ab)));
    s.a.put(q, q, add(bb, mul(t, ab)));
    s.a.put(p, q, given(0.0));
    s.a.put(q, p, given(0.0));
}

fn turn(m: &mut Matrix, r: usize, p: usize, q: usize, c: Num, s: Num) {
    let (x, y) = (m.at(r, p), m.at(r, q));
    m.put(r, p, sub(mul(c, x), mul(s, y)));
    m.put(r, q, add(mul(s, x), mul(c, y)));
}

// ---- what is printed
fn word(x: f64) -> String {
    format!("{:016x}", if x.is_nan() { 0x7ff8_0000_0000_0000 } else { x.to_bits() })
}

struct Out {
    text: String,
}

impl Out {
    fn number(&mut self, x: Num, marked: bool) {
        self.text.push_str(&word(x.value));
        if marked {
            self.text.push(if x.inside { '+' } else { '-' });
        }
    }

    fn matrix(&mut self, m: &Matrix, marked: bool) {
        for i in 0..6 {
            for j in 0..6 {
                self.number(m.at(i, j), marked);
                self.text.push(' ');
            }
            self.text.push('\n');
        }
    }

    fn flag(&mut self, refused: bool) {
        self.text.push_str(if refused { "refused\n" } else { "taken\n" });
    }

    fn count(&mut self, n: usize) {
        writeln!(self.text, "{n:016x}").unwrap();
    }

    fn square(&mut self, m: &Matrix, n: usize) {
        for i in 0..n {
            for j in 0..n {
                self.number(m.at(i, j), false);
                self.text.push(' ');
            }
            self.text.push('\n');
        }
    }
}

fn cellwise(a: &Matrix, b: &Matrix, r: usize, n: usize, f: impl Fn(Num, Num) -> Num) -> Matrix {
    table(6, 6, r, n, |i, j| f(a.at(i, j), b.at(i, j)))
}

fn products(o: &mut Out, a: &Matrix, b: &Matrix, (r, n, c): (usize, usize, usize), marked: bool) {
    let x = b.at(0, 0);
    o.matrix(&product(6, a, b, r, n, c), marked);
    if !marked {
        o.matrix(&transpose(6, a, r, n), marked);
    }
    o.matrix(&sandwich(a, b, r, n), marked);
    o.number(like_cells(a, b, r, n), marked);
    o.number(sum(r, |i| a.at(i, i)), marked);
    if marked {
        let mut seen = a.at(0, 0);
        for i in 0..r {
            for j in 0..n {
                seen = also(seen, a.at(i, j));
            }
        }
        o.number(seen, marked);
    }
    o.matrix(&cellwise(a, b, r, n, add), marked);
    o.matrix(&cellwise(a, b, r, n, sub), marked);
    o.matrix(&cellwise(a, b, r, n, |y, _| mul(y, x)), marked);
    o.matrix(&cellwise(a, b, r, n, |y, _| div(y, x)), marked);
    if !marked {
        o.matrix(&identity(6, c), marked);
    }
}

fn solutions(o: &mut Out, a: &Matrix, b: &Matrix, n: usize, c: usize, marked: bool) {
    let (x, refused) = solve(6, a, b, n, c);
    o.flag(refused);
    o.matrix(&x, marked);
    let (y, refused) = solve(6, a, &identity(6, n), n, n);
    o.flag(refused);
    o.matrix(&y, marked);
}

fn rotations(o: &mut Out, a: &Matrix, n: usize, marked: bool) {
    let s = jacobi(a, n);
    o.count(s.count);
    if marked {
        o.flag(!s.seen.inside);
    }
    // what the plain program prints past the size are the zeros of a stored matrix
    o.matrix(&s.a, marked);
    o.matrix(&s.v, marked);
}

struct Table {
    stdin: String,
    out: Out,
}

impl Table {
    fn case(&mut self, which: u64, sizes: (usize, usize, usize), a: &Matrix, b: &Matrix) {
        let (r, n, c) = sizes;
        let head = which << 24 | (r as u64) << 16 | (n as u64) << 8 | c as u64;
        write!(self.stdin, "{head:016x}\n").unwrap();
        for m in [a, b] {
            for x in &m.cells {
                write!(self.stdin, "{:016x} ", x.value.to_bits()).unwrap();
            }
        }
        writeln!(self.out.text, "{head:016x}").unwrap();
        for marked in [false, true] {
            match which {
                1 => products(&mut self.out, a, b, sizes, marked),
                2 => solutions(&mut self.out, a, b, n, c, marked),
                _ => rotations(&mut self.out, a, n, marked),
            }
        }
    }
}

struct Draw {
    s: u64,
}

impl Draw {
    fn next(&mut self) -> u64 {
        self.s = (1664525 * self.s + 1013904223) % (1 << 32);
        self.s
    }

    fn cell(&mut self) -> f64 {
        ((self.next() / 65536 % 2001) as f64 - 1000.0) / 64.0
    }

    fn matrix(&mut self, scale: f64) -> Matrix {
        let mut m = Matrix::new(6, 6);
        for x in &mut m.cells {
            *x = given(self.cell() * scale);
        }
        m
    }
}

fn hard() -> Vec<Matrix> {
    let fill = |f: &dyn Fn(usize, usize) -> f64| table(6, 6, 6, 6, |i, j| given(f(i, j)));
    vec![
        fill(&|i, j| (i + j) as f64),
        fill(&|i, j| if i == j { 2.0 } else { -1.0 }),
        fill(&|i, j| if (i + j) % 2 == 0 { 1.0 } else { -1.0 }),
        fill(&|i, j| if i == j { -0.0 } else { 0.0 }),
        fill(&|i, j| 1.0 / (i + j + 1) as f64),
        fill(&|i, j| if i == 2 && j == 3 { f64::INFINITY } else { 1.0 + (i * j) as f64 }),
        fill(&|i, j| if i == 0 && j == 0 { f64::NAN } else { (i * 7 + j * 3 % 5) as f64 }),
        fill(&|i, j| if i == 1 && j == 0 { f64::NAN } else { (i * 5 + j * 2 % 7) as f64 - 9.0 }),
        fill(&|i, j| 5e-324 * (1 + i + 2 * j) as f64),
        fill(&|i, j| 2f64.powi(390) * (1.0 + (i * i + j) as f64)),
        fill(&|i, j| 2f64.powi(-401) * (3.0 + (i + 2 * j) as f64)),
        fill(&|i, j| if i == j { 2f64.powi(-440) } else { 1.25 * 2f64.powi(-490) }),
        fill(&|i, j| if i == j { 4.0 } else { -1e-16 }),
    ]
}

// The Cholesky factor of a, lower, with zeros above; and whether some diagonal was not > 0.
fn cholesky(a: &Matrix, n: usize) -> (Matrix, bool) {
    let (mut l, mut refused) = (a.clone(), false);
    for j in 0..n {
        let less = |l: &Matrix, i: usize| {
            let mut s = l.at(i, j);
            for k in 0..j {
                s = sub(s, mul(l.at(i, k), l.at(j, k)));
            }
            s
        };
        let d = less(&l, j);
        refused = refused || !(d.value > 0.0);
        let d = root(d);
        l.put(j, j, d);
        for i in j + 1..n {
            let x = div(less(&l, i), d);
            l.put(i, j, x);
        }
    }
    (table(n, n, n, n, |i, j| if i < j { given(0.0) } else { l.at(i, j) }), refused)
}

fn large(o: &mut Out, n: usize) {
    let mut draw = Draw { s: 2026 };
    let mut x = Matrix::new(n, n);
    for k in &mut x.cells {
        *k = given(draw.cell());
    }
    let gram = |x: &Matrix| product(n, &transpose(n, x, n, n), x, n, n, n);
    let mut sigma = gram(&x);
    for i in 0..n {
        sigma.put(i, i, add(sigma.at(i, i), given(1000.0)));
    }
    o.square(&table(n, n, n, n, |i, j| add(given(0.0), mul(given(0.75), sigma.at(i, j)))), n);
    let (l, refused) = cholesky(&sigma, n);
    o.flag(refused);
    o.square(&l, n);
    let (inverse, refused) = solve(n, &l, &identity(n, n), n, n);
    o.flag(refused);
    o.square(&inverse, n);
    let s = gram(&inverse);
    o.square(&s, n);
    o.square(&product(n, &sigma, &s, n, n, n), n);
    let mut k = given(0.0);
    for i in 0..n {
        for j in 0..n {
            k = add(k, mul(sigma.at(j, i), s.at(i, j)));
        }
    }
    o.number(k, false);
    let c = n.min(3);
    let narrow = table(24, 6, n, c, |i, j| sum(n, |k| mul(s.at(i, k), inverse.at(k, j))));
    for x in &narrow.cells {
        o.number(*x, false);
        o.text.push(' ');
    }
    o.text.push('\n');
}

fn main() {
    let folder = std::env::args().nth(1).expect("the folder of the program's stdin and stdout");
    let mut t = Table { stdin: String::new(), out: Out { text: String::new() } };
    let mut draw = Draw { s: 7 };
    for (k, n) in [1, 2, 3, 4, 5, 6, 6, 3].into_iter().enumerate() {
        let scale = [1.0, 1e-3, 1e150, 1e-150][k % 4];
        let (a, b) = (draw.matrix(scale), draw.matrix(1.0));
        t.case(1, (n, 6 - k % 3, 1 + k % 6), &a, &b);
        t.case(2, (n, n, 1 + k % 6), &a, &b);
        t.case(3, (n, n, n), &a, &b);
    }
    for (k, m) in hard().iter().enumerate() {
        let b = draw.matrix(0.5);
        t.case(1 + (k as u64) % 3, (6, 6, 6), m, &b);
        t.case(2, (4, 4, 2), m, &b);
        t.case(3, (5, 5, 5), m, &b);
    }
    for n in [1, 7, 24] {
        large(&mut t.out, n);
    }
    std::fs::write(format!("{folder}/stdin"), t.stdin).unwrap();
    std::fs::write(format!("{folder}/stdout"), t.out.text).unwrap();
}
