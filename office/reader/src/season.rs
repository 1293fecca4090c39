//! A season's file, and what the program `pullseason` prints of it.
//!
//! The file is a run of 16-byte records. One of kind 21 with fifteen zeros behind it
//! closes a series, which is the bytes since the closing record before; what stands
//! after the last one is left over. A record of kind 21 with another byte set closes
//! nothing, and is a record of its series as any other.
//!
//! Of each series the program prints what `pulltest` prints of its bytes, and after an
//! accepted one's lines the worst: the largest F number of the contrast among the latest
//! twenty series. Here F is read from the `test` line itself, so that nothing is asked
//! of whoever made the lines but the lines.
//!
//! Written from document 02, "Req 07".

use std::collections::VecDeque;

/// The kind of the record that closes a series.
pub const CLOSING_KIND: u8 = 21;

/// So many series are looked at for the worst, the present one included.
pub const LATEST: usize = 20;

/// The refusal of bytes after the last closing record, whatever they are.
const LEFT_OVER: &str = "refused 2\n";

/// The record that closes a series: its kind, and fifteen zeros.
pub fn closing() -> [u8; 16] {
    let mut out = [0; 16];
    out[0] = CLOSING_KIND;
    out
}

/// A season's file in its parts.
#[derive(Debug, Clone, PartialEq)]
pub struct Season<'a> {
    /// The bytes of each closed series, without its closing record.
    pub series: Vec<&'a [u8]>,
    /// The bytes after the last closing record.
    pub rest: &'a [u8],
}

/// The parts of a file. A closing record stands at a multiple of 16 from the start.
pub fn split(file: &[u8]) -> Season<'_> {
    let (mut series, mut from) = (Vec::new(), 0);
    for (i, record) in file.chunks_exact(16).enumerate() {
        if record == closing() {
            series.push(&file[from..16 * i]);
            from = 16 * (i + 1);
        }
    }
    Season { series, rest: &file[from..] }
}

/// The file of these series, each closed, with these bytes left over.
pub fn joined<S: AsRef<[u8]>>(series: &[S], rest: &[u8]) -> Vec<u8> {
    let mut out = Vec::new();
    for bytes in series {
        out.extend(bytes.as_ref());
        out.extend(closing());
    }
    out.extend(rest);
    out
}

/// The bits of F on the `test` line of what `pulltest` prints. A refused series, one
/// without a contrast and one whose F is none have no such number.
pub fn contrast_f(text: &str) -> Option<u64> {
    let line = text.lines().find_map(|line| line.strip_prefix("test "))?;
    let mut words = line.split(' ').skip_while(|&word| word != "F").skip(1);
    let word = words.next().expect("a number or none stands behind F");
    (word != "none").then(|| u64::from_str_radix(word, 16).expect("sixteen digits"))
}

/// Whether what `pulltest` prints is a refusal.
pub fn refused(text: &str) -> bool {
    text.starts_with("refused ")
}

/// The F bits of the latest series, the oldest first; none of one that gives no F.
#[derive(Debug, Clone, Default, PartialEq)]
pub struct Latest {
    pub f: VecDeque<Option<u64>>,
}

impl Latest {
    /// The next series; the oldest goes where there are more than twenty.
    pub fn add(&mut self, f: Option<u64>) {
        self.f.push_back(f);
        if self.f.len() > LATEST {
            self.f.pop_front();
        }
    }

    /// The bits of the largest. Numbers are compared, so that -0 is not below +0, and
    /// of equal ones the earliest stays.
    pub fn worst(&self) -> Option<u64> {
        let mut worst: Option<u64> = None;
        for &bits in self.f.iter().flatten() {
            if worst.is_none_or(|old| f64::from_bits(old) < f64::from_bits(bits)) {
                worst = Some(bits);
            }
        }
        worst
    }

    /// What is printed of the next series, from what `pulltest` prints of it.
    pub fn printed(&mut self, text: &str) -> String {
        self.add(contrast_f(text));
        if refused(text) {
            return text.to_string();
        }
        let worst = self.worst().map_or("none".to_string(), |bits| format!("{bits:016x}"));
        format!("{text}worst {worst}\n")
    }
}

/// What the program prints of a season's file, from what `pulltest` prints of each
/// series.
pub fn printed(file: &[u8], mut text_of: impl FnMut(&[u8]) -> String) -> String {
    let season = split(file);
    let mut latest = Latest::default();
    let mut out = String::new();
    for series in season.series {
        out += &latest.printed(&text_of(series));
    }
    if !season.rest.is_empty() {
        out += LEFT_OVER;
    }
    out
}

#[cfg(test)]
mod tests {
    use super::*;

    /// A stand-in for `pulltest`: the eight value bytes of a series' first record as F
    /// of its contrast; kind 1 has one, kind 2 has no contrast, kind 3 has F none, any
    /// other and no record at all is refused.
    fn text_of(series: &[u8]) -> String {
        let coef = "coef 0 rank 1 F 3ff0000000000000 df 4000000000000000 inside\n";
        match series.first() {
            Some(1) => {
                let bits = u64::from_le_bytes(series[8..16].try_into().expect("eight bytes"));
                format!("{coef}test rank 1 F {bits:016x} df none outside\n")
            }
            Some(2) => coef.to_string(),
            Some(3) => format!("{coef}test rank 1 F none df 4000000000000000 inside\n"),
            Some(12) => "refused 12\n".to_string(),
            _ => "refused 2\n".to_string(),
        }
    }

    fn series(kind: u8, f: f64) -> Vec<u8> {
        let mut out = vec![kind, 0, 0, 0, 0, 0, 0, 0];
        out.extend(f.to_bits().to_le_bytes());
        out
    }

    fn of_f(f: f64) -> Vec<u8> {
        series(1, f)
    }

    /// The words behind `worst` of a season of these series, in turn.
    fn worsts(all: &[Vec<u8>]) -> Vec<String> {
        let text = printed(&joined(all, &[]), text_of);
        let words = text.lines().filter_map(|line| line.strip_prefix("worst "));
        words.map(str::to_string).collect()
    }

    fn bits(f: f64) -> String {
        format!("{:016x}", f.to_bits())
    }

    /// "An empty file prints nothing."
    #[test]
    fn an_empty_file() {
        assert_eq!(split(&[]), Season { series: Vec::new(), rest: &[] });
        assert_eq!(printed(&[], text_of), "");
    }

    /// A closing record alone closes a series without records.
    #[test]
    fn closing_records_alone() {
        assert_eq!(printed(&closing(), text_of), "refused 2\n");
        assert_eq!(printed(&[closing(), closing()].concat(), text_of), "refused 2\nrefused 2\n");
    }

    /// "prints each accepted series' lines, then `worst`"; "A refused series prints only
    /// its refusal".
    #[test]
    fn the_lines_of_a_season() {
        let file = joined(&[of_f(9.0), series(12, 0.0), series(2, 0.0)], &[]);
        let coef = "coef 0 rank 1 F 3ff0000000000000 df 4000000000000000 inside\n";
        let nine = "4022000000000000";
        let text = format!(
            "{coef}test rank 1 F {nine} df none outside\nworst {nine}\nrefused 12\n\
             {coef}worst {nine}\n"
        );
        assert_eq!(printed(&file, text_of), text);
    }

    /// "A kind 21 with another byte set doesn't close and is a bad kind in its series."
    #[test]
    fn kind_21_with_another_byte() {
        for at in 1..16 {
            for value in [1, 128, 255] {
                let mut other = closing();
                other[at] = value;
                let file = [&of_f(1.0)[..], &other, &of_f(2.0), &closing()].concat();
                let season = split(&file);
                assert_eq!(season.series, [&file[..48]], "byte {at}");
                assert_eq!(season.rest, &[] as &[u8]);
            }
        }
    }

    /// What closes stands at a multiple of 16.
    #[test]
    fn a_closing_record_out_of_its_place() {
        for shift in 1..16 {
            let file = [&vec![0; shift][..], &closing(), &vec![0; 16 - shift]].concat();
            assert_eq!(split(&file), Season { series: Vec::new(), rest: &file }, "by {shift}");
        }
        // A record may hold the bytes of a closing one without being one.
        let file = [&[1; 8][..], &closing(), &[1; 8], &closing()].concat();
        assert_eq!(split(&file).series, [&file[..32]]);
    }

    /// "Bytes after the last closing record are answered with 2", whatever they are.
    #[test]
    fn bytes_left_over() {
        let before = printed(&joined(&[of_f(1.0)], &[]), text_of);
        let whole = of_f(2.0);
        let rests = (1..=16).map(|n| whole[..n].to_vec());
        let falling = series(12, 0.0);
        for rest in rests.chain([falling, whole.repeat(2)]) {
            let file = joined(&[of_f(1.0)], &rest);
            assert_eq!(split(&file).rest, rest);
            assert_eq!(printed(&file, text_of), format!("{before}refused 2\n"));
            assert_eq!(printed(&rest, text_of), "refused 2\n");
        }
        // Part of a closing record closes nothing.
        for n in 1..16 {
            assert_eq!(printed(&closing()[..n], text_of), "refused 2\n");
        }
    }

    /// "among the latest twenty series, this one included": the 21st drops the first.
    #[test]
    fn twenty_series() {
        let mut all = vec![of_f(9.0)];
        all.extend((1..21).map(|i| of_f(1.0 / f64::from(i))));
        let worsts = worsts(&all);
        assert!(worsts[..20].iter().all(|word| *word == bits(9.0)));
        assert_eq!(worsts[20], bits(1.0));
    }

    /// A refused series, one without a contrast and one without F take a place.
    #[test]
    fn every_series_takes_a_place() {
        for kind in [0, 2, 3, 12] {
            let mut all = vec![of_f(9.0)];
            all.extend((0..18).map(|_| series(kind, 0.0)));
            all.push(of_f(1.0));
            assert_eq!(worsts(&all).last(), Some(&bits(9.0)), "kind {kind}");
            all.push(of_f(0.5));
            assert_eq!(worsts(&all).last(), Some(&bits(1.0)), "kind {kind}");
        }
    }

    #[test]
    fn no_f_among_the_latest() {
        assert_eq!(worsts(&[series(2, 0.0), series(12, 0.0), series(3, 0.0)]), ["none", "none"]);
        let mut all = vec![of_f(1.0)];
        all.extend((0..20).map(|_| series(2, 0.0)));
        assert_eq!(worsts(&all).last(), Some(&"none".to_string()));
    }

    /// "(earliest on ties)": zeros of both signs tie, and the earliest's bits stay.
    #[test]
    fn ties() {
        let two = bits(2.0);
        assert_eq!(worsts(&[of_f(2.0), of_f(2.0), of_f(1.0)]), [two.clone(), two.clone(), two]);
        for (first, second) in [(0.0, -0.0), (-0.0, 0.0)] {
            let all = [of_f(-1.0), of_f(first), of_f(second), of_f(-1.0)];
            assert_eq!(worsts(&all)[1..], [bits(first), bits(first), bits(first)]);
            // Where the first has gone the other one's bits come.
            let mut all = vec![of_f(first), of_f(second)];
            all.extend((0..19).map(|_| of_f(-1.0)));
            assert_eq!(worsts(&all).last(), Some(&bits(second)));
        }
    }

    #[test]
    fn infinite_and_negative_f() {
        let infinite = bits(f64::INFINITY);
        let all = [of_f(f64::MAX), of_f(f64::INFINITY), of_f(f64::INFINITY), of_f(1.0)];
        assert_eq!(worsts(&all)[1..], [infinite.clone(), infinite.clone(), infinite]);
        let all = [of_f(f64::NEG_INFINITY), of_f(-2.0), of_f(-1.0)];
        assert_eq!(worsts(&all), [bits(f64::NEG_INFINITY), bits(-2.0), bits(-1.0)]);
    }
}
