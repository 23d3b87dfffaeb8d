//! Times the module's host call beside a plain engine, on the same bytes, and first compares what they answer.
//!
//!     bench DIR     also writes each tariff and its facts into DIR, for bench/engines

mod clock;
mod plain;
mod tariffs;

use clock::best_of_both;
use plain::plain_settle;
use std::{env, fs, io, path::Path, process};
use tariffs::{Sheet, Stream};

mod module {
    unsafe extern "C" {
        // the prototype of include/fare.h: a slice is its pointer and its length
        fn fare_settle(
            file: *const u8,
            file_len: usize,
            facts: *const u8,
            facts_len: usize,
            out: *mut u8,
            out_len: usize,
        ) -> u32;
    }

    pub fn settle(file: &[u8], facts: &[u8], out: &mut [u8]) -> u32 {
        unsafe { fare_settle(file.as_ptr(), file.len(), facts.as_ptr(), facts.len(), out.as_mut_ptr(), out.len()) }
    }
}

/// A facts string that is refused, so that nothing is settled after the file is read.
const NO_FACTS: [u8; 0] = [];

/// Makes the call of both engines with so much room for the output, and answers what they do.
fn same_with(room: usize, name: &str, file: &[u8], facts: &[u8]) -> u32 {
    let (mut a, mut b) = ([9u8; 600], [9u8; 600]);
    let ours = module::settle(file, facts, &mut a[..room]);
    let theirs = plain_settle(file, facts, &mut b[..room]);
    if ours != theirs || a != b {
        println!("the two differ on {name}: {file:02x?} {facts:02x?}");
        process::exit(1);
    }
    ours
}

fn same(name: &str, file: &[u8], facts: &[u8]) -> u32 {
    same_with(600, name, file, facts)
}

fn compare_random_sheets() {
    let mut s = Stream(7);
    let mut told = [0; 3];
    let mut refused = 0;
    for _ in 0..20_000 {
        let sheet = tariffs::random(&mut s);
        let (mut file, facts) = (sheet.file(), sheet.facts());
        told[same("a random sheet", &file, &facts) as usize] += 1;
        let at = s.below(file.len());
        file[at] = s.below(256) as u8;
        refused += (same("a damaged file", &file, &facts) >= 100) as u32;
    }
    println!("20,000 random sheets answered alike: {} clear, {} suspect, {} broken", told[0], told[1], told[2]);
    println!("the same with a byte of the file changed: {refused} refused alike, the others answered alike");
}

/// Compares the answers to the tariff itself, to three ways to be refused, and to some files with a byte changed.
fn compare_on(sheet: &Sheet, s: &mut Stream) -> u32 {
    let (mut file, facts) = (sheet.file(), sheet.facts());
    let answer = same(sheet.name, &file, &facts);
    assert!(answer < 100, "{} is refused", sheet.name);
    assert_eq!(same("a facts string without a byte", &file, &NO_FACTS), 101);
    assert_eq!(same_with(0, "an output too short", &file, &facts), 113);
    file.push(0);
    assert_eq!(same("a file too long", &file, &facts), 106);
    for _ in 0..100 {
        let at = s.below(file.len());
        let kept = std::mem::replace(&mut file[at], s.below(256) as u8);
        assert!(same("a damaged file", &file, &facts) >= 100);
        file[at] = kept;
    }
    answer
}

/// Both engines' nanoseconds, the module's first.
fn time(file: &[u8], facts: &[u8]) -> [f64; 2] {
    let (mut a, mut b) = ([0; 512], [0; 512]);
    best_of_both([&mut || module::settle(file, facts, &mut a), &mut || plain_settle(file, facts, &mut b)])
}

fn time_tariffs() {
    let columns = "plain, ns | module, ns | module / plain";
    println!("\n| tariff | bytes | answer | {columns} | reading alone: {columns} |");
    println!("|---|---:|---:|---:|---:|---:|---:|---:|---:|");
    let mut s = Stream(1);
    for sheet in tariffs::all() {
        let (file, facts) = (sheet.file(), sheet.facts());
        let answer = compare_on(&sheet, &mut s);
        print!("| {} | {} | {answer} |", sheet.name, file.len());
        for [module, plain] in [time(&file, &facts), time(&file, &NO_FACTS)] {
            print!(" {plain:.0} | {module:.0} | {:.2} |", module / plain);
        }
        println!();
    }
}

fn write_tariffs(dir: &Path) -> io::Result<()> {
    fs::create_dir_all(dir)?;
    for sheet in tariffs::all() {
        fs::write(dir.join(sheet.name).with_extension("tariff"), sheet.file())?;
        fs::write(dir.join(sheet.name).with_extension("facts"), sheet.facts())?;
    }
    Ok(())
}

fn main() -> io::Result<()> {
    if let Some(dir) = env::args_os().nth(1) {
        write_tariffs(Path::new(&dir))?;
    }
    compare_random_sheets();
    time_tariffs();
    Ok(())
}
