//! Measures the port against apicula and prints ratios as Markdown.

use beside::apicula;
use beside::input::Direct;
use beside::make::{self, Plan, Shape};
use beside::random::Random;
use rasclanya::TextureParams;
use std::hint::black_box;
use std::process::ExitCode;
use std::time::Duration;

const USAGE: &str = "usage: bench [--rounds N]

Measures the port against apicula and prints ratios as Markdown.";

const DEFAULT_ROUNDS: usize = 100;
const SEED: u64 = 1;

/// A side runs so often in a row that it takes at least this long.
const BATCH: Duration = Duration::from_micros(300);

/// Shifts of 8 that give the sides of the pictures.
const SIDES: [usize; 4] = [0, 3, 5, 7];

/// How many textures, and palettes, a block has.
const COUNTS: [usize; 3] = [1, 32, 255];

fn main() -> ExitCode {
    let args: Vec<String> = std::env::args().skip(1).collect();
    match rounds(&args) {
        Some(rounds) => {
            print_report(rounds);
            ExitCode::SUCCESS
        }
        None => {
            eprintln!("{USAGE}");
            ExitCode::from(2)
        }
    }
}

fn rounds(args: &[String]) -> Option<usize> {
    match args {
        [] => Some(DEFAULT_ROUNDS),
        [name, value] if name == "--rounds" => value.parse().ok().filter(|rounds| *rounds > 0),
        _ => None,
    }
}

fn print_report(rounds: usize) {
    println!("# Benchmarks");
    println!();
    println!("The port against apicula's published Rust, in one program. Numbers are ratios: apicula's time divided by the port's, so above");
    println!("1 the port is faster. Time is processor time of the thread, which has no waits for other programs in it. Both are built for release,");
    println!("and the port is called through `bindings/rust`. The sides take turns, {rounds} rounds, each side repeated in a row for a fraction of");
    println!("a millisecond or more; the fastest round of each side counts. Ratios are cut off behind two digits. Processor: {}.", processor());
    println!();
    println!("`tools/bench > docs/BENCHMARKS.md` makes this page.");
    print_readings(rounds);
    print_pictures(rounds);
}

fn processor() -> String {
    let info = std::fs::read_to_string("/proc/cpuinfo").unwrap_or_default();
    let model = info.lines().find_map(|line| line.strip_prefix("model name")?.split(": ").nth(1));
    model.unwrap_or("not known").to_string()
}

fn print_readings(rounds: usize) {
    println!();
    println!("## Reading a block");
    println!();
    println!("Blocks with as many palettes as textures, each texture of 8 by 8 texels, all formats but 0. apicula's `read_tex` gives all names,");
    println!("words, data and palettes, as copies. The port's `read_tex` checks all of them and gives both counts: this is the reading. The same");
    println!("things as apicula's are given by `textures`, `palettes` and `pal_block`, data and palette block as parts of the block: each reads");
    println!("the block once, and the last column has all three. The calls for one record or part read the block each time, so that they are for");
    println!("those who want few.");
    println!();
    println!("| textures | `read_tex` | `textures`, `palettes`, `pal_block` |");
    println!("|---|---|---|");
    for count in COUNTS {
        let [reading, all] = reading_ratios(rounds, &block(count));
        println!("| {count} | {} | {} |", cut_off(reading), cut_off(all));
    }
}

/// A block with so many textures and palettes.
fn block(count: usize) -> Vec<u8> {
    let mut random = Random::for_case(SEED, count as u64);
    let shape = |n: usize| Shape { format: 1 + n % 7, width: 0, height: 0, color0: n % 2 };
    let pal_units = 64;
    let textures = (0..count).map(|n| make::texture(&mut random, shape(n), 500)).collect();
    let palettes = (0..count).map(|_| make::palette(&mut random, pal_units)).collect();
    Plan { textures, palettes, pal_units }.lay_out(&mut random)
}

/// apicula's reading against the port's, and against the port's calls that give the same things.
fn reading_ratios(rounds: usize, block: &[u8]) -> [f64; 2] {
    let counts = rasclanya::read_tex(block).expect("the port reads the block");
    let (textures, palettes) = apicula::read_tex(block).expect("apicula reads the block");
    assert_eq!((textures.len(), palettes.len()), (counts.textures, counts.palettes));
    let mut by_apicula = || drop(black_box(apicula::read_tex(black_box(block))));
    let mut by_port = || {
        let _ = black_box(rasclanya::read_tex(black_box(block)));
    };
    let mut all_by_port = || read_all(black_box(block));
    let [apicula, reading, all] = fastest(rounds, [&mut by_apicula, &mut by_port, &mut all_by_port]);
    [apicula / reading, apicula / all]
}

/// All that apicula's reading gives, from the port.
fn read_all(block: &[u8]) {
    let _ = black_box(rasclanya::textures(block));
    let _ = black_box(rasclanya::palettes(block));
    let _ = black_box(rasclanya::pal_block(block));
}

fn print_pictures(rounds: usize) {
    let ratios: Vec<[[f64; 2]; 4]> = (1..8).map(|format| SIDES.map(|side| picture_ratios(rounds, format, side))).collect();
    println!();
    println!("## Decoding a texture");
    println!();
    println!("Direct decoding of random data with a palette block of 4,096 bytes; format 5 uses all modes, with colours inside the palette block.");
    println!("apicula makes its buffer anew for each picture, since that is its interface. The port writes each picture into the same lent output.");
    print_table(&ratios, 0, "The output is not cleared before a picture:");
    print_table(&ratios, 1, "The port's caller fills the output with 0 before each picture, and the time for it is counted to the port:");
}

fn print_table(ratios: &[[[f64; 2]; 4]], column: usize, heading: &str) {
    println!();
    println!("{heading}");
    println!();
    println!("| format | 8 by 8 | 64 by 64 | 256 by 256 | 1024 by 1024 |");
    println!("|---|---|---|---|---|");
    for (n, sides) in ratios.iter().enumerate() {
        let cells: Vec<String> = sides.iter().map(|ratio| cut_off(ratio[column])).collect();
        println!("| {} | {} |", n + 1, cells.join(" | "));
    }
}

/// apicula's decoding against the port's, with an output that is not cleared before, and with one that is.
fn picture_ratios(rounds: usize, format: usize, side: usize) -> [f64; 2] {
    let shape = Shape { format, width: side, height: side, color0: 1 };
    let direct = direct(shape);
    let texture = apicula::loose_texture(direct.word, &direct.data1, &direct.data2);
    let palette = direct.palette.map(|off| apicula::loose_palette(off, &direct.pal));
    let mut out = vec![0; 4 * shape.texels()];
    let mut cleared = vec![0; 4 * shape.texels()];
    decode(&direct, &mut out);
    assert!(apicula::decode(&texture, palette.as_ref()) == Ok(out.clone()), "both make the same picture");
    let [apicula, uncleared, cleared] = fastest(
        rounds,
        [
            &mut || drop(black_box(apicula::decode(black_box(&texture), black_box(palette.as_ref())))),
            &mut || decode(black_box(&direct), black_box(&mut out)),
            &mut || {
                black_box(&mut cleared).fill(0);
                decode(black_box(&direct), black_box(&mut cleared));
            },
        ],
    );
    [apicula / uncleared, apicula / cleared]
}

fn decode(direct: &Direct, out: &mut [u8]) {
    let params = TextureParams(direct.word);
    let answer = rasclanya::decode_texture(params, &direct.data1, &direct.data2, direct.palette, &direct.pal, out);
    assert!(black_box(answer).is_ok());
}

/// A direct decoding with a palette at the start of its block, and with colours of format 5 inside it.
fn direct(shape: Shape) -> Direct {
    let mut random = Random::for_case(SEED, shape.number() as u64);
    let word = shape.word(&mut random, 0);
    let (len1, len2) = apicula::data_lens(word);
    let pal = random.bytes(4096);
    let data1 = random.bytes(len1);
    let mut data2 = random.bytes(len2);
    make::tame_extras(&mut random, &mut data2, pal.len() - 8);
    Direct { word, data1, data2, palette: Some(0), pal }
}

/// The fastest time of each side for one run of it. The sides take turns.
fn fastest<const N: usize>(rounds: usize, mut sides: [&mut dyn FnMut(); N]) -> [f64; N] {
    let batches: [usize; N] = std::array::from_fn(|i| batch(sides[i]));
    let mut fastest = [f64::INFINITY; N];
    for turn in 0..rounds * N {
        let i = turn % N;
        fastest[i] = fastest[i].min(time(sides[i], batches[i]).as_secs_f64() / batches[i] as f64);
    }
    fastest
}

/// How often a side has to run in a row to take long enough.
fn batch(side: &mut dyn FnMut()) -> usize {
    let mut batch = 1;
    while time(side, batch) < BATCH {
        batch *= 2;
    }
    batch
}

/// The processor time of so many runs of a side. Time by the clock has the waits for other programs in it: a side whose one run is longer
/// than the system leaves a program undisturbed has them in every round, and then even its fastest round is too slow.
fn time(side: &mut dyn FnMut(), batch: usize) -> Duration {
    let start = thread_time();
    for _ in 0..batch {
        side();
    }
    thread_time() - start
}

/// `struct timespec` and `clock_gettime` of the C library on x86-64 Linux, which is what the archive is for.
#[repr(C)]
struct Timespec {
    seconds: i64,
    nanoseconds: i64,
}

extern "C" {
    fn clock_gettime(clock: i32, time: *mut Timespec) -> i32;
}

const CLOCK_THREAD_CPUTIME_ID: i32 = 3;

/// The processor time that this thread has used.
fn thread_time() -> Duration {
    let mut time = Timespec { seconds: 0, nanoseconds: 0 };
    // SAFETY: the call writes to the one timespec that it is lent, and keeps no pointer.
    let status = unsafe { clock_gettime(CLOCK_THREAD_CPUTIME_ID, &mut time) };
    assert_eq!(status, 0, "the thread's processor time can be read");
    Duration::new(time.seconds as u64, time.nanoseconds as u32)
}

/// A ratio, cut off behind two digits.
fn cut_off(ratio: f64) -> String {
    format!("{:.2}", (ratio * 100.0).floor() / 100.0)
}
