//! A year of the labs' jobs (k 32, d 4, n 15, t 4): dealt to fifteen labs, written to files, some of them lost and some damaged, then opened from
//! what is left, each job and the total of the thicknesses. It draws from a fixed generator, so that its output can be stored; a lab draws its
//! coefficients from the system's random numbers.
use yikescanvas::*;

/// One job fits into words of 16 bits, the totals of the year do not: the thicknesses alone come to 32,833 hundredths of a millimetre, and 32,767 is
/// the most that a word of 16 bits reads as signed. Words of 32 bits read totals from -2^31 to 2^31 - 1, and a file is no longer for it: every
/// word takes eight bytes, whatever k is.
const BOOK: Params = Params { k: 32, d: 4, n: 15, t: 4 };
/// The bits of a word.
const MASK: u64 = (1 << BOOK.k) - 1;
const JOBS: usize = 365;
const ALLOWANCE: u8 = 3;

/// SplitMix64: for an example only.
struct Draw(u64);

impl Draw {
    fn next(&mut self) -> u64 {
        self.0 = self.0.wrapping_add(0x9e37_79b9_7f4a_7c15);
        let mut z = self.0;
        z = (z ^ (z >> 30)).wrapping_mul(0xbf58_476d_1ce4_e5b9);
        z = (z ^ (z >> 27)).wrapping_mul(0x94d0_49bb_1331_11eb);
        z ^ (z >> 31)
    }

    fn below(&mut self, n: u64) -> u64 {
        self.next() % n
    }
}

/// Sphere and cylinder in hundredths of a dioptre, axis in degrees, thickness in hundredths of a millimetre, as words of k bits.
fn job(draw: &mut Draw) -> [u64; 4] {
    let sphere = 25 * draw.below(49) as i64 - 800;
    let cylinder = -25 * draw.below(13) as i64;
    [sphere as u64 & MASK, cylinder as u64 & MASK, draw.below(181), 70 + draw.below(40)]
}

fn main() -> Result<(), Refusal> {
    let mut draw = Draw(2025);
    let numbers: Vec<u64> = (0..JOBS as u64).map(|i| 1000 + 3 * i).collect();
    let jobs: Vec<[u64; 4]> = (0..JOBS).map(|_| job(&mut draw)).collect();

    // deal, and keep for each lab the words of its shares
    let mut held = vec![Vec::new(); BOOK.n];
    let mut shares = vec![0; BOOK.n * BOOK.d];
    for words in &jobs {
        let coefficients: Vec<u64> = (0..BOOK.t * BOOK.d).map(|_| draw.below(1 << BOOK.k)).collect();
        deal(BOOK, words, &coefficients, &mut shares)?;
        for (lab, share) in held.iter_mut().zip(shares.chunks(BOOK.d)) {
            lab.extend_from_slice(share);
        }
    }

    // damage: lab 5 has the top bit of one word turned in every job, lab 9 another archive's shares, lab 12 some words of a few jobs
    for w in held[4].iter_mut().step_by(BOOK.d) {
        *w ^= 1 << (BOOK.k - 1);
    }
    for w in &mut held[8] {
        *w = draw.below(1 << BOOK.k);
    }
    for i in 0..40 {
        let at = draw.below((JOBS * BOOK.d) as u64) as usize;
        held[11][at] ^= 1 + i;
    }

    // files of all labs but 3 and 14, whose disks are lost
    let size = file_size(BOOK, JOBS).expect("a file fits");
    let mut files = Vec::new();
    for (i, words) in held.iter().enumerate().filter(|(i, _)| *i != 2 && *i != 13) {
        let mut file = vec![0; size];
        write_file(BOOK, i + 1, 77, &numbers, words, &mut file)?;
        files.extend(file);
    }
    let mut bundle = vec![0; ORDER_SIZE + files.len()];
    write_bundle(ALLOWANCE, &files, &mut bundle)?;
    println!("{JOBS} jobs in {} files, a bundle of {} bytes", files.len() / size, bundle.len());

    // every job opens as it was dealt; which labs are named, how often, and from which bits on: a converter that turns one bit always shows there
    let (mut right, mut named) = (0, vec![Vec::new(); BOOK.n]);
    for (place, words) in jobs.iter().enumerate() {
        let mut out = [0; 4];
        let opened = open_place(&bundle, place, &mut out)?;
        right += usize::from(out == *words);
        (1..=BOOK.n).for_each(|lab| named[lab - 1].extend(opened.lowest_bit(lab)));
    }
    println!("{right} open to the job that was dealt");
    for (i, bits) in named.iter().enumerate() {
        if let (Some(least), Some(most)) = (bits.iter().min(), bits.iter().max()) {
            println!("lab {}: wrong in {}, the lowest bit from {least} to {most}", i + 1, bits.len());
        }
    }
    let mut line = [0; LINE];
    for place in 0..5 {
        let n = list_line(&bundle, place, &mut line)?;
        print!("{}", String::from_utf8_lossy(&line[..n]));
    }

    // the first job as a surfacing machine reads it
    println!("the first as text: {}", job_text(BOOK, numbers[0], &jobs[0])?.escape_ascii());

    // the totals, opened while each job stays closed, and read as signed numbers: they are the sums of what was dealt
    let mut sums = [0; 4];
    let wrong = open_run(&bundle, 0, JOBS, &mut sums)?.wrong;
    for (j, name) in [(0, "sphere"), (3, "thickness")] {
        let mut dealt = 0;
        for words in &jobs {
            dealt += signed(BOOK.k, words[j])?;
        }
        println!("{name} in all: {} (dealt {dealt}), wrong: {:?}", signed(BOOK.k, sums[j])?, holders(wrong).collect::<Vec<_>>());
    }
    let mut share = [0; 4];
    total(&bundle, 1, 0, JOBS, &mut share)?;
    println!("lab 1's share of the totals: {share:?}");
    let mut running = [0; 4];
    for quarter in [0..91, 91..182, 182..273, 273..JOBS] {
        add_total(&bundle, 1, quarter.start, quarter.end, &mut running)?;
    }
    println!("added quarter by quarter:    {running:?}");

    // what does not open says why
    println!("lab 3's file: {}", fetch_body(&bundle, 3, 0).unwrap_err());
    println!("job 366: {}", open_place(&bundle, JOBS, &mut sums).unwrap_err());
    println!("six files alone: {}", six(&files, size)?);
    println!("a fourth job at a desk that allows three: {}", fourth(&bundle)?);
    println!(
        "text with a leading zero: {}",
        read_text(BOOK, b"JOB=1000\r\nSPH=-5.25\r\nCYL=-1.25\r\nAX=019\r\nCTHICK=0.70\r\n").unwrap_err()
    );
    bundle.pop();
    println!("a byte less: {}", accept(&bundle).unwrap_err());
    println!("word {MASK} reads {}", signed(BOOK.k, MASK)?);
    Ok(())
}

/// The refusal of the first job from six files with the same allowance.
fn six(files: &[u8], size: usize) -> Result<Refusal, Refusal> {
    let mut bundle = vec![0; ORDER_SIZE + 6 * size];
    write_bundle(ALLOWANCE, &files[..6 * size], &mut bundle)?;
    Ok(open_place(&bundle, 0, &mut [0; 4]).unwrap_err())
}

/// The refusal of the fourth opening in a month that allows three.
fn fourth(bundle: &[u8]) -> Result<Refusal, Refusal> {
    let mut desk = Desk::start(3)?;
    for place in 0..3 {
        desk.open_place(bundle, place, &mut [0; 4])?;
    }
    Ok(desk.open_place(bundle, 3, &mut [0; 4]).unwrap_err())
}
