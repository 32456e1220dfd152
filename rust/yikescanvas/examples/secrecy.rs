//! What t labs together can see, counted: in the smallest books every job is dealt with every list of coefficients, and it is counted how often the
//! shares of some labs come with each job. The shares of t labs come once with every job, those of t + 1 labs with one job alone; the program fails
//! where they do not. This is a test and proves nothing of other books: the theorems are for all (docs/SECRECY.md).
use std::collections::HashMap;
use yikescanvas::*;

struct Dealing {
    job: Vec<u64>,
    coefficients: Vec<u64>,
    shares: Vec<u64>,
}

impl Dealing {
    /// The shares of the labs whose bits are set, bit i - 1 for lab i.
    fn of(&self, p: Params, labs: usize) -> Vec<u64> {
        self.shares.chunks(p.d).enumerate().filter(|(i, _)| labs >> i & 1 == 1).flat_map(|(_, share)| share.to_vec()).collect()
    }
}

/// How many lists of so many words of k bits there are, and the one of a number: its digits to the base 2^k, the lowest first.
fn lists(k: u64, words: usize) -> u64 {
    1 << (k * words as u64)
}

fn list(k: u64, words: usize, number: u64) -> Vec<u64> {
    (0..words as u64).map(|i| number >> (k * i) & ((1 << k) - 1)).collect()
}

/// Every job with every list of coefficients.
fn dealings(p: Params) -> Result<Vec<Dealing>, Refusal> {
    let mut all = Vec::new();
    for job in 0..lists(p.k, p.d) {
        for drawn in 0..lists(p.k, p.t * p.d) {
            let (job, coefficients) = (list(p.k, p.d, job), list(p.k, p.t * p.d, drawn));
            let mut shares = vec![0; p.n * p.d];
            deal(p, &job, &coefficients, &mut shares)?;
            all.push(Dealing { job, coefficients, shares });
        }
    }
    Ok(all)
}

fn text(words: &[u64]) -> String {
    words.iter().map(u64::to_string).collect::<Vec<_>>().join(",")
}

/// The coefficient of each share and job of lab 2, where t is 1.
fn coefficients(p: Params) -> Result<(), Refusal> {
    let found: HashMap<_, _> = dealings(p)?.into_iter().map(|x| ((x.of(p, 0b10), x.job), x.coefficients)).collect();
    let elements: Vec<_> = (0..lists(p.k, p.d)).map(|i| list(p.k, p.d, i)).collect();
    println!("k {}, d {}, n {}, t {}, lab 2: the coefficient with which each job (across) gives each share (down)", p.k, p.d, p.n, p.t);
    println!("     {}", elements.iter().map(|job| format!(" {:>4}", text(job))).collect::<String>());
    for share in &elements {
        let row = elements.iter().map(|job| format!(" {:>4}", text(&found[&(share.clone(), job.clone())])));
        println!("{:>5}{}", text(share), row.collect::<String>());
    }
    Ok(())
}

/// How often a list of shares of some labs comes with a job, the least and the most of it; and with how many jobs each list comes, the same for all.
fn counted(p: Params, all: &[Dealing], labs: usize) -> (u64, u64, u64) {
    let mut times: HashMap<_, HashMap<_, u64>> = HashMap::new();
    for dealing in all {
        *times.entry(dealing.of(p, labs)).or_default().entry(&dealing.job).or_default() += 1;
    }
    let jobs = times.values().next().unwrap().len();
    assert!(times.len() as u64 == lists(p.k, labs.count_ones() as usize * p.d) && times.values().all(|met| met.len() == jobs));
    let counts = || times.values().flat_map(HashMap::values).copied();
    let least = if jobs as u64 == lists(p.k, p.d) { counts().min().unwrap() } else { 0 };
    (least, counts().max().unwrap(), jobs as u64)
}

fn main() -> Result<(), Refusal> {
    coefficients(Params { k: 1, d: 2, n: 3, t: 1 })?;
    println!("\nhow often a list of shares and a job come together");
    println!("k d n t  labs   shares   jobs  least  most  jobs of each");
    for (k, t) in [1, 2].into_iter().flat_map(|k| (0..3).map(move |t| (k, t))) {
        let p = Params { k, d: 2, n: 3, t };
        let all = dealings(p)?;
        for size in [t, t + 1] {
            for labs in (0..1 << p.n).filter(|labs: &usize| labs.count_ones() as usize == size) {
                let (least, most, with) = counted(p, &all, labs);
                assert_eq!((least, most, with), if size == t { (1, 1, lists(k, p.d)) } else { (0, 1, 1) });
                let named = text(&(1..=p.n as u64).filter(|lab| labs >> (lab - 1) & 1 == 1).collect::<Vec<_>>());
                let named = if named.is_empty() { "none".into() } else { named };
                println!(
                    "{k} {} {} {t}  {named:5} {:>7} {:>6} {least:>6} {most:>5} {with:>13}",
                    p.d,
                    p.n,
                    lists(k, size * p.d),
                    lists(k, p.d)
                );
            }
        }
    }
    Ok(())
}
