//! The level hashing article's claims, and what was counted here beside them.

use crate::counts::Counts;
use crate::fillings::Fillings;
use crate::growths::Growth;
use crate::markdown::{heads, table};
use crate::middle::Middle;

const LOAD: &str = "\"the level hash table is able to achieve the load factor of higher than 0.9\"; \
    \"all the four hash tables can achieve over 90% of maximum load factor\"";
const THIRD: &str = "\"the items in the bottom level to be rehashed are always less than 1/3 of all items \
    in the level hash table\"";
const MOVEMENT: &str = "\"the probability that an insertion incurs a movement is very low\"";
const PROBES: &str = "\"a search operation only needs to probe at most four buckets\"";
const LOG_FREE: &str =
    "\"when the load factor of the hash table is smaller than about 2/3, the probability of \
    log-free update is very high and decreases with the increase of the load factor\"";

pub fn claims(counts: &Counts) -> String {
    let largest = match counts.largest_random_fillings() {
        Some(largest) => largest,
        None => return String::new(),
    };
    let growths: Vec<&Growth> = counts.all_growths().collect();
    let rows = [
        (LOAD, first_refusal(counts.random_fillings())),
        (THIRD, moved_share(largest, &growths)),
        (MOVEMENT, movements(largest)),
        (PROBES, probes(counts)),
        (LOG_FREE, plain_updates(largest)),
    ];
    let rows = rows.map(|(claim, counted)| vec![claim.to_string(), counted]);
    table("### Beside the article's claims", &heads(&["the article", "counted here"]), rows)
}

fn first_refusal<'a>(fillings: impl Iterator<Item = &'a Fillings>) -> String {
    let one = |fillings: &Fillings| {
        let (k, median, least) = (fillings.k, fillings.load_at_first_refusal().median, fillings.least_load());
        format!("{median:.3} at k = {k} (least {least:.3})")
    };
    let all: Vec<String> = fillings.map(one).collect();
    format!("Median load at the first refusal 6: {}", all.join(", "))
}

fn moved_share(largest: &Fillings, growths: &[&Growth]) -> String {
    let first = largest.bottom_share().median;
    // A table's first growth is that of a table that was only filled.
    let is_first = |growth: &&&Growth| growths.first().map_or(false, |one| one.k == growth.k);
    let later: Vec<f64> =
        growths.iter().filter(|growth| !is_first(growth)).map(|growth| growth.share()).collect();
    if later.is_empty() {
        return format!("A first growth, begun at the first refusal 6: {first:.3}");
    }
    let above = later.iter().filter(|share| **share >= 1.0 / 3.0).count();
    let Middle { median, .. } = Middle::of(later.iter().copied());
    let most = later.iter().copied().fold(0.0, f64::max);
    format!(
        "A first growth, begun at the first refusal 6 (k = {}): {first:.3}. Later growths, of a table whose \
         bottom was a top: median {median:.3}, most {most:.3}; 1/3 or more in {above} of {}",
        largest.k,
        later.len()
    )
}

fn movements(largest: &Fillings) -> String {
    let at = |load: f64| 100.0 * largest.at_load(load).moving_share();
    format!(
        "{:.2} % of all inserts before the first refusal 6 (k = {}): {:.2} % at load 0.8, {:.2} % at 0.85, \
         {:.1} % at 0.9",
        100.0 * largest.at_all_loads().moving_share(),
        largest.k,
        at(0.8),
        at(0.85),
        at(0.9)
    )
}

fn probes(counts: &Counts) -> String {
    let all = counts.probes.iter().map(|probes| (probes.positive, probes.negative));
    let most = all.fold((0.0, 0.0), |most: (f64, f64), one| (most.0.max(one.0), most.1.max(one.1)));
    let one = |when: &str| {
        let found = counts.probes.iter().rev().find(|probes| probes.when.contains(when));
        found.map_or(String::new(), |probes| {
            format!("{when}: {:.2} and {:.2}", probes.positive, probes.negative)
        })
    };
    let [half, high, growing, shrinking] = ["load 0.5", "load 0.8", "growing", "shrinking"].map(one);
    format!(
        "On average, positive and negative, {half}; {high}; while growing and shrinking six may be asked, {growing}; \
         {shrinking} (most: {:.2} and {:.2})",
        most.0, most.1
    )
}

fn plain_updates(largest: &Fillings) -> String {
    let at = |load: f64| format!("{:.2} at load {load:.2}", largest.at_load(load).plain_share());
    let all: Vec<String> = [0.3, 0.4, 0.5, 0.6, 0.66, 0.8, 0.9].into_iter().map(at).collect();
    format!("Share of updates in four stores (k = {}): {}", largest.k, all.join(", "))
}
