//! The counts as Markdown.

use crate::article;
use crate::counts::Counts;
use crate::fillings::Bin;
use crate::forms::{Spread, LOAD_OF_BOTTOM, LOAD_OF_TOP};
use crate::growths::Growth;
use crate::keys::Kind;
use crate::markdown::{heads, table};
use crate::shrinks::Shrinks;
use crate::stores::Stores;

impl Counts {
    /// All sections.
    pub fn sections(&self) -> String {
        [
            article::claims(self),
            filling_table(self),
            probe_table(self),
            growth_table(self),
            shrink_table(self),
            store_table(self),
            "All counts above are of tables of form 1.\n".to_string(),
            spread_table(&self.spreads),
        ]
        .join("\n")
    }
}

fn filling_table(counts: &Counts) -> String {
    let rows = counts.fillings.iter().map(|fillings| {
        let all = fillings.at_all_loads();
        vec![
            fillings.k.to_string(),
            fillings.kind.name().to_string(),
            fillings.first_refusal.len().to_string(),
            format!("{:.3}", fillings.least_load()),
            format!("**{:.3}**", fillings.load_at_first_refusal().median),
            format!("{:.3}", fillings.bottom_share().median),
            format!("{:.2} %", 100.0 * all.moving_share()),
            format!("{:.3}", all.inserts.average()),
        ]
    });
    let names = [
        "k",
        "keys",
        "tables",
        "least load",
        "median load",
        "items in the bottom",
        "inserts that moved an item",
        "stores for an insert",
    ];
    table("### Filled until the first refusal 6", &heads(&names), rows)
}

fn probe_table(counts: &Counts) -> String {
    let rows = counts.probes.iter().map(|probes| {
        vec![probes.when.clone(), format!("{:.3}", probes.positive), format!("{:.3}", probes.negative)]
    });
    table("### Buckets that a query looks at", &heads(&["table", "positive", "negative"]), rows)
}

fn growth_table(counts: &Counts) -> String {
    let row = |kind: Kind, growth: &Growth| {
        vec![
            kind.name().to_string(),
            growth.k.to_string(),
            format!("{:.3}", growth.load()),
            growth.items.to_string(),
            growth.moved().to_string(),
            format!("**{:.3}**", growth.share()),
            growth.moving_steps().to_string(),
            format!("{:.2}", growth.stores() as f64 / (1u64 << growth.k) as f64),
        ]
    };
    let rows = counts
        .growths
        .iter()
        .flat_map(|(kind, growths)| growths.iter().map(move |growth| row(*kind, growth)));
    let names =
        ["keys", "k", "load", "items", "moved", "share", "steps that moved another", "stores for each of N"];
    table("### Growths, each begun at the first refusal 6", &heads(&names), rows)
}

fn shrink_table(counts: &Counts) -> String {
    let rows = counts.shrinks.iter().map(|shrinks| {
        vec![
            shrinks.kind.name().to_string(),
            shrinks.k.to_string(),
            shrinks.load.to_string(),
            shrinks.tables().to_string(),
            shrinks.items.to_string(),
            format!("{:.1}", shrinks.moved()),
            format!("**{:.3}**", shrinks.moved() / shrinks.items as f64),
            format!("{:.2} %", 100.0 * shrinks.moving_share()),
            format!("{:.2}", shrinks.stores_for_each_bucket()),
            format!("{:.3}", shrinks.load_after()),
            format!("**{} of {}**", shrinks.stuck, shrinks.tables()),
            format!("{} of {}", shrinks.grown_again, shrinks.stuck),
        ]
    });
    let names = [
        "keys",
        "k",
        "load",
        "tables",
        "items",
        "moved",
        "share",
        "steps that moved another",
        "stores for each of N",
        "load after",
        "stuck",
        "turned back to the end",
    ];
    let title = "### Shrinks\n\nFrom N = 2^k top buckets. A shrink that is stuck turns back, and grows as far as it can. What is moved \
        and stored is the average over all, up to where they ended or were stuck; the load after is that of those that ended.";
    table(title, &heads(&names), rows)
}

fn store_table(counts: &Counts) -> String {
    let filling = |part: fn(Bin) -> Stores| counts.fillings.iter().map(|one| part(one.at_all_loads())).sum();
    let growth = |part: fn(&Growth) -> Stores| counts.all_growths().map(part).sum();
    let shrink = |part: fn(&Shrinks) -> Stores| counts.shrinks.iter().map(part).sum();
    let changes: [(&str, Stores); 8] = [
        ("insert", filling(|bin| bin.inserts)),
        ("update", filling(|bin| bin.updates)),
        ("delete", filling(|bin| bin.deletes)),
        ("growth, its beginning or end", growth(|growth| growth.bounds)),
        ("growth, a step", growth(|growth| growth.steps)),
        ("shrink, its beginning or end", shrink(|shrinks| shrinks.bounds)),
        ("shrink, a step", shrink(|shrinks| shrinks.steps)),
        ("turning back", shrink(|shrinks| shrinks.turns)),
    ];
    let rows = changes.map(|(change, stores)| {
        let each: Vec<String> = stores.met().map(|(stores, calls)| format!("{stores}: {calls}")).collect();
        vec![
            change.to_string(),
            stores.calls().to_string(),
            each.join(", "),
            format!("**{:.3}**", stores.average()),
        ]
    });
    let title =
        "### Stores of a change\n\nCounted in the lists of the fillings, growths and shrinks above. After each \
        insert of a filling, an update and a delete of some item that was in were listed, and not made; and turning back after each beginning of a shrink.";
    table(title, &heads(&["change", "calls", "calls by their stores", "stores on average"]), rows)
}

/// How well each form spreads keys.
pub fn spread_table(spreads: &[Spread]) -> String {
    let rows = spreads.iter().map(|spread| {
        let [top, bottom] = spread.fullest();
        vec![
            spread.k.to_string(),
            spread.source.to_string(),
            spread.form.to_string(),
            spread.first_refusal.len().to_string(),
            format!("{:.3}", spread.least_load()),
            format!("**{:.3}**", spread.load()),
            format!("**{top:.2}**"),
            format!("**{bottom:.2}**"),
        ]
    });
    let names = [
        "k",
        "keys",
        "form",
        "tables",
        "least load",
        "median load",
        "fullest tenth, top",
        "fullest tenth, bottom",
    ];
    let title = format!(
        "### Both forms\n\nEach table is filled in both forms, with the same keys and \
         multipliers, until the first refusal 6. The fullest tenth of the buckets is looked at in the top at load {LOAD_OF_TOP} and in \
         the bottom at load {LOAD_OF_BOTTOM}: how many of the four slots of such a bucket are taken on average, in the middle one of \
         the tables."
    );
    table(&title, &heads(&names), rows)
}

#[cfg(test)]
mod tests {
    use crate::plan::CountPlan;
    use crate::Counts;

    const SMALL: CountPlan = CountPlan {
        filled: &[3, 4],
        fillings: 2,
        grown_again: 6,
        shrunk: &[6],
        shrinks: 4,
        spread: &[4],
        spreads: 3,
        capacities: &[5],
        collector_capacities: &[5],
        queries: 100,
    };

    fn text(seed: u64) -> String {
        Counts::count(seed, &SMALL, |_| ()).unwrap().sections()
    }

    #[test]
    fn the_same_seed_gives_the_same_text() {
        assert_eq!(text(1), text(1));
        assert_ne!(text(1), text(2));
    }

    #[test]
    fn each_section_stands_once() {
        let text = text(1);
        let titles: Vec<&str> = text.lines().filter_map(|line| line.strip_prefix("### ")).collect();
        let expected = [
            "Beside the article's claims",
            "Filled until the first refusal 6",
            "Buckets that a query looks at",
            "Growths, each begun at the first refusal 6",
            "Shrinks",
            "Stores of a change",
            "Both forms",
        ];
        assert_eq!(titles, expected);
        assert!(text.ends_with(" |\n") && !text.contains("NaN"), "{text}");
    }
}
