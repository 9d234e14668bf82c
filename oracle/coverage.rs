//! Counts what the answers hold, so that nothing is compared by name only.

use crate::answer::{Answer, COMPARATOR, FORM, FORM_NAMES, IS_AND, KIND, NEGATED};

#[derive(Default)]
pub struct Coverage {
    pub texts: u64,
    refusals: [u64; 4],
    refused_behind_queries: u64,
    queries: u64,
    most_queries: usize,
    kinds: [[u64; 8]; 20],
    negated: [u64; 20],
    is_and: [u64; 20],
    comparators: [[u64; 5]; 20],
    options: [u64; 4],
}

impl Coverage {
    pub fn add(&mut self, answer: &Answer<'_>) {
        self.texts += 1;
        self.refusals[answer.outcome[0] as usize] += 1;
        self.refused_behind_queries += u64::from(answer.outcome[0] == 3 && !answer.records.is_empty());
        self.queries += answer.records.len() as u64;
        self.most_queries = self.most_queries.max(answer.records.len());
        for record in &answer.records {
            let form = record[FORM] as usize;
            self.kinds[form][record[KIND] as usize] += 1;
            self.negated[form] += record[NEGATED];
            self.is_and[form] += record[IS_AND];
            self.comparators[form][record[COMPARATOR] as usize] += 1;
            if FORM_NAMES[form] == "Baseline" {
                self.options[(record[10] + 2 * record[11]) as usize] += 1;
            }
        }
    }

    pub fn print(&self) {
        println!();
        println!("the source's answers:");
        println!("{:>12} texts accepted", self.refusals[0]);
        for refusal in 1..4 {
            println!("{:>12} texts with refusal {refusal}", self.refusals[refusal]);
        }
        println!("{:>12} texts with refusal 3 behind one query or more", self.refused_behind_queries);
        println!("{:>12} queries, at most {} in a text", self.queries, self.most_queries);
        for form in 1..FORM_NAMES.len() {
            let total: u64 = self.kinds[form].iter().sum();
            let kinds: Vec<String> = (0..8)
                .filter(|kind| self.kinds[form][*kind] > 0)
                .map(|kind| format!("kind {kind}: {}", self.kinds[form][kind]))
                .collect();
            let comparators: Vec<String> = (1..5)
                .filter(|comparator| self.comparators[form][*comparator] > 0)
                .map(|comparator| format!(", comparator {comparator}: {}", self.comparators[form][comparator]))
                .collect();
            println!(
                "{total:>12} {:14} negated: {}, is_and: {}, {}{}",
                FORM_NAMES[form],
                self.negated[form],
                self.is_and[form],
                kinds.join(", "),
                comparators.concat()
            );
        }
        println!(
            "             Baseline options: none {}, downstream {}, kaios {}, both {}",
            self.options[0], self.options[1], self.options[2], self.options[3]
        );
    }
}
