//! Counts of calls, by their answers and in rows.

use plain::outcome::Outcome;

/// How many calls had each answer: accepted, and then every refusal by its number.
pub type Answers = [u64; 31];

pub fn count<T>(answers: &mut Answers, outcome: &Outcome<T>) {
    let number = outcome
        .as_ref()
        .map_or_else(|refusal| refusal.number(), |_| 0);
    answers[number as usize] += 1;
}

/// Prints how many calls were accepted and how many had each of these refusals. None must be missing.
pub fn print_answers(name: &str, answers: &Answers, refusals: &[usize]) -> Result<(), String> {
    print!("{name}: accepted {}, refused", answers[0]);
    for &refusal in refusals {
        print!(" {refusal}: {}", answers[refusal]);
    }
    println!();
    if answers[0] == 0 {
        return Err(format!("{name}: no call was accepted"));
    }
    match refusals.iter().find(|&&refusal| answers[refusal] == 0) {
        Some(refusal) => Err(format!("{name}: no call had refusal {refusal}")),
        None => Ok(()),
    }
}

/// Prints some counts a row. None must be missing.
pub fn print_rows<const COUNT: usize>(
    title: &str,
    rows: &[(&str, [u64; COUNT])],
) -> Result<(), String> {
    println!("{title}:");
    for (what, counts) in rows {
        let words: Vec<String> = counts.iter().map(u64::to_string).collect();
        println!("  {what}: {}", words.join(" "));
    }
    match rows.iter().find(|(_, counts)| counts.contains(&0)) {
        Some((what, _)) => Err(format!("no call {title}: {what}")),
        None => Ok(()),
    }
}
