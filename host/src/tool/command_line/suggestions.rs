//! 'Did you mean': the word that is nearest to one that was not understood.

/// What follows where a word is unknown: the nearest of those that are known, if one is near.
pub fn hint<'a>(word: &str, known: impl Iterator<Item = &'a str>) -> String {
    // Of a short word two changes would leave nothing.
    let most = if word.len() < 4 { 1 } else { 2 };
    let near = known
        .map(|known| (edit_distance(word, known), known))
        .filter(|(far, _)| *far <= most);
    near.min()
        .map_or(String::new(), |(_, known)| format!(": did you mean `{known}`?"))
}

/// How many letters must be put in, taken out or altered to make one word of the other.
fn edit_distance(one: &str, other: &str) -> usize {
    let other: Vec<char> = other.chars().collect();
    let mut row: Vec<usize> = (0..=other.len()).collect();
    for (place, letter) in one.chars().enumerate() {
        let mut corner = row[0];
        row[0] = place + 1;
        for (column, same) in other.iter().map(|known| *known == letter).enumerate() {
            let altered = corner + usize::from(!same);
            corner = row[column + 1];
            row[column + 1] = altered.min(corner + 1).min(row[column] + 1);
        }
    }
    row[other.len()]
}
