//! Smaller files with the same property.

/// Leave out events and addresses (the counts above them follow) while `holds`.
pub fn shrink(input: &[u8], holds: impl Fn(&[u8]) -> bool) -> Vec<u8> {
    let Ok(text) = std::str::from_utf8(input) else {
        return input.to_vec();
    };
    let mut best: Vec<String> = text.split('\n').map(|l| l.to_string()).collect();
    let ended = best.last().is_some_and(|l| l.is_empty());
    if ended {
        best.pop();
    }
    let joined = |lines: &[String]| (lines.join("\n") + if ended { "\n" } else { "" }).into_bytes();
    if best.is_empty() || !holds(&joined(&best)) {
        return input.to_vec();
    }
    loop {
        let before = best.len();
        let mut i = best.len();
        while i > 2 {
            i -= 1;
            if let Some(fewer) = without(&best, i)
                && holds(&joined(&fewer))
            {
                best = fewer;
                i = i.min(best.len());
            }
        }
        if best.len() == before {
            break;
        }
    }
    joined(&best)
}

/// The lines without one; the heading above it counts one fewer.
fn without(lines: &[String], i: usize) -> Option<Vec<String>> {
    let is_head = |l: &str| l.starts_with("addresses ") || l.starts_with("events ");
    if is_head(&lines[i]) {
        return None;
    }
    let head = (0..i).rev().find(|h| is_head(&lines[*h]))?;
    let (word, n) = lines[head].split_once(' ')?;
    let n: u64 = n.parse().ok()?;
    let mut fewer = lines.to_vec();
    fewer[head] = format!("{word} {}", n.checked_sub(1)?);
    fewer.remove(i);
    Some(fewer)
}
