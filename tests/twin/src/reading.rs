//! The library's report read back into numbers.

/// What a report says; a support's says nothing of a height.
#[derive(Clone, Copy, PartialEq, Debug)]
pub struct Report {
    pub is_support: bool,
    pub verdicts: [u8; 12],
    pub stability: Option<u32>,
    pub permitted: Option<u32>,
    pub column: u32,
}

impl Report {
    pub fn verdict(&self, check: usize) -> u8 {
        self.verdicts[check - 1]
    }

    /// The pole checks are 7 and 8, and 8 when not due counts as passed.
    pub fn poles_pass(&self) -> bool {
        self.verdict(7) == 1 && self.verdict(8) != 2
    }

    /// Check 12 is due in every scaffold job.
    pub fn height_passes(&self) -> bool {
        self.verdict(12) == 1
    }
}

/// None where the text does not have the form of a report.
pub fn read(bytes: &[u8]) -> Option<Report> {
    let text = std::str::from_utf8(bytes).ok()?;
    let lines: Vec<&str> = text.strip_suffix('\n')?.split('\n').collect();
    let is_support = match lines.len() {
        14 => true,
        15 => false,
        _ => return None,
    };
    let mut verdicts = [0; 12];
    for (index, verdict) in verdicts.iter_mut().enumerate() {
        let mut parts = lines[index].split(' ');
        if parts.next()?.parse() != Ok(index + 1) {
            return None;
        }
        *verdict = parts.next()?.parse().ok().filter(|verdict| *verdict <= 2)?;
    }
    let [stability, permitted] = if is_support { [None; 2] } else { heights(lines[12])? };
    let column = lines[lines.len() - 1].strip_prefix("column ")?.parse().ok()?;
    Some(Report { is_support, verdicts, stability, permitted, column })
}

/// Both heights of a height line, stability first.
fn heights(line: &str) -> Option<[Option<u32>; 2]> {
    match line.strip_prefix("height ")? {
        "none" => Some([None; 2]),
        heights => {
            let (stability, permitted) = heights.split_once(' ')?;
            Some([Some(stability.parse().ok()?), Some(permitted.parse().ok()?)])
        }
    }
}
