//! The printed page.
use super::meaning::{plain, Judged};
use super::sheets::Line;
use super::{logs, sheets};

/// The page; of a sheet or a log that is refused, the refusal's number and its line.
pub fn page(rules: &[u8], steps: &[u8]) -> Result<String, (u8, String)> {
    let sheet = sheets::read(rules).map_err(|(number, line, field)| (number, format!("refused,{number},{line},{field}\n")))?;
    let words = logs::read(steps, 512).map_err(|(number, line)| (number, format!("refused,{number},{line}\n")))?;
    let judged = Judged::new(&sheet, &words, plain(&sheet));
    let rule = sheet.nodes.len() - 1;
    let verdicts: Vec<u8> = judged.holds[rule].iter().map(|h| *h as u8).collect();
    let mut lines: Vec<String> = verdicts.iter().enumerate().map(|(i, v)| format!("{i},{v}")).collect();
    lines.push(format!("rule,{},held,{},of,{}", verdicts[0], judged.held(), verdicts.len()));
    let shown = match sheet.nodes[rule] {
        Line::Some(..) | Line::Every(..) => judged.walk(rule, 0),
        _ => None,
    };
    lines.push(match shown {
        None => "walk,none".to_string(),
        Some(walk) => walk.iter().fold(format!("walk,{}", walk.len()), |line, e| format!("{line},{e}")),
    });
    Ok(lines.iter().map(|l| format!("{l}\n")).collect())
}
