//! The numbers of a report: a table with a picture of the classes, and JSON.
use crate::tool::output::colour::{Style, StyledText};
use crate::tool::output::json::{listed, object, quoted};
use varnucht::Report;

/// The widths of the table: what a line is about, its number, and the longest bar, which ends in column 80.
const LABEL: usize = 26;
const NUMBER: usize = 10;
const BAR: usize = 80 - LABEL - NUMBER - 2;

/// The table: disks, files by kind, sectors, and files by their sectors, with a bar for each class.
pub fn table(report: &Report, unread: usize, colour: bool) -> String {
    let mut table = Table(StyledText::new(colour));
    table.count("disks", report.disks());
    table.count("  accepted", report.accepted());
    table.count("  refused", report.disks().wrapping_sub(report.accepted()));
    for (refusal, disks) in report.refusals() {
        table.line(&format!("    {:>2}", refusal.number()), disks, Style::Plain, refusal.words());
    }
    table.count("could not be read", u32::try_from(unread).unwrap_or(u32::MAX));
    table.count("files", report.files());
    for (kind, files) in report.kinds() {
        table.count(&format!("  {:>2} {kind}", kind.number()), files);
    }
    table.count("sectors of files", report.file_sectors());
    table.count("sectors free", report.free_sectors());
    table.0.add(Style::Plain, "files by their sectors\n");
    let most = report.classes().map(|(_, files)| files).max().unwrap_or(0);
    for (class, files) in report.classes() {
        table.line(&format!("  {class}"), files, Style::Hue(0), &"#".repeat(bar(files, most)));
    }
    table.0.finish()
}

/// The lines of a table.
struct Table(StyledText);

impl Table {
    /// What is counted, and how many.
    fn count(&mut self, label: &str, number: u32) {
        self.line(label, number, Style::Plain, "");
    }

    /// The same, and what stands behind it.
    fn line(&mut self, label: &str, number: u32, style: Style, more: &str) {
        self.0.add(Style::Plain, &format!("{label:<LABEL$}{number:>NUMBER$}"));
        if !more.is_empty() {
            self.0.add(Style::Plain, "  ");
            self.0.add(style, more);
        }
        self.0.add(Style::Plain, "\n");
    }
}

/// How long the bar of so many files is: the most have the longest, and no file alone has none.
fn bar(files: u32, most: u32) -> usize {
    (u64::from(files) * BAR as u64).div_ceil(u64::from(most.max(1))) as usize
}

/// The same numbers as one JSON object on one line.
pub fn json(report: &Report, unread: usize) -> String {
    let refused = report.refusals().map(|(refusal, disks)| {
        let (number, words) = (refusal.number(), quoted(refusal.words()));
        format!(r#"{{"number":{number},"words":{words},"disks":{disks}}}"#)
    });
    let kinds = report.kinds().map(|(kind, files)| {
        let (number, words) = (kind.number(), quoted(&kind.to_string()));
        format!(r#"{{"kind":{number},"words":{words},"files":{files}}}"#)
    });
    let classes = report.classes().map(|(class, files)| {
        let last = class.last().map_or("null".into(), |last| last.to_string());
        format!(r#"{{"from":{},"to":{last},"files":{files}}}"#, class.first())
    });
    let fields = [
        ("disks", report.disks().to_string()),
        ("accepted", report.accepted().to_string()),
        ("refused", listed(refused)),
        ("not_read", unread.to_string()),
        ("files", report.files().to_string()),
        ("kinds", listed(kinds)),
        ("file_sectors", report.file_sectors().to_string()),
        ("free_sectors", report.free_sectors().to_string()),
        ("classes", listed(classes)),
    ];
    object(fields) + "\n"
}
