//! How fast the tool writes here, and from that the moments to kill it at. Each round corrects the measure, so that the
//! moments fall into the writing on a slow disk and on a fast one.
use crate::draw::Draw;
use crate::killed_process::{End, Moment};
use std::time::Duration;

pub struct Pace {
    /// Seconds from the start of the process to its end, where it writes one sector.
    short: f64,
    /// Seconds from the start of the process to its first write.
    quiet: f64,
    /// Seconds for each sector written.
    each: f64,
    /// Where in the writing the last moment was to fall: 0 at its beginning, 1 at its end.
    aim: f64,
}

impl Pace {
    /// From the time of a run that writes one sector and of one that writes `sectors`.
    pub fn new(short: Duration, long: Duration, sectors: usize) -> Pace {
        let each = long.saturating_sub(short).as_secs_f64() / sectors as f64;
        Pace {
            short: short.as_secs_f64(),
            quiet: short.as_secs_f64(),
            each: each.max(1e-6),
            aim: 0.0,
        }
    }

    /// The most sectors to save: so many that a save takes some 30 milliseconds, where a disk has room for them.
    pub fn most_sectors(&self) -> usize {
        (0.03 / self.each).clamp(24.0, 1000.0) as usize
    }

    /// A moment to kill a save of so many sectors: one in ten before its first write, some after its last, most between.
    pub fn moment(&mut self, draw: &mut Draw, sectors: usize) -> Moment {
        self.aim = draw.part() * 1.3 - 0.13;
        if self.aim < 0.0 {
            return Moment::AfterStart(Duration::from_secs_f64(self.quiet * draw.part()));
        }
        Moment::AfterFirstWrite(Duration::from_secs_f64(self.aim * self.each * sectors as f64))
    }

    /// A moment to kill a change that writes one sector.
    pub fn short_moment(&self, draw: &mut Draw) -> Moment {
        Moment::AfterStart(Duration::from_secs_f64(self.short * 1.3 * draw.part()))
    }

    /// What the last moment came to: `written` of `sectors`.
    pub fn learn(&mut self, end: &End, written: usize, sectors: usize) {
        if self.aim < 0.0 {
            self.quiet *= if written > 0 { 0.8 } else { 1.05 };
            return;
        }
        if written > 0 && written < sectors {
            self.each += 0.3 * (end.lived.as_secs_f64() / written as f64 - self.each);
        } else if self.aim < 1.0 {
            self.each *= 0.8;
        }
        self.each = self.each.max(1e-6);
    }

    pub fn words(&self) -> String {
        format!(
            "{:.2} ms to the first write, {:.3} ms for each sector",
            1e3 * self.quiet,
            1e3 * self.each
        )
    }
}
