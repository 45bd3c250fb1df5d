//! How a drain's lines are written, and until when.
#![forbid(unsafe_code)]
use super::Drain;
use crate::part::wait;
use crate::workers;
use crate::writer::Asked;
use std::io::{self, Write};
use std::sync::atomic::{AtomicBool, Ordering};
use std::sync::Arc;

impl Drain {
    /// Writes the lines at hand, each with a newline behind it, until there is none; answers how many.
    ///
    /// Where a write fails, its line stays the next one, though a part of it may have gone out.
    ///
    /// # Errors
    /// What a write fails with. Its line stays the next one, though a part of it may have gone out.
    pub fn write_to<W: Write + ?Sized>(&mut self, out: &mut W) -> io::Result<u64> {
        self.write_out(&mut All(out))
    }

    /// As [`write_to`](Drain::write_to), the lines of each layer to the writer of its number. There have to be as many
    /// writers as layers, or more.
    ///
    /// # Errors
    /// Those of [`write_to`](Drain::write_to), and [`InvalidInput`](io::ErrorKind::InvalidInput) where there are too
    /// few writers.
    pub fn write_layers<W: Write>(&mut self, outs: &mut [W]) -> io::Result<u64> {
        self.write_out(&mut Each(outs))
    }

    /// Writes lines as they come, until the registry, its clones and its spans are gone and all lines are written;
    /// answers how many. Whenever none is at hand it flushes the writer, and looks again after half a millisecond.
    ///
    /// For a thread of its own. A clone of the registry that is kept, in a static or in this thread, makes it run for
    /// ever. A thread that is inside of a span by a forgotten guard may end after it; what it leaves then isn't read.
    /// Where a write fails, it answers that; it may be called again.
    ///
    /// # Errors
    /// What a write or a flush fails with; it may be called again.
    pub fn run<W: Write + ?Sized>(&mut self, out: &mut W) -> io::Result<u64> {
        self.run_out(&mut All(out), &NEVER)
    }

    /// As [`run`](Drain::run), and ends once `stop` is true: then the lines of all calls that were accepted by now are
    /// written and flushed, unless memory is refused, whatever spans are open and whatever other threads go on to do.
    ///
    /// Of the spans that are open then, 100 at most, each is told as an event `open` at `WARN` of the target
    /// `span_registry` to layers that admit that: `event 0 w256 - WARN open span=1 name=request place=src/main.rs:7
    /// handles=1 entries=0 children=0`. A layer of `app=info` admits it where it has `span_registry=warn` too.
    /// [`open_spans`](Drain::open_spans) tells all.
    ///
    /// # Errors
    /// Those of [`run`](Drain::run).
    pub fn run_until<W: Write + ?Sized>(&mut self, out: &mut W, stop: &AtomicBool) -> io::Result<u64> {
        self.run_out(&mut All(out), stop)
    }

    /// As [`run`](Drain::run), the lines of each layer to the writer of its number. There have to be as many writers
    /// as layers, or more.
    ///
    /// # Errors
    /// Those of [`run`](Drain::run), and [`InvalidInput`](io::ErrorKind::InvalidInput) where there are too few
    /// writers.
    pub fn run_layers<W: Write>(&mut self, outs: &mut [W]) -> io::Result<u64> {
        self.run_out(&mut Each(outs), &NEVER)
    }

    /// As [`run_until`](Drain::run_until), the lines of each layer to the writer of its number.
    ///
    /// # Errors
    /// Those of [`run_layers`](Drain::run_layers).
    pub fn run_layers_until<W: Write>(&mut self, outs: &mut [W], stop: &AtomicBool) -> io::Result<u64> {
        self.run_out(&mut Each(outs), stop)
    }

    fn write_out(&mut self, outs: &mut impl Outs) -> io::Result<u64> {
        self.write_while(outs, |_| true)
    }

    fn write_while(&mut self, outs: &mut impl Outs, goes_on: impl Fn(&Drain) -> bool) -> io::Result<u64> {
        outs.check(self.forms.len())?;
        let mut lines = 0;
        while let Some((layer, length)) = self.next_ready(&goes_on) {
            let part = self.parts.part(self.at as u32);
            let head = &mut self.heads[self.at];
            let line = head.with_newline(part, length);
            workers::writing(self.parts.common(), || outs.write(layer, line))?;
            head.ready = None;
            lines += 1;
        }
        Ok(lines)
    }

    // The lines of the calls that were accepted or are owed by now, and of what was lost.
    fn write_rest(&mut self, outs: &mut impl Outs) -> io::Result<u64> {
        let mut lines = self.write_sent(outs)?;
        if self.parts.all().any(|part| part.is_untold()) {
            lines += self.write_sent(outs)?;
        }
        lines += self.write_open(outs)?;
        self.flush(outs)?;
        Ok(lines)
    }

    // Tells which spans are open, and writes that. Where there is no memory for it, or others keep the ring full,
    // nothing more is told.
    fn write_open(&mut self, outs: &mut impl Outs) -> io::Result<u64> {
        let (mut lines, mut room) = (0, OPEN_AT_END);
        for place in 0..self.parts.count() {
            let part = Arc::clone(self.parts.part(place));
            let open = part.with(|state| state.open_spans()).unwrap_or_default();
            let mut left = &open[..open.len().min(room)];
            room -= left.len();
            for _turn in 0..OPEN_AT_END {
                let told = part.with(|state| state.tell_open(place, left)).unwrap_or(left.len());
                left = &left[told..];
                lines += self.write_sent(outs)?;
                if left.is_empty() {
                    break;
                }
            }
        }
        Ok(lines)
    }

    fn flush(&self, outs: &mut impl Outs) -> io::Result<()> {
        workers::writing(self.parts.common(), || outs.flush())
    }

    // Each call puts one batch into its part's ring.
    fn write_sent(&mut self, outs: &mut impl Outs) -> io::Result<u64> {
        for ((part, last), head) in self.parts.all().zip(&mut self.last).zip(&mut self.heads) {
            *last = part.with(|state| {
                part.tell(state);
                state.calls_by_now()
            });
            head.is_dry = false;
        }
        self.write_while(outs, Drain::has_more)
    }

    // Whether a part may have lines of the calls up to the last ones. Others may go on for ever in one part, while
    // nothing comes in another.
    fn has_more(&self) -> bool {
        let mut all = self.parts.all().zip(&self.last).zip(&self.heads);
        all.any(|((part, &last), head)| !head.is_dry && part.ring().lines().counts().0 <= last)
    }

    fn run_out(&mut self, outs: &mut impl Outs, stop: &AtomicBool) -> io::Result<u64> {
        let is_stopped = || stop.load(Ordering::Acquire);
        let lines = self.write_until(outs, is_stopped)?;
        let rest = if is_stopped() { self.write_rest(outs)? } else { 0 };
        Ok(lines + rest)
    }

    /// As [`run_until`](Drain::run_until), and does the flushes that are asked for in between.
    pub(crate) fn run_asked<W: Write>(&mut self, out: &mut W, asked: &Asked) -> io::Result<u64> {
        let (outs, mut lines) = (&mut All(out), 0);
        loop {
            lines += self.write_until(outs, || asked.is_something())?;
            if asked.is_stopped() {
                let flushes = asked.flushes();
                lines += self.write_rest(outs)?;
                flushes.into_iter().for_each(|flushes| asked.are_done(flushes));
                return Ok(lines);
            }
            let Some(flushes) = asked.flushes() else {
                return Ok(lines);
            };
            lines += self.write_sent(outs)?;
            self.flush(outs)?;
            asked.are_done(flushes);
        }
    }

    // Writes what comes, until nothing can come any longer or `pauses` says so.
    fn write_until(&mut self, outs: &mut impl Outs, pauses: impl Fn() -> bool) -> io::Result<u64> {
        let (mut lines, mut idle) = (0, 0u32);
        loop {
            let was_over = self.is_over();
            let more = self.write_while(outs, |_| !pauses())?;
            lines += more;
            if pauses() {
                return Ok(lines);
            }
            if more > 0 {
                idle = 0;
                continue;
            }
            if idle == 0 {
                self.flush(outs)?;
            }
            if was_over && !self.parts.common().owes() {
                return Ok(lines);
            }
            wait(idle);
            idle = idle.saturating_add(1);
        }
    }
}

/// Of how many open spans it is told at the end.
const OPEN_AT_END: usize = 100;

/// What stops no drain.
static NEVER: AtomicBool = AtomicBool::new(false);

/// Where lines are written.
trait Outs {
    fn check(&self, layers: usize) -> io::Result<()>;
    fn write(&mut self, layer: usize, line: &[u8]) -> io::Result<()>;
    fn flush(&mut self) -> io::Result<()>;
}

/// All layers to one writer.
struct All<'a, W: ?Sized>(&'a mut W);

/// Each layer to its own.
struct Each<'a, W>(&'a mut [W]);

impl<W: Write + ?Sized> Outs for All<'_, W> {
    fn check(&self, _layers: usize) -> io::Result<()> {
        Ok(())
    }

    fn write(&mut self, _layer: usize, line: &[u8]) -> io::Result<()> {
        self.0.write_all(line)
    }

    fn flush(&mut self) -> io::Result<()> {
        self.0.flush()
    }
}

impl<W: Write> Outs for Each<'_, W> {
    fn check(&self, layers: usize) -> io::Result<()> {
        if self.0.len() < layers {
            return Err(io::Error::new(io::ErrorKind::InvalidInput, "fewer writers than layers"));
        }
        Ok(())
    }

    fn write(&mut self, layer: usize, line: &[u8]) -> io::Result<()> {
        self.0[layer].write_all(line)
    }

    fn flush(&mut self) -> io::Result<()> {
        self.0.iter_mut().try_for_each(Write::flush)
    }
}

#[cfg(test)]
mod tests {
    use super::All;
    use crate::{Error, FmtSpan, Layer, Level, Meta, Parent, Registry};
    use std::cell::Cell;
    use std::io;

    #[test]
    fn it_ends_where_it_is_told_to_though_more_is_owed_that_has_no_line() -> Result<(), Error> {
        let layer = Layer::compact().with_span_events(FmtSpan::NONE);
        let (registry, mut drain) = Registry::builder().ring(1).layer(layer).build()?;
        let mut spans = Vec::new();
        for _ in 0..200 {
            assert_eq!(drain.line(), None);
            spans.push(registry.span(&Meta::new(Level::Info, "app", "a"), Parent::Root, &[])?);
        }
        // The last span fills the ring, and each look makes place for one of the closes.
        drop(spans);
        let looks = Cell::new(0);
        let lines = drain.write_while(&mut All(&mut io::sink()), |_| looks.replace(looks.get() + 1) < 100);
        assert_eq!((lines.expect("a sink takes all"), looks.get()), (0, 101));
        assert!(registry.counts().owed > 90);
        assert_eq!(drain.line(), None);
        assert_eq!(registry.counts().closed, 200);
        Ok(())
    }
}
