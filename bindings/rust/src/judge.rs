use crate::ffi;
use crate::{Refusal, Settings};

/// How a recorded run stands.
#[derive(Clone, Copy, Debug, PartialEq, Eq)]
pub enum Verdict {
    /// A conforming transmitter can have sent it.
    Pass,
    /// None can have; the index, from 0, of the first frame that breaks the rules, or the number of frames where the run ends
    /// within a packet.
    Fault(u64),
}

/// Judges a recorded run, frame by frame or a tape of frames at a time.
#[derive(Clone, Debug)]
pub struct Judge {
    settings: Settings,
    record: [u64; 4],
    store: Vec<u8>,
}

impl Judge {
    /// A judge of a run that has no frame yet.
    pub fn new(settings: Settings) -> Judge {
        Judge { settings, record: [0; 4], store: vec![0; settings.limit()] }
    }

    /// Takes the run's next frame, of any octets. Refused (`Last`) is one beyond the 16,777,216th.
    pub fn frame(&mut self, frame: &[u8]) -> Result<(), Refusal> {
        Refusal::check(ffi::judge_frame(
            &self.settings.numbers(),
            &mut self.record,
            &mut self.store,
            frame,
        ))
    }

    /// Takes the run's next frames, any number of them end to end, each of [`Settings::frame_length`] octets; an empty tape has none.
    /// The judge then stands as if they had been taken one by one. Refused is a tape with a frame beyond the 16,777,216th (`Last`), or
    /// one that ends within a frame (`Length`), which is no fault of the run; then no frame of it is taken.
    ///
    /// ```
    /// # fn main() -> Result<(), itzahuemo::Refusal> {
    /// use itzahuemo::{Judge, Multiplexer, Refusal, Settings, Verdict};
    ///
    /// let settings = Settings::new(66, 3, 10, 1024)?;
    /// let mut multiplexer = Multiplexer::new(settings);
    /// let tape = [multiplexer.idle()?, multiplexer.idle()?].concat();
    /// let mut judge = Judge::new(settings);
    /// assert_eq!(judge.tape(&tape[..35]), Err(Refusal::Length));
    /// judge.tape(&tape)?;
    /// assert_eq!(judge.verdict(), Verdict::Pass);
    /// judge.tape(&tape)?;
    /// assert_eq!(judge.verdict(), Verdict::Fault(2));
    /// # Ok(())
    /// # }
    /// ```
    pub fn tape(&mut self, tape: &[u8]) -> Result<(), Refusal> {
        Refusal::check(ffi::judge_tape(
            &self.settings.numbers(),
            &mut self.record,
            &mut self.store,
            tape,
        ))
    }

    /// How the run stands if it ends here.
    pub fn verdict(&self) -> Verdict {
        let mut answer = [0; 2];
        let refusal =
            ffi::judge_close(&self.settings.numbers(), &self.record, &self.store, &mut answer);
        assert!(refusal == 0, "a judge's own record is closed, and not refused {refusal}");
        match answer {
            [ffi::PASS, _] => Verdict::Pass,
            [_, index] => Verdict::Fault(index),
        }
    }
}

/// The verdict on a whole run.
pub fn judge<F: AsRef<[u8]>>(
    settings: Settings,
    frames: impl IntoIterator<Item = F>,
) -> Result<Verdict, Refusal> {
    let mut judge = Judge::new(settings);
    for frame in frames {
        judge.frame(frame.as_ref())?;
    }
    Ok(judge.verdict())
}
