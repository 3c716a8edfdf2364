//! One case: a list of calls on one sheet, made on two who answer, everything compared after each.

use crate::crash;
use crate::guard::Guarded;
use crate::operation::{Lent, Operation, Reply};
use crate::reply::Station;

/// What is lent to a list of calls.
#[derive(Debug, Clone, PartialEq, Eq)]
pub struct Case {
    pub sheet: Vec<u8>,
    pub frame: Vec<u8>,
    pub output: Vec<u8>,
    pub operations: Vec<Operation>,
    /// Whether the tested slices end, or else start, at a guard page.
    pub at_end: bool,
}

/// Where two answers differ first.
#[derive(Debug, Clone, PartialEq, Eq)]
pub struct Difference {
    pub operation: usize,
    pub what: String,
}

/// What a list of calls leaves.
#[derive(Debug, Clone, PartialEq, Eq)]
pub struct Outcome {
    pub replies: Vec<Reply>,
    pub sheet: Vec<u8>,
    pub frame: Vec<u8>,
}

/// The guarded buffers of the tested side.
pub struct Buffers {
    sheet: Guarded,
    frame: Guarded,
    output: Guarded,
    data: Guarded,
}

impl Default for Buffers {
    fn default() -> Self {
        let buffer = || Guarded::new(80_000);
        Self {
            sheet: buffer(),
            frame: buffer(),
            output: buffer(),
            data: buffer(),
        }
    }
}

impl Buffers {
    fn hold(&mut self, case: &Case) {
        self.sheet.hold(&case.sheet, case.at_end);
        self.frame.hold(&case.frame, case.at_end);
        self.output.hold(&case.output, case.at_end);
    }

    fn run(&mut self, operation: &Operation, tested: &dyn Station) -> Reply {
        let lent = Lent {
            sheet: self.sheet.slice(),
            frame: self.frame.slice(),
            output: self.output.slice(),
            data: self.data.slice(),
        };
        operation.call.run(tested, lent)
    }

    fn strayed(&mut self) -> bool {
        self.sheet.strayed() || self.frame.strayed() || self.output.strayed() || self.data.strayed()
    }
}

/// Who looks at each answer, beside the comparison.
pub trait Watch {
    /// A call, its reply, and the frame before and after it.
    fn answered(&mut self, operation: &Operation, reply: &Reply, before: &[u8], after: &[u8]);
}

fn different_byte(name: &str, expected: &[u8], tested: &[u8]) -> Option<String> {
    let at = (0..expected.len()).find(|at| expected[*at] != tested[*at])?;
    Some(format!(
        "{name} byte {at}: expected {:02X}, tested {:02X}",
        expected[at], tested[at]
    ))
}

/// Makes each call of a case on both, and compares the reply and every byte lent.
pub fn compare(
    case: &Case,
    oracle: &dyn Station,
    tested: &dyn Station,
    buffers: &mut Buffers,
    watch: &mut dyn Watch,
) -> Result<Outcome, Difference> {
    let Case {
        mut sheet,
        mut frame,
        mut output,
        ..
    } = case.clone();
    buffers.hold(case);
    let mut replies = Vec::new();
    let mut before = Vec::new();
    for (number, operation) in case.operations.iter().enumerate() {
        let differs = |what| Difference {
            operation: number,
            what,
        };
        before.clone_from(&frame);
        let lent = Lent {
            sheet: &mut sheet,
            frame: &mut frame,
            output: &mut output,
            data: &operation.data,
        };
        let expected = operation.call.run(oracle, lent);
        buffers.data.hold(&operation.data, case.at_end);
        crash::note(case, number);
        let reply = buffers.run(operation, tested);
        if reply != expected {
            let what = format!("reply: expected {expected:?}, tested {reply:?}");
            return Err(differs(what));
        }
        let bytes = different_byte("sheet", &sheet, buffers.sheet.slice())
            .or_else(|| different_byte("frame", &frame, buffers.frame.slice()))
            .or_else(|| different_byte("output", &output, buffers.output.slice()))
            .or_else(|| different_byte("data", &operation.data, buffers.data.slice()));
        if let Some(what) = bytes {
            return Err(differs(what));
        }
        if buffers.strayed() {
            return Err(differs("a byte beside a lent slice was written".into()));
        }
        watch.answered(operation, &expected, &before, &frame);
        replies.push(expected);
    }
    Ok(Outcome {
        replies,
        sheet,
        frame,
    })
}
