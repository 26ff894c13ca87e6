//! What each pair of a plan's entries conflicts over, as a listing. Clauses 3.2 and 3.4 of the specification.
use crate::plan::{Plan, Refusal};
use std::io::Write;

fn lines(bytes: &[u8]) -> Result<String, Refusal> {
    let plan = Plan::take(&mut &bytes[..])?;
    let (count, widened) = (plan.entries.len(), plan.widened());
    let mut out = String::new();
    for i in 0..count {
        for j in i..count {
            let shared = plan.shared(&widened, i, j);
            out += &match shared.first() {
                None => format!("{i} {j} none\n"),
                Some(lowest) => format!("{i} {j} {lowest} {}\n", shared.len()),
            };
        }
    }
    Ok(out + &format!("0 {count} refused 12\n"))
}

pub fn listing(bytes: &[u8], out: &mut impl Write) {
    let text = lines(bytes).unwrap_or_else(|number| format!("refused {number}\n"));
    out.write_all(text.as_bytes()).unwrap();
}
