//! `spot`: where a new element of a list goes.
use super::{arguments::Arguments, fine, input::Input, Failure, Outcome};
use gantrysnip::{explanation, Clock, Id};

pub fn run(arguments: &Arguments) -> Result<Outcome, Failure> {
    let clock = arguments.value("--clock", Some(Clock::everything()))?;
    let list: Id = arguments.value("--list", None)?;
    let target: u64 = arguments.value("--target", None)?;
    let document = Input::read(arguments.some_files()?)?.document()?;
    let spot = document.spot(&clock, list, target).map_err(|refusal| {
        let advice = explanation(refusal.number()).map_or("", |(_, advice)| advice);
        Failure::refused(format!("{refusal}\n  {advice}"))
    })?;
    let after = if spot.after == Id::HEAD { "head".into() } else { spot.after.to_string() };
    fine(format!("after {after}\nrow {}, counted from 0\n", spot.place))
}
