//! One triple judged by all calls.

use compare::calls::Calls;
use compare::case::Case;
use compare::merging::judge::Wanted;
use compare::merging::Triple;
use compare::met::Given;
use compare::random::Random;
use compare::run::Judged;
use compare::tidying::Rooms;

/// What was told of a triple by the calls and the second program alike.
pub struct Told {
    /// What the calls gave for the triple, and for each text of it.
    pub given: [Given; 4],
    pub result: Wanted,
}

/// Merge of the three, then check, tidy and content of each; or what is
/// different. The generator draws the rooms, and where texts and buffers lie.
pub fn judge(calls: &dyn Calls, triple: &Triple, random: &mut Random) -> Result<Told, String> {
    let rooms = random.pick(&[Rooms::Few, Rooms::Few, Rooms::Few, Rooms::Many]);
    let merged = triple.told(calls, rooms, random)?;
    let mut given = [Given::default(); 4];
    given[0].merge = merged.codes;
    for (given, text) in given[1..].iter_mut().zip(&triple.texts) {
        *given = Case::unknown(&text[..]).judge(calls, rooms, random)?;
    }
    Ok(Told {
        given,
        result: merged.result,
    })
}
