//! Three parties and one order: pushed at the right end, popped at the left, and then there is none.
//! Prints `Pushed`, `Popped(7)` and `Empty`.
use pds::{Answer, Image, Operation, Refusal};

/// Starts an operation of a party and steps it to its answer.
fn operate(image: &mut Image, party: u32, operation: Operation) -> Result<Answer, Refusal> {
    image.start(party, operation)?;
    loop {
        match image.step(party, image.hint(operation))? {
            Answer::GoesOn => {}
            answer => return Ok(answer),
        }
    }
}

fn main() -> Result<(), Refusal> {
    let mut bytes = [0; pds::length(62, 4)];
    let mut image = Image::lay(&mut bytes, 62, 4, 31)?;
    println!("{:?}", operate(&mut image, 0, Operation::RightPush(7))?);
    println!("{:?}", operate(&mut image, 1, Operation::LeftPop)?);
    println!("{:?}", operate(&mut image, 2, Operation::LeftPop)?);
    Ok(())
}
