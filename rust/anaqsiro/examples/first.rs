use anaqsiro::{Block, Half, Kind, Message, Name, Profile, Rights};

// Names: numbers below 1,024; 0 is the group of all resources.
const ANNA: Name = 1;
const FITTERS: Name = 2;
const LINE_2: Name = 9;

fn state(block: &mut Block, kind: Kind, key: Name, id: Name, letters: Rights) {
    match block.apply(Message::new(kind, None, Some(Half::new(key, id, letters)))) {
        Ok(()) => println!("accepted"),
        Err(refusal) => println!("{refusal}"),
    }
}

fn main() -> Result<(), anaqsiro::Refusal> {
    let mut block = Block::with_room(2048)?;
    state(&mut block, Kind::Membership, ANNA, FITTERS, Rights::ALL); // Anna is a fitter, with all that fitters may do
    state(&mut block, Kind::Permission, LINE_2, FITTERS, Rights::READ | Rights::UPDATE); // what fitters may do on line 2
    let yes = block.may(ANNA, LINE_2, Rights::UPDATE, Profile::Ordinary)?;
    println!("May Anna update line 2? {}", if yes { "yes" } else { "no" });
    Ok(())
}
