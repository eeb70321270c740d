use linefeijoa::{Claim, Ledger, Refusal};

fn main() -> Result<(), Refusal> {
    let claim: Claim = "entails (s z) (at0 z) ft".parse()?;
    let mut ledger = Ledger::new(4_096)?; // empty
    let step = ledger.ask(&claim)?;
    print!("{}", ledger.listing());
    println!("yes {step}, passed {}", ledger.desk()?);
    Ok(())
}
