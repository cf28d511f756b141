//! Prints every refusal, one to a line: its name, a tab, what it says. scripts/test-messages.py compares them with README.md.

use lindenscoop::Refusal;

fn main() {
    for refusal in Refusal::ALL {
        println!("{refusal:?}\t{refusal}");
    }
}
