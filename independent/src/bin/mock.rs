//! A stand-in for the program under test, for trying out the comparison. It
//! answers a stream by this project's own functions, but works out tables by
//! the formulas alone and not by trying sets, so that the two ways are held
//! against each other as well.
//!
//! MOCK_WRONG=N spoils the last byte of answer N (from 0); MOCK_VARIANT=NAME
//! answers with that mistake (the formulas know no greedy choice).

use std::env;
use std::io::{self, Read, Write};

use independent::answer::{Method, Oracle, Origin};
use independent::malformed::MALFORMED;
use independent::stream::{Ask, Input};
use independent::variants::{Rules, Variant};

fn main() -> io::Result<()> {
    let mut stream = Vec::new();
    io::stdin().read_to_end(&mut stream)?;
    let wrong: Option<usize> = env::var("MOCK_WRONG").ok().and_then(|n| n.parse().ok());
    let variant = env::var("MOCK_VARIANT").ok().and_then(|name| Variant::named(&name));
    let oracle = Oracle { rules: Rules { variant }, method: Method::Formulas, ..Oracle::TRUE };
    let mut out = io::BufWriter::new(io::stdout().lock());
    let mut input = Input { left: &stream };
    let mut number = 0;
    while !input.left.is_empty() {
        let Some(ask) = Ask::decode(&mut input) else {
            out.write_all(MALFORMED)?;
            break;
        };
        let answer = oracle.answer(&ask, &Origin::default());
        let mut answer = answer.expect("the formulas never try sets");
        if wrong == Some(number)
            && let Some(last) = answer.last_mut()
        {
            *last ^= 1;
        }
        out.write_all(&answer)?;
        number += 1;
    }
    out.flush()
}
