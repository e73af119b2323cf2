//! The calls of `test/book.rows`, and the texts of the refusals, by `test/codes.h`.
use zaulinte::book::{Book, Refused};

const ROWS: &str = include_str!("../../test/book.rows");
const CODES: &str = include_str!("../../test/codes.h");

fn text(code: u64) -> &'static str {
    let line = CODES.lines().find(|line| line.starts_with(&format!("CODE({code}, "))).unwrap();
    line.split('"').nth(1).unwrap()
}

// Makes a call, and returns its answer as a row has it.
fn answer(made: &mut Option<Book>, name: &str, numbers: &[u64]) -> Result<String, Refused> {
    let (word, number) = (|k: usize| numbers[k], |k: usize| numbers[k] as usize);
    if name == "make" {
        *made = Some(Book::new(number(0), number(1), number(2))?);
        return Ok("0".into());
    }
    let book = made.as_mut().unwrap();
    let inside = match name {
        "enter" => book.enter(number(0))?,
        "leave" => book.leave(number(0))?,
        "wait" => book.wait(number(0), number(1), word(2))?,
        "signal" => book.signal(number(0), number(1))?,
        "signal_to" => book.signal_to(number(0), number(1), number(2))?,
        "pass" => book.pass(number(0), number(1))?,
        "notify" => book.notify(number(0), number(1))?,
        "broadcast" => book.broadcast(number(0), number(1))?,
        "now" => book.now(),
        "places" => return Ok(book.places().to_string()),
        "conditions" => return Ok(book.conditions().to_string()),
        "outside" => return Ok(u8::from(book.outside(number(0))?).to_string()),
        "queue" => return Ok(u8::from(book.first(number(0))?.is_some()).to_string()),
        "first" => return Ok(book.first(number(0))?.map_or("0".into(), |first| format!("1 {first}"))),
        "count" => return Ok(format!("0 {}", book.count(number(0))?)),
        _ => {
            assert_eq!(name, "free");
            *made = None;
            return Ok("0".into());
        }
    };
    assert_ne!(inside, Some(64));
    Ok(inside.map_or("64".into(), |place| place.to_string()))
}

#[test]
fn each_call_gives_the_answer_of_its_row() {
    let mut book = None;
    for row in ROWS.lines().filter(|row| !row.is_empty() && !row.starts_with('#') && !row.starts_with("c ")) {
        let (call, wanted) = row.split_once(" = ").unwrap();
        let (name, numbers) = call.split_once(' ').unwrap_or((call, ""));
        let numbers: Vec<u64> = numbers.split_terminator(' ').map(|number| number.parse().unwrap()).collect();
        let said = answer(&mut book, name, &numbers).unwrap_or_else(|refused| refused.to_string());
        let wanted = wanted.parse().ok().filter(|&code| code > 100).map_or(wanted, text);
        assert_eq!(said, wanted, "{row}");
    }
    assert_eq!(Refused::NoMemory.to_string(), text(111)); // no row is refused so
}
