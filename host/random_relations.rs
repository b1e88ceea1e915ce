//! Prints what the program crates/random_relations has to print: the same
//! generator, written again from the comment at its head, and the answers of
//! the second program.

mod second;

use second::{Form, Message, FIRST_FORM, SECOND_FORM};

/// "There are 2400 turns of the first form, and then 1280 of the second"
const TURNS: usize = 2_400;
const TURNS64: usize = 1_280;
/// "Both tables start as 520 bytes 0."
const TABLE: usize = 520;
/// "The quarters 0 to 7"
const QUARTERS: [u64; 8] = [1, 2, 3, 4, 6, 10, 24, 100];
/// "Each byte of the output is 255 before the call."
const UNTOUCHED: u8 = 255;

/// "The state is a number that starts as 1."
struct Generator {
    state: u64,
}

impl Generator {
    /// "A draw makes it state * 48271 mod 2147483647 and gives it."
    fn draw(&mut self, modulus: u64) -> u64 {
        self.state = self.state * 48_271 % 2_147_483_647;
        self.state % modulus
    }

    fn message(&mut self, n: usize) -> Message {
        Message(self.draw(n as u64) as usize)
    }

    /// Fewer pairs than `bound`, as they are drawn.
    fn pairs(&mut self, n: usize, bound: u64) -> Vec<Pair> {
        let number = self.draw(bound);
        (0..number).map(|_| (self.message(n), self.message(n))).collect()
    }

    /// Steps 2 to 4: the causes and the stalls, with the quarters of these two
    /// places.
    fn relations(&mut self, n: usize, causes_density: usize, stalls_density: usize) -> (Vec<Pair>, Vec<Pair>) {
        let shape = self.draw(4);
        if shape == 1 {
            let mut stalls: Vec<Pair> = (0..n).map(|i| (Message((i + 1) % n), Message(i))).collect();
            stalls.extend(self.pairs(n, 4));
            return ((0..n).map(|i| (Message(i), Message(i))).collect(), stalls);
        }
        let mut causes = self.pairs(n, n as u64 * QUARTERS[causes_density] / 4 + 1);
        let mut stalls = self.pairs(n, n as u64 * QUARTERS[stalls_density] / 4 + 1);
        if shape >= 2 {
            for (from, to) in causes.iter_mut() {
                (*from, *to) = ((*from).min(*to), (*from).max(*to));
            }
            for (from, to) in stalls.iter_mut() {
                (*from, *to) = ((*from).max(*to), (*from).min(*to));
            }
        }
        (causes, stalls)
    }
}

/// From the first message to the second.
type Pair = (Message, Message);

fn set_pair(form: Form, table: &mut [u8], from: Message, to: Message) {
    table[form.row_bytes * from.0 + to.0 / 8] |= 1 << (to.0 % 8);
}

fn table_of(form: Form, pairs: &[Pair]) -> Vec<u8> {
    let mut table = vec![0; TABLE];
    for &(from, to) in pairs {
        set_pair(form, &mut table, from, to);
    }
    table
}

/// "the digits 0 to 9, a to z and A to Z for 0 to 61, + for 62, - for 63, a dot for
/// 255, and a question mark for everything else"
fn shown(byte: u8) -> char {
    let digits = b"0123456789abcdefghijklmnopqrstuvwxyzABCDEFGHIJKLMNOPQRSTUVWXYZ+-";
    match byte {
        0..=63 => char::from(digits[usize::from(byte)]),
        UNTOUCHED => '.',
        _ => '?',
    }
}

/// Makes the call and gives its line. That of an accepted call ends in the word
/// `joins` and their number; that of a refused call has neither.
fn line(form: Form, n: u64, causes: &[u8], stalls: &[u8], room: usize) -> String {
    let answer = second::relations_in(form, n, causes, stalls, room);
    let mut out = vec![UNTOUCHED; room];
    out[..answer.bytes.len()].copy_from_slice(&answer.bytes);
    let second::Numbers { number, length, networks, needed, pairs, joins } = answer.numbers();
    let output: String = out.into_iter().map(shown).collect();
    let told = if number == 0 { format!(" joins {}", joins) } else { String::new() };
    format!("{} {} {} {} {} {} {}{}", n, number, length, networks, needed, pairs, output, told)
}

/// One turn, in the six steps of the comment. In the first form there are faults
/// from round 64 on, in the second from round 16 on.
fn turn(generator: &mut Generator, form: Form, t: usize) -> String {
    let Form { row_bytes, most_messages: most } = form;
    let (round, n) = (t / most, t % most + 1);
    let stalls_density = if form == FIRST_FORM { round / 8 } else { round + 3 * (round / 8) };
    let (causes, stalls) = generator.relations(n, round % 8, stalls_density % 8);
    let (mut causes, stalls) = (table_of(form, &causes), table_of(form, &stalls));
    let mut room = n + generator.draw(4) as usize;
    let first_fault = if form == FIRST_FORM { 64 } else { 16 };
    let fault = if round >= first_fault { generator.draw(8) } else { 0 };
    let given = match fault {
        1 => 0,
        2 => n + most,
        _ => n,
    };
    let causes_length = row_bytes * n - usize::from(fault == 3);
    let stalls_length = row_bytes * n + usize::from(fault == 4);
    if (fault == 5 || fault == 7) && n < most {
        set_pair(form, &mut causes, Message(n - 1), Message(n));
    }
    if fault == 6 || fault == 7 {
        room = n - 1;
    }
    line(form, given as u64, &causes[..causes_length], &stalls[..stalls_length], room)
}

fn main() {
    let mut generator = Generator { state: 1 };
    for t in 0..TURNS {
        println!("{}", turn(&mut generator, FIRST_FORM, t));
    }
    for t in 0..TURNS64 {
        println!("{}", turn(&mut generator, SECOND_FORM, t));
    }
}
