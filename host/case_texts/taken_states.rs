//! Items of request C-12: the staller two steps back.

use super::*;

pub fn all() -> Vec<Item> {
    let mut items = protocols(by_hand());
    items.extend(protocols(chains_and_rings()));
    items.extend(protocols(around_a_stable_state()));
    items.extend(protocols(numbered()));
    items.extend(protocols(refused_and_not()));
    items.extend(long_texts());
    items.extend(["msi_stall_in_A_only", "msi_stall_in_A_only.old"].map(example));
    items.extend(a_few_random());
    items
}

/// Messages x, which is stalled, and a, b and so on; the event e; states I and J,
/// which are stable, and P, Q and R of both controllers.
fn with_states(cells: &[String]) -> Vec<u8> {
    let mut lines = vec![HEADER.to_string(), "message\tx\tfwd".into()];
    lines.extend("abcdfg".chars().map(|name| format!("message\t{}\treq", name)));
    lines.push("event\te".into());
    for controller in ["cache", "dir"] {
        for (name, kind) in [("I", "stable"), ("P", "transient"), ("Q", "transient"), ("J", "stable"), ("R", "transient")] {
            lines.push(format!("state\t{}\t{}\t{}", controller, name, kind));
        }
    }
    lines.extend_from_slice(cells);
    text_of(&lines)
}

/// `IaP` is a cell of `cache` from I to P triggered by a, `QeR+bc` one by the
/// event that sends b and c, `-R` stalls x in R. After `/` it is one of `dir`.
fn cell(word: &str) -> String {
    let (controller, word) = match word.strip_prefix('/') {
        Some(rest) => ("dir", rest),
        None => ("cache", word),
    };
    if let Some(state) = word.strip_prefix('-') {
        return format!("cell\t{}\t{}\tx\tstall", controller, state);
    }
    let (path, sent) = word.split_once('+').unwrap_or((word, ""));
    let mut line = format!("cell\t{}\t{}\t{}\tgo\t{}", controller, &path[..1], &path[1..2], &path[2..]);
    sent.chars().for_each(|name| line.push_str(&format!("\t{}", name)));
    line
}

/// These cells, parted by blanks.
fn with_words(words: &str) -> Vec<u8> {
    with_states(&words.split(' ').map(cell).collect::<Vec<_>>())
}

// ---------------------------------------------------------------------
// Few states
// ---------------------------------------------------------------------

/// "A customer's cache goes from a stable state to P1 sending Get, then to P2 on
/// Data, and stalls Fwd in P2." Then what stands close to it.
fn by_hand() -> Vec<Vec<u8>> {
    let customer = [
        "message\tGet\treq", "message\tFwd\tfwd", "message\tInv\tfwd", "message\tData\tdata", "message\tAck\tctl", "event\tstore",
        "state\tcache\tI\tstable", "state\tcache\tP1\ttransient", "state\tcache\tP2\ttransient", "state\tcache\tM\tstable",
        "state\tdir\tD\tstable", "cell\tcache\tI\tstore\tgo\tP1\tGet", "cell\tcache\tP1\tData\tgo\tP2", "cell\tcache\tP2\tFwd\tstall",
        "cell\tcache\tP2\tAck\tgo\tM", "cell\tcache\tM\tFwd\tgo\tI\tData", "cell\tcache\tI\tInv\tgo\tI\tAck",
        "cell\tdir\tD\tGet\tgo\tD\tFwd", "cell\tdir\tD\tGet\tgo\tD\tData\tInv",
    ];
    let mut texts = vec![after_header(&customer), after_header(&customer[..18])];
    // P1 is stable.
    let stable: Vec<String> = customer.iter().map(|line| line.replace("P1\ttransient", "P1\tstable")).collect();
    texts.push(after_header(&stable.iter().map(|line| line.as_str()).collect::<Vec<_>>()));
    let words = [
        // One, two and three states back, cells in any order.
        "IaR -R", "IaQ QbR -R", "IaP PbQ QcR -R", "-R QcR PbQ IaP", "PbQ -R IaP QcR", "IaP PbQ QcR -Q", "IaP PbQ QcR -P -Q -R",
        // A part is missing; two ways.
        "IaP QcR -R", "IaP PbQ IdR -R", "IaP PbR IdQ QcR -R", "IaP JbP PcR -R", "IaP IbQ IcR PdQ QfR -R",
        // Rings, with R in them, before R, after R.
        "PaQ QbR RcP -R", "PaQ QbR RcP JdP -R", "QbR RaQ -R", "PaQ QdP QbR -R", "IdR RcP PaQ QbP -R", "PaQ QbP IcR -R -P",
        // No step by a stable state, but its cells are entries.
        "IaP PbJ JcR -R", "PaI IbQ QcR -R", "IaQ JbQ QcR JdR -R", "RaI PbI IcR -R", "RaP PbI IcR -R",
        // Events, which send some or nothing; what a message's cell sends.
        "IaQ QeR -R", "IeQ+ab QeR+c -R", "IeP+a PeQ QeR -R", "IeQ QbR -R", "IaQ+d QbR+d -R", "IeQ+x QeR -R", "IxQ QeR -R",
        // Cells that stay in their state.
        "RaR -R", "IaQ QbQ QcR RdR -R", "QbQ QeR -R", "QeQ+b QeR -R", "RaR IbR -R", "RaR RbQ QcR -R",
        // Cells of the other controller, and both.
        "IaR /IbQ /QcR -R", "IaQ /QbR QcR /IdQ -R", "/IaQ /QbR PcQ QdR /-R", "IaQ QbR /IcQ /QdR -R /-R", "/IaP /PbQ /QcR /-R",
        "/PaQ /QbR /RcP /-Q", "IaQ /QbR -R", "/IaQ QeR -R",
    ];
    texts.extend(words.iter().map(|words| with_words(words)));
    texts
}

/// Each of these links missing, gone along by a message of its own, or by an event
/// that sends nothing: chains of up to three transient states, and rings.
fn chains_and_rings() -> Vec<Vec<u8>> {
    let links = [('I', 'P'), ('P', 'Q'), ('Q', 'R'), ('R', 'P'), ('Q', 'P')];
    let mut texts = Vec::new();
    for mut choice in 0..3_usize.pow(5) {
        let mut words = Vec::new();
        for ((from, to), name) in links.iter().zip("abcdf".chars()) {
            match choice % 3 {
                0 => {}
                1 => words.push(format!("{}{}{}", from, name, to)),
                _ => words.push(format!("{}e{}", from, to)),
            }
            choice /= 3;
        }
        words.push("-R".into());
        texts.push(with_words(&words.join(" ")));
    }
    texts
}

/// Each of these links missing or not, on `dir`: a stable state on the way.
fn around_a_stable_state() -> Vec<Vec<u8>> {
    let links = ["/IaP", "/PbJ", "/JcR", "/PdR", "/RfP", "/JgP"];
    let chosen = |choice: usize| {
        let words = links.iter().enumerate().filter(|(place, _)| choice >> place & 1 == 1).map(|(_, word)| *word);
        words.chain(["/-R"]).collect::<Vec<_>>().join(" ")
    };
    (0..64).map(|choice| with_words(&chosen(choice))).collect()
}

// ---------------------------------------------------------------------
// Many states
// ---------------------------------------------------------------------

/// States s0 and so on, all of `cache` and all transient but for those in `stable`,
/// and cells along an order of them, each by the message of its place. The last
/// message is stalled; the last step of a ring is by the first message again.
fn along(order: &[usize], stable: &[usize], ring: bool, stalled: &[usize]) -> Vec<u8> {
    let count = order.len();
    let mut lines = vec![HEADER.to_string()];
    lines.extend((0..count).map(|i| format!("message\tm{}\treq", i)));
    lines.extend((0..count).map(|i| {
        let kind = if stable.contains(&i) { "stable" } else { "transient" };
        format!("state\tcache\ts{}\t{}", i, kind)
    }));
    let steps = if ring { count } else { count - 1 };
    lines.extend((0..steps).map(|i| {
        format!("cell\tcache\ts{}\tm{}\tgo\ts{}", order[i], i % (count - 1), order[(i + 1) % count])
    }));
    lines.extend(stalled.iter().map(|i| format!("cell\tcache\ts{}\tm{}\tstall", i, count - 1)));
    text_of(&lines)
}

/// Chains and rings of up to 64 states whose numbers rise, fall, or jump; whole,
/// and cut by a stable state.
fn numbered() -> Vec<Vec<u8>> {
    let mut texts = Vec::new();
    for count in [2, 3, 4, 8, 33, 64] {
        let rising: Vec<usize> = (0..count).collect();
        let falling: Vec<usize> = (0..count).rev().collect();
        // Each second number, then the others back.
        let jumping: Vec<usize> = (0..count).step_by(2).chain((0..count).rev().filter(|i| i % 2 == 1)).collect();
        for order in [rising, falling, jumping] {
            let (last, middle) = (order[count - 1], order[count / 2]);
            texts.push(along(&order, &[], false, &[last]));
            texts.push(along(&order, &[order[0]], false, &[last]));
            if middle != last {
                texts.push(along(&order, &[middle], false, &[last]));
                texts.push(along(&order, &[middle], true, &[last]));
                texts.push(along(&order, &[], true, &[middle]));
            }
        }
    }
    texts
}

/// The longest listings by the mended rule.
fn long_texts() -> Vec<Item> {
    let each_its_own: Vec<Network> = (0..64).map(Network).collect();
    let (unfit, hung) = limits::longest_unfit();
    vec![
        Item::Judge(limits::longest_plan(), limits::mapping_under(2, &each_its_own)),
        Item::Judge(limits::longest_cycle(), limits::mapping_under(2, &each_its_own)),
        Item::Judge(unfit, hung),
    ]
}

// ---------------------------------------------------------------------
// Refusal 13
// ---------------------------------------------------------------------

/// "13 is now given when no taken state has a carrier; its place is unchanged."
fn refused_and_not() -> Vec<Vec<u8>> {
    let words = [
        // Given by the old rule, and still.
        "-R", "QeR -R", "IeQ QeR -R", "IeP PeQ QeR -R", "QaQ QeR -R", "ReQ QeR -R", "PeQ QeR ReP -R", "IeR PaI -R", "QeR /IaQ -R",
        "/QaR -R", "RaQ -R", "RaP PbQ -R", "IeR JaI -R", "PaI IeQ QeR -R",
        // Given by the old rule, and no more.
        "IaQ QeR -R", "IeQ+a QeR -R", "IaP PeQ QeR -R", "IeP+a PeQ QeR -R", "PaQ QeR -R", "RaQ QeR -R", "RaP PeQ QeR -R",
        "PaQ QeP QeR -R", "IeP PaQ QeR -R", "IeQ JaQ QeR -R",
        // Of two stall cells: the first such line, where the old rule told another.
        "IaQ QeR -R /-P /-Q", "IaQ QeR /-P -R /-Q", "/-P IaQ QeR -R", "IaQ QeR -R -P", "IaQ QeR -P -R", "-R -P IaQ QeR", "-Q -R IaQ QeR",
        "-Q -R QeR", "-P -Q -R PaQ QeR", "-R -Q -P ReP PaQ QeR", "IaQ QeR -R /QeR /-R", "/IaQ /QbR /-R QeR -R IeQ",
    ];
    let mut texts: Vec<Vec<u8>> = words.iter().map(|words| with_words(words)).collect();
    // With a stalled event, which needs no entry, and with another refusal.
    for words in ["IaQ QeR -R", "IeQ QeR -R"] {
        let mut cells: Vec<String> = words.split(' ').map(cell).collect();
        for line in ["cell\tcache\tP\te\tstall", "cell\tcache\tR\tx\tgo\tI", "cell\tcache\tJ\tx\tstall", "cell\tdir\tR\te\tgo\tI"] {
            cells.push(line.to_string());
            texts.push(with_states(&cells));
            cells.pop();
        }
    }
    texts
}

// ---------------------------------------------------------------------
// A few random texts
// ---------------------------------------------------------------------

/// Small and larger ones with chains of transient states, some damaged.
fn a_few_random() -> Vec<Item> {
    let mut random = Random::new(12);
    let mut items = Vec::new();
    while items.len() < 150 {
        let whole = match items.len() % 4 {
            0 => random::protocol_text(&mut random),
            1 => random::wide_protocol_text(&mut random),
            _ => random::small_protocol_text(&mut random),
        };
        let damaged = random.chance(1, 6);
        let text = if damaged { random::damage(&mut random, &whole) } else { whole };
        if text.len() < 2_000 {
            let mapping = random::mapping_text_under(2, &mut random, &text);
            items.push(Item::Judge(text, mapping));
        }
    }
    items
}
