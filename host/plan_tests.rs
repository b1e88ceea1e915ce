//! Tests of vn_plan_text and vn_judge_texts: the listings of the paper, each
//! refusal on both sides of its limit, the room, and the real protocols of
//! examples/. Every answer is compared as a packed number and byte by byte,
//! with what stands around it. host/pairs.rs has the random texts.

mod case_texts;
mod lent;
mod limits;
mod random;
mod second;
mod zeveltoren_texts;

use second::{Listing, Network};
use std::collections::BTreeSet;
use std::fs;
use zeveltoren_texts::{Paper, Refusal, LONGEST_LISTING, LONGEST_PLAN};

/// What host/case_texts.rs makes: a protocol alone, or with a mapping.
pub enum Item {
    Protocol(Vec<u8>),
    Judge(Vec<u8>, Vec<u8>),
}

// ---------------------------------------------------------------------
// Helpers
// ---------------------------------------------------------------------

/// A text as the paper prints it: `>` stands for a tab.
fn tabbed(lines: &[&str]) -> Vec<u8> {
    lines.iter().map(|line| format!("{}\n", line)).collect::<String>().replace('>', "\t").into()
}

/// The protocol of the paper that is called Bell.
fn bell() -> Vec<u8> {
    fs::read("examples/bell.tsv").expect("Bell is among the examples")
}

fn bell_and(lines: &[&str]) -> Vec<u8> {
    [bell(), tabbed(lines)].concat()
}

fn bell_mapping(ask: u8, pass: u8, give: u8, done: u8) -> Vec<u8> {
    bell_mapping_under("vn-mapping>1", [ask, pass, give, done])
}

fn bell_mapping_under(first: &str, networks: [u8; 4]) -> Vec<u8> {
    let names = ["Ask", "Pass", "Give", "Done"];
    let lines: Vec<String> = names.iter().zip(networks).map(|(name, to)| format!("map>{}>{}", name, to)).collect();
    let mut text = vec![first];
    text.extend(lines.iter().map(|line| line.as_str()));
    tabbed(&text)
}

fn planned(text: &[u8]) -> Result<Listing, Refusal> {
    let mut out = vec![0; LONGEST_LISTING];
    zeveltoren_texts::plan(text, &mut out).map(|length| out[..length].to_vec())
}

fn judged(protocol: &[u8], mapping: &[u8]) -> Result<Listing, Refusal> {
    let mut out = vec![0; LONGEST_LISTING];
    zeveltoren_texts::judge(protocol, mapping, &mut out).map(|length| out[..length].to_vec())
}

/// Of a whole line or text.
fn of_protocol(number: u8, line: usize) -> Result<Listing, Refusal> {
    of_protocol_at(number, line, 0)
}

fn of_protocol_at(number: u8, line: usize, field: usize) -> Result<Listing, Refusal> {
    Err(Refusal::Text { number, paper: Paper::Protocol, line, field })
}

fn of_mapping(number: u8, line: usize) -> Result<Listing, Refusal> {
    of_mapping_at(number, line, 0)
}

fn of_mapping_at(number: u8, line: usize, field: usize) -> Result<Listing, Refusal> {
    Err(Refusal::Text { number, paper: Paper::Mapping, line, field })
}

/// A plan with this much room, against the second program.
fn compare_plan(text: &[u8], room: usize) {
    let wanted = lent::wanted_with(&second::plan(text), room);
    assert_eq!(lent::given_plan(text, room), wanted, "{}", String::from_utf8_lossy(text));
}

fn compare_judgement(protocol: &[u8], mapping: &[u8], room: usize) {
    let wanted = lent::wanted_with(&second::judge(protocol, mapping), room);
    let given = lent::given_judgement(protocol, mapping, room);
    assert_eq!(given, wanted, "{}", String::from_utf8_lossy(&[protocol, mapping].concat()));
}

// ---------------------------------------------------------------------
// The listings of the paper, and the real protocols
// ---------------------------------------------------------------------

#[test]
fn listings_of_the_paper() {
    let plan = tabbed(&[
        "vn-plan>1", "class>3", "networks>2", "map>Ask>1", "map>Pass>0", "map>Give>0", "map>Done>0",
    ]);
    assert_eq!(planned(&bell()), Ok(plan));
    let hung = bell_and(&["cell>cache>ID>Pass>stall"]);
    assert_eq!(planned(&hung), Ok(tabbed(&["vn-plan>1", "class>2", "cycle>Pass"])));
}

#[test]
fn judgements_of_the_paper() {
    let fit = tabbed(&["vn-judge>1", "fit"]);
    let pass = tabbed(&["vn-judge>1", "unfit", "step>Ask>waits>Pass", "step>Pass>queues>Ask"]);
    let give = tabbed(&["vn-judge>1", "unfit", "step>Ask>waits>Give", "step>Give>queues>Ask"]);
    assert_eq!(judged(&bell(), &bell_mapping(0, 0, 0, 0)), Ok(pass));
    assert_eq!(judged(&bell(), &bell_mapping(0, 1, 0, 1)), Ok(give));
    assert_eq!(judged(&bell(), &bell_mapping(5, 9, 9, 9)), Ok(fit.clone()));
    assert_eq!(judged(&bell(), &bell_mapping(1, 0, 0, 0)), Ok(fit));
}

/// The files of examples/ that end so, without that ending.
fn examples_ending(ending: &str) -> Vec<String> {
    let entries = fs::read_dir("examples").expect("there are examples");
    let names = entries.map(|entry| entry.unwrap().file_name().into_string().unwrap());
    let stems: Vec<String> =
        names.filter_map(|name| name.strip_suffix(ending).map(|stem| stem.to_string())).collect();
    assert!(stems.len() > 5, "examples that end in {}", ending);
    stems
}

fn example(name: &str, ending: &str) -> Vec<u8> {
    fs::read(format!("examples/{}{}", name, ending)).expect(name)
}

#[test]
fn real_plans() {
    for name in examples_ending(".plan") {
        let text = example(&name, ".tsv");
        assert_eq!(planned(&text), Ok(example(&name, ".plan")), "{}", name);
        compare_plan(&text, LONGEST_LISTING);
    }
}

#[test]
fn real_judgements() {
    for name in examples_ending(".judge") {
        let (protocol, _) = name.rsplit_once('.').unwrap();
        let (text, mapping) = (example(protocol, ".tsv"), example(&name, ".mapping.tsv"));
        let wanted = match example(&name, ".judge") {
            refused if refused == b"refused\t9\t1\t34\t0\n" => of_mapping(9, 34),
            listing => Ok(listing),
        };
        assert_eq!(judged(&text, &mapping), wanted, "{}", name);
        compare_judgement(&text, &mapping, LONGEST_LISTING);
    }
}

/// The mapping that a plan prints, as a text under a header.
fn printed_under(header: usize, listing: &[u8]) -> Vec<u8> {
    let listing = String::from_utf8(listing.to_vec()).unwrap();
    let lines = listing.split_inclusive('\n').filter(|line| line.starts_with("map\t"));
    format!("vn-mapping\t{}\n{}", header, lines.collect::<String>()).into_bytes()
}

/// It is fit under header 2, and under header 1 where there are at most 32
/// messages and networks: a chain of waits has as many networks as messages.
#[test]
fn printed_mappings() {
    let fit = Ok(tabbed(&["vn-judge>1", "fit"]));
    for count in [2, 31, 32, 33, 47, 63, 64] {
        let protocol = limits::protocol_with_waits(count, &limits::in_a_row(count));
        let plan = planned(&protocol).unwrap();
        assert_eq!(judged(&protocol, &printed_under(2, &plan)), fit, "{}", count);
        let under_1 = if count <= 32 { fit.clone() } else { of_mapping_at(15, 2, 3) };
        assert_eq!(judged(&protocol, &printed_under(1, &plan)), under_1, "{}", count);
    }
}

// ---------------------------------------------------------------------
// Refusals on both sides of their limits
// ---------------------------------------------------------------------

/// One more line after Bell, which is line 18, and the number and the field that
/// it is refused with; number 0: it is accepted.
const AFTER_BELL: [(&str, u8, usize); 36] = [
    ("cell>cache>I>load>go>I", 0, 0),
    ("cell>cache>I>load", 4, 0),
    ("cell>cache>I>load>go", 4, 0),
    ("cell>cache>ID>Ask>stall>ID", 4, 0),
    ("cell>cache>I>load>go>I>Ask>Ask>Ask>Ask>Ask>Ask>Ask>Ask", 0, 0),
    ("cell>cache>I>load>go>I>Ask>Ask>Ask>Ask>Ask>Ask>Ask>Ask>Ask", 4, 0),
    ("", 4, 1),
    ("Cell>core>I>load>gone", 4, 1),
    ("message>New>ask", 4, 3),
    ("message>New>ask>", 4, 3),
    ("event>New>x", 4, 0),
    ("state>core>New>steady", 4, 2),
    ("state>dir>New>steady", 4, 4),
    ("cell>core", 4, 2),
    ("cell>core>X>Y>gone>Z", 4, 2),
    ("cell>cache>X>Y>gone>Z", 4, 5),
    ("message>New>req", 5, 0),
    ("event>New", 5, 0),
    ("state>dir>New>stable", 5, 0),
    ("cell>dir>Free>Pass>go>Free", 0, 0),
    ("cell>dir>Free>load>go>Free", 7, 4),
    ("cell>dir>ID>Ask>go>Free", 7, 3),
    ("cell>dir>ID>load>go>ID>load", 7, 3),
    ("cell>dir>Free>Ask>go>ID", 7, 6),
    ("cell>cache>I>load>go>I>load", 7, 7),
    ("cell>cache>I>load>go>I>Asks", 7, 7),
    ("cell>cache>I>load>go>I>Ask>Asks>Ask>Ask>Ask>Ask>Ask>load", 7, 8),
    ("cell>cache>I>load>go>I>Ask>Ask>Ask>Ask>Ask>Ask>Ask>load", 7, 14),
    ("cell>cache>V>Give>stall", 10, 0),
    ("cell>cache>ID>Ask>stall", 0, 0),
    ("cell>dir>Wait>Ask>stall", 11, 0),
    ("cell>dir>Wait>Ask>go>Free", 11, 0),
    ("cell>dir>Wait>Done>stall", 11, 0),
    ("cell>dir>Wait>Done>go>Wait", 0, 0),
    ("cell>cache>ID>load>stall", 0, 0),
    ("cell>cache>V>load>stall", 10, 0),
];

#[test]
fn refusals_of_a_line() {
    for (line, number, field) in AFTER_BELL {
        let text = bell_and(&[line]);
        let answer = planned(&text);
        let refused = of_protocol_at(number, 18, field);
        match number {
            0 => assert!(answer.is_ok(), "{}", line),
            _ => assert_eq!(answer, refused, "{}", line),
        }
        compare_plan(&text, LONGEST_LISTING);
        // The protocol is refused before the mapping is read.
        let right = if number == 0 { of_mapping(3, 1) } else { refused };
        assert_eq!(judged(&text, b""), right, "{}", line);
    }
}

#[test]
fn refusals_of_names() {
    let declared = |name: &str| planned(&tabbed(&["vn-protocol>1", &format!("message>{}>req", name)]));
    assert!(declared(&"n".repeat(24)).is_ok());
    assert_eq!(declared(&"n".repeat(25)), of_protocol_at(6, 2, 2));
    assert!(declared("n").is_ok());
    assert_eq!(declared(""), of_protocol_at(6, 2, 2));
    assert_eq!(declared("a b"), of_protocol_at(6, 2, 2));
    let twice = |second: &str| planned(&tabbed(&["vn-protocol>1", "message>a>req", second]));
    assert!(twice("message>A>req").is_ok());
    assert_eq!(twice("message>a>req"), of_protocol_at(8, 3, 2));
    assert_eq!(twice("event>a"), of_protocol_at(8, 3, 2));
    assert_eq!(twice("event>?"), of_protocol_at(6, 3, 2));
    assert_eq!(twice("state>dir>?>stable"), of_protocol_at(6, 3, 3));
    assert!(twice("state>dir>a>stable").is_ok());
    let states = ["vn-protocol>1", "message>a>req", "state>dir>a>stable", "state>dir>a>transient"];
    assert_eq!(planned(&tabbed(&states)), of_protocol_at(8, 4, 3));
}

#[test]
fn refusals_of_a_whole_protocol() {
    assert_eq!(planned(b""), of_protocol(3, 1));
    assert_eq!(planned(b"vn-protocol\t1"), of_protocol(2, 1));
    assert_eq!(planned(b"vn-protocol\t1\nmessage\ta\treq"), of_protocol(2, 2));
    assert_eq!(planned(b"vn-protocol\t2\n"), of_protocol(3, 1));
    assert_eq!(planned(b"vn-protocol\t1\n"), of_protocol(12, 0));
    let entered = ["vn-protocol>1", "message>a>req", "state>dir>S>stable", "state>dir>T>transient"];
    let with = |cells: &[&str]| planned(&tabbed(&[&entered[..], cells].concat()));
    assert_eq!(with(&["cell>dir>T>a>stall"]), of_protocol(13, 5));
    assert_eq!(with(&["cell>dir>S>a>go>S", "cell>dir>T>a>stall"]), of_protocol(13, 6));
    assert!(with(&["cell>dir>T>a>stall", "cell>dir>S>a>go>T"]).is_ok());
}

#[test]
fn texts_at_the_limits() {
    let full = limits::full();
    assert_eq!(full.len(), 49_152);
    compare_plan(&full, LONGEST_LISTING);
    assert!(planned(&full).is_ok());
    for past in limits::one_more_of_each() {
        assert_eq!(planned(&past.text), of_protocol(past.number as u8, past.line as usize));
        compare_plan(&past.text, LONGEST_LISTING);
        compare_judgement(&past.text, &bell_mapping(0, 0, 0, 0), LONGEST_LISTING);
    }
    // Fewer lines than messages, as many, and more, under each header.
    let networks: Vec<Network> = (0..66).map(|i| Network(i % 32)).collect();
    for messages in [31, 32, 33, 40, 64] {
        let full = limits::full_of(messages);
        for lines in [messages - 1, messages, messages + 1, 32, 33, 64, 65] {
            for header in [1, 2] {
                compare_judgement(&full, &limits::mapping_under(header, &networks[..lines]), LONGEST_LISTING);
            }
        }
    }
}

/// A protocol of so many messages and nothing else, and a mapping under a header:
/// right lines for the first so many, then these.
fn mapped(messages: usize, header: usize, right: usize, more: &[&str]) -> Result<Listing, Refusal> {
    let lines = |from: &dyn Fn(usize) -> String, count| (0..count).map(from).collect::<String>();
    let declared = lines(&|i| format!("message\tm{}\treq\n", i), messages);
    let maps = lines(&|i| format!("map\tm{}\t0\n", i), right);
    let protocol = format!("vn-protocol\t1\n{}", declared).into_bytes();
    let mapping = [format!("vn-mapping\t{}\n{}", header, maps).into_bytes(), tabbed(more)].concat();
    compare_judgement(&protocol, &mapping, LONGEST_LISTING);
    judged(&protocol, &mapping)
}

/// "under header 1 its 33rd `map` line is FULL [..] Header 2's 65th `map` line is
/// FULL; in a mapping 9 stands between 4 and 14."
#[test]
fn map_lines_of_each_header() {
    for (header, most) in [(1, 32), (2, 64)] {
        let line = most + 2;
        assert!(mapped(most, header, most, &[]).is_ok());
        for more in ["map>m0>0", "map>x>99", "map>>", &format!("map>m{}>0", most)] {
            assert_eq!(mapped(most, header, most, &[more]), of_mapping(9, line), "{}", more);
        }
        for more in ["map>m0>0>", &format!("map>m{}", most)] {
            assert_eq!(mapped(most, header, most, &[more]), of_mapping(4, line), "{}", more);
        }
        for more in ["Map>m0>0", "Map>m0", ""] {
            assert_eq!(mapped(most, header, most, &[more]), of_mapping_at(4, line, 1), "{}", more);
        }
        // Fewer messages than that: the first line too many is another message.
        assert_eq!(mapped(10, header, 10, &["map>m10>0"]), of_mapping(14, 12));
        assert_eq!(mapped(10, header, most + 1, &[]), of_mapping(14, 12));
        assert_eq!(mapped(most - 1, header, most, &[]), of_mapping(14, most + 1));
        assert_eq!(mapped(most, header, most - 1, &[]), of_mapping(14, most + 1));
    }
    for messages in [33, 40, 64] {
        assert_eq!(mapped(messages, 1, messages, &[]), of_mapping(9, 34));
        assert_eq!(mapped(messages, 1, 32, &[]), of_mapping(14, 34));
        assert_eq!(mapped(messages, 1, 32, &["map>x"]), of_mapping(4, 34));
        assert!(mapped(messages, 2, messages, &[]).is_ok());
    }
}

#[test]
fn refusals_of_mappings() {
    let with = |mapping: &[u8]| judged(&bell(), mapping);
    let four = |last: &str| with(&[bell_mapping(0, 0, 0, 0), tabbed(&[last])].concat());
    let ask = |first: &str, field: &str| {
        let text = [first, &format!("map>Ask>{}", field), "map>Pass>0", "map>Give>0", "map>Done>0"];
        with(&tabbed(&text))
    };
    for (first, highest, past) in [("vn-mapping>1", "31", "32"), ("vn-mapping>2", "63", "64")] {
        assert!(ask(first, highest).is_ok());
        for field in [past, "01", "00", "", "+1", "-1", "100", "4294967296"] {
            assert_eq!(ask(first, field), of_mapping_at(15, 2, 3), "{} {}", first, field);
        }
    }
    for first in ["vn-mapping>3", "vn-mapping>0", "vn-mapping>02", "vn-mapping> 2", "vn-mapping>2>", "vn-mapping>12"] {
        assert_eq!(with(&bell_mapping_under(first, [1, 0, 0, 0])), of_mapping(3, 1), "{}", first);
    }
    assert_eq!(with(b""), of_mapping(3, 1));
    assert_eq!(with(b"vn-mapping\t1"), of_mapping(2, 1));
    assert_eq!(with(b"vn-mapping\t1\n"), of_mapping(14, 2));
    assert_eq!(with(&tabbed(&["vn-mapping>1", "map>Ask>0"])), of_mapping(14, 3));
    assert_eq!(with(&tabbed(&["vn-mapping>1", "map>Pass>0"])), of_mapping_at(14, 2, 2));
    assert_eq!(with(&tabbed(&["vn-mapping>1", "map>Pass>99"])), of_mapping_at(14, 2, 2));
    assert_eq!(four("map>Done>0"), of_mapping(14, 6));
    assert_eq!(four("map>Done"), of_mapping(4, 6));
    assert_eq!(four("Map>Done"), of_mapping_at(4, 6, 1));
    for header in [1, 2] {
        assert_eq!(with(&limits::long_mapping(header, 49_153)), of_mapping(1, 0));
        assert_eq!(with(&limits::long_mapping(header, 49_152)), of_mapping_at(4, 2, 1));
    }
    // Of both papers: the protocol first.
    assert_eq!(judged(b"", b""), of_protocol(3, 1));
}

/// The chosen texts of host/case_texts.rs, through both calls. Each row of the
/// refusal table has to be among them, with each field that it can tell.
#[test]
fn chosen_texts() {
    let mut seen = BTreeSet::new();
    for item in case_texts::all() {
        let (protocol, mapping) = match item {
            Item::Protocol(text) => (text, b"vn-mapping\t1\n".to_vec()),
            Item::Judge(text, mapping) => (text, mapping),
        };
        compare_plan(&protocol, LONGEST_LISTING);
        compare_judgement(&protocol, &mapping, LONGEST_LISTING);
        if let Err(refused) = second::judge(&protocol, &mapping) {
            seen.insert((refused.paper, refused.number, refused.field));
        }
    }
    assert_eq!(seen, limits::all_refusals().into_iter().collect());
}

// ---------------------------------------------------------------------
// Room
// ---------------------------------------------------------------------

/// Every room up to a bit more than needed.
#[test]
fn every_room() {
    let hung = bell_and(&["cell>cache>ID>Pass>stall"]);
    for text in [&bell(), &hung] {
        let needed = planned(text).unwrap().len();
        for room in 0..needed + 4 {
            compare_plan(text, room);
        }
        assert_eq!(zeveltoren_texts::plan(text, &mut vec![0; needed - 1]), Err(Refusal::Room { needed }));
        assert_eq!(zeveltoren_texts::plan(text, &mut vec![0; needed]), Ok(needed));
    }
    for mapping in [bell_mapping(0, 0, 0, 0), bell_mapping(5, 9, 9, 9)] {
        let needed = judged(&bell(), &mapping).unwrap().len();
        for room in 0..needed + 4 {
            compare_judgement(&bell(), &mapping, room);
        }
        let mut short = vec![0; needed - 1];
        let answer = zeveltoren_texts::judge(&bell(), &mapping, &mut short);
        assert_eq!(answer, Err(Refusal::Room { needed }));
    }
}

/// The longest listings of each kind, with the room that they need, a byte
/// less, and far more than the packed length could say.
#[test]
fn room_for_long_listings() {
    let rooms = |needed: usize| [0, 1, needed / 2, needed - 1, needed, needed + 1, 4_096, 70_000];
    let lengths = [limits::longest_plan(), limits::longest_cycle(), limits::full()].map(|text| {
        let needed = planned(&text).unwrap().len();
        for room in rooms(needed) {
            compare_plan(&text, room);
        }
        needed
    });
    // 10 of the 64 networks have one digit.
    assert_eq!(lengths[..2], [LONGEST_PLAN - 10, 1_599]);
    let (protocol, mapping) = limits::longest_unfit();
    let needed = judged(&protocol, &mapping).unwrap().len();
    // 32 of the 64 steps are waits, a byte shorter than queues.
    assert_eq!(needed, LONGEST_LISTING - 32);
    assert_eq!((LONGEST_PLAN, LONGEST_LISTING), (2_078, 3_985));
    for room in rooms(needed) {
        compare_judgement(&protocol, &mapping, room);
    }
}

/// 16 comes after all refusals of texts.
#[test]
fn room_comes_last() {
    for room in [0, 1, 5] {
        compare_plan(b"", room);
        compare_plan(&bell_and(&["message>New>req"]), room);
        compare_judgement(&bell(), b"", room);
        compare_judgement(&bell(), &tabbed(&["vn-mapping>1"]), room);
        compare_judgement(b"x", b"x", room);
    }
    assert_eq!(zeveltoren_texts::plan(b"", &mut []), of_protocol(3, 1).map(|_| 0));
    assert_eq!(zeveltoren_texts::judge(&bell(), b"", &mut []), of_mapping(3, 1).map(|_| 0));
}

/// One text for both papers: the mapping's header is wrong.
#[test]
fn one_text_for_both() {
    assert_eq!(judged(&bell(), &bell()), of_mapping(3, 1));
}
