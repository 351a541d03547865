//! Sheets at the limits of the rules, each with a line of its listing.

pub struct Boundary {
    pub name: String,
    pub sheet: Vec<u8>,
    /// A line that the listing has: on which side of the limit the sheet is.
    pub line: String,
}

impl Boundary {
    fn new(
        name: impl Into<String>,
        sheet: impl Into<Vec<u8>>,
        line: impl Into<String>,
    ) -> Boundary {
        Boundary {
            name: name.into(),
            sheet: sheet.into(),
            line: line.into(),
        }
    }
}

pub fn all() -> Vec<Boundary> {
    let mut all = table(include_str!("boundaries.txt"));
    all.extend(epochs());
    all.extend(cable_counts());
    all.extend(used_ports());
    all.extend(packet_counts());
    all.extend(ends());
    all.extend(missing_lines());
    all.extend(spaces());
    all.extend(lengths());
    all.extend(largest());
    all.extend(crowds());
    all
}

/// Small sheets with lines of every kind.
pub const MESH: &str = "mesh 2 1 / switch chipper / run 1 2 4 1 3 / cables 0 / packets 1 / \
    0 0 0 1 2 7 9";
pub const CABLED: &str = "cabled 3 / switch bless / run 2 1 3 9 8 / cables 2 / 0 E 1 W / \
    2 S 1 N / packets 2 / 0 0 1 2 1 70 / 1 2 0 0 1 81";

/// The lines parted by " / ", each with its byte 10.
pub fn lines(text: &str) -> String {
    text.split(" / ").map(|line| format!("{line}\n")).collect()
}

/// What is no number of a sheet. Cut to 32 or 64 bits, or to the digits that
/// it begins with, each of the first ten would be one.
const NO_NUMBERS: [&str; 19] = [
    "4294967296",
    "4294967297",
    "4294967298",
    "18446744073709551616",
    "18446744073709551617",
    "340282366920938463463374607431768211457",
    "1.0",
    "1e0",
    "1_",
    "0x1",
    "01",
    "00",
    "0000000001",
    "+1",
    "-1",
    "-0",
    "/",
    ":",
    "",
];

/// The boundaries of a text in the form that boundaries.txt describes.
fn table(text: &str) -> Vec<Boundary> {
    let mut all = Vec::new();
    let mut with_hole = "";
    for row in text.lines().filter(|row| !row.starts_with("//")) {
        if let Some(sheet) = row.strip_prefix("= ") {
            with_hole = sheet;
        } else if let Some((filling, line)) = row.split_once(" : ") {
            let fillings = match filling {
                "no number" => &NO_NUMBERS[..],
                _ => &[filling],
            };
            for filling in fillings {
                let sheet = with_hole.replace('#', filling);
                all.push(Boundary::new(&sheet, lines(&sheet), line));
            }
        }
    }
    all
}

/// The smallest epochs of several layouts, and one cycle less.
fn epochs() -> Vec<Boundary> {
    let ring = "4 / 0 E 1 W / 1 E 2 W / 2 E 3 W / 3 E 0 W";
    let chain = "3 / 0 S 2 N / 2 S 1 N / 1 W 3 W";
    let mut all = Vec::new();
    for (plan, reach, cables) in [
        ("mesh 1 1", 0, "0"),
        ("mesh 2 1", 1, "0"),
        ("mesh 8 8", 14, "0"),
        ("mesh 64 1", 63, "0"),
        ("mesh 1 64", 63, "0"),
        ("cabled 1", 0, "0"),
        ("cabled 4", 2, ring),
        ("cabled 4", 3, chain),
    ] {
        for words in 1..=4 {
            let least = words * (reach + 1);
            for (epoch, line) in [(least, "end 0 0 -"), (least - 1, "fault network 2 3")] {
                let run = format!("run 1 {words} {epoch} 1 0");
                let sheet = format!("{plan} / switch bless / {run} / cables {cables} / packets 0");
                all.push(Boundary::new(&sheet, lines(&sheet), line));
            }
        }
    }
    all
}

/// 64 nodes with a cable at each of their ports.
fn full_cabling() -> Vec<String> {
    let mut cables = Vec::new();
    for node in 0..64 {
        cables.push(format!("{node} E {} W\n", (node + 1) % 64));
        cables.push(format!("{node} S {} N\n", (node + 8) % 64));
    }
    cables
}

fn cable_counts() -> Vec<Boundary> {
    let full = full_cabling();
    let fewer = &full[..127];
    let more = [&full[..], &["0 N 0 N\n".to_string()]].concat();
    let used = [fewer, &["0 E 1 W\n".to_string()]].concat();
    let mut all = Vec::new();
    for (nodes, count, cables, line) in [
        (64, 128, &full[..], "1 done 0 9"),
        (64, 127, fewer, "1 done 0 9"),
        (64, 129, &more, "fault sheet 17 4"),
        (64, 129, &full, "fault sheet 17 4"),
        (64, 129, &[], "fault sheet 17 4"),
        (64, 128, &more, "fault sheet 16 133"),
        (64, 128, fewer, "fault sheet 16 132"),
        (64, 128, &used, "fault layout 13 132"),
        (63, 128, &full, "fault layout 13 116"),
        (65, 128, &full, "fault layout 12 1"),
        (64, 62, &full[..62], "fault layout 14 4"),
    ] {
        let head = format!("cabled {nodes}\nswitch bless\nrun 1 1 64 1 2\ncables {count}\n");
        let name = format!("{nodes} nodes, cables {count}, but {}", cables.len());
        let cables = cables.concat();
        let sheet = format!("{head}{cables}packets 1\n0 0 0 63 1 9\n");
        all.push(Boundary::new(name, sheet, line));
    }
    all
}

/// A last cable to each port of 64 nodes, when all other ports are used.
fn used_ports() -> Vec<Boundary> {
    let cables = full_cabling()[..127].concat();
    let head = lines("cabled 64 / switch bless / run 1 1 64 1 0 / cables 128");
    let mut all = Vec::new();
    for node in 0..64 {
        for port in ["N", "E", "S", "W"] {
            let last = format!("63 S {node} {port}");
            let line = match &*last {
                "63 S 7 N" => "end 0 0 -",
                _ => "fault layout 13 132",
            };
            let sheet = format!("{head}{cables}{last}\npackets 0\n");
            all.push(Boundary::new(format!("a last cable {last}"), sheet, line));
        }
    }
    all
}

fn packet_counts() -> Vec<Boundary> {
    let mut all = Vec::new();
    for (count, packets, line) in [
        (0, 0, "end 0 0 -"),
        (0, 1, "fault sheet 16 6"),
        (1, 0, "fault sheet 16 6"),
        (255, 255, "0 no 7 0 0"),
        (256, 256, "0 no 7 0 0"),
        (256, 257, "fault sheet 16 262"),
        (256, 255, "fault sheet 16 261"),
        (257, 257, "fault sheet 17 5"),
        (257, 256, "fault sheet 17 5"),
        (257, 0, "fault sheet 17 5"),
    ] {
        let head = lines("mesh 2 1 / switch chipper / run 1 1 2 1 4 / cables 0");
        let name = format!("packets {count}, but {packets}");
        let packets = "0 0 0 1 1 8\n".repeat(packets);
        let sheet = format!("{head}packets {count}\n{packets}");
        all.push(Boundary::new(name, sheet, line));
    }
    all
}

/// How a sheet or a line of it ends.
fn ends() -> Vec<Boundary> {
    let sheet = lines(MESH);
    let unended = sheet.trim_end();
    let many = lines("cabled 2 / switch bless / run 1 1 4 1 0 / cables 129");
    let many = many.trim_end();
    let mut all = Vec::new();
    for (sheet, line) in [
        (String::new(), "fault sheet 16 1"),
        ("\n".to_string(), "fault sheet 16 1"),
        ("\n\n".to_string(), "fault sheet 16 1"),
        ("\0".to_string(), "fault sheet 16 1"),
        (unended.to_string(), "fault sheet 16 6"),
        (format!("{unended}\r"), "fault sheet 16 6"),
        (format!("{unended}\r\n"), "fault sheet 16 6"),
        (sheet.replace('\n', "\r\n"), "fault sheet 16 1"),
        (sheet.replace('\n', "\n\r"), "fault sheet 16 2"),
        (sheet.replace('\n', "\r"), "fault sheet 16 1"),
        (sheet.replace('\n', "\n\n"), "fault sheet 16 2"),
        (format!("\u{feff}{sheet}"), "fault sheet 16 1"),
        (format!("{sheet}\n"), "fault sheet 16 7"),
        (format!("{sheet} "), "fault sheet 16 7"),
        (format!("{sheet}\0"), "fault sheet 16 7"),
        (format!("{sheet}\r\n"), "fault sheet 16 7"),
        (format!("{sheet}0 0 0 1 1 7\n"), "fault sheet 16 7"),
        (format!("{many}\n"), "fault sheet 17 4"),
        (many.to_string(), "fault sheet 16 4"),
        (format!("{many} \n"), "fault sheet 16 4"),
        (format!("{many}\r\n"), "fault sheet 16 4"),
    ] {
        all.push(Boundary::new(format!("{sheet:?}"), sheet, line));
    }
    all
}

/// Sheets that end after each line, and before its byte 10.
fn missing_lines() -> Vec<Boundary> {
    let mut all = Vec::new();
    for sheet in [MESH, CABLED].map(lines) {
        let mut read = String::new();
        for (index, line) in sheet.split_inclusive('\n').enumerate() {
            let found = format!("fault sheet 16 {}", index + 1);
            all.push(Boundary::new(format!("{read:?}"), &*read, &found));
            read.push_str(line);
            let unended = read.trim_end();
            all.push(Boundary::new(format!("{unended:?}"), unended, &found));
        }
    }
    all
}

/// A byte too many, or another one, at every place that parts something.
fn spaces() -> Vec<Boundary> {
    let mut all = Vec::new();
    for sheet in [MESH, CABLED].map(lines) {
        for (place, _) in sheet.match_indices([' ', '\n']) {
            let (before, after) = sheet.split_at(place);
            let found = format!("fault sheet 16 {}", before.split('\n').count());
            for more in [" ", "\t", "\r", "\0", "\u{b}", "\u{a0}", ","] {
                let longer = format!("{before}{more}{after}");
                all.push(Boundary::new(format!("{longer:?}"), longer, &found));
            }
            if let Some(after) = after.strip_prefix(' ') {
                let tabbed = format!("{before}\t{after}");
                all.push(Boundary::new(format!("{tabbed:?}"), tabbed, &found));
            }
            if let Some(after) = after.strip_prefix('\n').filter(|rest| !rest.is_empty()) {
                let led = format!("{before}\n {after}");
                let found = format!("fault sheet 16 {}", before.split('\n').count() + 1);
                all.push(Boundary::new(format!("{led:?}"), led, found));
            }
        }
    }
    all
}

/// Sheets about as long as one may be. A lawful one is shorter by far, so
/// these have a filling that is never read, or that is the fault.
fn lengths() -> Vec<Boundary> {
    let sheet = lines(MESH);
    let run = "mesh 2 1\nswitch bless\nrun 1 1 4 1 ";
    let cables = "cabled 2\nswitch bless\nrun 1 1 4 1 1\ncables 129\n";
    let packets = "mesh 2 1\nswitch bless\nrun 1 1 4 1 1\ncables 0\npackets 257\n";
    let mut all = Vec::new();
    for (start, filling, found) in [
        ("", b'\n', "fault sheet 16 1"),
        ("", b'9', "fault sheet 16 1"),
        ("", b' ', "fault sheet 16 1"),
        ("", b'\0', "fault sheet 16 1"),
        (run, b'0', "fault sheet 16 3"),
        (run, b'1', "fault sheet 16 3"),
        (cables, b'\n', "fault sheet 17 4"),
        (packets, b'\n', "fault sheet 17 5"),
        (packets, b'x', "fault sheet 17 5"),
        (&sheet, b'\n', "fault sheet 16 7"),
        (&sheet, b'x', "fault sheet 16 7"),
    ] {
        for length in [65_535, 65_536, 65_537, 65_538, 131_072, 1_000_000] {
            let too_long = length > 65_536;
            let found = if too_long { "fault sheet 15 0" } else { found };
            for last in [filling, b'\n'] {
                let mut sheet = start.as_bytes().to_vec();
                sheet.resize(length - 1, filling);
                sheet.push(last);
                let name = format!("{length} bytes: {start:?}, {filling} and so on, {last}");
                all.push(Boundary::new(name, sheet, found));
            }
        }
    }
    all
}

/// The longest lawful sheet, with packets that are never offered and with
/// packets that are refused, and the longest listing.
fn largest() -> Vec<Boundary> {
    let most = "4294967295";
    let words = [most; 4].join(" ");
    let head = lines("cabled 64 / switch bless / run 8 4 4096 65535 1 / cables 128");
    let head = format!("{head}{}packets 256\n", full_cabling().concat());
    let mut all = Vec::new();
    for (cycle, line) in [(most, "end 0 0 -"), ("0", "0 no 4 4294967295 4294967295")] {
        let packet = format!("{cycle} {most} {most} {most} 4 {words}\n");
        let sheet = format!("{head}{}", packet.repeat(256));
        all.push(Boundary::new(format!("256 times {packet}"), sheet, line));
    }
    let mut sheet =
        lines("mesh 8 8 / switch chipper / run 8 4 4096 65535 65535 / cables 0 / packets 256");
    for node in 32..64 {
        for own in 0..8 {
            // To the node beside it, so that all come off before the end.
            sheet.push_str(&format!("65400 {node} {own} {} 4 {words}\n", node ^ 1));
        }
    }
    let name = "the longest listing";
    all.push(Boundary::new(name, sheet, "65400 in 256 0 32"));
    all
}

/// All that can be sent, to one node, so that flits wait as long as can be.
fn crowds() -> Vec<Boundary> {
    let mut all = Vec::new();
    for plan in ["mesh 64 1", "mesh 8 8"] {
        for switch in ["chipper", "bless"] {
            let head = format!("{plan} / switch {switch} / run 8 4 256 1 4000 / cables 0");
            let mut sheet = lines(&format!("{head} / packets 256"));
            for own in 0..8 {
                for node in 32..64 {
                    sheet.push_str(&format!("0 {node} {own} 0 4 1 2 3 4\n"));
                }
            }
            all.push(Boundary::new(
                format!("a crowd: {head}"),
                sheet,
                "0 in 256 0 32",
            ));
        }
    }
    all
}
