//! Whole sheets and their listings. Expected lines that stand in this file
//! were worked out by hand from the rules; six.listing was written by this
//! model from six.sheet, of the run that the proved program `trace` has.

use model::listing;

/// Lines parted by " / ", as the bytes of a sheet or a listing.
fn lines(text: &str) -> String {
    text.split(" / ").map(|line| format!("{line}\n")).collect()
}

fn listed(sheet: &[u8]) -> String {
    String::from_utf8(listing(sheet)).expect("listings are plain text")
}

#[track_caller]
fn gives(sheet: &str, expected: &str) {
    assert_eq!(listed(lines(sheet).as_bytes()), lines(expected));
}

#[track_caller]
fn bytes_give(sheet: &[u8], expected: &str) {
    assert_eq!(listed(sheet), lines(expected));
}

const EXAMPLE: &str =
    "mesh 2 1\nswitch chipper\nrun 1 2 4 1 3\ncables 0\npackets 1\n0 0 0 1 2 7 9\n";

#[test]
fn the_example() {
    bytes_give(
        EXAMPLE.as_bytes(),
        "0 in 0 0 0 / 1 in 0 1 0 / 1 out 0 0 1 / 2 out 0 1 1 / 2 done 0 7 9 / end 2 2 1.0",
    );
}

#[test]
fn six_packets() {
    let found = listed(include_bytes!("six.sheet"));
    assert!(found.starts_with("0 in 0 0 0\n"));
    assert_eq!(found, include_str!("six.listing"));
}

#[test]
fn mesh_sizes() {
    gives(
        "mesh 64 1 / switch bless / run 1 1 64 1 70 / cables 0 / packets 1 / 0 0 0 63 1 9",
        "0 in 0 0 0 / 63 out 0 0 63 / 63 done 0 9 / end 1 1 63.0",
    );
    let rest = "switch bless / run 1 1 4096 1 0 / cables 0 / packets 0";
    gives(&format!("mesh 13 5 / {rest}"), "fault layout 12 1");
    gives(&format!("mesh 1 64 / {rest}"), "end 0 0 -");
    gives(&format!("mesh 65 1 / {rest}"), "fault layout 12 1");
    gives(&format!("mesh 0 4 / {rest}"), "fault layout 12 1");
    gives(&format!("mesh 4 0 / {rest}"), "fault layout 12 1");
    gives(&format!("mesh 65536 65536 / {rest}"), "fault layout 12 1");
    gives(
        &format!("mesh 4294967295 4294967295 / {rest}"),
        "fault layout 12 1",
    );
    gives(&format!("mesh 4294967296 1 / {rest}"), "fault sheet 16 1");
}

#[test]
fn settings_at_their_limits() {
    gives(
        "mesh 64 1 / switch chipper / run 8 4 4096 65535 6 / cables 0 / packets 1 / 0 63 7 62 4 1 2 3 4",
        "0 in 511 0 63 / 1 out 511 0 62 / 1 in 511 1 63 / 2 out 511 1 62 / 2 in 511 2 63 / \
         3 out 511 2 62 / 3 in 511 3 63 / 4 out 511 3 62 / 4 done 511 1 2 3 4 / end 4 4 1.0",
    );
    let sheet =
        |run: &str| format!("mesh 64 1 / switch chipper / run {run} 0 / cables 0 / packets 0");
    gives(&sheet("9 4 4096 1"), "fault network 1 3");
    gives(&sheet("8 5 4096 1"), "fault network 1 3");
    gives(&sheet("0 4 4096 1"), "fault network 1 3");
    gives(&sheet("8 0 4096 1"), "fault network 1 3");
    gives(&sheet("9 5 4097 0"), "fault network 1 3");
    gives(&sheet("8 4 4097 1"), "fault network 2 3");
    gives(&sheet("8 4 4097 0"), "fault network 2 3");
    // Four words at a reach of 63 need 256 cycles.
    gives(&sheet("8 4 255 1"), "fault network 2 3");
    gives(&sheet("8 4 256 1"), "end 0 0 -");
    gives(&sheet("8 4 256 0"), "fault network 3 3");
    gives(&sheet("8 4 256 65536"), "fault network 3 3");
    gives(&sheet("8 4 256 4294967295"), "fault network 3 3");
    gives(&sheet("8 4 256 4294967296"), "fault sheet 16 3");
    gives(
        &sheet("4294967295 4294967295 4294967295 1"),
        "fault network 1 3",
    );
    gives(&sheet("1 4 4294967295 1"), "fault network 2 3");
}

#[test]
fn cycle_counts() {
    let sheet = |cycles: &str| {
        format!("mesh 1 1 / switch bless / run 1 1 1 1 {cycles} / cables 0 / packets 0")
    };
    gives(&sheet("0"), "end 0 0 -");
    gives(&sheet("65535"), "end 0 0 -");
    gives(&sheet("65536"), "fault sheet 16 3");
}

#[test]
fn sheet_lengths() {
    let mut sheet = EXAMPLE.as_bytes().to_vec();
    sheet.resize(65_536, b'x');
    bytes_give(&sheet, "fault sheet 16 7");
    sheet.push(b'\n');
    bytes_give(&sheet, "fault sheet 15 0");
    bytes_give(&vec![b'\n'; 65_536], "fault sheet 16 1");
    bytes_give(&vec![b'\n'; 65_537], "fault sheet 15 0");
}

/// 64 nodes, each with a cable to the next and one to the eighth on.
fn full_cabling() -> Vec<String> {
    (0..64)
        .flat_map(|n| {
            [
                format!("{n} E {} W", (n + 1) % 64),
                format!("{n} S {} N", (n + 8) % 64),
            ]
        })
        .collect()
}

fn cabled(nodes: &str, cables: &[String], rest: &str) -> String {
    let mut sheet = format!(
        "cabled {nodes} / switch chipper / run 1 1 64 1 4 / cables {}",
        cables.len()
    );
    for cable in cables {
        sheet.push_str(" / ");
        sheet.push_str(cable);
    }
    format!("{sheet} / {rest}")
}

#[test]
fn cable_counts() {
    let mut cables = full_cabling();
    assert_eq!(cables.len(), 128);
    gives(
        &cabled("64", &cables, "packets 1 / 0 0 0 63 1 9"),
        "0 in 0 0 0 / 1 out 0 0 63 / 1 done 0 9 / end 1 1 1.0",
    );
    gives(
        &cabled("64", &cables, "packets 1 / 0 0 0 63 2 9"),
        "fault sheet 16 134",
    );
    cables.push("0 E 0 E".to_string());
    gives(&cabled("64", &cables, "packets 0"), "fault sheet 17 4");
    let sheet = |plan: &str, count: &str| {
        format!("{plan} / switch bless / run 1 1 4 1 0 / cables {count} / packets 0")
    };
    gives(&sheet("cabled 1", "0"), "end 0 0 -");
    gives(&sheet("cabled 1", "4294967295"), "fault sheet 17 4");
    gives(&sheet("cabled 1", "4294967296"), "fault sheet 16 4");
    gives(&sheet("mesh 2 1", "4294967295"), "fault sheet 16 4");
    gives(&sheet("mesh 2 1", "129"), "fault sheet 16 4");
    gives(&sheet("mesh 2 1", "1"), "fault sheet 16 4");
    // A count line over its limit that lacks its byte 10.
    bytes_give(
        b"cabled 1\nswitch bless\nrun 1 1 4 1 0\ncables 129",
        "fault sheet 16 4",
    );
    bytes_give(
        b"cabled 1\nswitch bless\nrun 1 1 4 1 0\ncables 129\n",
        "fault sheet 17 4",
    );
    bytes_give(
        b"cabled 1\nswitch bless\nrun 1 1 4 1 0\ncables 0\npackets 257",
        "fault sheet 16 5",
    );
}

#[test]
fn packet_counts() {
    let head = "mesh 2 1\nswitch chipper\nrun 1 1 2 1 1\ncables 0\n";
    let packet = "0 0 0 1 1 8\n";
    let mut expected = String::new();
    for _ in 1..256 {
        expected.push_str("0 no 7 0 0\n");
    }
    expected.push_str("0 in 0 0 0\nend 1 0 -\n");
    let sheet = |count: usize| format!("{head}packets {count}\n{}", packet.repeat(count));
    assert_eq!(listed(sheet(256).as_bytes()), expected);
    bytes_give(sheet(257).as_bytes(), "fault sheet 17 5");
    bytes_give(
        format!("{head}packets 4294967295\n").as_bytes(),
        "fault sheet 17 5",
    );
    bytes_give(
        format!("{head}packets 4294967296\n").as_bytes(),
        "fault sheet 16 5",
    );
}

#[test]
fn cabling_faults() {
    let one = |nodes: &str, list: &[&str]| {
        let cables: Vec<String> = list.iter().map(|cable| cable.to_string()).collect();
        cabled(nodes, &cables, "packets 0")
    };
    gives(&one("3", &["0 E 1 W"]), "fault layout 14 4");
    gives(&one("2", &["0 E 1 W"]), "end 0 0 -");
    gives(&one("2", &["0 E 1 W", "1 N 0 E"]), "fault layout 13 6");
    gives(&one("3", &["0 E 1 W", "1 N 0 E"]), "fault layout 13 6");
    gives(&one("2", &["0 E 2 W"]), "fault layout 13 5");
    gives(&one("2", &["4294967295 E 0 W"]), "fault layout 13 5");
    gives(&one("2", &["4294967296 E 0 W"]), "fault sheet 16 5");
    gives(&one("2", &["0 E 0 E"]), "fault layout 13 5");
    gives(&one("1", &["0 E 0 W", "0 N 0 S"]), "end 0 0 -");
    gives(&one("0", &["0 E 1 W"]), "fault layout 12 1");
    gives(&one("65", &["0 E 99 W"]), "fault layout 12 1");
    gives(&one("4294967295", &[]), "fault layout 12 1");
    gives(&one("2", &["0 e 1 W"]), "fault sheet 16 5");
    gives(&one("2", &["0 X 9 W"]), "fault sheet 16 5");
    gives(&one("2", &["0 EE 1 W"]), "fault sheet 16 5");
    gives(&one("2", &["0 E 1"]), "fault sheet 16 5");
    gives(&one("2", &["0 E 1 W "]), "fault sheet 16 5");
}

#[test]
fn the_order_of_faults() {
    // A line's form comes before the layout, the layout before the set-up.
    gives(
        "mesh 13 5 / switch bless / run 0 0 0 0 0 / cables 0 / packets 1 / 0 0 0 1 0",
        "fault sheet 16 6",
    );
    gives(
        "mesh 13 5 / switch bless / run 0 0 0 0 0 / cables 0 / packets 0",
        "fault layout 12 1",
    );
    gives(
        "cabled 3 / switch bless / run 0 0 0 0 0 / cables 1 / 0 E 1 W / packets 0",
        "fault layout 14 4",
    );
    gives(
        "cabled 3 / switch bless / run 0 0 0 0 0 / cables 1 / 0 E 3 W / packets 0",
        "fault layout 13 5",
    );
    gives(
        "cabled 2 / switch bless / run 0 0 0 0 0 / cables 1 / 0 E 1 W / packets 0",
        "fault network 1 3",
    );
    gives(
        "cabled 2 / switch bless / run 1 2 3 0 0 / cables 1 / 0 E 1 W / packets 0",
        "fault network 2 3",
    );
    // The earlier line decides between 16 and 17.
    gives(
        "cabled 2 / switch bless / run 1 1 4 1 65536 / cables 129",
        "fault sheet 16 3",
    );
    gives(
        "cabled 2 / switch bless / run 1 1 4 1 0 / cables 129 / nonsense",
        "fault sheet 17 4",
    );
}

#[test]
fn missing_and_surplus_lines() {
    bytes_give(b"", "fault sheet 16 1");
    bytes_give(b"\n", "fault sheet 16 1");
    bytes_give(b"mesh 2 1", "fault sheet 16 1");
    bytes_give(b"mesh 2 1\n", "fault sheet 16 2");
    let mut cut = 0;
    for (index, line) in EXAMPLE.split_inclusive('\n').enumerate() {
        bytes_give(
            &EXAMPLE.as_bytes()[..cut],
            &format!("fault sheet 16 {}", index + 1),
        );
        cut += line.len();
        bytes_give(
            &EXAMPLE.as_bytes()[..cut - 1],
            &format!("fault sheet 16 {}", index + 1),
        );
    }
    bytes_give(format!("{EXAMPLE}\n").as_bytes(), "fault sheet 16 7");
    bytes_give(format!("{EXAMPLE} ").as_bytes(), "fault sheet 16 7");
    bytes_give(
        format!("{EXAMPLE}1 0 0 1 1 7\n").as_bytes(),
        "fault sheet 16 7",
    );
}

#[test]
fn bytes_out_of_place() {
    let changed = |from: &str, to: &str| EXAMPLE.replacen(from, to, 1).into_bytes();
    bytes_give(
        &EXAMPLE.replace('\n', "\r\n").into_bytes(),
        "fault sheet 16 1",
    );
    bytes_give(
        &EXAMPLE.replace('\n', "\r").into_bytes(),
        "fault sheet 16 1",
    );
    bytes_give(&changed("chipper\n", "chipper\r\n"), "fault sheet 16 2");
    bytes_give(&changed("7 9\n", "7 9\r\n"), "fault sheet 16 6");
    bytes_give(&changed("mesh 2", "mesh\t2"), "fault sheet 16 1");
    bytes_give(&changed("1 3\n", "1\t3\n"), "fault sheet 16 3");
    bytes_give(&changed("mesh 2 1", "mesh 2  1"), "fault sheet 16 1");
    bytes_give(&changed("mesh 2 1", " mesh 2 1"), "fault sheet 16 1");
    bytes_give(&changed("mesh 2 1", "mesh 2 1 "), "fault sheet 16 1");
    bytes_give(&changed("mesh 2 1", "Mesh 2 1"), "fault sheet 16 1");
    bytes_give(&changed("mesh 2 1", "mesh 2 1 1"), "fault sheet 16 1");
    bytes_give(&changed("mesh 2 1", "mesh 2"), "fault sheet 16 1");
    bytes_give(&changed("mesh 2 1", "cabled 2 1"), "fault sheet 16 1");
    bytes_give(&changed("mesh 2", "mesh 02"), "fault sheet 16 1");
    bytes_give(&changed("cables 0", "cables 00"), "fault sheet 16 4");
    bytes_give(&changed("packets 1", "packets 01"), "fault sheet 16 5");
    bytes_give(&changed("packets 1", "packet 1"), "fault sheet 16 5");
    bytes_give(&changed("7 9", "7 09"), "fault sheet 16 6");
    bytes_give(&changed("7 9", "7 -9"), "fault sheet 16 6");
    bytes_give(b"\xff\x00\n", "fault sheet 16 1");
}

#[test]
fn packet_lines() {
    let sheet = |packet: &str| {
        format!("mesh 2 1 / switch chipper / run 1 4 8 1 0 / cables 0 / packets 1 / {packet}")
    };
    for good in [
        "0 0 0 1 1 1",
        "4294967295 4294967295 4294967295 4294967295 1 4294967295",
        "0 0 0 0 4 1 2 3 4",
    ] {
        gives(&sheet(good), "end 0 0 -");
    }
    for bad in [
        "0 0 0 1 0",
        "0 0 0 1 5 1 2 3 4 5",
        "0 0 0 1 2 1",
        "0 0 0 1 1 1 2",
        "0 0 0 1 1 4294967296",
        "4294967296 0 0 1 1 1",
        "0 0 0 1",
        "0 0 0 1 4294967297 1",
        "",
    ] {
        gives(&sheet(bad), "fault sheet 16 6");
    }
    let head = "mesh 2 1 / switch chipper / run 1 4 8 1 0 / cables 0 / packets 3";
    gives(
        &format!("{head} / 1 0 0 1 1 1 / 3 0 0 1 1 1 / 2 0 0 1 1 1"),
        "fault sheet 16 8",
    );
    gives(
        &format!("{head} / 1 0 0 1 1 1 / 3 0 0 1 1 1 / 3 0 0 1 1 1"),
        "end 0 0 -",
    );
}

#[test]
fn refused_offers() {
    gives(
        "mesh 2 1 / switch chipper / run 1 1 2 1 1 / cables 0 / packets 8 / \
         0 2 0 9 2 1 1 / 0 0 1 9 2 1 1 / 0 0 0 2 2 1 1 / 0 0 0 0 2 1 1 / 0 0 0 1 2 1 1 / \
         0 0 0 1 1 1 / 0 0 0 1 1 1 / 0 4294967295 4294967295 1 1 1",
        "0 no 4 2 0 / 0 no 4 0 1 / 0 no 5 0 0 / 0 no 5 0 0 / 0 no 6 0 0 / 0 no 7 0 0 / \
         0 no 4 4294967295 4294967295 / 0 in 0 0 0 / end 1 0 -",
    );
}

#[test]
fn a_ticket_used_again_and_a_mean_cut_off() {
    // The three flits are under way for 1, 1 and 2 cycles.
    gives(
        "mesh 3 1 / switch chipper / run 1 1 3 1 8 / cables 0 / packets 5 / \
         0 0 0 1 1 5 / 1 0 0 1 1 5 / 2 0 0 1 1 6 / 4 0 0 2 1 7 / 8 0 0 2 1 7",
        "0 in 0 0 0 / 1 no 7 0 0 / 1 out 0 0 1 / 1 done 0 5 / 2 in 0 0 0 / 3 out 0 0 1 / \
         3 done 0 6 / 4 in 0 0 0 / 6 out 0 0 2 / 6 done 0 7 / end 3 3 1.3",
    );
}

#[test]
fn a_cable_to_another_side() {
    gives(
        "cabled 2 / switch bless / run 1 1 2 1 3 / cables 1 / 0 S 1 S / packets 1 / 0 0 0 1 1 5",
        "0 in 0 0 0 / 1 out 0 0 1 / 1 done 0 5 / end 1 1 1.0",
    );
}

#[test]
fn two_flits_at_their_destination() {
    let sheet = |switch: &str, tickets: u32, own: u32| {
        format!(
            "mesh 3 1 / switch {switch} / run {tickets} 1 3 1 5 / cables 0 / packets 2 / \
             0 0 {own} 1 1 5 / 0 2 {own} 1 1 6"
        )
    };
    // Ticket 0 is golden and goes first, though slot E comes before slot
    // W. The other takes first outputs to port N at the rim.
    gives(
        &sheet("chipper", 1, 0),
        "0 in 0 0 0 / 0 in 2 0 2 / 1 out 0 0 1 / 1 done 0 5 / 2 out 2 0 1 / 2 done 2 6 / end 2 2 1.5",
    );
    // The other leaves by E, the first free port, and must come back.
    gives(
        &sheet("bless", 1, 0),
        "0 in 0 0 0 / 0 in 2 0 2 / 1 out 0 0 1 / 1 done 0 5 / 3 out 2 0 1 / 3 done 2 6 / end 2 2 2.0",
    );
    // Neither ticket 1 nor ticket 5 is golden: slot order.
    gives(
        &sheet("chipper", 2, 1),
        "0 in 1 0 0 / 0 in 5 0 2 / 1 out 5 0 1 / 1 done 5 6 / 2 out 1 0 1 / 2 done 1 5 / end 2 2 1.5",
    );
}

#[test]
fn contests_for_one_port() {
    let sheet = |switch: &str, seed: u32| {
        format!(
            "mesh 3 1 / switch {switch} / run 1 1 3 {seed} 6 / cables 0 / packets 2 / \
             0 2 0 0 1 5 / 1 1 0 0 1 6"
        )
    };
    // Ticket 2 is in slot E of node 1 when ticket 1 enters slot N there;
    // both wish W. It is the register's fifth move: 1 gives 0B40h.
    gives(
        &sheet("chipper", 1),
        "0 in 2 0 2 / 1 in 1 0 1 / 2 out 1 0 0 / 2 done 1 6 / 3 out 2 0 0 / 3 done 2 5 / end 2 2 2.0",
    );
    // 32 gives 1, and the second input wins.
    gives(
        &sheet("chipper", 32),
        "0 in 2 0 2 / 1 in 1 0 1 / 2 out 2 0 0 / 2 done 2 5 / 3 out 1 0 0 / 3 done 1 6 / end 2 2 2.0",
    );
    // The older one wins; the other leaves by E and must come back.
    gives(
        &sheet("bless", 1),
        "0 in 2 0 2 / 1 in 1 0 1 / 2 out 2 0 0 / 2 done 2 5 / 4 out 1 0 0 / 4 done 1 6 / end 2 2 2.5",
    );
}

#[test]
fn the_epoch_decides() {
    let sheet = |epoch: u32| {
        format!(
            "mesh 3 1 / switch chipper / run 1 1 {epoch} 2048 7 / cables 0 / packets 2 / \
             2 2 0 0 1 5 / 3 1 0 0 1 6"
        )
    };
    // In cycle 3 the second epoch of three cycles has begun: ticket 1 is
    // golden, against the draw bit, which is 1 at the eleventh move.
    gives(
        &sheet(3),
        "2 in 2 0 2 / 3 in 1 0 1 / 4 out 1 0 0 / 4 done 1 6 / 5 out 2 0 0 / 5 done 2 5 / end 2 2 2.0",
    );
    // With epochs of four cycles it is not, and the draw bit decides.
    gives(
        &sheet(4),
        "2 in 2 0 2 / 3 in 1 0 1 / 4 out 2 0 0 / 4 done 2 5 / 5 out 1 0 0 / 5 done 1 6 / end 2 2 2.0",
    );
}

#[test]
fn everything_comes_off_in_time() {
    // Every node but the last sends four words to the last. Once the last
    // flit has entered, (9 + 1) × 20 more cycles are enough for all.
    for switch in ["chipper", "bless"] {
        let mut sheet =
            format!("mesh 3 3 / switch {switch} / run 1 4 20 9 1000 / cables 0 / packets 8");
        for node in 0..8 {
            sheet.push_str(&format!(" / 0 {node} 0 8 4 {node} 2 3 4"));
        }
        let found = listed(lines(&sheet).as_bytes());
        let last = found.lines().last().unwrap_or_default();
        assert!(last.starts_with("end 32 32 "), "{last}");
        for node in 0..8 {
            assert_eq!(
                found
                    .matches(&format!(" done {node} {node} 2 3 4\n"))
                    .count(),
                1
            );
        }
    }
}

#[test]
fn every_byte_in_every_place() {
    // Each answer is a fault line or ends in an `end` line.
    for place in 0..EXAMPLE.len() {
        for byte in 0..=255 {
            let mut sheet = EXAMPLE.as_bytes().to_vec();
            sheet[place] = byte;
            let found = listed(&sheet);
            let last = found.lines().last().unwrap_or_default();
            assert!(
                last.starts_with("end ")
                    || (found.starts_with("fault ") && last.len() + 1 == found.len())
            );
        }
    }
}
