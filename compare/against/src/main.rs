//! Compares the proved listing of very many sheets with the second model's.
//! The sheets are the same in every run.

use against::boundaries::{self, Boundary, CABLED, MESH};
use against::check::Checker;
use against::damage;
use against::faults;
use against::random::Random;
use against::sheets::{self, Size, LARGE, SMALL};
use model::sheet::Plan;
use std::process::ExitCode;

fn main() -> ExitCode {
    match compare() {
        Ok(summary) => {
            println!("the proved library lists what the second model lists: {summary}");
            ExitCode::SUCCESS
        }
        Err(report) => {
            println!("{report}");
            ExitCode::FAILURE
        }
    }
}

fn compare() -> Result<String, String> {
    let mut checker = Checker::new(Random::new(1));
    let mut random = Random::new(2);
    boundary_sheets(&mut checker)?;
    every_mesh(&mut checker, &mut random)?;
    lawful_sheets(&mut checker, &mut random)?;
    faulty_sheets(&mut checker, &mut random)?;
    damaged_sheets(&mut checker, &mut random)?;
    checker.tally.summary()
}

fn boundary_sheets(checker: &mut Checker) -> Result<(), String> {
    for Boundary { name, sheet, line } in boundaries::all() {
        let listing = checker
            .check("boundary", &sheet)
            .map_err(|report| format!("boundary {name}\n{report}"))?;
        let mut lines = listing.split(|byte| *byte == b'\n');
        if !lines.any(|found| found == line.as_bytes()) {
            return Err(format!(
                "boundary {name}\nboth listings lack the line {line}"
            ));
        }
    }
    Ok(())
}

fn every_mesh(checker: &mut Checker, random: &mut Random) -> Result<(), String> {
    for width in 1..=LARGE.nodes {
        for height in 1..=LARGE.nodes / width {
            for _ in 0..2 {
                let sheet = sheets::on(random, Plan::Mesh(width, height), Vec::new(), LARGE);
                lawful(checker, &sheets::text(&sheet))?;
            }
        }
    }
    Ok(())
}

fn lawful_sheets(checker: &mut Checker, random: &mut Random) -> Result<(), String> {
    // Runs long enough for all flits to come off, and a few of the longest.
    let ended = Size {
        cycles: 3_000,
        ..LARGE
    };
    let longest = Size {
        nodes: 12,
        cycles: 65_535,
        ..LARGE
    };
    for (size, count) in [(SMALL, 6_000), (LARGE, 2_000), (ended, 100), (longest, 12)] {
        for _ in 0..count {
            lawful(checker, &sheets::text(&sheets::lawful(random, size)))?;
        }
    }
    Ok(())
}

fn lawful(checker: &mut Checker, sheet: &[u8]) -> Result<(), String> {
    let listing = checker.check("lawful", sheet)?;
    if listing.starts_with(b"fault") {
        let sheet = sheet.escape_ascii();
        return Err(format!("both find a fault in the lawful sheet {sheet}"));
    }
    Ok(())
}

fn faulty_sheets(checker: &mut Checker, random: &mut Random) -> Result<(), String> {
    for size in [SMALL, LARGE] {
        for _ in 0..2_000 {
            let sheet = sheets::lawful(random, size);
            let sheet = faults::faulty(random, sheet);
            checker.check("faulty", &sheets::text(&sheet))?;
        }
    }
    Ok(())
}

fn damaged_sheets(checker: &mut Checker, random: &mut Random) -> Result<(), String> {
    for sheet in [MESH, CABLED].map(boundaries::lines) {
        damage::everywhere(sheet.as_bytes(), |sheet| {
            checker.check("damaged", sheet).map(drop)
        })?;
    }
    for _ in 0..30_000 {
        let sheet = sheets::text(&sheets::lawful(random, SMALL));
        checker.check("damaged", &damage::damaged(random, &sheet))?;
    }
    for _ in 0..2_000 {
        checker.check("damaged", &damage::noise(random))?;
    }
    Ok(())
}
