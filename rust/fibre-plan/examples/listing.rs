//! Plans four circuits on five links with two wavelengths, and prints the sheet.
use fibre_plan::{plan, Circuit, Grid, Line, Plan};
use std::process::ExitCode;

fn print(plan: &Plan, grid: Grid) {
    for f in &plan.fibres {
        println!("F {} {} {} {}", f.number, f.first, f.last, f.layer);
    }
    for a in &plan.assignments {
        let (fibre, wavelength) = (a.fibre, a.wavelength);
        println!(
            "C {} {fibre} {wavelength} {}",
            a.circuit,
            grid.frequency(wavelength)
        );
    }
    println!("T {} {} {}", plan.fibres.len(), plan.total, plan.floor);
}

fn main() -> ExitCode {
    let circuits =
        [(10, 1, 3), (20, 2, 5), (30, 1, 2), (40, 4, 5)].map(|(number, first, last)| Circuit {
            number,
            first,
            last,
        });
    let line = Line {
        links: 5,
        wavelengths: 2,
        grid: Grid::Ghz100,
    };
    match plan(line, &circuits) {
        Ok(plan) => {
            print(&plan, line.grid);
            ExitCode::SUCCESS
        }
        Err(refused) => {
            let (number, place, end) = (refused.number(), refused.place(), refused.end());
            println!("R {number} {place} {end}");
            ExitCode::FAILURE
        }
    }
}
