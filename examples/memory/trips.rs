//! The query of examples/trips over tables that are made in memory: no file is read, and no process started.
//!
//!     cargo run --manifest-path rust/Cargo.toml --features command --example trips

use safebound::Command;
use std::io::{stdout, Write};
use std::process::ExitCode;

const SCHEMA: &str = "
    CREATE TABLE CITY (NAME VARCHAR(20) PRIMARY KEY, COUNTRY VARCHAR(2) NOT NULL);
    CREATE TABLE GUIDE (ID INTEGER PRIMARY KEY, NAME VARCHAR(20) NOT NULL);
    CREATE TABLE TRIP (CITY VARCHAR(20) NOT NULL, GUIDE INTEGER NOT NULL, PRICE INTEGER NOT NULL)
";
const QUERY: &str = "
    SELECT CITY.NAME, GUIDE.NAME, PRICE FROM CITY, TRIP, GUIDE
    WHERE CITY.COUNTRY = 'FR' AND TRIP.CITY = CITY.NAME AND TRIP.GUIDE = GUIDE.ID AND PRICE < 100
";

/// The program's own data. It becomes a table file.
const TRIPS: [(&str, u32, u32); 6] = [
    ("Lyon", 1, 80),
    ("Lyon", 2, 95),
    ("Turin", 1, 60),
    ("Paris, capital", 1, 120),
    ("Paris, capital", 3, 90),
    ("Turin", 3, 70),
];

fn main() -> Result<ExitCode, Box<dyn std::error::Error>> {
    let mut trips = String::from("CITY,GUIDE,PRICE\n");
    for (city, guide, price) in TRIPS {
        trips.push_str(&format!("\"{city}\",{guide},{price}\n"));
    }
    let output = Command::new(["run", "schema.sql", "query.sql"])
        .file("schema.sql", SCHEMA)
        .file("query.sql", QUERY)
        .file(
            "city.csv",
            "NAME,COUNTRY\nLyon,FR\n\"Paris, capital\",FR\nTurin,IT\nNantes,FR\n",
        )
        .file("guide.csv", "ID,NAME\n1,Ada\n2,Ben\n3,Cleo\n")
        .file("trip.csv", &trips)
        .run()?;
    stdout().write_all(&output.notes)?;
    stdout().write_all(&output.out)?;
    Ok(ExitCode::from(output.status as u8))
}
