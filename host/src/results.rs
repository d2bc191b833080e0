//! What is made of the records at the end of a forecast.

use crate::balance::{self, Balances, Unbalanced};
use crate::carrier::Carried;
use crate::directory::{Directory, RESULTS};
use crate::figures::Accounts;
use crate::history::{BadRecord, History};
use crate::page::Page;
use crate::record::Stock;
use crate::record_files::{name, BadFile};
use crate::report;
use crate::scenario::Scenario;
use crate::view::READERS;
use interface::Calls;
use std::fs::{self, File};
use std::io::{BufReader, Write};

/// What is told of the results, beside the files.
pub struct Results {
    /// The order table.
    pub orders: String,
    /// What does not balance in the stock book.
    pub unbalanced: Vec<Unbalanced>,
}

/// Reads the records in a directory and writes the results beside them, the views and the stock book by `calls`. `stopped` says why the
/// forecast could not go on, if so.
pub fn write(
    calls: &impl Calls,
    directory: &Directory,
    scenario: &Scenario,
    carried: &Carried,
    stopped: Option<&str>,
) -> Result<Results, BadFile> {
    let accounts = accounts(directory, scenario)?;
    let Carried { progress, trace, most, .. } = carried;
    let page = Page { scenario, accounts: &accounts, progress, trace: &trace.entries, stopped };
    let balances = views_and_balances(calls, directory, scenario)?;
    let book = balance::years(&balances, accounts.years().map(|year| year.number));
    let [page_file, years, months, drivers, balance, lamps, places] = RESULTS;
    directory.write(years, |out| report::write_periods(out, "year", accounts.years()))?;
    directory.write(months, |out| report::write_periods(out, "month", accounts.months()))?;
    directory.write(drivers, |out| report::write_orders(out, accounts.years()))?;
    directory.write(balance, |out| report::write_balance(out, &book))?;
    directory.write(lamps, |out| report::write_lamps(out, &accounts.lamps))?;
    directory.write(places, |out| report::write_places(out, most))?;
    directory.write(page_file, |out| out.write_all(page.html().as_bytes()))?;
    directory.sync()?;
    let unbalanced = balance::unbalanced(&book);
    Ok(Results { orders: report::order_table(accounts.years()), unbalanced })
}

/// Writes what purchasing and maintenance see of each record; the balances of each.
fn views_and_balances(
    calls: &impl Calls,
    directory: &Directory,
    scenario: &Scenario,
) -> Result<Vec<Balances>, BadFile> {
    let mut balances = Vec::new();
    for (gateway, stock) in scenario.stocks().into_iter().enumerate() {
        let path = directory.path().join(name(gateway));
        let bad = |what| BadFile { path: path.clone(), what };
        let record = fs::read(&path).map_err(|error| BadFile::new(&path, error))?;
        for reader in READERS {
            let view = reader.view(calls, &record, Stock::New).map_err(bad)?;
            directory.write(&reader.file_name(gateway), |out| out.write_all(&view))?;
        }
        balances.push(Balances::of(calls, &record, stock).map_err(bad)?);
    }
    Ok(balances)
}

/// The accounts of the records in a directory.
fn accounts(directory: &Directory, scenario: &Scenario) -> Result<Accounts, BadFile> {
    let paths: Vec<_> =
        (0..scenario.gateways.len()).map(|own| directory.path().join(name(own))).collect();
    let mut files = Vec::new();
    for path in &paths {
        let file = File::open(path).map_err(|error| BadFile::new(path, error))?;
        files.push(BufReader::new(file));
    }
    let bad = |BadRecord { gateway, why }| BadFile::new(&paths[gateway], why);
    let mut accounts = Accounts::new(scenario.stocks());
    let mut history = History::new(files).map_err(bad)?;
    while let Some((gateway, record)) = history.read().map_err(bad)? {
        accounts.add(gateway, &record).map_err(|why| BadFile::new(&paths[gateway], why))?;
    }
    Ok(accounts)
}
