//! An explorer's afternoon, by names alone: opens a chain's metadata, shows a block's extrinsics
//! and events and an account by its key, writes a call, and sums balances.
//!
//!     explorer EXAMPLES
//!
//! EXAMPLES is the folder `examples` of this repository.

use scaleview::{Item, Metadata, OpenOptions, Storage, ValueRef};
use std::error::Error;
use std::fmt::Write;
use std::path::Path;
use std::{env, fs};

type Result<T> = std::result::Result<T, Box<dyn Error>>;

/// Returns a text of `0x` and two digits for each byte.
fn hex(bytes: &[u8]) -> String {
    bytes.iter().fold("0x".to_string(), |mut text, byte| {
        let _ = write!(text, "{byte:02x}");
        text
    })
}

/// Returns the bytes of a file. If its name ends with `.hex`, it is a text of their digits.
fn read(path: &Path) -> Result<Vec<u8>> {
    let bytes = fs::read(path)?;
    if path.extension().is_none_or(|extension| extension != "hex") {
        return Ok(bytes);
    }
    let text = String::from_utf8(bytes)?;
    let digits = text.trim().trim_start_matches("0x");
    let byte = |at| u8::from_str_radix(digits.get(at..at + 2).unwrap_or_default(), 16);
    let bytes: std::result::Result<Vec<u8>, _> = (0..digits.len()).step_by(2).map(byte).collect();
    Ok(bytes?)
}

/// Returns the pallet and the name of a call or an event, and what is inside.
fn named(outer: ValueRef<'_>) -> Option<(&str, &str, ValueRef<'_>)> {
    let pallet = outer.variant_name()?;
    let inner = outer.at(pallet)?;
    Some((pallet, inner.variant_name()?, inner))
}

fn number(value: ValueRef<'_>, path: &str) -> Option<u128> {
    value.at(path)?.as_u128()
}

fn show_extrinsic(metadata: &Metadata, bytes: &[u8]) -> Result<()> {
    let extrinsic = metadata.decode_extrinsic(bytes)?;
    let call = extrinsic.get("call").ok_or("no call")?;
    let (pallet, name, call) = named(call).ok_or("no pallet")?;
    println!("  {pallet}.{name}, {} bytes", bytes.len());
    let signer = extrinsic.at("signed.address.Id");
    if let Some(signer) = signer.and_then(|signer| signer.as_bytes()) {
        println!("    signed by {}", hex(signer));
    }
    if let Some(amount) = number(call, "value") {
        println!("    moves {amount}");
    }
    if let Some(bits) = call.at("bitfields").and_then(|bits| bits.as_bits()) {
        let available = bits.iter().filter(|is| *is).count();
        println!("    has data of {available} in {} cores", bits.len());
    }
    println!("    {}", call.to_web_json()?);
    Ok(())
}

/// Lists the events of each extrinsic.
fn show_events(events: Storage<'_>, bytes: &[u8]) -> Result<()> {
    let records = events.decode(bytes)?;
    println!("{} events:", records.children().len());
    for record in records.children() {
        let event = record.get("event").ok_or("no event")?;
        let (pallet, name, event) = named(event).ok_or("no pallet")?;
        let extrinsic = number(record, "phase.ApplyExtrinsic");
        let extrinsic = extrinsic.map_or("no extrinsic".into(), |one| format!("extrinsic {one}"));
        print!("  {extrinsic}: {pallet}.{name}");
        if let Some(amount) = number(event, "amount") {
            print!(" {amount}");
        }
        if let Some(who) = event.at("who").and_then(|who| who.as_bytes()) {
            print!(" of {}", hex(who));
        }
        println!();
    }
    Ok(())
}

/// Shows what a chain keeps of the account whose key this is.
fn show_account(accounts: Storage<'_>, key: &[u8], bytes: &[u8]) -> Result<()> {
    let key = accounts.decode_key(key)?;
    let id = key.at("key0").and_then(|id| id.as_bytes()).ok_or("no id")?;
    println!("the account {}:", hex(id));
    let account = accounts.decode(bytes)?;
    for path in ["nonce", "data.free", "data.reserved", "data.frozen"] {
        let number = number(account.root(), path).ok_or("no number")?;
        println!("  {path} {number}");
    }
    Ok(())
}

/// An account's entry in the chain's storage.
fn account_info(nonce: u32, free: u128) -> Item<'static> {
    let data = Item::named([
        ("free", free.into()),
        ("reserved", 0.into()),
        ("frozen", 0.into()),
        ("flags", Item::fields([(1u128 << 127).into()])),
    ]);
    Item::named([
        ("nonce", nonce.into()),
        ("consumers", 0.into()),
        ("providers", 1.into()),
        ("sufficients", 0.into()),
        ("data", data),
    ])
}

/// Sums the free balances of so many accounts, whose bytes it makes first.
fn sum_balances(accounts: Storage<'_>, count: u32) -> Result<u128> {
    let mut storage = Vec::new();
    for nonce in 0..count {
        let item = account_info(nonce, 10_000_000_000 + u128::from(nonce));
        storage.push(accounts.value().encode(&item)?);
    }
    let mut sum = 0;
    for bytes in &storage {
        let account = accounts.decode(bytes)?;
        sum += number(account.root(), "data.free").ok_or("no free balance")?;
    }
    Ok(sum)
}

/// Writes the call of a transfer with a remark, and reads it again.
fn show_call(metadata: &Metadata) -> Result<()> {
    let dest = Item::variant("Id", [Item::fields([Item::from(&[7; 32])])]);
    let fields = [("dest", dest), ("value", 1_000_000_000_000u128.into())];
    let transfer = Item::named_variant("transfer_allow_death", fields);
    let thanks = format!("thanks for {}", 12);
    let remark = Item::named_variant("remark", [("remark", thanks.into_bytes().into())]);
    let calls = [
        Item::variant("Balances", [transfer]),
        Item::variant("System", [remark]),
    ];
    let batch = Item::named_variant("batch_all", [("calls", Item::list(calls))]);
    let call = Item::variant("Utility", [batch]);
    let bytes = metadata.call()?.encode(&call)?;
    println!("a call: {}", hex(&bytes));
    println!("{:#}", metadata.call()?.decode(&bytes)?);
    Ok(())
}

fn main() -> Result<()> {
    let folder = env::args().nth(1).ok_or("usage: explorer EXAMPLES")?;
    let read = |name: &str| read(&Path::new(&folder).join(name));
    let bytes = read("chain/chain.metadata")?;
    let metadata = OpenOptions::new().bits(true).open_with_names(&bytes)?;
    let version = metadata.version().unwrap_or_default();
    let names = metadata.names().len();
    println!(
        "metadata {version}: {} types, {names} names",
        metadata.len()
    );
    let deposit = metadata.constant("Balances.ExistentialDeposit")?;
    println!("{}: {}", deposit.name(), deposit.value()?.to_web_json()?);

    println!("2 extrinsics:");
    show_extrinsic(&metadata, &read("chain/extrinsic.hex")?)?;
    show_extrinsic(&metadata, &read("chain/transfer.scale")?)?;
    show_events(
        metadata.storage("System.Events")?,
        &read("chain/events.hex")?,
    )?;

    let accounts = metadata.storage("System.Account")?;
    let (key, account) = (
        read("chain/key.scale")?,
        read("runtime/account_info.scale")?,
    );
    show_account(accounts, &key, &account)?;
    println!("10000 accounts have {}", sum_balances(accounts, 10_000)?);
    show_call(&metadata)
}
