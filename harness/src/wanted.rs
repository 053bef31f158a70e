//! What a sample should reach.

/// The refusals of each call, in the order of document 01; 11 is out of reach.
const REFUSALS: [(&str, &[u64]); 12] = [
    ("making", &[1, 2, 3, 13]),
    ("start", &[4]),
    ("retire", &[5, 6]),
    ("retry", &[5, 6, 2]),
    ("resolve", &[5, 6]),
    ("advance", &[5, 7, 13]),
    ("fetch", &[4, 8, 2, 9, 10, 13]),
    ("capacity", &[4, 12, 1]),
    ("fault", &[2]),
    ("reset", &[13]),
    ("cell", &[13]),
    ("text", &[13]),
];

/// What a sample should reach: each refusal of each call, each two that can stand against one call,
/// and more.
pub fn wanted() -> Vec<String> {
    let mut list = Vec::new();
    for (name, numbers) in REFUSALS {
        for (at, later) in numbers.iter().enumerate() {
            list.push(format!("refused {later:2} by {name}"));
            for earlier in &numbers[..at] {
                // Outside a cycle there is no offer; a capacity of no kind adds no unit.
                let never = [("advance", 5, 7), ("capacity", 12, 1)];
                if !never.contains(&(name, *earlier, *later)) {
                    list.push(format!("order: {earlier:2} before {later:2} by {name}"));
                }
            }
        }
    }
    list.extend(WANTED.map(String::from));
    list
}

const WANTED: [&str; 62] = [
    "taken start",
    "taken retire",
    "taken retry",
    "taken resolve",
    "taken overlap",
    "taken view",
    "taken cell",
    "taken text",
    "refused  6 by retire after retire",
    "refused  6 by retry after retire",
    "refused 13 by advance, one byte short",
    "refused 13 by fetch, one byte short",
    "refused 13 by cell, one byte short",
    "refused 13 by text, one byte short",
    "names full with some queued",
    "halt during an offer",
    "fault during an offer",
    "stopped again",
    "reset inside a cycle",
    "reset during an offer",
    "redirect inside a cycle",
    "redirect during an offer",
    "capacity built",
    "capacity noted while busy",
    "overlap switched while busy",
    "two units blocked at one start",
    "one unit blocked, and another offered",
    "WAR on two registers of one unit",
    "WAR with two readers of one register",
    "memory order behind two, the older in the higher unit",
    "rows evicted",
    "rows past 200 cells, after an advance",
    "unlike cells in a row that lost some",
    "advance with an address on a stopped engine",
    "advance with an address, 0 queued",
    "advance with an address, 2 queued",
    "advance with an address, no branch on offer",
    "names with the fetch: 255",
    "names with the fetch: 256",
    "names with the fetch: 257, refused",
    "operands refused, a source past the limit bad",
    "operands refused, a write past the limit bad",
    "at the limit: kinds",
    "at the limit: units",
    "at the limit: stages",
    "only too many: kinds",
    "only too many: units",
    "only too many: stages",
    "only too many: history",
    "only bad: text",
    "only bad: fault note",
    "only bad: destination",
    "only bad: source",
    "wait text: may not overwrite",
    "wait text: memory keeps program order",
    "wait text: waits for the machine to drain",
    "wait text: waits for .. from",
    "wait text: cannot issue behind an unresolved branch",
    "wait text: a system instruction serializes",
    "wait text: an older instruction still writes",
    "wait text: all units are busy",
    "wait text: redirect to",
];
