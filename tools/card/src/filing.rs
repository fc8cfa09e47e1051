//! The receipts of lives: those of their record items, in the order in which they are handed out.

use oracle::driver::Item;
use oracle::life::Life;
use oracle::runtime_core::Receipt;
use tester::host::{converse, Stage};
use wire::format::Output;
use wire::play::Plan;

/// None if the stage answers something that is no output record.
pub fn receipts(lives: Vec<Life>, stage: &mut dyn Stage) -> Option<Vec<Receipt>> {
    let plans: Vec<Plan> = lives.into_iter().map(Plan::plain).collect();
    let mut receipts = Vec::new();
    for entry in converse(stage.stepwise().as_mut(), &plans) {
        // A reminder (111, 113) hands nothing out.
        if let Output::Item(0, Item::Record { receipt }) = entry.output? {
            receipts.push(receipt);
        }
    }
    Some(receipts)
}
