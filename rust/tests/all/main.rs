//! The tests, one program, so that what they share is compiled once. A folder is shared by them, a file has tests of its own.

mod calls;
mod canary;
mod cases;
mod library;
mod plans;
mod programs;
mod reference;
mod renaming;
mod sheets;
mod typed;

mod boards;
mod call;
mod conversions;
mod damage;
mod figures;
mod flights;
mod header;
mod names;
mod names_in_salvage;
mod names_in_sheets;
mod outside;
mod readings;
mod reasons;
mod records;
mod refusals;
mod review_program;
mod reviews;
mod salvage;
mod salvage_program;
mod salvaged;
mod sheet_a;
mod stack;
mod verdicts;
mod writings;
