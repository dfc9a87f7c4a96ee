//! A second model of the unit, its miss handler, its miss rates and its permissions, written from the documents and not from the proved code,
//! with the plain ledger of demand 3 beside it and the streams, tables and states on which all three are compared.
pub mod broken;
pub mod changes;
pub mod command;
pub mod compare;
pub mod coverage;
pub mod generate;
pub mod guests;
pub mod ledger;
pub mod library;
pub mod misses;
pub mod model;
pub mod random;
pub mod record;
pub mod states;
pub mod sweeps;
pub mod tables;
pub mod vectors;
