//! The safe interface against the static library: every number, the cases of the requirements, and
//! every stored wall file.

mod board;
mod board_runs;
mod cases;
mod common;
mod places;
mod reach;
mod reader;
mod refusal;
mod row;
mod seam;
mod settings;
mod tile;
mod wall;
mod waves;
mod wide;
mod wide_files;
