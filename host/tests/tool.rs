//! The tool, run as a process, by subject. `tool/support.rs` is what the subjects share.
#[path = "tool/bigger.rs"]
mod bigger;
#[path = "tool/check_and_list.rs"]
mod check_and_list;
#[path = "tool/commands.rs"]
mod commands;
#[path = "tool/display.rs"]
mod display;
#[path = "tool/erase_many.rs"]
mod erase_many;
#[path = "tool/extract_and_add.rs"]
mod extract_and_add;
#[path = "tool/flushes.rs"]
mod flushes;
#[path = "tool/gathering.rs"]
mod gathering;
#[path = "tool/input.rs"]
mod input;
#[path = "tool/libdsk.rs"]
mod libdsk;
#[path = "tool/lock.rs"]
mod lock;
#[path = "tool/map.rs"]
mod map;
#[path = "tool/messages.rs"]
mod messages;
#[path = "tool/names.rs"]
mod names;
#[path = "tool/new_files.rs"]
mod new_files;
#[path = "tool/outside_changes.rs"]
mod outside_changes;
#[path = "tool/packaging.rs"]
mod packaging;
#[path = "tool/recording.rs"]
mod recording;
#[path = "tool/replacing.rs"]
mod replacing;
#[path = "tool/report.rs"]
mod report;
#[path = "tool/salvage.rs"]
mod salvage;
#[path = "tool/saving.rs"]
mod saving;
#[path = "tool/scripts.rs"]
mod scripts;
#[path = "tool/standard_streams.rs"]
mod standard_streams;
#[path = "tool/support.rs"]
mod support;
#[path = "tool/terminal.rs"]
mod terminal;
#[path = "tool/tree.rs"]
mod tree;
#[path = "tool/writing.rs"]
mod writing;
