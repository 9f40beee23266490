//! The page of settings, and the options by which `check` and `diff` take them.
use super::{HELP, Known, Page};

pub const SETTINGS_OF: Known = Known {
    short: None,
    long: "settings",
    word: Some("FILE"),
    text: "take nesting, prefix and mode from this file; sill settings --help",
};

pub const DEFAULTS: Known = Known {
    short: None,
    long: "defaults",
    word: Some("FILE"),
    text: "the defaults; else sill.defaults beside the command",
};

pub const SETTINGS: Page = Page {
    name: "settings",
    operands: "ACTION ..",
    takes: 1..=usize::MAX,
    summary: "look up, change, save and roll back the settings that check and diff take",
    text: "\
A settings file is fields, each a tag, a length and contents. The settings that have a name:

  edition  (tag 1)  names the file as it is saved; any text, or 0x and hexadecimal digits
  nesting  (tag 2)  how deep values may be nested; 2,000 is the most
  prefix   (tag 3)  only code objects whose qualified names begin so are checked and compared; empty for all
  mode     (tag 4)  what sill diff compares: values, or bytes, those that values are written as

Any other field is named by its tag, a number up to 255, with contents in hexadecimal. What the file lacks comes from the
defaults. The actions:

  get FILE [NAME]                       the setting alone, or all with the file that each comes from
  set FILE NAME VALUE [NAME VALUE]..    change FILE, or make it; every other field stays byte for byte
  save FILE ARCHIVE                     save FILE under its edition behind the files of ARCHIVE, or make it
  rollback FILE ARCHIVE EDITION         give FILE the bytes that were saved under EDITION
  list ARCHIVE                          the editions of ARCHIVE, in the order in which they were saved

A file that is changed is written under another name beside its place and then renamed, so it is there as a whole or not at
all. A damaged file is refused with number, name and place; so is a save without an edition, or under one that is saved already.",
    options: &[DEFAULTS, HELP],
};
