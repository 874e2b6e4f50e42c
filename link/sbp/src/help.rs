//! What `--help` and `--version` print.

/// What is printed one after the other.
pub type Pages = &'static [&'static str];

pub const USAGE: Pages = &[COMMANDS, FILES];
pub const LIST: Pages = &[LIST_LINES, FILES];
pub const JSON: Pages = &[JSON_LINES, FILES];
pub const EPOCHS: Pages = &[EPOCHS_LINES, FILES];
pub const FIND: Pages = &[FIND_LINES];

const COMMANDS: &str = "\
usage: sbp list [FILE..]
       sbp json [FILE..]
       sbp epochs [FILE..]
       sbp find FILE [TYPE [SENDER [OFFSET]]]
       sbp --help | --version

Reads captures of the Swift Navigation Binary Protocol (SBP 1.1), of any length.

  list    a line for each frame and each epoch, and the totals
  json    an object a line for each frame, with its fields
  epochs  a table of observation epochs by sender
  find    answers to questions: where a frame is, how many there are

`sbp COMMAND --help` says what a command prints; what follows is of the first three.
";

const LIST_LINES: &str = "\
usage: sbp list [FILE..]

Prints the lines of sbplist, numbers in decimal:

  F offset type sender length answer      for each frame
  E sender week tow packets observations  after the frame that ends an epoch
  T length framed junk bad short          at the end of a capture

An answer is 0 (the payload was read), 21 (a type without a reading), 22 (a wrong
length) or 23 (a field out of its range, or a text that goes on after a zero). Epochs are
those of the first eight senders of observation frames (type 73). T has the capture's
length in bytes, its bytes in frames, and those passed over: outside of a frame, at a
wrong CRC, at a frame that is cut short. A capture that could not be read to its end has
no T line.
";

const JSON_LINES: &str = "\
usage: sbp json [FILE..]

Prints an object a line for each frame, with the keys in this order:

  offset    where the frame begins in its capture
  answer    0, 21 (a type without a reading), 22 (a wrong length), 23 (a field out of
            its range, or a text that goes on after a zero)
  preamble  85
  msg_type, msg_name, sender, length
  payload   in base64
  crc
  and, where the answer is 0, the payload's fields by the specification's names:
  MSG_OBS as header (t, n_obs) and obs, MSG_LOG as level, text (which ends before its
  first zero) and padding (how many zeros are after it); common.sid.sat and its like
  as objects in objects, pos, vel and acc as arrays of three

A msg_type that has no reading here has the msg_name \"UNKNOWN\". A double is the shortest
number that comes back to the same bits; one that is no number (NaN, infinities) is a
string of its bits, \"0x7ff8000000000000\". A byte of a text that is no UTF-8 is escaped
as \\udc80 to \\udcff (Python: text.encode('utf-8', 'surrogateescape')).
";

const EPOCHS_LINES: &str = "\
usage: sbp epochs [FILE..]

Prints a line for each sender of observation frames, in order of appearance:

  sender              its number
  epochs              whole epochs
  first_wn first_tow  week and time of week (ms) of its first epoch, - without one
  last_wn last_tow    of its last
  observations        in its epochs
  no_epoch            its observation frames that are in no epoch, malformed ones too
  copies              its packets that came again while their epoch was open

The packets of an epoch may come in any order. One of another epoch of that sender drops
the epoch that is open. Copies are not in no_epoch; but a copy that comes when its epoch
is whole opens one again, as a new packet does.

With several files each has a table of its own, below a line with its name. A table of
a capture that could not be read to its end has what came before.
";

const FIND_LINES: &str = "\
usage: sbp find FILE
       sbp find FILE TYPE [SENDER [OFFSET]]

Indexes FILE and answers each line of standard input at once, or the one question of the
command line:

  TYPE SENDER OFFSET  where is the first frame of that type and sender that begins at
                      the offset or after it? F offset type sender length, or N for none
  TYPE                how many frames of that type are there? C count, or R 21 for a type
                      without a reading
  anything else       ?, a line of 4096 bytes or more too

Numbers are in decimal, or in hexadecimal after 0x; a type may be given by its name, as
POS_LLH. On the command line an OFFSET of 0 may be left out. A frame counts whether its
payload can be read or not; one that has not come whole is none yet, and what stands after
its first byte waits with it.

Before each answer FILE is read on where it has grown. R 52 says that it is now shorter
than the position that was reached: its end then, or the start of a frame that had not
come whole. What stands before that is taken to stay as it was; a file that was put in
FILE's place is not looked at. Of a pipe all is read before the first answer. For one
question FILE may be -, standard input. Memory goes by the frames, 16 to 32 bytes each,
whatever FILE's length. On a terminal, standard error shows how far a long file is read.

Exit status of one question: 0 if there is such a frame, 1 if there is none, 2 for
trouble (R 21, a file that could not be read, wrong use). Of standard input's: 0
whatever the answers are, 2 if FILE or a question could not be read or an answer not
written. A reader that closes the pipe early is no trouble.
";

const FILES: &str = "
Without a file, or where a file is -, standard input is read; each file is a capture of
its own. On a terminal, standard error shows how far a long capture is read. What was
found in a pipe is written before more is waited for.

Exit status: 0; 1 if a file could not be opened, read or written (what came before is
still printed, and the other files are read); 2 for wrong use. A reader that closes
the pipe early (sbp json FILE | head) ends it quietly and is no trouble.
";

pub fn version() -> String {
    let (tool, library) = (env!("CARGO_PKG_VERSION"), yaqtumeer::version());
    format!("sbp {tool} (library {library})\n")
}
