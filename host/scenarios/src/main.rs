//! scenarios: plays a file of scenarios through the proved library.

#![forbid(unsafe_code)]

use kit::args::Switches;
use kit::program::Program;
use kit::say;
use scenarios::{play, rds};
use std::process::ExitCode;

const HELP: &str = "\
Plays scenarios and codec cases, a command a line, through the proved library, for two ends with a table each.

Usage: scenarios [--rds] FILE

  set N=V ..                          the settings of the next fresh table: the usual ones, but for these words
  lend TABLE STORE OUT ANSWER WORDS   how much is lent from now on; without numbers, what is right
  bytes RECORDS                       the bytes of a table
  fresh END RECORDS TID               makes the table of end 0 or 1 fresh
  put END AT VALUE                    changes an octet of a table
  copy END PLACE TO                   copies the octets of one record over those of another
  fill END PLACE VALUE                makes every octet of a record this one
  look END                            a table in words
  req END TIME PEER CLASS UP /DATA    a request
  ans END TIME ROLE PEER TID /EXIT    the user's answer, with its exit information
  res END TIME ROLE PEER TID /DATA    the user's result
  abo END TIME ROLE PEER TID REASON   the user's abort
  rcv END TIME PEER /PDU              a PDU received
  get END TIME PEER                   the PDU that the other end sent last, received
  tim END TIME                        the timer call
  due END                             the earliest deadline; ANSWER words are lent for it
  fir END TIME ROLE PEER TID          fires this record
  sal END WORDS                       salvages the table; so many words are lent for the list
  r PDU                               reads it; what was read is then written
  w N=V .. /OCTETS                    writes the PDU of these words, whose parts lie in the octets
  s DATAGRAM                          separates it, and reads each part
  j N .. /OCTETS                      joins PDUs of these lengths
  # ..                                a title

With --rds the commands are frames of the Reliable Data Service, and calls over one port book:
  u FRAME, n FRAME                    reads and takes a frame of the UE or the network; what was read is then written
  w SIDE N=V .. /OCTETS               writes the frame of these words, whose parts lie in the octets; SIDE is u or n
  p PORTS SOURCE DESTINATION NUMBER /DATAGRAM   puts a datagram into a UI frame
  f NETWORK FORMATS                   makes the book fresh
  r OWN PEERS FORMAT /APPLICATION     reserves a port
  l OWN                               releases it
  a                                   the outstanding command again
  d                                   gives it up
  v FRAME                             a frame received
  q PORT                              what is kept of a port, or of the outstanding command
  # ..                                a title

Octets are pairs of hex digits; 41*255, is an octet 255 times. Each line is printed with what it gives. In braces stand the
place of each record whose octets an accepted call changed, and its state before and after: {0: RTidokWait1 -> RInvokeRespWait1}.

Exit status: 0 played, 2 wrong arguments, or a file or a line that can't be read.

Example: scenarios tests/scenarios/commands.txt | diff tests/scenarios/expected.txt -";

fn main() -> ExitCode {
    Program { name: "scenarios", help: HELP, switches: Switches { valued: &[], flags: &["--rds"] } }.run(|given| {
        let [file] = given.all_names(["a file of scenarios"])?;
        let text = std::fs::read_to_string(file).map_err(|error| format!("{file} can't be read: {error}"))?;
        let mut told = String::new();
        let play = if given.has("--rds") { rds::play } else { play };
        let played = play(&text, &mut told).map_err(|wrong| format!("{file}: {wrong}"));
        say::out(told.trim_end_matches('\n'));
        played.map(|()| 0)
    })
}
