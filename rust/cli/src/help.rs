//! What `--help` prints.

use crate::command::Command;

pub const PROGRAM: &str = "\
Which faces of some fonts are offered for a width, style and weight.

usage: stemhook COMMAND [OPTION]... DIR|FILE...

commands:
  pick      print the faces that are offered, best first
  list      print what was read of each font
  job       write the job, the bytes that the picker reads
  specimen  write a page that shows the faces that are offered

options:
  -h, --help     print this; after a command, what the command takes
  -V, --version  print the version

Of a collection (.ttc), FILE is all its fonts and FILE#N is one, counted from 0.

example:
  stemhook pick /usr/share/fonts/truetype/dejavu --weight 700 --style italic

Exit codes: 0 where at least one font can be used, 1 for a failure, 2 for wrong
words on the command line.
";

pub const fn of(command: Command) -> &'static str {
    match command {
        Command::Pick => PICK,
        Command::List => LIST,
        Command::Job => JOB,
        Command::Specimen => SPECIMEN,
    }
}

/// The options that make a job, in the help of each command that makes one.
macro_rules! making {
    () => {
        "  --family          what follows is a family of its own, or several
  --fallback        the same, and these come last
  --width RATIO     0 to 16: 1 is normal, 0.75 is condensed (default 1)
  --style STYLE     normal, italic, oblique or oblique:DEGREES (default normal)
  --weight WEIGHT   400 is regular, 700 is bold (default 400)
  --most N          most offers of a request, up to 65535 (default 65535)
  --requests FILE   many requests, a line for each; - is standard input
  --override SPEC   FILE:KEY=VALUE,.. in place of what FILE says of itself: width,
                    style, weight, or the default of an axis by its tag
  --not-held FILE   FILE takes part in the choice but is not offered
  -r, --recursive   look into folders of folders: each with fonts is a family
"
    };
}

/// The reading, in the help of each command whose answer depends on it.
macro_rules! reading_option {
    () => {
        "  --reading WORD    how fonts count slant: stored or opentype (default stored)
"
    };
}

macro_rules! readings {
    () => {
        "\
A stem like / leans right. A request counts that above zero (oblique:12), and a
font below zero, in its post table and on its axis slnt. With --reading opentype
a font's number is turned where it meets a request's, so that oblique:12 gets the
face that leans right, and sets slnt to -12: take that for new work. With
--reading stored it is copied, as fontique does: such a face counts as leaning
left, and slnt is set to 12.
"
    };
}

/// How the fonts of a collection are named.
macro_rules! collections {
    () => {
        "\
A file that starts with ttcf is a collection: each of its fonts is a face, in
their order. FILE#N is its font number N alone, counted from 0, unless there is a
file of that very name. Where an option names a FILE, both will do.
"
    };
}

macro_rules! files_and_requests {
    () => {
        concat!(
            "\
A folder is a family: its files with a font's ending, by name. Files that are
named in a row are one family. A file that cannot be used is skipped, with the
reason on standard error. FILE in --override and --not-held is a path as given
here or a file's name. A job has at most 256 faces, 64 families of up to 64
faces, 256 overrides and 256 requests.

",
            collections!(),
            "
A line of a requests file has words such as weight=700 style=oblique:12
width=0.75 most=8; what it leaves out is as the options say. # starts a comment.
"
        )
    };
}

macro_rules! usual {
    () => {
        "  -q, --quiet       no progress and no notes on standard error
  -h, --help        print this
"
    };
}

const PICK: &str = concat!(
    "\
usage: stemhook pick [OPTION]... DIR|FILE... [--family DIR|FILE...]...
                     [--fallback DIR|FILE...]...

Prints for each request the faces that are offered, best first: the file, what
is to be done to it (axes to set, embolden, degrees of skew), and where its
character map lies.

",
    making!(),
    reading_option!(),
    "  --whole           keep whole font files in memory, not what is looked at alone
  --json            print JSON
",
    usual!(),
    "\n",
    readings!(),
    "\n",
    files_and_requests!(),
    "
JSON is one object, in which number is that of a collection's font, else null:
  reading   stored or opentype
  families  [{folder or null, fallback, files: [..], numbers: [..]}], by number,
            with a file and a number for each place
  requests  [{attributes: {width, style, angle or null, weight}, most, offers:
            [{file, number, family, place, settings: [{tag, value}], embolden,
            skew, charmap: {offset, symbol, macRoman}}]}]
  skipped   [{file, number, refusal or null, reason}]
"
);

const LIST: &str = concat!(
    "\
usage: stemhook list [OPTION]... DIR|FILE...

Prints what was read of each font: width, style, weight, axes and character map,
and the same after overrides. It is read by the package plain, which is compared
with the proved picker on generated and damaged fonts; that a font is unusable is
the picker's own word. Any number of files will do.

",
    reading_option!(),
    "  --override SPEC   FILE:KEY=VALUE,.. in place of what FILE says of itself: width,
                    style, weight, or the default of an axis by its tag
  -r, --recursive   look into folders of folders
  --json            print JSON
",
    usual!(),
    "
From a folder, files with a font's ending are taken; others are counted. The angle
of an oblique is shown as it counts under the reading.

",
    readings!(),
    "\n",
    collections!(),
    "
JSON is one object, in which number is that of a collection's font, else null:
  reading     stored or opentype
  faces       [{file, number, read: R, overridden: R or null}], R being {width,
              style, angle or null, weight, axes: [{tag, minimum, default,
              maximum}], charmap: {offset, symbol, macRoman}}
  skipped     [{file, number, refusal or null, reason}]
  passedOver  how many files have no font's ending
"
);

const JOB: &str = concat!(
    "\
usage: stemhook job [OPTION]... -o JOB DIR|FILE... [--family DIR|FILE...]...
                    [--fallback DIR|FILE...]...

Writes the job: the bytes that the picker and the program offers read. It has of
each font just what the picker looks at, so that charmap offsets read from it do
not count in the font's own file, unless --whole is given. It holds no reading:
one is given to what reads the job, as by offers 1. The file is written whole or
not at all.

  -o, --output JOB  the file to write; - is standard output
  --whole           put whole font files in
",
    making!(),
    usual!(),
    "\n",
    files_and_requests!(),
);

const SPECIMEN: &str = concat!(
    "\
usage: stemhook specimen [OPTION]... -o PAGE DIR|FILE... [--family DIR|FILE...]...
                         [--fallback DIR|FILE...]...

Writes one HTML page that shows each request and its offers: a text in the font
that is offered, varied, emboldened and skewed as the offer says. The fonts are
in the page, those of a collection taken out of it. A value that lies outside its
axis's range is marked. The page is written whole or not at all.

  -o, --output PAGE the file to write; - is standard output
  --text TEXT       the text to set
",
    making!(),
    reading_option!(),
    "  --whole           keep whole font files in memory, not what is looked at alone
",
    usual!(),
    "\n",
    readings!(),
    "\n",
    files_and_requests!(),
);
