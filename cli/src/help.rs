//! The help texts: of all, and of each subcommand.

pub const ALL: &str = "\
usage: rietknoest list [--follow] [--summary] [--json] [FILE ..]
       rietknoest gaps [--json] [FILE ..]
       rietknoest scrub [--step] [--whole] [--force] IN -o OUT
       rietknoest check [--step] FILE ..
       rietknoest explain [--step] FILE PLACE
       rietknoest month --channels LIST [--sums] FILE ..
       rietknoest market FILE ..
       rietknoest help [COMMAND]
       rietknoest --help | --version

list     prints a line for each reading of a capture: place, type (---- where
         it was refused), answer, MsgSeqNum, channel, tick number, floor, top;
         then a line that counts channel 100.
gaps     prints for each channel which tick numbers are missing, and what to
         request next.
scrub    writes the capture's good frames to OUT, each with its private fields
         painted over, as they arrive. Bytes that are no frame are left out.
         M101 bodies are not judged, could hold anything, and are passed on.
check    says whether a capture is clean: whether scrubbing it would change no
         byte. If not, at which place, and in which field. It can't tell a
         frame that came out of private bytes (docs/PRIVATE.md), and does not
         judge M101 bodies.
explain  says in words what is answered at a place of a capture, and why.
         It shows no private field.
month    prints a page over up to 500 scrubbed captures: for each of up to 32
         channels the ticks received, repeated, far and missing and the resends
         asked for and unavailable, of each capture and in sum.
market   says whether a B-to-H market file (mktdth.txt) is sound, or what is
         wrong with it and at which place. It shows no byte of the file.
help     prints more on a command, as COMMAND --help does.

- is standard input, or standard output for OUT. IN is never overwritten.
On a terminal, what takes more than a second shows how far it has come;
--quiet (-q) keeps it from doing so. -h is --help, -V is --version.

exit status: 0 all well; 1 something was refused, is missing, is private or
was not counted; 2 wrong usage, or a file can't be read or written.
The manual page is docs/rietknoest.1.
";

pub const LIST: &str = "\
usage: rietknoest list [--follow] [--summary] [--json] [--quiet] [FILE ..]

Prints a line for each reading of a capture as soon as it is decided: place,
type (---- where it was refused), answer, MsgSeqNum, channel, tick number, floor
and top. The last line counts frames, refused readings and, of channel 100,
floor, top and missing ticks. Without FILE it lists standard input.

The ticks of other channels are not counted: it says on standard error how many
frames of which channels these are, and gaps counts them. Of more than 32 it
names the 32 lowest, and counts the rest; --json names all.

--follow   waits at the end of FILE for more, until Ctrl-C: then it still prints
           the last line; it takes one FILE
--summary  the last line alone
--json     an object a line, with the names of rietknoest.h (see the manual)
--quiet    shows no progress
--help     prints this

exit status: 0 all well; 1 a reading was refused, a tick is missing, or frames
of other channels were not counted; 2 wrong usage, or a file can't be read.
";

pub const GAPS: &str = "\
usage: rietknoest gaps [--json] [--quiet] [FILE ..]

Reads captures one after the other, as one, and prints for each channel in them,
up to 32: floor, top, how many tick numbers are missing, and which, in at most
20 runs; then the request that would be given next. Without FILE it reads
standard input.

A tick more than 256 above the floor is not taken, and counts as missing though
it is in the capture: it says on standard error how many there were, of each
channel. Of a capture that begins in the middle of a session all may be such.

--json     an object a line, with the names of rietknoest.h (see the manual)
--quiet    shows no progress
--help     prints this

exit status: 0 nothing is missing; 1 a number is missing, a reading was refused,
or channels were not counted; 2 wrong usage, or a file can't be read.
";

pub const SCRUB: &str = "\
usage: rietknoest scrub [--step] [--whole] [--force] [--quiet] IN -o OUT

Writes the frames of IN that read to OUT, in order, each with its private fields
painted over, as they arrive. Bytes that are no frame are left out. It says on
standard error how many frames it kept, how many bytes it left out, and how many
frames came after damage: such a frame may come from private bytes of a damaged
one (docs/PRIVATE.md). It says how many M101 bodies it passed on: these are not
judged and could hold anything.

OUT is replaced when all is written, or stays as it was; - is standard output.
IN is never overwritten. If a signal ends it, nothing is left behind.

-o OUT     where to write
--whole    reads all of IN first, and writes nothing if a byte is in no frame
--step     IN is a capture of the STEP line
--force    writes to a terminal too, though frames are no text
--quiet    shows no progress
--help     prints this

exit status: 0 all well; 1 bytes were left out; 2 wrong usage, or a file can't
be read or written.
";

pub const CHECK: &str = "\
usage: rietknoest check [--step] [--quiet] FILE ..

Says of each file whether it is clean: whether scrubbing it would change no
byte. If not, at which place, and in which field, or from where on bytes are
stray. It shows none of the bytes.

It can't tell a frame that came out of private bytes (docs/PRIVATE.md). It does
not judge the bodies of M101, which could hold anything: if there are some it
says how many.

--step     the captures are of the STEP line
--quiet    shows no progress
--help     prints this

exit status: 0 clean; 1 not clean; 2 wrong usage, or a file can't be read.
";

pub const EXPLAIN: &str = "\
usage: rietknoest explain [--step] [--quiet] FILE PLACE

Says in words what is answered at a place of a capture, and why. A place is a
number of bytes from the capture's start, as in the first column of a listing.
Where a listing has a line for it, the answer is that line's: reading's, or the
ledger's, with floor and top.

Of a frame that reads it shows every public field, and names the private ones;
of an M101 the length of its body. For 4 it shows the length that suits, for 5
both sums, and for 6 the field that breaks its rule. It shows sums only of an
S003, P001 or M102 that would read with the right one.

After damage a frame may come out of private bytes (docs/PRIVATE.md): there it
says so, and shows no sum, and of a body only what list shows and the numbers
and status of a resend.

--step     the capture is of the STEP line
--quiet    shows no progress
--help     prints this

exit status: 0 done; 1 refused; 2 wrong usage, the place is beyond the end, or
the file can't be read.
";

pub const MONTH: &str = "\
usage: rietknoest month --channels LIST [--sums] [--quiet] FILE ..

Prints for each capture its name and, for each channel of LIST, how many ticks
were received, repeated and refused as far, how many are missing, and how many
P002 frames have status 0 (asked) and 4 (unavailable); then the sums over all
captures. Each capture is counted from a fresh start.

Captures are to be scrubbed: one that is not clean is left out, and named on
standard error. Scrubbing changes no figure. At a 501st capture, or where a sum
would not fit 64 bits, it names the file, prints the page so far and stops.

--channels LIST  up to 32 channels, with a comma between two: 100,101
--sums           the sums alone
--quiet          shows no progress
--help           prints this

exit status: 0 nothing is missing; 1 a number is missing, or a capture was left
out or refused; 2 wrong usage, or a file can't be read.
";

pub const MARKET: &str = "\
usage: rietknoest market [--quiet] FILE ..

Says of each B-to-H market file (mktdth.txt) whether it is sound, or what is
wrong with it, at which place, in which line and column (docs/MARKET.md). It
shows no byte of the file.

--quiet    shows no progress
--help     prints this

exit status: 0 sound; 1 not sound; 2 wrong usage, or a file can't be read.
";
