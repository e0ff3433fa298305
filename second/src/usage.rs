//! What `second` says of itself.

pub const USAGE: &str = "\
second day [--check] [FROM [TO]] < DAYFILE
                                         a line per record, then end, cut or long
second standings [FROM] < DAYFILE        the closing line, then every account's five figures, mode and shortfall
second needs [FROM] < DAYFILE            the closing line, then every account's need
second explain [FROM] < DAYFILE          as day, and behind each refused record with one amount 0 and
                                         the largest amount that would have passed, or a refusal and 0
second holdings [FROM] < DAYFILE         the closing line, the next serial and number, then what every
                                         account has received, allocated and pledged, its margin and use
second closeouts [--lines] LOSSES [FROM] < DAYFILE
                                         the closing line, then what each loss is paid from; LOSSES: eight
                                         bytes a row held, or with --lines a text: NUMBER AMOUNT
                                         FROM: a book file to start from, - for a fresh book
                                         TO: where to keep the book after the day
second take_over FROM TO                 the book of FROM taken over to the new rule, kept as TO:
                                         0, or 1 and TO stays as it was
second archive FROM TO ARCHIVE           the book of FROM without its retired rows, kept as TO: the
                                         refusal and how many rows moved; ARCHIVE, a text, gets a
                                         line for each that it doesn't have: NUMBER tm|client|cp TM
second merge A B [FROM] > DAYFILE        A's records and then B's, numbered from the next serial of
                                         FROM's book, or from 0; or which record is at fault
second statements TM FROM < STATEMENT    a TM's statement against the book of FROM: 0, 1, 7 or 8, or
                                         `26 at record 3: account 17 is wanted`
second margins [--record] SERIAL ACCOUNT INITIAL < POSITIONS
                                         a client's extreme loss and initial margin, or its record;
                                         a line a position: USDINR futures 10000001; and once, if
                                         wanted: figures PREMIUM LOSS [EXERCISE SETTLEMENT]
second calls < CALLS                     a line per library call, `bad N` at what is none
second make KIND SEED > DAYFILE          a made-up day: busy hostile bent bounds cuts serials
                                         openings retire shared spent warned wavering
                                         moved moving held withheld mixed haircut
                                         tens valued short wanting falling million
second losses [--lines] SEED < DAYFILE > LOSSES
                                         made-up losses for the book at that day's end
second make-calls SEED > CALLS           made-up calls
second make-text SEED > TEXT             a made-up text of a day file
second compare [--day P] [--standings P] [--closeouts P] [--needs P] [--explain P]
               [--holdings P] [--write P] [--read P]
               [--take-over P] [--archive P] [--margins P] [--merge P] [--statements P] [--calls P]
               [--days N] [--seed S] [--millions K] [--books N] [--trickle]
               [--text-runs N] [--margin-runs N] [--merges N] [--statement-runs N] [--call-inputs N]
               [--without CALLS]
                                         other programs against this one: on made-up days, on N days
                                         in two pieces with book files, on N made-up texts, on N inputs
                                         of made-up calls, on N mergings, on N statements; with --without
                                         12,14 these calls are to be answered with empty lines; with --merge,
                                         --day and --standings, on two orders of N pairs of counters' files
second bundle --days N --seed S > BUNDLE many small days in one file
second bundled < BUNDLE > ANSWERS        the answers to all of them
second write [TEXT [FROM]] > DAYFILE     a day file from its readable form, of standard input if no
                                         TEXT is named, numbered from the next serial of FROM's book
                                         or from 0; or `write: line 3: 33, no account`
second read [FROM] < DAYFILE > TEXT      and back
second write-statement < TEXT > STATEMENT a statement from its readable form, a line a record:
                                         ACCOUNT RECEIVED RETAINED PLACED HELD LODGED, or raw HEX
second read-statement < STATEMENT > TEXT and back
second write-calls < STORY > CALLS       calls from their readable form
second read-calls < CALLS > STORY        and back

A story has one book, fresh at first. Lines that change it:
  fresh   do RECORD   set PLACE WORD VALUE   count N   serial N   settle   settle old   byte AT VALUE
  next N (the next number)   do archive   version N (of its written form: 1 at first and when fresh,
  with places as numbers; 2 from `next`, `do archive` or `set PLACE number` on)
Calls, each handed the book as it is then:
  is_sound   standing ACCOUNT   carry_out RECORD   carry_out_next PLACE PIECE
  day NUMBER PIECE   read_at PLACE PIECE   write RECORD room N
  close_out room N losses LOSS ..   needs room N   take_over   archive room N
  margin SERIAL ACCOUNT INITIAL POSITION ; .., POSITION: PRODUCT SIDE NOTIONAL, PRODUCT a name or a number
  margin_with SERIAL ACCOUNT INITIAL FIGURES POSITION ; ..   exposure FIGURES, such as 50,-30
  exposures EACH room N FIGURE ..   statement TM RECORD ; .., as `second write-statement` takes them
  most RECORD
Other bytes:
  bytes HEX   cut N   # a comment
WORD: number sort live tm received.KIND allocated.KIND pledged margin mode need, KIND one of cash deposits
guarantees securities. RECORD: as `second write` takes it, good or not, or `values SERIAL CODE MARK
ACCOUNT` and six amounts. PIECE: records, `raw HEX` and `zeros N` with ; between them, or nothing.
";

pub fn usage() -> String {
    USAGE.trim_end().to_string()
}
