//! Close-outs of made-up books: demand 3 as K1 has it, and K1's rule written
//! by the letter a second time. And files of losses, as bytes and as text.

mod common;
use common::*;
use second::compare::options::Options;
use second::make::{loss_lines, losses as made_losses};
use second::model::losses::{read, MOST};

/// Books and close-outs as a comparison meets them; and how many were refused.
fn made(days: usize) -> (Vec<(Book, CloseOut)>, usize) {
    let (mut list, mut refused) = (Vec::new(), 0);
    for place in 0..days {
        let (kind, seed) = (ROUND[place % ROUND.len()], place as u64);
        let (book, _) = run_fresh(&make(kind, seed, NO_LIMIT));
        for seed in made_losses::seeds(kind.0, seed) {
            match close_out_bytes(&book, &made_losses::make(&book, seed)) {
                Ok(answer) => list.push((book.clone(), answer)),
                Err(_) => refused += 1,
            }
        }
    }
    (list, refused)
}

fn is_client_or_cp(book: &Book, account: usize) -> bool {
    matches!(book.rows[account].sort, Sort::Client | Sort::Cp)
}

/// A TM's clients, retired ones too.
fn clients(book: &Book, tm: usize) -> Vec<usize> {
    let is_client = |row: &Row| row.sort == Sort::Client && usize::from(row.tm) == tm;
    (0..book.count)
        .filter(|&account| is_client(&book.rows[account]))
        .collect()
}

fn tms(book: &Book) -> Vec<usize> {
    (0..book.count)
        .filter(|&account| book.rows[account].sort == Sort::Tm)
        .collect()
}

#[test]
fn demand_three() {
    let (list, refused) = made(990);
    assert!((200..700).contains(&refused), "{refused}");
    let mut shorts = 0;
    for (book, answer) in &list {
        let (short, mut beyond_margins) = (book.standings()[0].shortfall, 0);
        shorts += usize::from(short > 0);
        for account in 0..book.count {
            let (row, paid) = (&book.rows[account], &answer.payments[account]);
            let loss = answer.losses[account];
            assert_eq!(paid.own + paid.tm + paid.cm + paid.uncovered, loss);
            let beyond = loss.saturating_sub(row.margin);
            assert!(paid.uncovered <= beyond || short > 0);
            beyond_margins += beyond;
            let most = loss.min(row.collateral());
            assert!(paid.own <= most && (paid.own == most || !is_client_or_cp(book, account)));
            assert!(paid.tm == 0 || row.sort == Sort::Client);
        }
        assert_eq!(answer.payments[0].cm, 0);
        for tm in tms(book) {
            let of_clients = clients(book, tm)
                .into_iter()
                .map(|client| answer.payments[client].tm);
            assert!(answer.payments[tm].own + of_clients.sum::<u64>() <= book.collateral(tm));
        }
        let of_others: u64 = answer.payments.iter().map(|paid| paid.cm).sum();
        assert!(answer.payments[0].own + of_others <= book.collateral(0));
        let uncovered = answer.payments.iter().map(|paid| paid.uncovered);
        assert_eq!(uncovered.sum::<u64>(), answer.total);
        assert!(answer.total <= short + beyond_margins);
    }
    assert!(shorts > 60, "{shorts}");
}

/// "Round one pays in order until collateral is gone": with losses at the
/// margins the total is the shortfall.
#[test]
fn losses_at_the_margins() {
    let mut shorts = 0;
    for (book, _) in made(500).0 {
        let short = book.standings()[0].shortfall;
        let losses = book.rows[..book.count].iter().map(|row| row.margin);
        assert_eq!(close_out(&book, losses.collect()).unwrap().total, short);
        shorts += usize::from(short > 0);
    }
    assert!(shorts > 30, "{shorts}");
}

/// What each gets of a purse: it reaches to its own sum with those before it.
fn handed(purse: u64, wanted: &[u64]) -> Vec<u64> {
    let sum = |many: usize| wanted[..many].iter().sum::<u64>();
    let got = |place: usize| purse.min(sum(place + 1)) - purse.min(sum(place));
    (0..wanted.len()).map(got).collect()
}

/// For each account what it gets in one round from the TM's purse and from
/// the CM's, an owner's own included.
fn one_round(book: &Book, wanted: &[u64], purses: &[u64]) -> (Vec<u64>, Vec<u64>) {
    let mut of_tm = vec![0; book.count];
    for tm in tms(book) {
        let group = [vec![tm], clients(book, tm)].concat();
        let asked: Vec<u64> = group.iter().map(|&account| wanted[account]).collect();
        for (&account, got) in group.iter().zip(handed(purses[tm], &asked)) {
            of_tm[account] = got;
        }
    }
    let still: Vec<u64> = wanted
        .iter()
        .zip(&of_tm)
        .map(|(wanted, got)| wanted - got)
        .collect();
    (of_tm, handed(purses[0], &still))
}

/// What a client or CP pays of its own ahead of the rounds.
fn ahead(book: &Book, losses: &[u64], account: usize) -> u64 {
    let own = losses[account].min(book.collateral(account));
    if is_client_or_cp(book, account) {
        own
    } else {
        0
    }
}

fn first_round(book: &Book, losses: &[u64]) -> (Vec<u64>, Vec<u64>) {
    let within = |account: usize| {
        let within = losses[account].min(book.rows[account].margin);
        within.saturating_sub(ahead(book, losses, account))
    };
    let wanted: Vec<u64> = (0..book.count).map(within).collect();
    let collateral: Vec<u64> = book.rows.iter().map(|row| row.collateral()).collect();
    one_round(book, &wanted, &collateral)
}

fn by_the_letter(book: &Book, losses: &[u64]) -> Vec<Payment> {
    let (tm_one, cm_one) = first_round(book, losses);
    let left = |account: usize| {
        losses[account] - ahead(book, losses, account) - tm_one[account] - cm_one[account]
    };
    let left: Vec<u64> = (0..book.count).map(left).collect();
    let free: Vec<u64> = book.standings().iter().map(|all| all.free).collect();
    let (tm_two, cm_two) = one_round(book, &left, &free);
    let paid = |account: usize| {
        let (tm, cm) = (
            tm_one[account] + tm_two[account],
            cm_one[account] + cm_two[account],
        );
        let (own, tm, cm) = match book.rows[account].sort {
            Sort::Cm => (cm, 0, 0),
            Sort::Tm => (tm, 0, cm),
            _ => (ahead(book, losses, account), tm, cm),
        };
        let uncovered = losses[account] - own - tm - cm;
        Payment {
            own,
            tm,
            cm,
            uncovered,
        }
    };
    (0..book.count).map(paid).collect()
}

#[test]
fn two_rounds_by_the_letter() {
    for (book, answer) in &made(990).0 {
        assert_eq!(answer.payments, by_the_letter(book, &answer.losses));
    }
}

/// "A neighbour with a lower number can't use it up": whatever one account
/// loses beyond its margin, all others keep what is within theirs.
#[test]
fn blocked_stays_for_those_it_was_blocked_for() {
    for (book, answer) in made(220).0 {
        if book.standings()[0].shortfall > 0 {
            continue;
        }
        for greedy in (0..book.count).filter(|&account| book.rows[account].live) {
            let each = answer.losses.iter().zip(&book.rows);
            let mut losses: Vec<u64> = each.map(|(&loss, row)| loss.min(row.margin)).collect();
            losses[greedy] = CEILING;
            let payments = close_out(&book, losses).unwrap().payments;
            let is_other = |&account: &usize| account != greedy;
            assert!((0..book.count)
                .filter(is_other)
                .all(|account| payments[account].uncovered == 0));
        }
    }
}

/// TMs with several clients for which some of its collateral, or the CM's, is
/// blocked.
fn leaned_on(book: &Book) -> Vec<usize> {
    let leaning = |tm: usize| {
        clients(book, tm)
            .into_iter()
            .filter(|&client| book.deemed(client) > 0)
            .count()
    };
    tms(book)
        .into_iter()
        .filter(|&tm| leaning(tm) > 1)
        .collect()
}

#[test]
fn shared_and_spent_books() {
    let fitting = |name: &str, fits: fn(&Standing) -> bool| {
        let is_so = |bytes: &Vec<u8>| {
            let (book, _) = run_fresh(bytes);
            let all = book.standings();
            leaned_on(&book).into_iter().any(|tm| fits(&all[tm])) && fits(&all[0])
        };
        days_of(name, 0..100, NO_LIMIT).filter(is_so).count()
    };
    assert!(
        fitting("shared", |standing| standing.blocked > 0
            && standing.free > 0)
            > 60
    );
    assert!(
        fitting("spent", |standing| standing.blocked > 1
            && standing.free < 2)
            > 60
    );
}

/// Losses at every edge, of every sort of account, in a comparison of 180 days.
#[test]
fn losses_meet_the_edges() {
    let mut met = Tally::default();
    for (book, answer) in &made(204).0 {
        for account in (0..book.count).filter(|&account| book.rows[account].live) {
            let row = &book.rows[account];
            let (loss, own, margin) = (answer.losses[account], row.collateral(), row.margin);
            let edges = [
                loss == 0,
                loss == CEILING,
                margin > 1 && loss + 1 == margin,
                margin > 1 && loss == margin,
                margin > 1 && loss == margin + 1,
                own > 1 && loss + 1 == own,
                own > 1 && loss == own,
                own > 1 && loss == own + 1,
                margin > 1 && own > 1 && loss > margin + own,
            ];
            let is_met = |edge: &usize| edges[*edge];
            met.count_all((0..9).filter(is_met).map(|edge| (row.sort, edge)));
        }
    }
    assert_eq!(met.sums().0, 4 * 9, "{:?}", met.met().collect::<Vec<_>>());
}

/// Blocked collateral of TMs with several leaning clients, and of the CM, used
/// to the last paisa and to one less, and free collateral likewise.
#[test]
fn purses_are_used_to_the_last_paisa() {
    let mut met = Tally::default();
    for (book, answer) in &made(990).0 {
        let all = book.standings();
        let (of_tm, of_cm) = first_round(book, &answer.losses);
        let mut look = |owner: usize, one: u64, both: u64| {
            let Standing { blocked, free, .. } = all[owner];
            let two = both - one;
            met.count_if((owner == 0, 0), blocked > 1 && one == blocked);
            met.count_if((owner == 0, 1), blocked > 1 && one + 1 == blocked);
            met.count_if((owner == 0, 2), free > 1 && two == free);
            met.count_if((owner == 0, 3), free > 1 && two + 1 == free);
        };
        for tm in leaned_on(book) {
            let group = clients(book, tm);
            let one = of_tm[tm] + group.iter().map(|&client| of_tm[client]).sum::<u64>();
            let paid = group.iter().map(|&client| answer.payments[client].tm);
            look(tm, one, answer.payments[tm].own + paid.sum::<u64>());
        }
        let others: u64 = answer.payments.iter().map(|paid| paid.cm).sum();
        look(0, of_cm.iter().sum(), answer.payments[0].own + others);
    }
    assert_eq!(met.sums().0, 8, "{:?}", met.met().collect::<Vec<_>>());
}

#[test]
fn closeouts_lines() {
    let day = piece("tm;pledge 0 10;pledge 1 3");
    let shown = |losses: &[u8]| utf(print::closeouts(&day, losses));
    let losses = bytes_of(&[4, 20]);
    assert_eq!(
        shown(&losses),
        "end 3 3\n0 4 4 0 0 0\n1 20 3 0 6 11\ntotal 11\n"
    );
    assert_eq!(shown(&losses[..15]), "end 3 3\nrefused 15\n");
    assert_eq!(shown(&[255; 16]), "end 3 3\nrefused 16\n");
}

/// Nothing for standard output, and the day isn't even asked for.
#[test]
fn losses_that_cannot_be_read() {
    let said = |path: Option<&str>| {
        let path: Vec<OsString> = path.map(OsString::from).into_iter().collect();
        programs::closeouts(&path, &|| panic!()).unwrap_err()
    };
    let cannot = "closeouts: cannot read the file of losses";
    assert_eq!(said(None), format!("{cannot}: none is named"));
    for path in ["no-such-file", "."] {
        assert!(said(Some(path)).starts_with(&format!("{cannot}: {path}: ")));
    }
}

#[test]
fn lines_of_losses() {
    let said = b"# P8\n2 120000\n\n 3\t0120000 # B\r\n65535 9999999999999999";
    let losses = [(2, 120_000), (3, 120_000), (65_535, 9_999_999_999_999_999)];
    assert_eq!(read(said), Ok(losses.to_vec()));
    assert_eq!(read(b""), Ok(Vec::new()));
    let table = "no number: x 5|00000000000000001 5\na number above 65535: 65536 5
no amount: 1|1 -5|1 00000000000000001\nsomething more in the line: 1 5 6|1 5x
the same account twice: 0 5";
    for (told, line) in rows(table) {
        let text = format!("0 1\n\n{line}\nx");
        assert_eq!(
            read(text.as_bytes()),
            Err(format!("line 3: {told}")),
            "{line}"
        );
    }
    let many: String = (0..257).map(|number| format!("{number} 0\n")).collect();
    let told = "line 257: more than 256 lines that say something";
    assert_eq!(read(many.as_bytes()), Err(told.to_string()));
    assert_eq!(read(&vec![b'\n'; MOST]), Ok(Vec::new()));
    let told = "the file of losses is too long";
    assert_eq!(read(&vec![b'x'; MOST + 1]), Err(told.to_string()));
}

/// 7 where no row held has the number, before 16.
#[test]
fn losses_by_number() {
    let cases: [(&str, &[(u16, u64)], &str); 5] = [
        (
            "tm",
            &[(1, 5)],
            "end 1 1\n0 0 0 0 0 0\n1 5 0 0 0 5\ntotal 5\n",
        ),
        ("tm", &[(0, 1 << 50), (2, 0)], "end 1 1\nrefused 7\n"),
        ("tm", &[(0, 1 << 50)], "end 1 1\nrefused 16\n"),
        ("tm;retire 1", &[(1, 1)], "end 2 2\nrefused 16\n"),
        ("", &[], "end 0 0\n0 0 0 0 0 0\ntotal 0\n"),
    ];
    for (said, losses, want) in cases {
        assert_eq!(
            utf(print::closeouts_of(Book::fresh(), &piece(said), losses)),
            want
        );
    }
}

#[test]
fn made_up_losses() {
    let book = book_after("tm;client 1;pledge 0 900;margin 2 300;tm;retire 3");
    for turn in 0..loss_lines::all().len() as u64 {
        for seed in 0..40 {
            let (case, text) = loss_lines::make(&book, turn, seed);
            let (out, told) = match read(&text) {
                Err(told) => (Vec::new(), Some(told)),
                Ok(losses) => (print::closeouts_of(book.clone(), &[], &losses), None),
            };
            let comes_to = second::compare::lines::comes_to(&out, told.as_deref());
            assert_eq!(comes_to, case.comes_to, "{} seed {seed}", case.kind);
        }
    }
}

/// Words that a comparison knows, and others.
#[test]
fn options() {
    let words = ["--days", "5", "--trickle"].map(String::from);
    let options = Options::of(&words, &["--days"], &["--trickle"]).unwrap();
    assert_eq!(options.number("--days", 9), Ok(5));
    assert_eq!(options.number("--books", 9), Ok(9));
    assert!(options.has("--trickle") && !options.has("--seed"));
    assert!(Options::of(&words[..1], &["--days"], &[]).is_err());
    assert!(Options::of(&words, &["--days"], &[]).is_err());
}
