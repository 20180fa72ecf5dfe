"""Slips that people make, by hand: five designs as a newcomer writes them, and for each slip what
is written in place of what, where the program refuses it, and the message. A slip is made where its
first text stands once in the design."""

BANK = """\
cise 1
sort Account
counter balance ( Account )
invariant solvent forall a : Account . ( balance ( a ) >= 0 )
operation deposit ( a : Account , n : int )
  requires ( n >= 0 )
  add balance ( a ) n
end
operation withdraw ( a : Account , m : int )
  requires ( m >= 0 )
  requires ( balance ( a ) >= m )
  add balance ( a ) - m
end
"""

SEATS = """\
cise 1
# Who sits where.
sort Passenger
sort Seat
relation holds ( Passenger , Seat )
invariant one_holder forall p : Passenger , q : Passenger , s : Seat .
  ( ( holds ( p , s ) and holds ( q , s ) ) implies ( p = q ) )
token place ( Seat )
conflict place ( s ) place ( s )
operation book ( p : Passenger , s : Seat )
  requires forall q : Passenger . not holds ( q , s )
  insert holds ( p , s )
  takes place ( s )
end
operation leave ( p : Passenger )
  remove holds ( p , * )
end
"""

CHAT = """\
cise 2
sort User
sort Room
const admin : User
relation member ( User , Room )
relation banned ( User )
counter posts ( Room )
initially posts 0
invariant fair forall u : User , r : Room . ( banned ( u ) implies not member ( u , r ) )
operation join ( u : User , r : Room )
  requires not banned ( u )
  insert member ( u , r )
end
operation ban ( u : User )
  requires ( u != admin )
  insert banned ( u )
  remove member ( u , * )
end
operation post ( u : User , r : Room )
  observes member ( u , r )
  add posts ( r ) 1
end
"""

STOCK = """\
cise 1
sort Shop
counter pieces
counter sold ( Shop )
initially pieces 100
invariant enough ( pieces >= 0 )
operation sell ( s : Shop , n : int )
  requires ( ( n >= 1 ) and ( n <= 10 ) )
  requires ( pieces >= n )
  add pieces - n
  add sold ( s ) n
end
operation refill ( n : int )
  requires ( n >= 1 )
  add pieces 2 * n when ( n < 50 )
end
"""

TOURNAMENT = """\
cise 1
sort Player
sort Tournament
relation player ( Player )
relation open ( Tournament )
relation enrolled ( Player , Tournament )
counter seats ( Tournament )
initially seats 8
invariant known forall p : Player , t : Tournament .
  ( enrolled ( p , t ) implies ( player ( p ) and open ( t ) ) )
operation enroll ( p : Player , t : Tournament )
  requires player ( p )
  requires open ( t )
  requires ( seats ( t ) >= 1 )
  insert enrolled ( p , t )
  add seats ( t ) - 1
end
operation close ( t : Tournament )
  requires forall p : Player . not enrolled ( p , t )
  remove open ( t )
end
"""

# Design, what stands there, what is written in its place, line:column, the program's refusal up to
# the place, the message.
SLIPS = [
    # Comparisons, connectives and brackets.
    (
        BANK,
        "requires ( n >= 0 )",
        "requires n >= 0",
        "6:14",
        "syntax",
        "a comparison stands in brackets: ( n >= 0 )",
    ),
    (
        BANK,
        ". ( balance ( a ) >= 0 )",
        ". balance ( a ) >= 0",
        "4:54",
        "syntax",
        "a comparison stands in brackets: ( balance ( a ) >= 0 )",
    ),
    (
        BANK,
        "requires ( m >= 0 )",
        "requires 0 <= m",
        "10:12",
        "syntax",
        "a comparison stands in brackets: ( 0 <= m )",
    ),
    (
        BANK,
        "( n >= 0 )",
        "( n => 0 )",
        "6:17",
        "syntax",
        "=> is no sign: 'at least' is >=, and what follows from something is joined by 'implies'",
    ),
    (BANK, "( m >= 0 )", "( m == 0 )", "10:17", "syntax", "equal is one sign: ="),
    (
        BANK,
        "( n >= 0 )",
        "( n ≥ 0 )",
        "6:16",
        "letter",
        "≥ begins no word: 'at least' is written >=",
    ),
    (
        BANK,
        "( n >= 0 )",
        "( n >= 0",
        "7:3",
        "syntax",
        "the bracket of line 6, column 12 isn't closed before this",
    ),
    (
        BANK,
        "( m >= 0 )",
        "( m >= 0 ) )",
        "10:23",
        "syntax",
        "there is no open bracket that this one closes",
    ),
    (
        STOCK,
        "( ( n >= 1 ) and ( n <= 10 ) )",
        "( n >= 1 and n <= 10 )",
        "8:21",
        "syntax",
        "each comparison has brackets of its own: ( ( n >= 1 ) and ( n <= 10 ) )",
    ),
    (
        STOCK,
        "( ( n >= 1 ) and ( n <= 10 ) )",
        "( 1 <= n <= 10 )",
        "8:21",
        "syntax",
        "a comparison has two sides: ( ( 1 <= n ) and ( n <= 10 ) )",
    ),
    (
        STOCK,
        "( ( n >= 1 ) and ( n <= 10 ) )",
        "( n >= 1 ) and ( n <= 10 )",
        "8:23",
        "syntax",
        "what 'and' joins stands in brackets: ( ( n >= 1 ) and ( n <= 10 ) )",
    ),
    (
        STOCK,
        "( ( n >= 1 ) and ( n <= 10 ) )",
        "( ( n >= 1 ) && ( n <= 10 ) )",
        "8:25",
        "letter",
        "& begins no word: 'and' is written as a word",
    ),
    (
        STOCK,
        "when ( n < 50 )",
        "when n < 50",
        "15:27",
        "syntax",
        "a comparison stands in brackets: ( n < 50 )",
    ),
    (
        TOURNAMENT,
        "( player ( p ) and open ( t ) ) )",
        "player ( p ) and open ( t ) )",
        "10:45",
        "syntax",
        (
            "a pair of brackets joins two parts; with a third one it wants brackets again: ("
            " enrolled ( p , t ) implies ( player ( p ) and open ( t ) ) )"
        ),
    ),
    (
        STOCK,
        "( ( n >= 1 ) and ( n <= 10 ) )",
        "( ( n >= 1 ) and ( n <= 9 ) and ( s = s ) )",
        "8:40",
        "syntax",
        (
            "a pair of brackets joins two parts; with a third one it wants brackets again: ( ( ( n"
            " >= 1 ) and ( n <= 9 ) ) and ( s = s ) )"
        ),
    ),
    (
        TOURNAMENT,
        "requires player ( p )",
        "requires ( player ( p ) )",
        "12:27",
        "syntax",
        "brackets stand round two parts that are joined, and one part alone has none: player ( p )",
    ),
    (
        TOURNAMENT,
        "implies ( player",
        "-> ( player",
        "10:25",
        "syntax",
        "-> is no sign: what follows from something is joined by 'implies'",
    ),
    (
        TOURNAMENT,
        "requires open ( t )",
        "requires ( open ( t ) = true )",
        "13:27",
        "syntax",
        "a fact is true or false by itself and isn't compared: write it alone, or 'not' before it",
    ),
    (
        SEATS,
        "( ( holds ( p , s ) and holds ( q , s ) ) implies ( p = q ) )",
        "( ( holds ( p , s ) and holds ( q , s ) ) implies p = q )",
        "7:55",
        "syntax",
        "a comparison stands in brackets: ( p = q )",
    ),
    (
        SEATS,
        "not holds ( q , s )",
        "( not holds ( q , s ) )",
        "11:57",
        "syntax",
        (
            "brackets stand round two parts that are joined, and one part alone has none: not holds"
            " ( q , s )"
        ),
    ),
    (
        SEATS,
        "not holds ( q , s )",
        "!holds ( q , s )",
        "11:35",
        "letter",
        "! begins no word: 'not' is written as a word; unequal is != without a space in it",
    ),
    # Numbers, sums and amounts.
    (
        STOCK,
        "2 * n",
        "2n",
        "15:15",
        "syntax",
        "a number and what it multiplies have * between them: 2 * n",
    ),
    (
        STOCK,
        "2 * n",
        "n * 2",
        "15:16",
        "syntax",
        "the number stands before what it multiplies: 2 * n",
    ),
    (
        STOCK,
        "2 * n",
        "n * n",
        "15:16",
        "syntax",
        "a product of two names can't be said; a number times a name can, as 2 * n",
    ),
    (
        STOCK,
        "initially pieces 100",
        "initially pieces = 100",
        "5:18",
        "syntax",
        (
            "the value stands right behind the name: initially pieces 5, or true or false of a"
            " relation"
        ),
    ),
    (
        STOCK,
        "initially pieces 100",
        "initially pieces 0100",
        "5:19",
        "syntax",
        "a number doesn't begin with 0: 100",
    ),
    (
        STOCK,
        "add pieces - n",
        "pieces = pieces - n",
        "10:3",
        "syntax",
        (
            "a line begins with what it does: 'add' or 'set' a counter, 'insert' into or 'remove'"
            " from a relation"
        ),
    ),
    (
        STOCK,
        "add sold ( s ) n",
        "add sold ( s ) + n",
        "11:18",
        "syntax",
        "the amount stands right behind the name, without +: add sold ( s ) n",
    ),
    (
        BANK,
        "add balance ( a ) n",
        "add balance ( a )",
        "8:1",
        "syntax",
        "the amount is missing, as n in add c ( x ) n",
    ),
    (
        BANK,
        "add balance ( a ) - m",
        "add balance ( a ) -= m",
        "12:22",
        "syntax",
        (
            "-= is no sign: a counter is changed by a line 'add' and the amount behind its name,"
            " with - before it"
        ),
    ),
    (
        TOURNAMENT,
        "( seats ( t ) >= 1 )",
        "( ( seats ( t ) - 1 ) >= 0 )",
        "14:32",
        "syntax",
        "a sum has no brackets of its own; they stand round a whole comparison, as ( a + b >= c )",
    ),
    # Items, lines, names and layout.
    (
        BANK,
        "  add balance ( a ) n\nend\n",
        "  add balance ( a ) n\n",
        "8:1",
        "syntax",
        "operation deposit of line 5 has no 'end'",
    ),
    (
        BANK,
        "  add balance ( a ) - m\nend\n",
        "  add balance ( a ) - m\n",
        "12:24",
        "syntax",
        "the text ends here: operation withdraw of line 9 has no 'end'",
    ),
    (
        BANK,
        "n : int )\n",
        "n : int ) {\n",
        "5:45",
        "letter",
        "{ begins no word: an operation ends with 'end'; the only brackets are ( and )",
    ),
    (
        BANK,
        "  requires ( n >= 0 )\n",
        "  requires ( n >= 0 );\n",
        "6:22",
        "letter",
        "; begins no word: nothing stands at the end of a line",
    ),
    (
        BANK,
        "cise 1\n",
        "",
        "1:1",
        "syntax",
        "a specification begins with 'cise 1', or with 'cise 2' for version 2",
    ),
    (
        BANK,
        "invariant solvent",
        "invariant",
        "4:11",
        "syntax",
        "an invariant has a name: invariant NAME forall ..",
    ),
    (
        BANK,
        "invariant solvent",
        "Invariant solvent",
        "4:1",
        "syntax",
        "words of the language are written small: invariant",
    ),
    (
        BANK,
        "a : Account , n : int",
        "Account a , int n",
        "5:29",
        "syntax",
        "the parameter stands first, then a colon and its kind: a : Account",
    ),
    (
        BANK,
        "requires ( n >= 0 )",
        "require ( n >= 0 )",
        "6:3",
        "syntax",
        "'require' begins no line: 'requires' does",
    ),
    (
        SEATS,
        "# Who sits where.",
        "// Who sits where.",
        "2:1",
        "letter",
        "/ begins no word: there is no division, and a comment begins with #",
    ),
    (
        SEATS,
        "relation holds ( Passenger , Seat )",
        "relation holds ( p : Passenger , s : Seat )",
        "5:20",
        "syntax",
        "places are sorts alone, without names: relation holds ( Passenger , Seat )",
    ),
    (
        SEATS,
        "sort Passenger\nsort Seat\n",
        "sort Passenger , Seat\n",
        "3:16",
        "syntax",
        "each sort has an item of its own: sort A sort B",
    ),
    (
        SEATS,
        "forall p : Passenger , q : Passenger , s",
        "forall p , q : Passenger , s",
        "6:31",
        "syntax",
        "each variable has its own kind: p : Passenger , q : Passenger",
    ),
    (
        SEATS,
        "forall q : Passenger . not",
        "forall q : Passenger not",
        "11:33",
        "syntax",
        "a dot stands behind the last variable, and then the formula: forall x : A . formula",
    ),
    (
        SEATS,
        "forall q : Passenger . not",
        "forall q in Passenger . not",
        "11:21",
        "syntax",
        "a colon stands between a variable and its kind: q : Passenger",
    ),
    (
        SEATS,
        "insert holds ( p , s )",
        "insert holds p s",
        "12:16",
        "syntax",
        "arguments stand in brackets: insert holds ( p , s )",
    ),
    (
        SEATS,
        "holds ( p , * )",
        "holds ( p , _ )",
        "16:22",
        "letter",
        (
            "_ begins no word: a name begins with a letter; all elements of a place are * in a line"
            " insert, remove, add or set"
        ),
    ),
    (
        SEATS,
        "remove holds",
        "delete holds",
        "16:3",
        "syntax",
        "'delete' begins no line: 'remove' does",
    ),
    (
        SEATS,
        "conflict place ( s ) place ( s )",
        "conflict place ( s )",
        "10:1",
        "syntax",
        (
            "a rule names two tokens; one that conflicts with itself is named twice: conflict t ( x"
            " ) t ( x )"
        ),
    ),
    (
        CHAT,
        "cise 2",
        "cise 1",
        "20:3",
        "syntax",
        "'observes' is of version 2: the text has to begin with 'cise 2'",
    ),
    (
        CHAT,
        "const admin : User",
        "const admin User",
        "4:13",
        "syntax",
        "a constant has its sort behind a colon: const admin : User",
    ),
    (
        CHAT,
        "operation ban (",
        "operation remove (",
        "14:11",
        "syntax",
        "'remove' is a word of the language, so nothing can have it as its name",
    ),
    (
        CHAT,
        "insert member ( u , r )",
        "insert member ( u , r ) if ( u != admin )",
        "12:27",
        "syntax",
        "a condition of a change stands behind it with 'when': insert r ( x ) when formula",
    ),
    (
        CHAT,
        "initially posts 0",
        "initially posts ( r ) 0",
        "8:17",
        "syntax",
        (
            "one value is stated for all places, without brackets: initially posts 5, or true or"
            " false of a relation"
        ),
    ),
    (
        CHAT,
        "operation join ( u : User , r : Room )",
        "operation join ( )",
        "10:18",
        "syntax",
        "what has no arguments has no brackets",
    ),
    (
        TOURNAMENT,
        "requires forall p : Player . not enrolled ( p , t )",
        "requires not exists p : Player . enrolled ( p , t )",
        "19:16",
        "syntax",
        "'exists' stands before a whole line alone, right behind requires",
    ),
    (
        TOURNAMENT,
        "invariant known forall",
        "invariant known : forall",
        "9:17",
        "syntax",
        "no colon stands here",
    ),
    (
        TOURNAMENT,
        "requires player ( p )",
        "requires p.player",
        "12:13",
        "syntax",
        "a fact of a thing has the thing in brackets: player ( p )",
    ),
    # What other languages have.
    (BANK, "( n >= 0 )", "( n > = 0 )", "6:18", "syntax", ">= is one sign, without a space in it"),
    (
        BANK,
        "requires ( n >= 0 )",
        "( n >= 0 )",
        "6:3",
        "syntax",
        "a line begins with what it does: 'requires' stands before what has to be true",
    ),
    (
        BANK,
        "forall a : Account .",
        "for all a : Account .",
        "4:23",
        "syntax",
        "'forall' is one word",
    ),
    (
        BANK,
        "forall a : Account .",
        "forall ( a : Account ) .",
        "4:26",
        "syntax",
        "no brackets stand round the variables: forall x : A .",
    ),
    (
        BANK,
        "add balance ( a ) n",
        "add n to balance ( a )",
        "7:12",
        "syntax",
        "the counter stands first, and then the amount: add balance ( a ) n",
    ),
    (
        SEATS,
        "conflict place ( s ) place",
        "conflict place ( s ) with place",
        "9:27",
        "syntax",
        "a rule names two tokens, with nothing between them: conflict t ( x ) u ( x )",
    ),
    (
        SEATS,
        "insert holds ( p , s )",
        "holds ( p , s )",
        "12:3",
        "syntax",
        (
            "a line begins with what it does: 'requires' before what has to be true, 'insert',"
            " 'remove', 'add' or 'set' before what changes"
        ),
    ),
    (
        SEATS,
        "insert holds ( p , s )",
        "insert p holds s",
        "12:12",
        "syntax",
        "arguments stand in brackets: insert holds ( p , s )",
    ),
    (
        SEATS,
        "insert holds ( p , s )",
        "insert holds ( p , s ) true",
        "12:26",
        "syntax",
        "no truth value stands here: 'insert' makes a relation true, and 'remove' false",
    ),
    (
        CHAT,
        "not banned ( u )",
        "not banned u",
        "11:23",
        "syntax",
        "arguments stand in brackets: banned ( u )",
    ),
    (
        CHAT,
        "const admin : User",
        "const admin = User",
        "4:13",
        "syntax",
        "a constant has its sort behind a colon: const admin : User",
    ),
    (
        STOCK,
        "add pieces - n",
        "add pieces ( - n )",
        "10:16",
        "syntax",
        "the amount has no brackets, as in add pieces - n",
    ),
    (
        STOCK,
        "add sold ( s ) n",
        "add sold s n",
        "11:14",
        "syntax",
        "keys stand in brackets: add sold ( s ) n",
    ),
    (
        STOCK,
        "counter pieces",
        "int pieces",
        "3:1",
        "syntax",
        "'int' begins no item: 'counter' does",
    ),
    (
        TOURNAMENT,
        "player ( p ) and open ( t )",
        "player ( p ) , open ( t )",
        "10:47",
        "syntax",
        "formulas are joined by 'and', and not by a comma",
    ),
    (
        TOURNAMENT,
        "requires player ( p )",
        "requires p in player",
        "12:14",
        "syntax",
        "a fact has its relation first, and then its things in brackets: r ( x , y )",
    ),
    (
        TOURNAMENT,
        "remove open ( t )",
        "remove open ( t ) else insert open ( t )",
        "20:21",
        "syntax",
        "there is no 'else': write another line, with the opposite behind its 'when'",
    ),
    (
        CHAT,
        "counter posts ( Room )",
        "counter",
        "8:1",
        "syntax",
        "a name is missing behind 'counter'",
    ),
    (CHAT, "initially posts 0", "initially 5", "8:11", "syntax", "a name begins with a letter"),
    # Names.
    (BANK, "sort Account", "sort Acount", "3:19", "unknown", "unknown name Account"),
    (
        BANK,
        "requires ( balance ( a ) >= m )",
        "requires ( balance ( a ) >= n )",
        "11:31",
        "unknown",
        "unknown name n",
    ),
    (BANK, "n : int", "n : Int", "5:39", "unknown", "unknown name Int"),
    (
        SEATS,
        "sort Seat\nrelation holds ( Passenger , Seat )\n",
        "relation holds ( Passenger , Seat )\nsort Seat\n",
        "4:30",
        "unknown",
        "unknown name Seat",
    ),
    (SEATS, "takes place ( s )", "takes seat ( s )", "13:9", "unknown", "unknown name seat"),
    (
        CHAT,
        "observes member ( u , r )",
        "observes members ( u , r )",
        "20:12",
        "unknown",
        "unknown name members",
    ),
    (
        CHAT,
        "relation banned ( User )",
        "relation User ( User )",
        "6:10",
        "twice",
        "User is declared twice: it is a sort of line 2 already",
    ),
    (
        CHAT,
        "operation ban ( u : User )",
        "operation ban ( banned : User )",
        "14:17",
        "twice",
        "banned is declared twice: it is a relation of line 6 already",
    ),
    (
        TOURNAMENT,
        "initially seats 8",
        "initially seats 8 initially seats 9",
        "8:29",
        "twice",
        "a second first value for seats: one is stated in line 8",
    ),
    # Kinds, numbers of places, limits.
    (
        BANK,
        ". ( balance ( a ) >= 0 )",
        ". ( balance >= 0 )",
        "4:42",
        "kind",
        "balance has 1 key (Account), and here stand none",
    ),
    (
        BANK,
        "requires ( balance ( a ) >= m )",
        "requires balance ( a )",
        "11:12",
        "kind",
        "balance is a counter (line 3), and here a relation is needed",
    ),
    (
        STOCK,
        "requires ( pieces >= n )",
        "requires ( pieces >= s )",
        "9:24",
        "kind",
        "s is a parameter of sort Shop (line 7), and here a whole number is needed",
    ),
    (
        SEATS,
        "takes place ( s )",
        "takes place ( p )",
        "13:17",
        "kind",
        (
            "p is a parameter of sort Passenger (line 10), and here an element of sort Seat (place"
            " 1 of place) is needed"
        ),
    ),
    (
        SEATS,
        "implies ( p = q )",
        "implies ( p = s )",
        "7:59",
        "kind",
        "s is of sort Seat, and p of sort Passenger: elements of two sorts are never equal",
    ),
    (
        SEATS,
        "conflict place ( s ) place ( s )",
        "conflict place ( Seat ) place ( Seat )",
        "9:18",
        "kind",
        "Seat is a sort (line 4), and here a variable of the rule is needed",
    ),
    (
        TOURNAMENT,
        "invariant known forall",
        "invariant known exists",
        "9:17",
        "kind",
        "an invariant begins with forall, or with no quantifier",
    ),
    (
        TOURNAMENT,
        "insert enrolled",
        "insert seats",
        "15:10",
        "kind",
        "seats is a counter (line 7), and here a relation is needed",
    ),
    (
        TOURNAMENT,
        "insert enrolled ( p , t )",
        "insert enrolled ( p )",
        "15:10",
        "count",
        "enrolled has 2 places (Player, Tournament), and here stands 1",
    ),
    (
        CHAT,
        "remove member ( u , * )",
        "remove member ( u )",
        "17:10",
        "count",
        "member has 2 places (User, Room), and here stands 1",
    ),
    (
        STOCK,
        "initially pieces 100",
        "initially pieces 1000000000000",
        "5:18",
        "limit literal",
        "a number is at most 1,000,000,000 in size",
    ),
    (
        STOCK,
        "counter sold ( Shop )",
        "counter sold ( Shop , Shop , Shop )",
        "4:30",
        "limit places",
        "a relation or a token has at most 3 places, and a counter 2 keys",
    ),
    # Sentences that helped wrongly once.
    (
        BANK,
        "  add balance ( a ) n",
        "  if ( n > 0 ) then add balance ( a ) n",
        "7:3",
        "syntax",
        "a condition stands behind the change, with 'when': add balance ( a ) n when ( n > 0 )",
    ),
    (
        BANK,
        "forall a : Account",
        "forall a Account",
        "4:28",
        "syntax",
        "a colon stands between a variable and its kind: a : Account",
    ),
    (
        BANK,
        "n : int",
        "n int",
        "5:37",
        "syntax",
        "a colon stands between a parameter and its kind: n : int",
    ),
    (
        CHAT,
        "implies not member ( u , r )",
        "implies exists v : User . member ( v , r )",
        "9:68",
        "syntax",
        (
            "an invariant has no 'exists': that there is at least one may be said by a counter that"
            " is at least 1"
        ),
    ),
    (
        CHAT,
        "const admin : User",
        "const admin , root : User",
        "4:13",
        "syntax",
        "each constant has an item of its own: const admin : User const root : User",
    ),
    (
        STOCK,
        "invariant enough ( pieces >= 0 )",
        "invariant enough ( sum ( sold ) <= 5 )",
        "6:20",
        "unknown",
        "unknown name sum",
    ),
    (
        SEATS,
        "and holds ( q , s ) )",
        "and holds ( q , s ) and p != q )",
        "7:43",
        "syntax",
        (
            "a pair of brackets joins two parts; with a third one it wants brackets again: ( ("
            " holds ( p , s ) and holds ( q , s ) ) and ( p != q ) )"
        ),
    ),
    (
        STOCK,
        "add pieces - n",
        "add pieces ( n )",
        "11:3",
        "syntax",
        "the amount has no brackets: add pieces n",
    ),
    (
        STOCK,
        "add sold ( s ) n",
        "add sold ( s ) ( - n )",
        "11:18",
        "syntax",
        "the amount has no brackets: - n",
    ),
    (
        STOCK,
        "( pieces >= n )",
        "( pieces >= ( - n ) )",
        "9:24",
        "syntax",
        "a sum has no brackets of its own: - n",
    ),
    (
        STOCK,
        "initially pieces 100",
        "initially pieces 100 EUR",
        "5:22",
        "syntax",
        "a number has no unit behind it: 100",
    ),
    (
        STOCK,
        "initially pieces 100",
        "initially pieces 1_000",
        "5:19",
        "letter",
        "_ begins no word: a number is written without _ in it: 1000",
    ),
    (
        STOCK,
        "requires ( pieces >= n )",
        "requires ( pieces' >= n )",
        "9:20",
        "letter",
        (
            "' begins no word: a value after the call has no name: what changes is said by a line"
            " insert, remove, add or set"
        ),
    ),
    (STOCK, "s : Shop , n", "s : bool , n", "7:22", "unknown", "unknown name bool"),
    (
        SEATS,
        "relation holds ( Passenger , Seat )",
        "relation holds ( Passenger , Seat ) : bool",
        "5:37",
        "syntax",
        "a relation is true or false, and has no kind",
    ),
    (
        STOCK,
        "( ( n >= 1 ) and ( n <= 10 ) )",
        "n >= 1 and n <= 10 or n = 12",
        "8:14",
        "syntax",
        "a comparison stands in brackets: ( ( ( n >= 1 ) and ( n <= 10 ) ) or ( n = 12 ) )",
    ),
    # Words that are too long.
    (
        STOCK,
        "sort Shop\n",
        "sort ShopThatSellsEverythingAndALittleMore\n",
        "2:6",
        "name",
        "a name has at most 32 characters, and this one 37",
    ),
    (
        STOCK,
        "pieces 100\n",
        "pieces 1000000000000000000000000000000000000000\n",
        "5:18",
        "number",
        "a number has at most 38 digits, and this one 40",
    ),
]
