"""Specifications for tests: between them they have each kind of obligation and of verdict, and what
is out of the ordinary in them."""

# A constant, and a sort without elements.
COUNTED = """cise 1
sort User
sort Document
const draft : Document
counter edits ( Document )
initially edits 0

invariant counted forall d : Document . ( edits ( d ) >= 0 )
operation undo ( d : Document )
  add edits ( d ) - 1
end
"""

# A line with `exists`, and no parameters.
ROOMS = """cise 1
sort Room
const lobby : Room
relation free ( Room )
relation busy

operation start
  # A room is needed.
  requires exists r : Room . free ( r )
  insert busy
end

operation shut
  remove free ( * )
end
"""

# What is observed, and a number among the arguments.
WRITTEN = """cise 2
sort User
sort Document
const draft : Document
relation granted ( User , Document )
counter edits ( Document )

operation write ( u : User , d : Document , n : int )
  observes ( edits ( d ) <= 100 )
  requires granted ( u , d )
  requires ( d = draft )
  requires ( n >= 1 )
  add edits ( d ) n
end
operation purge
  remove granted ( * , * )
end
"""

# An element that stands nowhere in the witness, and two constants of one element.
SILENT = """cise 1
sort Room
sort Key
const front : Key
const back : Key
relation free ( Room )
relation up
initially up true
invariant alive up
operation fall
  requires exists r : Room . not free ( r )
  requires ( front = back )
  remove up
end
"""

# Names that look like those of the small specification, and words that are reserved in version 2
# alone.
NAMED = """cise 1
sort shared
relation z0 ( shared )
relation z1
counter z2 ( shared , shared )
invariant observes forall z3 : shared . ( z2 ( z3 , z3 ) >= 0 )
operation z4 ( z5 : shared , exclusive : shared , z6 : int )
  requires z0 ( z5 )
  requires ( z2 ( z5 , exclusive ) >= z6 )
  add z2 ( z5 , exclusive ) - z6
  remove z0 ( z5 )
  set z2 ( z5 , z5 ) - 1 when z1
end
"""

# As many relations and counters as there may be, all of which a call requires.
THINGS = "\n".join(
    ["cise 1", "sort A", "sort B"]
    + [f"relation r{at} ( A , B , A )" for at in range(16)]
    + [f"counter k{at} ( A , B )" for at in range(8)]
    + [
        "invariant low forall x : A , y : B . ( k0 ( x , y ) <= 1 )",
        "operation f ( a : A , b : B )",
    ]
    + [
        f"  requires ( r{at} ( a , b , a ) and ( r{at + 8} ( a , b , a ) and ( k{at} ( a , b ) >= 1"
        " ) ) )"
        for at in range(8)
    ]
    + ["  add k0 ( a , b ) 1", "end", ""]
)

# More parameters and variables in a line than an operation can have parameters.
CROWDED = """cise 1
sort P
relation r ( P , P )
operation f ( a : P , b : P , c : P , d : P , e : P , g : P )
  requires forall x : P . ( ( r ( a , x ) or ( r ( b , x ) or r ( c , x ) ) ) or ( r ( d , x ) or ( r ( e , x ) or r ( g , x ) ) ) )
end
operation h
  remove r ( * , * )
end
"""

# The longest names there are, three places, and three variables.
LONG = """cise 1
sort {S}
sort {T}
const {c} : {S}
relation {r} ( {S} , {T} , {S} )
counter {k} ( {S} , {T} )
token {t} ( {S} , {T} )
conflict {t} ( x , y ) {t} ( x , y )
invariant {i} forall {x} : {S} , {y} : {T} , {z} : {S} . ( {k} ( {x} , {y} ) + {k} ( {z} , {y} ) >= 0 )
operation {f} ( {p} : {S} , {q} : {T} , {n} : int )
  requires forall {z} : {S} . not {r} ( {p} , {q} , {z} )
  insert {r} ( {p} , {q} , {c} )
  add {k} ( {p} , {q} ) - {n}
  takes {t} ( {p} , {q} )
end
operation {g} ( {p} : {S} , {q} : {T} )
  requires exists {x} : {S} , {y} : {T} . ( not {r} ( {x} , {y} , {p} ) and ( {y} != {q} ) )
  remove {r} ( * , {q} , * )
  set {k} ( {p} , {q} ) 1
  takes {t} ( {c} , {q} )
end
""".format(
    **{it: it * 32 for it in "STcrktixyzfgpqn"}
)

# One line, with tabs, carriage returns, and comments that have bytes which aren't UTF-8 and which a
# terminal would obey.
LAID_OUT = (
    "cise 1 sort A\trelation up ( A ) initially up true # \u00e9\udcff\x1b[31m\r\n"
    "invariant alive\r\n\tforall x : A .   # all \u00e9\udcff\x1b[31m of them\r\n"
    "\t\tup ( x )\r\n"
    "operation f ( a : A ) remove up ( a ) end operation g ( a : A )\n"
    "\trequires\tup\n\n\t  ( a ) # is up\n  remove up ( a ) end\n"
)

# Updates that two calls make in two orders, with a condition of order that leaves some out.
SETTLED = """cise 1
sort P
relation on ( P , P )
counter sum ( P )
token link ( P , P )
conflict link ( x , y ) link ( x , y )
operation join ( a : P , b : P )
  insert on ( a , b )
  set sum ( a ) 2
  takes link ( a , b )
end
operation leave ( a : P , b : P )
  remove on ( a , * ) when on ( b , a )
  set sum ( * ) 3
  takes link ( a , b )
end
"""

KINDS = {
    name: value for name, value in globals().items() if name.isupper() and isinstance(value, str)
}
