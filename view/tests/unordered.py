"""Ten designs without tokens, of the kind that is published, in several layouts. Each can be mended
by tokens alone."""

COURSES = """\
# Courses of a school.
cise 1

sort Student
sort Course
relation student(Student)
relation course(Course)
relation enrolled(Student, Course)

# Nobody is enrolled who isn't registered.
invariant referential forall s: Student, c: Course. (enrolled(s, c) implies (student(s) and course(c)))

# Registers somebody.
operation register(s: Student)
    insert student(s)   # for good
end

operation add_course(c: Course)
    insert course(c)
end

operation remove_course(c: Course)
    requires forall s: Student. not enrolled(s, c)
    remove course(c)
    # nothing else
end

operation enroll(s: Student, c: Course)
    requires student(s)
    requires course(c)
    insert enrolled(s, c)
end
"""

PROJECTS = """\
cise 1
sort Employee sort Project
relation employee ( Employee ) relation project ( Project ) relation works ( Employee , Project )
invariant known forall e : Employee , p : Project . ( works ( e , p ) implies ( employee ( e ) and project ( p ) ) )
operation hire ( e : Employee ) insert employee ( e ) end
operation fire ( e : Employee ) remove employee ( e ) remove works ( e , * ) end
operation start ( p : Project ) insert project ( p ) end
operation stop ( p : Project ) remove project ( p ) remove works ( * , p ) end
operation assign ( e : Employee , p : Project ) requires employee ( e ) requires project ( p ) insert works ( e , p ) end
"""

TICKETS = """\
cise 1
sort Show
counter left ( Show )
counter held ( Show )
initially left 50
invariant not_oversold forall s : Show . ( left ( s ) >= 0 )
invariant holds forall s : Show . ( held ( s ) >= 0 )

operation hold ( s : Show , n : int )
  requires ( n >= 1 )
  requires ( left ( s ) >= n )
  add left ( s ) - n
  add held ( s ) n
end

operation release ( s : Show , n : int )
  requires ( n >= 1 )
  requires ( held ( s ) >= n )
  add left ( s ) n
  add held ( s ) - n
end

operation pay ( s : Show , n : int )
  requires ( n >= 1 )
  requires ( held ( s ) >= n )
  add held ( s ) - n
end
"""

PAYMENT = """\
cise 1
sort Account
counter balance ( Account )
invariant covered forall a : Account . ( balance ( a ) >= 0 )

operation deposit ( a : Account , n : int )
  requires ( n >= 0 )
  add balance ( a ) n
end

# From one account to another.
operation transfer ( from : Account , to : Account , n : int )
  requires ( n >= 0 )
  requires ( from != to )
  requires ( balance ( from ) >= n )
  add balance ( from ) - n
  add balance ( to ) n
end

operation close ( a : Account )
  requires ( balance ( a ) = 0 )
end
"""

MAIL = """\
cise 1
sort User
sort Address
relation owner ( Address , User )
relation active ( User )
invariant unique forall a : Address , u : User , v : User . ( ( owner ( a , u ) and owner ( a , v ) ) implies ( u = v ) )
invariant owners_active forall a : Address , u : User . ( owner ( a , u ) implies active ( u ) )
operation sign_up ( u : User )
  insert active ( u )
end
operation claim ( u : User , a : Address )
  requires active ( u )
  requires forall v : User . not owner ( a , v )
  insert owner ( a , u )
end
operation give_up ( u : User , a : Address )
  requires owner ( a , u )
  remove owner ( a , u )
end
operation leave ( u : User )
  requires forall a : Address . not owner ( a , u )
  remove active ( u )
end
"""

LEAGUE = """\
cise 1
sort Player
sort Match
relation plays ( Player , Match )
relation open ( Match )
relation over ( Match )
counter free ( Match )
initially free 2
invariant room forall m : Match . ( free ( m ) >= 0 )
invariant ended forall m : Match . ( over ( m ) implies not open ( m ) )
operation announce ( m : Match )
  requires not over ( m )
  insert open ( m )
end
operation join ( p : Player , m : Match )
  requires open ( m )
  requires not plays ( p , m )
  requires ( free ( m ) >= 1 )
  insert plays ( p , m )
  add free ( m ) - 1
end
operation finish ( m : Match )
  requires open ( m )
  remove open ( m )
  insert over ( m )
end
"""

BLOG = "\r\n".join(
    """\
cise 2
sort User
relation account ( User )
relation follows ( User , User )
counter posts ( User )
invariant real forall u : User , v : User . ( follows ( u , v ) implies ( account ( u ) and account ( v ) ) )
operation open ( u : User )
  insert account ( u )
end
operation close ( u : User )
  remove account ( u )
  remove follows ( u , * )
  remove follows ( * , u )
end
operation follow ( u : User , v : User )
  requires account ( u )
  requires account ( v )
  insert follows ( u , v )
end
operation post ( u : User )
  observes account ( u )
  add posts ( u ) 1
end
""".split(
        "\n"
    )
)

REGISTER = """\
cise 1
counter value
counter stamp
operation write ( n : int , t : int )
  requires ( t > stamp )
  set value n when ( t > stamp )
  set stamp t when ( t > stamp )
end
operation reset
  set value 0
  set stamp 0
end
"""

NUMBERS = """\
cise 1
sort Server
relation up ( Server )
counter next ( Server )
sort Number
relation given ( Number , Server )
invariant once forall n : Number , s : Server , t : Server . ( ( given ( n , s ) and given ( n , t ) ) implies ( s = t ) )
operation boot ( s : Server )
  insert up ( s )
end
sort Client
relation has ( Client , Number )
operation give ( c : Client , n : Number , s : Server )
  requires up ( s )
  requires forall t : Server . not given ( n , t )
  insert given ( n , s )
  insert has ( c , n )
  add next ( s ) 1
end
operation crash ( s : Server )
  remove up ( s )
end
"""

FRIENDS = """\
cise 1
sort Person
relation friends ( Person , Person )
invariant mutual forall p : Person , q : Person . ( friends ( p , q ) implies friends ( q , p ) )
operation meet ( p : Person , q : Person )
  insert friends ( p , q )
  insert friends ( q , p )
end
operation part ( p : Person , q : Person )
  remove friends ( p , q )
  remove friends ( q , p )
end
"""

UNORDERED = {
    "courses": COURSES,
    "projects": PROJECTS,
    "tickets": TICKETS,
    "payment": PAYMENT,
    "mail": MAIL,
    "league": LEAGUE,
    "blog": BLOG,
    "register": REGISTER,
    "numbers": NUMBERS,
    "friends": FRIENDS,
}
