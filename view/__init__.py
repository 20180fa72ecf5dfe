"""The layer for people: it tells in words and pictures what the program's texts say, and claims
nothing beyond them. docs/users/VIEW.md says what each command writes. The modules, in the order in
which they stand on each other:

    words           the words of a specification, with their places
    formulas        a formula as a tree
    tree            a specification that the program accepts
    report          what the program prints: reports, replays, simulations, suggestions
    program         runs the program
    output          standard output and standard error
    own             the layer's own files

    grammar         the whole grammar, and what could stand at a place
    place           the word that is refused, and what stands about it
    brackets        formulas with the brackets that they lack
    formula_slips   what is meant there, in a formula
    item_slips      what is meant there, in an item or a line
    syntax_slips    both, and what was expected
    name_slips      what is wrong with a name, a number or a line
    letter_slips    what is wrong with a character
    slips           a refused specification: place, message, line and caret
    further_slips   what else is wrong with it
    located         JSON with places
    schedule        a refused schedule or step
    refused_report  a refused report

    outcome         the states at the end of a refutation
    columns         texts in 80 columns
    story           a refuted or undecided obligation as people would tell it
    places          where it stands in the user's text
    order           on what two calls are ordered
    explain         stories for a terminal

    tokens          tokens, rules and takes lines for pairs of operations
    edits           puts them into a user's text
    enough          on which equalities a pair has to be ordered
    mend            a specification with the tokens that it needs
    pattern         the known designs of patterns/
    facts           the program's texts as JSON
    design_facts    all that is told of a specification, as JSON
    format          a specification in its layout, with its comments
    watch           what changes at each save
    server, lsp     the language server

    shapes, picture       stories as pictures
    matrix, parts, page   a report as a page
    steps, lanes, drawn   a replay as a page

    judged          one specification as a pipeline asks of it
    sarif, junit    results in the forms that pipelines read
    ci              many specifications for a pipeline

    commands        all words, of which help/ has the pages
    main            where each of the script's own is answered
"""
