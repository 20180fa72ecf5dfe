"""The language server: `./cise lsp` speaks the Language Server Protocol 3.17 over standard input
and output. It writes no file of the user's.

    framing      messages on a stream
    documents    the texts that an editor has open, with places as the protocol counts them
    names        declarations and uses of names, of any text
    judging      slips and verdicts of a text, behind each change
    diagnostics  slips and verdicts as diagnostics
    structure    symbols, folds, code lenses
    telling      hovers, signatures
    completion   what may stand at a place
    renaming     definitions, references, new names
    actions      edits that mend something
    session      what is answered when, and by which of these
"""
